/* What test_called asks of the library of a long file, in memory of just the sizes that are told: large KIND FILE.
 *
 * The file is read into such a table, and with a row or a byte less into none; its rows are found by their paths; it is
 * written in each version into such a room, and with a byte less into none; what is written is read again, and passes a
 * check; and the table that gix_index_file.h reads by the path, and by that of what it wrote at FILE.out, is the same.
 * A line on standard output for each thing that isn't so, or 'ok'. The status is 1 where there is no memory here. */
#include "check.h"

static uint8_t text[200];

static void *room_of(size_t len) {
    void *room = malloc(len ? len : 1);
    if (!room) exit(1);
    return room;
}

/* Reads bytes into just so many rows and bytes for paths, which the caller frees. */
static uint32_t read_into(gix_index_table *t, size_t rows_len, size_t paths_len, gix_index_summary *said) {
    t->rows = room_of(rows_len * sizeof *t->rows);
    t->paths = room_of(paths_len);
    memset(said, 7, sizeof *said);
    return gix_index_read(t->bytes, t->bytes_len, kind, false, t->rows, rows_len, t->paths, paths_len, text,
                          sizeof text, said);
}

static bool has_same(const gix_index_table *t, const gix_index_table *whole) {
    return t->said.entries == whole->said.entries && t->said.path_bytes == whole->said.path_bytes &&
           !memcmp(t->rows, whole->rows, t->said.entries * sizeof *t->rows) &&
           !memcmp(t->paths, whole->paths, t->said.path_bytes);
}

/* Bytes are read as a table, which is another's. */
static void same(uint8_t *bytes, size_t len, const gix_index_table *whole, const char *what) {
    gix_index_table t = {.bytes = bytes, .bytes_len = len};
    uint32_t status = read_into(&t, whole->said.entries, whole->said.path_bytes, &t.said);
    expect(status == GIX_INDEX_DONE && has_same(&t, whole), what, len, 0);
    free(t.rows);
    free(t.paths);
}

static void too_small(const gix_index_table *whole, size_t rows_len, size_t paths_len) {
    gix_index_table t = {.bytes = whole->bytes, .bytes_len = whole->bytes_len};
    uint32_t status = read_into(&t, rows_len, paths_len, &t.said);
    expect(status == GIX_INDEX_NO_ROOM, "a table that is too small", rows_len, 0);
    expect(!memcmp(&t.said, &whole->said, sizeof t.said), "other sizes of one that is too small", t.said.entries, 0);
    free(t.rows);
    free(t.paths);
}

static void searched(const gix_index_table *t) {
    for (size_t i = 0; i < t->said.entries; i++) {
        const gix_index_row *row = t->rows + i;
        gix_index_places told = {0};
        const uint8_t *path = t->paths + row->path_start;
        size_t place = gix_index_find(t->rows, t->said.entries, t->paths, t->said.path_bytes, path, row->path_len,
                                      row->stage);
        expect(place == i, "another place", place, 0);
        gix_index_find_prefix(t->rows, t->said.entries, t->paths, t->said.path_bytes, path, row->path_len, &told);
        expect(told.start == i && told.end == i + 1, "another range", told.start, 0);
    }
}

static uint32_t write_into(const gix_index_table *t, uint32_t version, uint8_t *room, size_t len,
                           gix_index_written *told) {
    gix_index_form form = {.kind = kind, .version = version};
    return gix_index_write(t->rows, t->said.entries, t->paths, t->said.path_bytes, &form, room, len, told);
}

static void written(const gix_index_table *whole, uint32_t version) {
    gix_index_written told;
    gix_index_summary said;
    uint8_t no_byte;
    uint32_t status = write_into(whole, version, &no_byte, 0, &told);
    expect(status == GIX_INDEX_NO_ROOM, "a room that is none", version, 0);
    size_t len = told.bytes;
    uint8_t *small = room_of(len - 1), *room = room_of(len);
    status = write_into(whole, version, small, len - 1, &told);
    expect(status == GIX_INDEX_NO_ROOM && told.bytes == len, "a room that is too small", told.bytes, 0);
    status = write_into(whole, version, room, len, &told);
    expect(status == GIX_INDEX_DONE && told.bytes == len, "a room of the size", told.bytes, 0);
    same(room, len, whole, "another table is read back");
    status = gix_index_check(room, len, kind, false, text, sizeof text, &said);
    bool is_sound = status == GIX_INDEX_DONE && said.entries == whole->said.entries;
    expect(is_sound, "what is written fails a check", version, 0);
    free(small);
    free(room);
}

static void by_path(const gix_index_table *whole, const char *path, const char *what) {
    gix_index_table t;
    uint32_t status = gix_index_read_file(path, kind, text, sizeof text, &t);
    expect(status == GIX_INDEX_DONE && has_same(&t, whole), what, status, 0);
    gix_index_drop_table(&t);
}

int main(int argc, char **argv) {
    gix_index_table whole = {0};
    if (argc != 3) return 1;
    begin(argv[1]);
    whole.bytes = gix_index_bytes_of(argv[2], &whole.bytes_len);
    char *out = room_of(strlen(argv[2]) + sizeof ".out");
    if (!whole.bytes) return 1;
    strcat(strcpy(out, argv[2]), ".out");
    uint32_t status = read_into(&whole, 0, 0, &whole.said);
    expect(status == GIX_INDEX_NO_ROOM, "a table without room", status, 0);
    free(whole.rows);
    free(whole.paths);
    gix_index_summary told = whole.said;
    status = read_into(&whole, told.entries, told.path_bytes, &whole.said);
    expect(status == GIX_INDEX_DONE && !memcmp(&told, &whole.said, sizeof told), "a table of the sizes", status, 0);
    too_small(&whole, told.entries - 1, told.path_bytes);
    too_small(&whole, told.entries, told.path_bytes - 1);
    searched(&whole);
    for (uint32_t version = 2; version <= 4; version++) written(&whole, version);
    gix_index_form form = {.kind = kind, .version = 4};
    gix_index_written how;
    status = gix_index_write_file(out, whole.rows, told.entries, whole.paths, told.path_bytes, &form, &how);
    expect(status == GIX_INDEX_DONE, "a file isn't written", status, 0);
    by_path(&whole, argv[2], "another table is read by the path");
    by_path(&whole, out, "another table is read of what was written");
    gix_index_drop_table(&whole);
    free(out);
    return end();
}
