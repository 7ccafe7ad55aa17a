/* What test_called asks of changes of an index, in one process: changed WORD KIND FILE [SHARED].
 *
 * commit  makes those of standard input of the index at FILE, under its lock: lines as `git update-index
 *         --index-info` takes them, each `MODE SP ID SP STAGE TAB PATH`
 * rooms   makes some of FILE's entries into rooms of each size, from none up to one too large, and some that are
 *         refused
 * once    makes them without a request for memory of its own, so that each is the library's
 *
 * A line on standard output for each thing that isn't so, or 'ok'. The status is 1 where a file can't be read here. */
#include "check.h"

static uint8_t bytes[MOST], shared[MOST], image[MOST], room[MOST], paths[MOST];
static gix_index_row rows[MOST / 16];
static size_t bytes_len, shared_len, image_len, rows_len, paths_len;

static uint32_t update(const uint8_t *index, size_t len, uint32_t of, uint8_t *to, size_t to_len,
                       gix_index_written *told) {
    memset(told, FILL, sizeof *told);
    return gix_index_update(rows, rows_len, paths, paths_len, index, len, shared, shared_len, of, to, to_len, told);
}

/* Whether what is told is this and no more. */
static bool tells(const gix_index_written *told, gix_index_written wanted) {
    return !memcmp(told, &wanted, sizeof wanted);
}

/* ---- Changes of a text */

static void add(uint32_t mode, const char *id, uint32_t stage, const char *path) {
    gix_index_row row = {.mode = mode, .flags = mode ? stage << 12 : GIX_INDEX_REMOVE, .stage = mode ? stage : 0};
    row.kind = kind;
    for (size_t i = 0; i < strlen(id) / 2; i++) sscanf(id + 2 * i, "%2hhx", row.id + i);
    row.path_start = paths_len;
    row.path_len = strlen(path);
    memcpy(paths + paths_len, path, row.path_len);
    paths_len += row.path_len;
    rows[rows_len++] = row;
}

static void commit(const char *file) {
    char line[4200], id[65], path[4097];
    unsigned mode, stage;
    while (fgets(line, sizeof line, stdin))
        if (sscanf(line, "%o %64s %u\t%4096[^\n]", &mode, id, &stage, path) == 4) add(mode, id, stage, path);
    gix_index_lock lock;
    gix_index_written told;
    uint32_t status = gix_index_lock_file(file, &lock);
    expect(status == GIX_INDEX_DONE, "it isn't locked", status, 0);
    status = gix_index_commit_changes(&lock, kind, rows, rows_len, paths, paths_len, false, &told);
    expect(status == GIX_INDEX_DONE && told.bytes != 0, "it isn't changed", status, told.fault);
    expect(!lock.path && !lock.is_held, "a lock is left", 0, 0);
}

/* ---- Changes of entries */

/* Takes out the first entry that is there, and stages the last one under another path and the second as a link. */
static void some_changes(void) {
    gix_index_summary said;
    if (gix_index_read_split(bytes, bytes_len, shared, shared_len, kind, false, rows, MOST / 16, paths, MOST, NULL, 0,
                             &said) != GIX_INDEX_DONE)
        exit(1);
    paths_len = said.path_bytes;
    gix_index_row last = rows[said.entries - 1];
    rows[0].flags |= GIX_INDEX_REMOVE;
    rows[1].mode = GIX_INDEX_LINK;
    rows[2] = last;
    rows[2].path_start = paths_len;
    rows[2].path_len = 8;
    memcpy(paths + paths_len, "new/file", 8);
    paths_len += 8;
    rows_len = 3;
}

static void rooms(void) {
    gix_index_written told;
    uint32_t status = update(bytes, bytes_len, kind, NULL, 0, &told);
    expect(status == GIX_INDEX_NO_ROOM, "no room suffices", status, told.fault);
    image_len = told.bytes;
    gix_index_written wanted = {.bytes = image_len, .version = told.version};
    for (size_t len = 0; len <= image_len + 1; len++) {
        uint8_t *to = malloc(len);
        if (!to) exit(3);
        memset(to, FILL, len);
        status = update(bytes, bytes_len, kind, to, len, &told);
        bool fits = len >= image_len;
        expect(status == (fits ? GIX_INDEX_DONE : GIX_INDEX_NO_ROOM), "another status", status, len);
        expect(tells(&told, wanted), "something else is told", told.bytes, len);
        if (len == image_len) memcpy(image, to, len);
        expect(!fits || !memcmp(to, image, image_len), "another index", len, image_len);
        size_t used = fits ? image_len : 0;
        expect(is_filled(to + used, len - used), "a room that was written", len, used);
        free(to);
    }
    gix_index_summary said;
    status = gix_index_check(image, image_len, kind, false, NULL, 0, &said);
    expect(status == GIX_INDEX_DONE && said.has_link == 0, "what is written isn't sound", status, said.fault);
}

/* With these bytes of the index the changes are refused so. */
static void refused_of(const uint8_t *index, size_t len, gix_index_written wanted, const char *what) {
    gix_index_written told;
    memset(room, FILL, MOST);
    uint32_t status = update(index, len, kind, room, MOST, &told);
    expect(status == GIX_INDEX_REFUSED && tells(&told, wanted), what, told.fault, told.fault_place);
    expect(is_filled(room, MOST), "something is written", told.bytes, told.fault);
}

/* With this row in the second place the changes are refused so. */
static void refused_row(gix_index_row row, uint32_t fault, const char *what) {
    gix_index_row old = rows[1];
    rows[1] = row;
    refused_of(bytes, bytes_len, (gix_index_written){.fault = fault, .fault_place = 1}, what);
    rows[1] = old;
}

static void refused_path(const char *path, uint32_t fault, const char *what) {
    gix_index_row row = rows[1];
    row.path_start = paths_len;
    row.path_len = strlen(path);
    memcpy(paths + paths_len, path, row.path_len);
    paths_len += row.path_len;
    refused_row(row, fault, what);
    paths_len -= row.path_len;
}

static void refused_rows(void) {
    gix_index_row row = rows[1];
    row.mode = 0;
    refused_row(row, GIX_INDEX_FAULT_MODE, "no mode is let through");
    row = rows[1];
    row.stage = 1;
    refused_row(row, GIX_INDEX_FAULT_ROW, "another stage is let through");
    row = rows[1];
    row.kind = 3 - kind;
    refused_row(row, GIX_INDEX_FAULT_ROW, "another kind is let through");
    row = rows[1];
    row.path_len = paths_len;
    refused_row(row, GIX_INDEX_FAULT_ROW, "a path that is cut is let through");
    row = rows[1];
    memset(row.id, 0, sizeof row.id);
    refused_row(row, GIX_INDEX_FAULT_ROW, "an id of zeros is let through");
    refused_path("a/../b", GIX_INDEX_FAULT_NAME, "a name of a directory is let through");
    refused_path(".GIT/config", GIX_INDEX_FAULT_NAME, "the repository's name is let through");
    refused_path("a//b", GIX_INDEX_FAULT_NAME, "an empty name is let through");
    refused_path(".gitmodules", GIX_INDEX_FAULT_NAME, "a link for submodules is let through");
}

static void refused(void) {
    gix_index_written told, nothing = {0};
    refused_rows();
    for (size_t len = 0; len < bytes_len; len += len < 16 ? 1 : 97) {
        gix_index_summary said;
        uint32_t status = gix_index_read(bytes, len, kind, false, NULL, 0, NULL, 0, NULL, 0, &said);
        expect(status == GIX_INDEX_REFUSED, "a front is read", len, 0);
        refused_of(bytes, len, (gix_index_written){.fault = said.fault, .fault_place = said.fault_place}, "a front");
    }
    memset(room, FILL, MOST);
    for (uint32_t of = 0; of < 5; of += of == 0 ? 3 : 1)
        expect(update(bytes, bytes_len, of, room, MOST, &told) == GIX_INDEX_WRONG_NUMBER && tells(&told, nothing) &&
               is_filled(room, MOST), "a kind that is none is let through", of, told.fault);
    if (shared_len == 0) return;
    shared[20] ^= 1;
    refused_of(bytes, bytes_len, (gix_index_written){.fault = GIX_INDEX_FAULT_DIGEST, .of_shared = 1},
               "a damaged shared index will do");
    shared[20] ^= 1;
}

static void once(void) {
    gix_index_written told, nothing = {0};
    memset(room, FILL, MOST);
    uint32_t status = update(bytes, bytes_len, kind, room, MOST, &told);
    expect(status == GIX_INDEX_DONE || status == GIX_INDEX_MEMORY, "another status", status, told.fault);
    if (status == GIX_INDEX_DONE) return;
    nothing.of_shared = told.of_shared;
    expect(is_filled(room, MOST) && tells(&told, nothing), "more is told of want of memory", told.bytes, told.fault);
    puts("memory");
}

int main(int argc, char **argv) {
    if (argc < 4) return 1;
    begin(argv[2]);
    if (strcmp(argv[1], "commit") != 0) bytes_len = read_here(argv[3], bytes);
    if (argc > 4) shared_len = read_here(argv[4], shared);
    if (!strcmp(argv[1], "commit")) commit(argv[3]);
    if (!strcmp(argv[1], "rooms")) {
        some_changes();
        rooms();
        refused();
    }
    if (!strcmp(argv[1], "once")) {
        /* (rows of no table, so that all memory that is wanted is that of the changes) */
        add(0100644, "0102030405060708090a0b0c0d0e0f1011121314", 0, "new/file");
        add(0, "", 0, "a");
        once();
    }
    return end();
}
