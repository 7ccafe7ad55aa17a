/* What test_called asks of calls that get NULL with a length of 0, as gix_index.h lets them: nulls KIND FILE. FILE is
 * an index with entries in order and without a link, and what is written goes to FILE.nulls.
 *
 * It is C and C++ at once, as the headers are, and test_called builds and runs it as both. A line on standard output
 * for each thing that isn't so, or 'ok'. The status is 1 where a file can't be read here. */
#include "check.h"

static gix_index_table whole;
static size_t digest_len;

/* Whether a summary tells of a whole table, whose paths have so many bytes. */
static bool tells_of_all(const gix_index_summary *said, size_t path_bytes) {
    return said->entries == whole.said.entries && said->path_bytes == path_bytes && said->text_bytes == 0 &&
           said->version == whole.said.version && said->fault == 0;
}

/* Whether bytes were refused so, without a text. */
static bool is_refused(uint32_t status, const gix_index_summary *said, uint32_t fault) {
    return status == GIX_INDEX_REFUSED && said->fault == fault && said->text_bytes == 0 && said->entries == 0;
}

static void read_them(void) {
    gix_index_summary said;
    gix_index_row row;
    uint8_t path, *bytes = whole.bytes;
    size_t len = whole.bytes_len, path_bytes = whole.said.path_bytes;
    uint32_t status = gix_index_read(bytes, len, kind, false, NULL, 0, NULL, 0, NULL, 0, &said);
    hold(status == GIX_INDEX_NO_ROOM && tells_of_all(&said, path_bytes), "the sizes aren't told");
    status = gix_index_read(bytes, len, kind, true, &row, 1, NULL, 0, NULL, 0, &said);
    hold(status == GIX_INDEX_NO_ROOM && tells_of_all(&said, path_bytes), "paths at NULL have room");
    status = gix_index_read(bytes, len, kind, true, NULL, 0, &path, 1, NULL, 0, &said);
    hold(status == GIX_INDEX_NO_ROOM && tells_of_all(&said, path_bytes), "rows at NULL have room");
    status = gix_index_read_split(bytes, len, NULL, 0, kind, false, NULL, 0, NULL, 0, NULL, 0, &said);
    hold(status == GIX_INDEX_NO_ROOM && tells_of_all(&said, path_bytes), "the sizes of both aren't told");
    status = gix_index_check(bytes, len, kind, false, NULL, 0, &said);
    hold(status == GIX_INDEX_DONE && tells_of_all(&said, 0), "it isn't checked");
    status = gix_index_check_split(bytes, len, NULL, 0, kind, false, NULL, 0, &said);
    hold(status == GIX_INDEX_DONE && tells_of_all(&said, 0), "both aren't checked");
}

/* No bytes are no index, and bytes that are damaged have no text where there is no room for one. */
static void refuse(void) {
    gix_index_summary said;
    uint32_t status = gix_index_read(NULL, 0, kind, false, NULL, 0, NULL, 0, NULL, 0, &said);
    hold(is_refused(status, &said, GIX_INDEX_FAULT_HEADER), "no bytes are read");
    status = gix_index_read_split(NULL, 0, NULL, 0, kind, true, NULL, 0, NULL, 0, NULL, 0, &said);
    hold(is_refused(status, &said, GIX_INDEX_FAULT_HEADER), "no bytes are read with none");
    status = gix_index_check(NULL, 0, kind, false, NULL, 0, &said);
    hold(is_refused(status, &said, GIX_INDEX_FAULT_HEADER), "no bytes are sound");
    status = gix_index_check_split(NULL, 0, NULL, 0, kind, true, NULL, 0, &said);
    hold(is_refused(status, &said, GIX_INDEX_FAULT_HEADER), "no bytes are sound with none");
    whole.bytes[whole.bytes_len - 1] ^= 1;
    status = gix_index_read(whole.bytes, whole.bytes_len, kind, false, NULL, 0, NULL, 0, NULL, 0, &said);
    hold(is_refused(status, &said, GIX_INDEX_FAULT_DIGEST), "another digest is read");
    status = gix_index_check(whole.bytes, whole.bytes_len, kind, false, NULL, 0, &said);
    hold(is_refused(status, &said, GIX_INDEX_FAULT_DIGEST), "another digest is sound");
    whole.bytes[whole.bytes_len - 1] ^= 1;
}

static void search(void) {
    const uint8_t *path = whole.paths, letter = 'a';
    size_t count = whole.said.entries, path_bytes = whole.said.path_bytes;
    gix_index_places places;
    hold(gix_index_find(NULL, 0, NULL, 0, NULL, 0, 0) == 0, "no rows have no path");
    hold(gix_index_find(NULL, 0, NULL, 0, &letter, 1, 0) == 0, "no rows have a path");
    hold(gix_index_find(whole.rows, count, path, path_bytes, NULL, 0, 0) == count, "rows have no path");
    hold(gix_index_find(whole.rows, count, NULL, 0, &letter, 1, 0) == count, "paths that are cut are whole");
    hold(gix_index_find(whole.rows, 1, NULL, 0, NULL, 0, 0) == 0, "a path that is cut isn't empty");
    hold(gix_index_lower_bound(NULL, 0, NULL, 0, NULL, 0, 0) == 0, "no rows stand before no path");
    hold(gix_index_lower_bound(whole.rows, count, path, path_bytes, NULL, 0, 0) == 0, "rows stand before no path");
    memset(&places, 7, sizeof places);
    hold(gix_index_find_prefix(NULL, 0, NULL, 0, &letter, 1, &places) == GIX_INDEX_NONE, "no rows have a prefix");
    hold(gix_index_find_prefix(NULL, 0, NULL, 0, NULL, 0, &places) == GIX_INDEX_DONE, "no rows lack no prefix");
    hold(places.start == 0 && places.end == 0, "no rows have places");
    uint32_t status = gix_index_find_prefix(whole.rows, count, path, path_bytes, NULL, 0, &places);
    hold(status == GIX_INDEX_DONE && places.start == 0 && places.end == count, "rows lack no prefix");
    status = gix_index_find_prefix(whole.rows, count, NULL, 0, NULL, 0, &places);
    hold(status == GIX_INDEX_DONE && places.end == count, "rows whose paths are cut lack no prefix");
    hold(gix_index_closest(NULL, 0, NULL, 0, NULL, 0) == 0, "no rows have no directory");
    hold(gix_index_closest(NULL, 0, NULL, 0, &letter, 1) == 0, "no rows have a directory");
    hold(gix_index_closest(whole.rows, count, path, path_bytes, NULL, 0) == count, "rows have no directory");
    hold(gix_index_closest(whole.rows, count, NULL, 0, &letter, 1) == count, "cut paths have a directory");
    hold(gix_index_closest_icase(NULL, 0, NULL, 0, NULL, 0) == 0, "no rows have no directory in any case");
    hold(gix_index_closest_icase(whole.rows, count, NULL, 0, &letter, 1) == count, "cut paths have one in any case");
}

/* A file without bytes has an id, and a number that is no kind gives none. */
static void hash(void) {
    uint8_t id[32], none[32];
    memset(id, 7, sizeof id);
    memset(none, 7, sizeof none);
    hold(gix_index_blob_id(0, NULL, 0, id) == GIX_INDEX_WRONG_NUMBER, "no kind has an id");
    hold(memcmp(id, none, sizeof id) == 0, "an id is written where there is no kind");
    hold(gix_index_blob_id(kind, NULL, 0, id) == GIX_INDEX_DONE, "no bytes have no id");
    hold(id[0] == (kind == GIX_INDEX_SHA1 ? 0xe6 : 0x47), "no bytes have another id");
    for (size_t i = digest_len; i < sizeof id; i++) hold(id[i] == 0, "an id is longer than its kind's");
}

/* Whether it is told how many bytes an index takes, and no more. */
static bool lacks_room(uint32_t status, const gix_index_written *told) {
    return status == GIX_INDEX_NO_ROOM && told->bytes >= 12 + digest_len && told->fault == 0;
}

static void write_them(const gix_index_form *form) {
    uint8_t room[44];
    gix_index_written told;
    gix_index_summary said;
    size_t count = whole.said.entries, path_bytes = whole.said.path_bytes;
    uint32_t status = gix_index_write(NULL, 0, NULL, 0, form, NULL, 0, &told);
    hold(lacks_room(status, &told) && told.bytes == 12 + digest_len, "no rows have no size");
    status = gix_index_write(NULL, 0, NULL, 0, form, room, sizeof room, &told);
    hold(status == GIX_INDEX_DONE && told.bytes == 12 + digest_len, "no rows aren't written");
    status = gix_index_read(room, told.bytes, kind, false, NULL, 0, NULL, 0, NULL, 0, &said);
    hold(status == GIX_INDEX_DONE && said.entries == 0 && said.path_bytes == 0, "no rows aren't read");
    status = gix_index_write(whole.rows, count, whole.paths, path_bytes, form, NULL, 0, &told);
    hold(lacks_room(status, &told), "a table has no size");
    status = gix_index_write(whole.rows, count, NULL, 0, form, NULL, 0, &told);
    hold(status == GIX_INDEX_REFUSED && told.fault == GIX_INDEX_FAULT_ROW, "rows have paths at NULL");
    status = gix_index_write_over(NULL, 0, NULL, 0, whole.bytes, whole.bytes_len, form, NULL, 0, &told);
    hold(lacks_room(status, &told), "no rows have no size over others");
    status = gix_index_write_over(whole.rows, count, whole.paths, path_bytes, NULL, 0, form, NULL, 0, &told);
    hold(status == GIX_INDEX_REFUSED && told.fault == GIX_INDEX_FAULT_HEADER, "no bytes are written over");
    status = gix_index_update(NULL, 0, NULL, 0, whole.bytes, whole.bytes_len, NULL, 0, kind, NULL, 0, &told);
    hold(lacks_room(status, &told), "no changes have no size");
    status = gix_index_update(NULL, 0, NULL, 0, NULL, 0, NULL, 0, kind, NULL, 0, &told);
    hold(status == GIX_INDEX_REFUSED && told.fault == GIX_INDEX_FAULT_HEADER, "no bytes are changed");
}

static int take_tree(void *context, const uint8_t *id, size_t id_len, const uint8_t *bytes, size_t len) {
    bool is_empty = id && bytes && id_len == digest_len && len == 0;
    *(size_t *)context += is_empty ? 1 : 2;
    return 0;
}

/* No rows have one tree, without bytes. */
static void give_trees(void) {
    gix_index_given told;
    gix_index_tree tree;
    size_t taken = 0;
    uint32_t status = gix_index_trees(NULL, 0, NULL, 0, kind, NULL, 0, NULL, 0, &told);
    hold(status == GIX_INDEX_NO_ROOM && told.trees == 1 && told.bytes == 0, "no rows have no tree");
    status = gix_index_trees(NULL, 0, NULL, 0, kind, &tree, 1, NULL, 0, &told);
    hold(status == GIX_INDEX_DONE && tree.start == 0 && tree.len == 0, "the tree of no rows isn't given");
    status = gix_index_trees(whole.rows, whole.said.entries, NULL, 0, kind, NULL, 0, NULL, 0, &told);
    hold(status == GIX_INDEX_REFUSED && told.fault == GIX_INDEX_FAULT_ROW, "rows have trees by paths at NULL");
    status = gix_index_write_trees(NULL, 0, NULL, 0, kind, take_tree, &taken, &told);
    hold(status == GIX_INDEX_DONE && taken == 1, "the tree of no rows isn't handed on");
}

/* The calls for files, which hand on what they get; the index that is written is one without entries in the end. */
static void use_files(const char *path, const gix_index_form *form) {
    char *out = (char *)malloc(strlen(path) + sizeof ".nulls");
    gix_index_written told;
    gix_index_summary said;
    gix_index_lock lock;
    gix_index_table t;
    if (!out) exit(3);
    strcat(strcpy(out, path), ".nulls");
    hold(gix_index_check_file(path, kind, NULL, 0, &said) == GIX_INDEX_DONE, "a file isn't checked");
    uint32_t status = gix_index_write_file_over(out, whole.rows, whole.said.entries, whole.paths, whole.said.path_bytes,
                                                whole.bytes, whole.bytes_len, form, &told);
    hold(status == GIX_INDEX_DONE, "a file isn't written over others");
    hold(gix_index_lock_file(out, &lock) == GIX_INDEX_DONE, "a file isn't locked");
    hold(gix_index_read_file(lock.path, kind, NULL, 0, &t) == GIX_INDEX_DONE, "a file isn't read");
    hold(t.said.entries == whole.said.entries && gix_index_is_time(t.mtime), "another file is read");
    hold(gix_index_commit(&lock, &t, form, true, &told) == GIX_INDEX_DONE, "a file isn't committed");
    gix_index_drop_table(&t);
    hold(gix_index_lock_file(out, &lock) == GIX_INDEX_DONE, "a file isn't locked again");
    status = gix_index_commit_changes(&lock, kind, NULL, 0, NULL, 0, true, &told);
    hold(status == GIX_INDEX_DONE && told.bytes != 0, "no changes aren't committed");
    hold(gix_index_write_file(out, NULL, 0, NULL, 0, form, &told) == GIX_INDEX_DONE, "no rows aren't put to a file");
    hold(gix_index_read_file(out, kind, NULL, 0, &t) == GIX_INDEX_DONE && t.said.entries == 0, "a file has rows");
    gix_index_drop_table(&t);
    unlink(out);
    free(out);
}

int main(int argc, char **argv) {
    if (argc != 3) return 1;
    begin(argv[1]);
    digest_len = kind == GIX_INDEX_SHA1 ? 20 : 32;
    if (gix_index_read_file(argv[2], kind, NULL, 0, &whole) != GIX_INDEX_DONE) return 1;
    gix_index_form form;
    form.kind = kind;
    form.version = 2;
    form.skip_hash = false;
    read_them();
    refuse();
    search();
    hash();
    write_them(&form);
    give_trees();
    use_files(argv[2], &form);
    gix_index_drop_table(&whole);
    return end();
}
