/* What test_called asks of the trees of an index, in one process: given WORD KIND FILE.
 *
 * list   prints those of the index at FILE, its link followed, in turn, as `git cat-file --batch` prints objects; or
 *        'fault N at N'
 * rooms  asks for them with rooms of each size, from none up to one too large, and with rows that are refused
 * once   asks for them without a request for memory of its own, so that each is the library's
 *
 * A line on standard output for each thing that isn't so, or 'ok', which list leaves out. The status is 1 where a file
 * can't be read here. */
#include "check.h"

static gix_index_table t;
static gix_index_tree trees[64];
static uint8_t bytes[MOST];

/* Whether what is told is this and no more. */
static bool tells(const gix_index_given *told, gix_index_given wanted) {
    return told->trees == wanted.trees && told->bytes == wanted.bytes && told->fault_place == wanted.fault_place &&
           told->fault == wanted.fault;
}

static uint32_t give(gix_index_tree *to, size_t to_len, uint8_t *at, size_t at_len, gix_index_given *told) {
    memset(told, FILL, sizeof *told);
    return gix_index_trees(t.rows, t.said.entries, t.paths, t.said.path_bytes, kind, to, to_len, at, at_len, told);
}

/* ---- One by one */

static int print(void *context, const uint8_t *id, size_t id_len, const uint8_t *at, size_t len) {
    (void)context;
    for (size_t i = 0; i < id_len; i++) printf("%02x", id[i]);
    printf(" tree %zu\n", len);
    fwrite(at, 1, len, stdout);
    puts("");
    return 0;
}

/* Stops once so many are there. */
static int count(void *context, const uint8_t *id, size_t id_len, const uint8_t *at, size_t len) {
    size_t *left = context;
    (void)id;
    (void)id_len;
    (void)at;
    (void)len;
    return --*left == 0;
}

static uint32_t hand_on(gix_index_put_tree *put, void *context, gix_index_given *told) {
    memset(told, FILL, sizeof *told);
    return gix_index_write_trees(t.rows, t.said.entries, t.paths, t.said.path_bytes, kind, put, context, told);
}

static void list(void) {
    gix_index_given told;
    if (hand_on(print, NULL, &told) != GIX_INDEX_DONE) printf("fault %u at %zu\n", told.fault, told.fault_place);
}

/* ---- Rooms */

static void room_of(size_t trees_len, size_t bytes_len, gix_index_given wanted) {
    gix_index_given told;
    gix_index_tree *to = malloc(trees_len * sizeof *to);
    uint8_t *at = malloc(bytes_len);
    if (!to || !at) exit(3);
    memset(to, FILL, trees_len * sizeof *to);
    memset(at, FILL, bytes_len);
    bool fits = trees_len >= wanted.trees && bytes_len >= wanted.bytes;
    uint32_t status = give(to, trees_len, at, bytes_len, &told);
    expect(status == (fits ? GIX_INDEX_DONE : GIX_INDEX_NO_ROOM), "another status", trees_len, bytes_len);
    expect(tells(&told, wanted), "something else is told", told.trees, told.bytes);
    size_t rows = fits ? wanted.trees : 0, used = fits ? wanted.bytes : 0;
    for (size_t i = 0; i < rows; i++)
        expect(!memcmp(to[i].id, trees[i].id, 32) && to[i].start == trees[i].start && to[i].len == trees[i].len,
               "another tree", i, to[i].start);
    expect(!memcmp(at, bytes, used), "other bytes", trees_len, bytes_len);
    expect(is_filled(to + rows, (trees_len - rows) * sizeof *to), "a room of trees that was written", trees_len, rows);
    expect(is_filled(at + used, bytes_len - used), "a room of bytes that was written", bytes_len, used);
    free(to);
    free(at);
}

static void rooms(void) {
    gix_index_given told, wanted;
    uint32_t status = give(NULL, 0, NULL, 0, &wanted);
    expect(status == GIX_INDEX_NO_ROOM, "no room suffices", wanted.trees, wanted.bytes);
    status = give(trees, 64, bytes, MOST, &told);
    expect(status == GIX_INDEX_DONE && tells(&told, wanted), "there are no trees", told.trees, told.bytes);
    size_t end = 0;
    for (size_t i = 0; i < told.trees; i++) {
        static const uint8_t zeros[12];
        expect(trees[i].start == end, "a tree that isn't behind the one before", i, trees[i].start);
        expect(kind == GIX_INDEX_SHA256 || !memcmp(trees[i].id + 20, zeros, 12), "more of an id", i, 0);
        end += trees[i].len;
    }
    expect(end == told.bytes, "bytes behind the last tree", end, told.bytes);
    for (size_t len = 0; len <= wanted.bytes + 1; len++) room_of(wanted.trees, len, wanted);
    for (size_t len = 0; len <= wanted.trees + 1; len++) room_of(len, wanted.bytes, wanted);
    for (size_t most = 1; most <= wanted.trees; most++) {
        size_t left = most;
        status = hand_on(count, &left, &told);
        expect(status == GIX_INDEX_STOPPED && left == 0 && tells(&told, wanted), "it isn't stopped", most, left);
    }
}

/* ---- Rows that are refused */

/* With this row in the second place, and this path where there is one, the trees are refused so. */
static void refused_row(gix_index_row row, const char *path, uint32_t fault, const char *what) {
    static uint8_t paths[MOST];
    gix_index_given told;
    gix_index_row old = t.rows[1];
    uint8_t *before = t.paths;
    memcpy(paths, before, t.said.path_bytes);
    if (path) {
        row.path_start = t.said.path_bytes;
        row.path_len = strlen(path);
        memcpy(paths + row.path_start, path, row.path_len);
    }
    t.paths = paths;
    t.said.path_bytes += path ? row.path_len : 0;
    t.rows[1] = row;
    memset(trees, FILL, sizeof trees);
    memset(bytes, FILL, MOST);
    uint32_t status = give(trees, 64, bytes, MOST, &told);
    expect(status == GIX_INDEX_REFUSED && tells(&told, (gix_index_given){.fault = fault, .fault_place = 1}), what,
           told.fault, told.fault_place);
    expect(is_filled(trees, sizeof trees) && is_filled(bytes, MOST), "something is written", fault, status);
    t.said.path_bytes -= path ? row.path_len : 0;
    t.rows[1] = old;
    t.paths = before;
}

/* (the first row is `a`, and the third is `docs/two.txt`) */
static void refused(void) {
    gix_index_given told;
    gix_index_row row = t.rows[1];
    row.mode = 0100600;
    refused_row(row, NULL, GIX_INDEX_FAULT_MODE, "no mode is let through");
    row = t.rows[1];
    row.stage = 1;
    refused_row(row, NULL, GIX_INDEX_FAULT_ROW, "another stage is let through");
    row = t.rows[1];
    memset(row.id, 0, sizeof row.id);
    refused_row(row, NULL, GIX_INDEX_FAULT_ROW, "an id of zeros is let through");
    row = t.rows[1];
    row.stage = 2;
    row.flags |= 2 << 12;
    refused_row(row, NULL, GIX_INDEX_FAULT_UNMERGED, "a conflict is let through");
    row = t.rows[1];
    refused_row(row, "A", GIX_INDEX_FAULT_ORDER, "rows that fall are let through");
    refused_row(row, "a/..", GIX_INDEX_FAULT_NAME, "a name of a directory is let through");
    refused_row(row, "b//c", GIX_INDEX_FAULT_NAME, "an empty name is let through");
    refused_row(row, "b/.GIT", GIX_INDEX_FAULT_NAME, "the repository's name is let through");
    refused_row(row, "a/b", GIX_INDEX_FAULT_BELOW, "a path below a file's is let through");
    row.mode = GIX_INDEX_DIRECTORY;
    refused_row(row, NULL, GIX_INDEX_FAULT_ROW, "a directory without a slash is let through");
    for (uint32_t of = 0; of < 5; of += of == 0 ? 3 : 1) {
        uint32_t is = kind, status;
        kind = of;
        status = give(trees, 64, bytes, MOST, &told);
        expect(status == GIX_INDEX_WRONG_NUMBER && tells(&told, (gix_index_given){.fault = 0}), "a kind that is none",
               of, status);
        kind = is;
    }
    expect(is_filled(trees, sizeof trees) && is_filled(bytes, MOST), "something is written of no kind", 0, 0);
}

/* The rows of no file, so that all memory that is wanted is that of the trees. */
static void once(void) {
    static uint8_t paths[] = "ab/cd/ef";
    static gix_index_row rows[2];
    gix_index_given told;
    for (size_t i = 0; i < 2; i++)
        rows[i] = (gix_index_row){.mode = GIX_INDEX_FILE, .kind = kind, .id = {7}, .path_len = i == 0 ? 1 : 8};
    t.rows = rows;
    t.paths = paths;
    t.said.entries = 2;
    t.said.path_bytes = 8;
    memset(trees, FILL, sizeof trees);
    memset(bytes, FILL, MOST);
    uint32_t status = give(trees, 64, bytes, MOST, &told);
    expect(status == GIX_INDEX_DONE || status == GIX_INDEX_MEMORY, "another status", status, told.fault);
    if (status == GIX_INDEX_DONE) return;
    expect(tells(&told, (gix_index_given){.fault = 0}), "more is told of want of memory", told.trees, told.fault);
    expect(is_filled(trees, sizeof trees) && is_filled(bytes, MOST), "something is written", status, 0);
    puts("memory");
}

int main(int argc, char **argv) {
    if (argc != 4) return 1;
    begin(argv[2]);
    if (!strcmp(argv[1], "once")) {
        once();
        return end();
    }
    if (gix_index_read_file(argv[3], kind, NULL, 0, &t) != GIX_INDEX_DONE) return 1;
    if (!strcmp(argv[1], "list")) {
        list();
    } else {
        rooms();
        refused();
        end();
    }
    gix_index_drop_table(&t);
    return 0;
}
