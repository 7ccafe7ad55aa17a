/* What test_called asks of what the library keeps of an index, and of two files that are read as one, in one process:
 * kept WORD KIND WANTED FILE [SHARED]. WANTED is what is to be written of FILE, with its cached tree.
 *
 * over        writes the table of FILE over FILE into rooms of each size, from none up to one too large, and with rows
 *             that keep the cached tree, that put it out, and that can't be written; over WANTED again; and to a path
 * split       reads FILE with SHARED, which have to be the table of WANTED, into tables of each size, and without what
 *             has to be there; by its path too; and checks both so
 * over-once   writes it so without a request for memory of its own, so that each is the library's
 * split-once  reads both so
 * check-once  checks both so
 *
 * A line on standard output for each thing that isn't so, or 'ok'. The status is 1 where a file can't be read here. */
#include "check.h"

static uint8_t wanted[MOST], bytes[MOST], shared[MOST], image[MOST], room[MOST], text[300], paths[MOST];
static gix_index_row rows[MOST / 16];
static size_t wanted_len, bytes_len, shared_len;
static gix_index_summary said;
static gix_index_form form = {.version = 2};

static uint32_t read_bytes(const uint8_t *of, size_t len) {
    return gix_index_read(of, len, form.kind, false, rows, MOST / 16, paths, MOST, text, sizeof text, &said);
}

static uint32_t write_over(const uint8_t *index, size_t len, uint8_t *to, size_t to_len, gix_index_written *told) {
    return gix_index_write_over(rows, said.entries, paths, said.path_bytes, index, len, &form, to, to_len, told);
}

/* ---- An index that is written over */

static bool has_tree(const uint8_t *of, size_t len) {
    for (size_t i = 0; i + 4 <= len; i++)
        if (!memcmp(of + i, "TREE", 4)) return true;
    return false;
}

static void over_rooms(void) {
    for (size_t len = 0; len <= wanted_len + 1; len++) {
        gix_index_written told;
        uint8_t *to = malloc(len);
        if (!to) exit(3);
        memset(to, FILL, len);
        uint32_t status = write_over(bytes, bytes_len, to, len, &told);
        bool fits = len >= wanted_len;
        expect(status == (fits ? GIX_INDEX_DONE : GIX_INDEX_NO_ROOM), "another status", status, len);
        expect(told.bytes == wanted_len && told.tree == GIX_INDEX_TREE_KEPT, "another length", told.bytes, told.tree);
        expect(!fits || !memcmp(to, wanted, wanted_len), "another index", len, wanted_len);
        size_t used = fits ? wanted_len : 0;
        expect(is_filled(to + used, len - used), "a room that was written", len, used);
        free(to);
    }
}

/* The row at a place is another, and the tree has to be kept then, or not. */
static void over_row(size_t place, gix_index_row row, uint32_t tree, const char *what) {
    gix_index_row old = rows[place];
    gix_index_written told;
    rows[place] = row;
    uint32_t status = write_over(bytes, bytes_len, image, MOST, &told);
    rows[place] = old;
    expect(status == GIX_INDEX_DONE && told.tree == tree, what, status, told.tree);
    expect(has_tree(image, told.bytes) == (tree == GIX_INDEX_TREE_KEPT), "another tree than is told", place, tree);
    if (tree == GIX_INDEX_TREE_KEPT) return;
    status = write_over(image, told.bytes, room, MOST, &told);
    expect(status == GIX_INDEX_DONE && told.tree == GIX_INDEX_NO_TREE, "a tree of nowhere is told", status, told.tree);
    expect(!has_tree(room, told.bytes), "a tree of nowhere", place, tree);
}

static void over_rows(void) {
    for (size_t i = 0; i < said.entries; i++) {
        gix_index_row row = rows[i];
        row.mtime_secs++;
        over_row(i, row, GIX_INDEX_TREE_KEPT, "a tree is left out for a time");
        row = rows[i];
        row.id[7] ^= 1;
        over_row(i, row, GIX_INDEX_TREE_LEFT_OUT, "a tree is kept over another id");
        row = rows[i];
        row.flags |= GIX_INDEX_REMOVE;
        over_row(i, row, GIX_INDEX_TREE_LEFT_OUT, "a tree is kept over one row less");
        row = rows[i];
        row.flags |= 0x1000;
        row.stage = 1;
        over_row(i, row, GIX_INDEX_TREE_LEFT_OUT, "a tree is kept over a conflict");
        row = rows[i];
        row.flags |= GIX_INDEX_EXTENDED | GIX_INDEX_INTENT_TO_ADD;
        over_row(i, row, GIX_INDEX_TREE_LEFT_OUT, "a tree is kept over what isn't added yet");
    }
}

static void refused_over(const uint8_t *index, size_t len, uint32_t fault, size_t place, const char *what) {
    gix_index_written told;
    memset(room, FILL, MOST);
    uint32_t status = write_over(index, len, room, MOST, &told);
    expect(status == GIX_INDEX_REFUSED && told.fault == fault && told.fault_place == place, what, told.fault, place);
    expect(told.bytes == 0 && told.tree == 0 && is_filled(room, MOST), "something is written", told.bytes, place);
}

static void over_refused(void) {
    for (size_t len = 0; len < bytes_len; len += len < 16 ? 1 : 97) {
        gix_index_summary told;
        uint32_t status = gix_index_read(bytes, len, form.kind, false, rows, 0, paths, 0, text, sizeof text, &told);
        expect(status == GIX_INDEX_REFUSED, "a front is read", len, 0);
        refused_over(bytes, len, told.fault, told.fault_place, "another fault of a front");
    }
    gix_index_row row = rows[1];
    rows[1].path_len = 0;
    refused_over(bytes, bytes_len, GIX_INDEX_FAULT_ROW, 1, "no path is let through");
    rows[1] = rows[0];
    refused_over(bytes, bytes_len, GIX_INDEX_FAULT_ORDER, 1, "a row that is there twice is let through");
    rows[1] = row;
}

/* A row that stands for a directory is let through where the index is a sparse one, and nowhere else. */
static void over_directory(void) {
    bool is_sparse = false;
    for (size_t i = 0; i < said.entries; i++) is_sparse |= rows[i].mode == GIX_INDEX_DIRECTORY;
    uint32_t mode = rows[0].mode;
    rows[0].mode = GIX_INDEX_DIRECTORY;
    gix_index_written told;
    if (is_sparse) {
        uint32_t status = write_over(bytes, bytes_len, room, MOST, &told);
        expect(status == GIX_INDEX_DONE, "a directory isn't let through", status, told.fault);
    } else {
        refused_over(bytes, bytes_len, GIX_INDEX_FAULT_ROW, 0, "a directory is let through");
    }
    rows[0].mode = mode;
}

static void over_file(const char *file) {
    char *path = malloc(strlen(file) + sizeof ".over");
    if (!path) exit(3);
    strcat(strcpy(path, file), ".over");
    gix_index_written told;
    uint32_t status = gix_index_write_file_over(path, rows, said.entries, paths, said.path_bytes, bytes, bytes_len,
                                                &form, &told);
    gix_index_table t;
    expect(status == GIX_INDEX_DONE && told.tree == GIX_INDEX_TREE_KEPT, "a file isn't written", status, told.tree);
    status = gix_index_read_file(path, form.kind, text, sizeof text, &t);
    expect(status == GIX_INDEX_DONE && t.bytes_len == wanted_len && !memcmp(t.bytes, wanted, wanted_len),
           "another file is written", status, t.bytes_len);
    gix_index_drop_table(&t);
    unlink(path);
    free(path);
}

static void over(const char *file) {
    expect(read_bytes(bytes, bytes_len) == GIX_INDEX_DONE, "the file isn't read", bytes_len, 0);
    over_rooms();
    over_rows();
    over_refused();
    over_directory();
    over_file(file);
}

/* ---- Two files that are read as one */

static uint32_t read_both(const uint8_t *other, size_t other_len, size_t rows_len, size_t paths_len) {
    memset(rows, FILL, sizeof rows);
    memset(paths, FILL, sizeof paths);
    memset(text, FILL, sizeof text);
    uint32_t status = gix_index_read_split(bytes, bytes_len, other, other_len, form.kind, false, rows, rows_len, paths,
                                           paths_len, text, sizeof text, &said);
    expect(is_filled(text + said.text_bytes, sizeof text - said.text_bytes), "a text that goes on", status, 0);
    if (status == GIX_INDEX_DONE) return status;
    expect(is_filled(rows, sizeof rows) && is_filled(paths, sizeof paths), "a table that was written", status, 0);
    return status;
}

/* The table has to be that of the file that index-tool wrote of both, path by path. */
static void holds_wanted(const gix_index_row *those, const uint8_t *those_paths, size_t count) {
    static gix_index_row other_rows[MOST / 16];
    static uint8_t other_paths[MOST];
    gix_index_summary other;
    uint32_t status = gix_index_read(wanted, wanted_len, form.kind, false, other_rows, MOST / 16, other_paths, MOST,
                                     text, sizeof text, &other);
    expect(status == GIX_INDEX_DONE && other.entries == count, "another number of entries", other.entries, count);
    for (size_t i = 0; i < count && i < other.entries; i++) {
        const gix_index_row *a = those + i, *b = other_rows + i;
        bool is_same = !memcmp(a, b, offsetof(gix_index_row, path_start)) && a->path_len == b->path_len &&
                       !memcmp(those_paths + a->path_start, other_paths + b->path_start, a->path_len);
        expect(is_same, "another entry", i, count);
    }
}

static uint32_t check_both(const uint8_t *other, size_t other_len) {
    memset(text, FILL, sizeof text);
    uint32_t status = gix_index_check_split(bytes, bytes_len, other, other_len, form.kind, false, text, sizeof text,
                                            &said);
    expect(is_filled(text + said.text_bytes, sizeof text - said.text_bytes), "a text that goes on", status, 0);
    return status;
}

static void refused_both(const uint8_t *other, size_t len, uint32_t fault, const char *what) {
    uint32_t status = read_both(other, len, MOST / 16, MOST);
    expect(status == GIX_INDEX_REFUSED && said.fault == fault && said.of_shared == 1, what, said.fault, said.of_shared);
    status = check_both(other, len);
    expect(status == GIX_INDEX_REFUSED && said.fault == fault && said.of_shared == 1, what, said.fault, said.of_shared);
}

static void split_sizes(void) {
    uint32_t status = read_both(shared, shared_len, 0, 0);
    size_t entries = said.entries, path_bytes = said.path_bytes;
    expect(status == GIX_INDEX_NO_ROOM, "another status of no table", status, 0);
    for (size_t less_rows = 0; less_rows < 3; less_rows++) {
        for (size_t less_paths = 0; less_paths < 3; less_paths++) {
            status = read_both(shared, shared_len, entries + 1 - less_rows, path_bytes + 1 - less_paths);
            bool fits = less_rows < 2 && less_paths < 2;
            expect(status == (fits ? GIX_INDEX_DONE : GIX_INDEX_NO_ROOM), "another status", less_rows, less_paths);
            expect(said.entries == entries && said.path_bytes == path_bytes, "other sizes", less_rows, less_paths);
            expect(said.has_link == 0 && said.of_shared == 0, "a link that is left", said.has_link, said.of_shared);
        }
    }
}

/* Both pass a check together; the split index alone doesn't, as it has entries with an empty path. */
static void split_checked(const char *file, size_t entries) {
    uint32_t status = check_both(shared, shared_len);
    expect(status == GIX_INDEX_DONE && said.entries == entries, "both don't pass", status, said.entries);
    expect(said.has_link == 0 && said.path_bytes == 0, "a link that is left", said.has_link, said.path_bytes);
    status = gix_index_check(bytes, bytes_len, form.kind, false, text, sizeof text, &said);
    expect(status == GIX_INDEX_REFUSED && said.has_link == 1, "one alone passes", status, said.has_link);
    status = gix_index_check_file(file, form.kind, text, sizeof text, &said);
    expect(status == GIX_INDEX_DONE && said.entries == entries, "the file doesn't pass", status, said.entries);
    status = gix_index_check_split(wanted, wanted_len, shared, 0, form.kind, false, text, sizeof text, &said);
    expect(status == GIX_INDEX_DONE && said.entries == entries, "an index without a link doesn't pass", status, 0);
}

static void split(const char *file) {
    uint32_t status = read_bytes(bytes, bytes_len);
    size_t digest = form.kind == GIX_INDEX_SHA1 ? 20 : 32;
    expect(status == GIX_INDEX_DONE && said.has_link == 1, "no link is told", status, said.has_link);
    expect(!memcmp(said.shared_id, shared + shared_len - digest, digest), "another id is told", digest, 0);
    split_sizes();
    status = read_both(shared, shared_len, MOST / 16, MOST);
    holds_wanted(rows, paths, said.entries);
    refused_both(shared, 0, GIX_INDEX_FAULT_HEADER, "no shared index will do");
    refused_both(wanted, wanted_len, GIX_INDEX_FAULT_DIGEST, "another index will do");
    shared[20] ^= 1;
    refused_both(shared, shared_len, GIX_INDEX_FAULT_DIGEST, "a damaged index will do");
    shared[20] ^= 1;
    gix_index_table t;
    status = gix_index_read_file(file, form.kind, text, sizeof text, &t);
    expect(status == GIX_INDEX_DONE, "the file isn't read with its link", status, t.said.of_shared);
    holds_wanted(t.rows, t.paths, t.said.entries);
    split_checked(file, t.said.entries);
    gix_index_drop_table(&t);
}

/* A split index whose shared one isn't there: the statuses of both calls, and counts of 0. */
static void missing(const char *file) {
    gix_index_table t;
    uint32_t status = gix_index_read_file(file, form.kind, text, sizeof text, &t);
    expect(status == GIX_INDEX_SYSTEM && errno == ENOENT && t.said.of_shared == 1, "another status", status, errno);
    expect(!t.rows && !t.said.entries && !t.said.version, "counts without rows", t.said.entries, t.said.version);
    gix_index_drop_table(&t);
    status = gix_index_check_file(file, form.kind, text, sizeof text, &said);
    expect(status == GIX_INDEX_SYSTEM && errno == ENOENT && said.of_shared == 1, "another status", status, errno);
    expect(said.entries == 0 && said.version == 0, "counts of a check", said.entries, said.version);
}

/* ---- Once, where memory may be refused */

static void over_once(void) {
    gix_index_written told;
    if (read_bytes(bytes, bytes_len) != GIX_INDEX_DONE) {
        puts("memory");
        return;
    }
    memset(room, FILL, MOST);
    uint32_t status = write_over(bytes, bytes_len, room, MOST, &told);
    expect(status == GIX_INDEX_DONE || status == GIX_INDEX_MEMORY, "another status", status, told.fault);
    if (status == GIX_INDEX_DONE) {
        expect(told.bytes == wanted_len && !memcmp(room, wanted, wanted_len), "another index", told.bytes, wanted_len);
        return;
    }
    expect(is_filled(room, MOST) && told.bytes == 0, "a room that was written", told.bytes, 0);
    puts("memory");
}

static void split_once(void) {
    uint32_t status = read_both(shared, shared_len, MOST / 16, MOST);
    expect(status == GIX_INDEX_DONE || status == GIX_INDEX_MEMORY, "another status", status, said.fault);
    if (status == GIX_INDEX_MEMORY) puts("memory");
}

static void check_once(void) {
    uint32_t status = check_both(shared, shared_len);
    expect(status == GIX_INDEX_DONE || status == GIX_INDEX_MEMORY, "another status", status, said.fault);
    if (status == GIX_INDEX_MEMORY) puts("memory");
}

int main(int argc, char **argv) {
    if (argc < 5) return 1;
    begin(argv[2]);
    form.kind = kind;
    wanted_len = read_here(argv[3], wanted);
    bytes_len = read_here(argv[4], bytes);
    if (argc > 5) shared_len = read_here(argv[5], shared);
    if (!strcmp(argv[1], "over")) over(argv[4]);
    if (!strcmp(argv[1], "split")) split(argv[4]);
    if (!strcmp(argv[1], "missing")) missing(argv[4]);
    if (!strcmp(argv[1], "over-once")) over_once();
    if (!strcmp(argv[1], "split-once")) split_once();
    if (!strcmp(argv[1], "check-once")) check_once();
    return end();
}
