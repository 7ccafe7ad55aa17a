/* What tests/test_fuzz.py runs on bytes that clang's libFuzzer makes up: readings, checks, searches and writings of
 * c/gix_index.h. It aborts, with a line on standard error, where an answer isn't as the header says.
 *
 * An input is a byte of switches (below), four with the length of a shared index, lowest first, an index, and the
 * shared one. Each room that the library gets ends where memory may not be touched, as the library isn't built with the
 * compiler's sanitizers. Nor does it count which of its branches were taken: what guides libFuzzer is what the calls
 * answer, of which each new mixture counts as a branch. */
#define _DEFAULT_SOURCE
#include "gix_index.h"

#include <stdio.h>
#include <stdlib.h>
#include <string.h>
#include <sys/mman.h>

enum { IS_SHA256 = 1, IS_VERSION_4 = 2, IS_TRAILER_KEPT = 4, IS_SPLIT = 8 };
enum { HEAD = 5, MOST = 16 << 20, FEATURES = 1 << 14 };
enum { BYTES, SHARED, ROWS, PATHS, TEXT, OUT, OTHER_ROWS, OTHER_PATHS, OTHER_OUT, ROOMS };

/* An index as bytes, alone or with its shared one. */
typedef struct {
    const uint8_t *bytes, *shared;
    size_t len, shared_len;
    uint32_t kind;
    bool is_split;
} input;

typedef struct {
    gix_index_row *rows;
    uint8_t *paths;
    gix_index_summary said;
} table;

static uint8_t seen[FEATURES] __attribute__((section("__libfuzzer_extra_counters")));

static void expect(bool holds, const char *what) {
    if (holds) return;
    fprintf(stderr, "not so: %s\n", what);
    abort();
}

/* Notes an answer: what was asked, and what came of it. */
static void note(uint32_t asked, size_t answer) { seen[(asked * 2654435761u + answer * 40503u) % FEATURES] = 1; }

/* How many bits a number has, of which some count. */
static size_t bits_of(size_t number) {
    size_t bits = 0;
    for (; number; number >>= 1) bits++;
    return bits;
}

/* A room for so many bytes with none behind that may be touched; NULL where they are too many. */
static void *room(int which, size_t len) {
    static uint8_t *ends[ROOMS];
    if (!ends[which]) {
        uint8_t *start = mmap(NULL, MOST + 4096, PROT_READ | PROT_WRITE, MAP_PRIVATE | MAP_ANONYMOUS, -1, 0);
        expect(start != MAP_FAILED && mprotect(start + MOST, 4096, PROT_NONE) == 0, "there is memory");
        ends[which] = start + MOST;
    }
    return len <= MOST ? ends[which] - len : NULL;
}

/* Notes the first words of a fault, whose numbers don't count. */
static void note_text(uint32_t asked, const uint8_t *text, size_t len) {
    size_t sum = 0;
    for (size_t i = 0; i < len && i < 24; i++)
        if (text[i] < '0' || text[i] > '9') sum = sum * 31 + text[i];
    note(asked, sum);
}

static uint32_t read_into(const input *in, table *t, size_t rows_len, size_t paths_len) {
    const size_t text_len = 300;
    uint8_t *text = room(TEXT, text_len);
    uint32_t status =
        in->is_split ? gix_index_read_split(in->bytes, in->len, in->shared, in->shared_len, in->kind, false, t->rows,
                                            rows_len, t->paths, paths_len, text, text_len, &t->said)
                     : gix_index_read(in->bytes, in->len, in->kind, false, t->rows, rows_len, t->paths, paths_len, text,
                                      text_len, &t->said);
    note(1 + in->is_split, status * 64 + t->said.fault);
    if (status == GIX_INDEX_REFUSED) note_text(3 + t->said.of_shared, text, t->said.text_bytes);
    expect(status <= GIX_INDEX_NO_ROOM, "a status of a reading");
    return status;
}

/* Reads a table in rooms of just its sizes, and tells whether there is one. */
static bool read_table(const input *in, table *t, int rows, int paths) {
    memset(t, 0, sizeof *t);
    uint32_t status = read_into(in, t, 0, 0);
    if (status != GIX_INDEX_NO_ROOM && status != GIX_INDEX_DONE) return false;
    size_t entries = t->said.entries, path_bytes = t->said.path_bytes;
    t->rows = entries <= MOST / sizeof *t->rows ? room(rows, entries * sizeof *t->rows) : NULL;
    t->paths = room(paths, path_bytes);
    if (!t->rows || !t->paths) return false;
    memset(t->rows, 0xa5, entries * sizeof *t->rows);
    if (entries > 0) {
        expect(read_into(in, t, entries - 1, path_bytes) == GIX_INDEX_NO_ROOM, "a row lacks room");
        for (size_t i = 0; i < entries * sizeof *t->rows; i++)
            expect(((uint8_t *)t->rows)[i] == 0xa5, "rows stay where there is no room");
    }
    status = read_into(in, t, entries, path_bytes);
    expect(status == GIX_INDEX_DONE || status == GIX_INDEX_MEMORY, "rooms of the sizes that were told suffice");
    if (status != GIX_INDEX_DONE) return false;
    expect(t->said.entries == entries && t->said.path_bytes == path_bytes, "sizes are told the same");
    note(5, bits_of(entries) * 64 + t->said.version * 4 + t->said.has_link);
    for (size_t i = 0; i < entries; i++) {
        const gix_index_row *row = t->rows + i;
        expect(row->path_start <= path_bytes && row->path_len <= path_bytes - row->path_start, "a path among paths");
        expect(row->stage == (row->flags & GIX_INDEX_STAGE_MASK) >> 12 && row->kind == in->kind, "stage and kind");
        note(6, row->flags >> 12);
        note(7, row->mode >> 9);
        note(8, bits_of(row->path_len));
    }
    return true;
}

/* Whether entries are in order and the cached tree holds together. */
static bool is_sound(const input *in) {
    const size_t text_len = 300;
    uint8_t *text = room(TEXT, text_len);
    gix_index_summary said;
    uint32_t status = in->is_split ? gix_index_check_split(in->bytes, in->len, in->shared, in->shared_len, in->kind,
                                                           false, text, text_len, &said)
                                   : gix_index_check(in->bytes, in->len, in->kind, false, text, text_len, &said);
    note(9, status * 64 + said.fault);
    if (status == GIX_INDEX_REFUSED) note_text(10, text, said.text_bytes);
    return status == GIX_INDEX_DONE;
}

static bool has_path(const table *t, size_t place, const uint8_t *path, size_t len) {
    const gix_index_row *row = t->rows + place;
    return row->path_len >= len && memcmp(t->paths + row->path_start, path, len) == 0;
}

/* Searches for a row's path, for a front of it, and for its directory. */
static void search(const table *t, size_t i, bool is_in_order) {
    const gix_index_row *rows = t->rows, *row = rows + i;
    const uint8_t *path = t->paths + row->path_start;
    size_t len = t->said.entries, paths_len = t->said.path_bytes, front = row->path_len / 2;
    size_t place = gix_index_find(rows, len, t->paths, paths_len, path, row->path_len, row->stage);
    expect(place <= len && (!is_in_order || place == i), "a row is found");
    if (place < len)
        expect(rows[place].path_len == row->path_len && has_path(t, place, path, row->path_len), "its path is so");
    size_t bound = gix_index_lower_bound(rows, len, t->paths, paths_len, path, row->path_len, row->stage);
    expect(bound <= len && (!is_in_order || bound == i), "it goes where it is");
    const gix_index_comparison by_default = GIX_INDEX_COMPARISON;
    expect(gix_index_matches(row, row, &by_default), "it matches itself");
    expect(gix_index_is_racy(row, row->mtime_secs, 0, &by_default), "it is racy at its own time");
    gix_index_places places = {0, 0};
    uint32_t status = gix_index_find_prefix(rows, len, t->paths, paths_len, path, front, &places);
    expect(status == GIX_INDEX_DONE || (status == GIX_INDEX_NONE && !is_in_order), "a front is found");
    expect(places.start <= places.end && places.end <= len, "places in the table");
    if (is_in_order) {
        expect(places.start <= i && i < places.end, "a row with the front is among the places");
        expect(has_path(t, places.start, path, front) && has_path(t, places.end - 1, path, front), "all have it");
    }
    while (front > 0 && path[front] != '/') front--;
    place = gix_index_closest(rows, len, t->paths, paths_len, path, front);
    expect(place <= len && (place == len || has_path(t, place, path, front)), "what is closest is below");
    note(11, (place < len) * 4 + (status == GIX_INDEX_DONE) * 2 + is_in_order);
}

/* Whether two tables have the same rows. */
static bool are_same(const table *one, const table *two) {
    if (one->said.entries != two->said.entries) return false;
    for (size_t i = 0; i < one->said.entries; i++) {
        gix_index_row row = one->rows[i];
        const gix_index_row *other = two->rows + i;
        if (row.path_len != other->path_len) return false;
        if (!has_path(two, i, one->paths + row.path_start, row.path_len)) return false;
        row.path_start = other->path_start;
        /* (up to the kind there are numbers of one size) */
        if (memcmp(&row, other, offsetof(gix_index_row, id)) != 0 || memcmp(row.id, other->id, sizeof row.id) != 0)
            return false;
    }
    return true;
}

/* Writes a table in a room of just its size, over an index where there is one, and tells how many bytes it has. */
static size_t write_table(const table *t, const input *over, gix_index_form form, int which, uint8_t **bytes) {
    gix_index_written told = {0};
    uint32_t status = GIX_INDEX_NO_ROOM;
    size_t len = 0;
    for (int turn = 0; turn < 2 && status == GIX_INDEX_NO_ROOM; turn++, len = told.bytes) {
        *bytes = room(which, len = told.bytes);
        if (!*bytes) return 0;
        status = over ? gix_index_write_over(t->rows, t->said.entries, t->paths, t->said.path_bytes, over->bytes,
                                             over->len, &form, *bytes, len, &told)
                      : gix_index_write(t->rows, t->said.entries, t->paths, t->said.path_bytes, &form, *bytes, len,
                                        &told);
        note(over ? 12 : 13, status * 64 + told.fault * 4 + told.tree);
    }
    expect(status <= GIX_INDEX_MEMORY, "a status of a writing");
    return status == GIX_INDEX_DONE ? told.bytes : 0;
}

/* Writes a table, and reads what was written. */
static void rewrite(const table *t, const input *over, gix_index_form form) {
    uint8_t *bytes, *again;
    table other;
    size_t len = write_table(t, over, form, OUT, &bytes);
    if (len == 0) return;
    input in = {.bytes = bytes, .len = len, .kind = form.kind};
    expect(read_table(&in, &other, OTHER_ROWS, OTHER_PATHS), "what is written is read");
    expect(are_same(t, &other), "what is written is read as the same rows");
    if (over) return;
    expect(is_sound(&in), "what is written is in order");
    expect(write_table(&other, NULL, form, OTHER_OUT, &again) == len, "what is read is written in as many bytes");
    expect(memcmp(bytes, again, len) == 0, "what is read is written as the same bytes");
}

/* Asks for the trees of the rows, which may have none, in rooms of just the sizes that are told. */
static void ask_for_trees(const table *t, uint32_t kind) {
    gix_index_given told = {0};
    gix_index_tree *trees = NULL;
    uint32_t status = GIX_INDEX_NO_ROOM;
    for (int turn = 0; turn < 2 && status == GIX_INDEX_NO_ROOM; turn++) {
        size_t trees_len = told.trees, len = told.bytes;
        trees = trees_len <= MOST / sizeof *trees ? room(OTHER_ROWS, trees_len * sizeof *trees) : NULL;
        uint8_t *bytes = room(OTHER_OUT, len);
        if (!trees || !bytes) return;
        status = gix_index_trees(t->rows, t->said.entries, t->paths, t->said.path_bytes, kind, trees, trees_len, bytes,
                                 len, &told);
        note(15, status * 64 + told.fault * 2);
    }
    expect(status <= GIX_INDEX_MEMORY, "a status of trees");
    if (status != GIX_INDEX_DONE) return;
    const gix_index_tree *last = trees + told.trees - 1;
    expect(last->start + last->len == told.bytes, "the last tree ends where the bytes do");
}

/* Takes a third of the rows as paths that go, and the others as entries that are staged, and reads what that makes. */
static void change(const table *t, const input *in) {
    gix_index_written told = {0};
    uint32_t status = GIX_INDEX_NO_ROOM;
    uint8_t *bytes = NULL;
    for (size_t i = 0; i < t->said.entries; i += 3) t->rows[i].flags |= GIX_INDEX_REMOVE;
    for (int turn = 0; turn < 2 && status == GIX_INDEX_NO_ROOM; turn++) {
        size_t len = told.bytes;
        bytes = room(OUT, len);
        if (!bytes) return;
        status = gix_index_update(t->rows, t->said.entries, t->paths, t->said.path_bytes, in->bytes, in->len,
                                  in->shared, in->shared_len, in->kind, bytes, len, &told);
        note(14, status * 64 + told.fault * 2 + told.of_shared);
    }
    expect(status <= GIX_INDEX_MEMORY, "a status of changes");
    table other;
    input made = {.bytes = bytes, .len = told.bytes, .kind = in->kind};
    expect(status || read_table(&made, &other, OTHER_ROWS, OTHER_PATHS), "what changes make is read");
}

/* The bytes in a room of their own, mostly with zeros in place of the digest, so that others aren't refused. */
static const uint8_t *copied(int which, const uint8_t *data, size_t len, bool is_kept, uint32_t kind) {
    size_t trailer = kind == GIX_INDEX_SHA1 ? 20 : 32;
    uint8_t *bytes = room(which, len);
    if (bytes && len > 0) memcpy(bytes, data, len);
    if (bytes && !is_kept && len >= trailer) memset(bytes + len - trailer, 0, trailer);
    return bytes;
}

int LLVMFuzzerTestOneInput(const uint8_t *data, size_t size);

int LLVMFuzzerTestOneInput(const uint8_t *data, size_t size) {
    if (size < HEAD) return 0;
    uint8_t set = data[0];
    size_t shared_len = data[1] | data[2] << 8 | data[3] << 16 | (size_t)data[4] << 24;
    shared_len = set & IS_SPLIT ? shared_len % (size - HEAD + 1) : 0;
    input in = {.kind = set & IS_SHA256 ? GIX_INDEX_SHA256 : GIX_INDEX_SHA1, .is_split = set & IS_SPLIT};
    in.len = size - HEAD - shared_len;
    in.shared_len = shared_len;
    in.bytes = copied(BYTES, data + HEAD, in.len, set & IS_TRAILER_KEPT, in.kind);
    in.shared = copied(SHARED, data + HEAD + in.len, shared_len, set & IS_TRAILER_KEPT, in.kind);
    table t;
    if (!in.bytes || !in.shared) return 0;
    bool is_checked = is_sound(&in), is_read = read_table(&in, &t, ROWS, PATHS);
    bool is_large = t.said.entries > MOST / sizeof *t.rows || t.said.path_bytes > MOST;
    expect(is_read || !is_checked || is_large, "what passes the check is read");
    if (!is_read) return 0;
    for (size_t i = 0; i < t.said.entries; i += 1 + t.said.entries / 8) search(&t, i, is_checked);
    if (t.said.has_link) return 0;
    gix_index_form form = {in.kind, set & IS_VERSION_4 ? 4 : 2, false};
    rewrite(&t, NULL, form);
    rewrite(&t, &in, form);
    ask_for_trees(&t, in.kind);
    change(&t, &in);
    return 0;
}
