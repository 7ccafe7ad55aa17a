/* What test_called asks of reading, checking and searching, in one process: linked WORD KIND FILE.
 *
 * sizes     reads the file into tables of each size, from none up to one too large
 * numbers   reads and checks it as of kinds that are none, and with a wrong digest: the summary is written whole
 * searches  looks for each front of each path, as a prefix and as a directory, and holds what is found against a look
 *           at each row
 * once      reads it without a request for memory of its own, so that each is the library's
 * sound     checks it so, which it has to pass
 * fallen    checks it so, where the entry at place 1 isn't above the first
 *
 * A line on standard output for each thing that isn't so, or 'ok'. The status is 1 where a file can't be read here. */
#include "linked.h"

static void try_size(size_t rows, size_t paths, const table *whole) {
    table t;
    size_t entries = whole->said.entries, path_bytes = whole->said.path_bytes;
    bool fits = rows >= entries && paths >= path_bytes;
    make(&t, rows, paths);
    read_into(&t);
    expect(t.status == (fits ? GIX_INDEX_DONE : GIX_INDEX_NO_ROOM), "another status", rows, paths);
    expect(tells(&t.said, whole->said), "another summary", rows, paths);
    expect(is_filled(t.text, sizeof t.text), "a text", rows, paths);
    if (fits) {
        expect(has_same(&t, whole), "another table", rows, paths);
        expect(is_filled(t.rows + entries, (rows - entries) * sizeof *t.rows), "rows behind", rows, paths);
        expect(is_filled(t.paths + path_bytes, paths - path_bytes), "paths behind", rows, paths);
    } else {
        expect(is_filled(t.rows, rows * sizeof *t.rows), "rows that were written", rows, paths);
        expect(is_filled(t.paths, paths), "paths that were written", rows, paths);
    }
    drop(&t);
}

/* What each call that reads or checks tells of these bytes: this status, and but for the length of its text this. */
static void try_each(uint32_t of_kind, uint32_t wanted_status, gix_index_summary wanted, const char *what) {
    for (int call = 0; call < 4; call++) {
        table t;
        make(&t, 4, 4);
        memset(&t.said, FILL, sizeof t.said);
        if (call == 0)
            t.status = gix_index_read(bytes, bytes_len, of_kind, false, t.rows, 4, t.paths, 4, t.text, sizeof t.text,
                                      &t.said);
        if (call == 1)
            t.status = gix_index_read_split(bytes, bytes_len, bytes, bytes_len, of_kind, false, t.rows, 4, t.paths, 4,
                                            t.text, sizeof t.text, &t.said);
        if (call == 2)
            t.status = gix_index_check(bytes, bytes_len, of_kind, false, t.text, sizeof t.text, &t.said);
        if (call == 3)
            t.status = gix_index_check_split(bytes, bytes_len, bytes, bytes_len, of_kind, false, t.text, sizeof t.text,
                                             &t.said);
        bool has_text = wanted_status == GIX_INDEX_REFUSED;
        size_t len = has_text && t.said.text_bytes <= sizeof t.text ? t.said.text_bytes : 0;
        if (has_text) wanted.text_bytes = t.said.text_bytes;
        expect(t.status == wanted_status && tells(&t.said, wanted), what, t.status, call);
        expect((len != 0) == has_text && is_filled(t.text + len, sizeof t.text - len), "another text", len, call);
        expect(is_filled(t.rows, 4 * sizeof *t.rows) && is_filled(t.paths, 4), "a table that was written", call, 0);
        drop(&t);
    }
}

/* Kinds that are none, and bytes that are refused. */
static void numbers(void) {
    const uint32_t kinds[] = {0, 3, UINT32_MAX};
    for (size_t i = 0; i < sizeof kinds / sizeof *kinds; i++)
        try_each(kinds[i], GIX_INDEX_WRONG_NUMBER, (gix_index_summary){0}, "a kind that is none is let through");
    bytes[bytes_len - 1] ^= 1;
    try_each(kind, GIX_INDEX_REFUSED, (gix_index_summary){.fault = GIX_INDEX_FAULT_DIGEST}, "another fault is told");
    bytes[bytes_len - 1] ^= 1;
}

static void sizes(void) {
    table whole;
    whole_table(&whole);
    for (size_t rows = 0; rows <= whole.said.entries + 1; rows++)
        for (size_t paths = 0; paths <= whole.said.path_bytes + 1; paths++) try_size(rows, paths, &whole);
    drop(&whole);
}

static bool begins_with(const table *t, size_t place, const uint8_t *front, size_t len) {
    const gix_index_row *row = t->rows + place;
    return row->path_len >= len && !memcmp(t->paths + row->path_start, front, len);
}

static bool is_at(const table *t, size_t place, const uint8_t *path, size_t len) {
    return t->rows[place].path_len == len && begins_with(t, place, path, len);
}

static bool is_below(const table *t, size_t place, const uint8_t *directory, size_t len) {
    const gix_index_row *row = t->rows + place;
    return row->path_len > len && begins_with(t, place, directory, len) && t->paths[row->path_start + len] == '/';
}

static void try_prefix(const table *t, const uint8_t *front, size_t len) {
    size_t count = t->said.entries, start = 0, end;
    gix_index_places told = {count + 7, count + 8};
    while (start < count && !begins_with(t, start, front, len)) start++;
    for (end = start; end < count && begins_with(t, end, front, len);) end++;
    uint32_t status = gix_index_find_prefix(t->rows, count, t->paths, t->said.path_bytes, front, len, &told);
    if (start < end || len == 0)
        expect(status == GIX_INDEX_DONE && told.start == start && told.end == end, "another range", start, end);
    else
        expect(status == GIX_INDEX_NONE && told.start == count + 7 && told.end == count + 8, "a range", start, end);
}

static void try_directory(const table *t, const uint8_t *path, size_t len) {
    size_t count = t->said.entries, itself = count, below = count;
    bool is_there = false;
    for (size_t i = count; i-- > 0;) {
        uint32_t mode = t->rows[i].mode;
        is_there = is_there || is_at(t, i, path, len);
        if (is_at(t, i, path, len) && (mode == GIX_INDEX_DIRECTORY || mode == GIX_INDEX_COMMIT)) itself = i;
        if (is_below(t, i, path, len)) below = i;
    }
    size_t told = gix_index_closest(t->rows, count, t->paths, t->said.path_bytes, path, len);
    expect(told == (is_there ? itself : below), "another closest row", told, len);
}

/* Whether a row's path begins with these bytes, with the case of ASCII letters ignored. */
static bool begins_folded(const table *t, size_t place, const uint8_t *front, size_t len) {
    const gix_index_row *row = t->rows + place;
    bool is_same = row->path_len >= len;
    for (size_t i = 0; is_same && i < len; i++) {
        uint8_t a = t->paths[row->path_start + i], b = front[i];
        is_same = a == b || ((a ^ b) == 0x20 && (a | 0x20) >= 'a' && (a | 0x20) <= 'z');
    }
    return is_same;
}

/* The path is looked for with each letter in the other case. */
static void try_folded(const table *t, const uint8_t *path, size_t len) {
    size_t count = t->said.entries, wanted = count;
    uint8_t *other = malloc(len + 1);
    if (!other) exit(3);
    for (size_t i = 0; i < len; i++) {
        bool is_letter = (path[i] | 0x20) >= 'a' && (path[i] | 0x20) <= 'z';
        other[i] = is_letter ? path[i] ^ 0x20 : path[i];
    }
    for (size_t i = count; i-- > 0;) {
        const gix_index_row *row = t->rows + i;
        if (!begins_folded(t, i, other, len)) continue;
        bool is_directory = row->mode == GIX_INDEX_DIRECTORY || row->mode == GIX_INDEX_COMMIT;
        if (row->path_len == len ? is_directory : t->paths[row->path_start + len] == '/') wanted = i;
    }
    size_t told = gix_index_closest_icase(t->rows, count, t->paths, t->said.path_bytes, other, len);
    expect(told == wanted, "another closest row in another case", told, len);
    free(other);
}

/* Each front of each path, as it is and with another byte behind it. */
static void searches(void) {
    table whole;
    whole_table(&whole);
    for (size_t i = 0; i < whole.said.entries; i++) {
        const gix_index_row *row = whole.rows + i;
        for (size_t len = 0; len <= row->path_len; len++) {
            uint8_t *front = malloc(len + 1);
            if (!front) exit(3);
            memcpy(front, whole.paths + row->path_start, len);
            try_prefix(&whole, front, len);
            try_directory(&whole, front, len);
            try_folded(&whole, front, len);
            for (const char *byte = "/!z\377"; *byte; byte++) {
                front[len] = *byte;
                try_prefix(&whole, front, len + 1);
                try_directory(&whole, front, len + 1);
                try_folded(&whole, front, len + 1);
            }
            free(front);
        }
        size_t place = gix_index_find(whole.rows, whole.said.entries, whole.paths, whole.said.path_bytes,
                                      whole.paths + row->path_start, row->path_len, row->stage);
        expect(place == i, "another place", place, i);
    }
    drop(&whole);
}

/* Checks once, without memory of its own. What a text doesn't take stays as it was. */
static void check(uint32_t wanted) {
    uint8_t text[200];
    gix_index_summary said;
    memset(text, FILL, sizeof text);
    uint32_t status = gix_index_check(bytes, bytes_len, kind, false, text, sizeof text, &said);
    expect(status == wanted || status == GIX_INDEX_MEMORY, "another status", status, said.fault);
    expect(is_filled(text + said.text_bytes, sizeof text - said.text_bytes), "a text that goes on", 0, 0);
    if (status == GIX_INDEX_REFUSED)
        expect(said.fault == GIX_INDEX_FAULT_ORDER && said.fault_place == 1, "another fault", said.fault,
               said.fault_place);
    if (status == GIX_INDEX_MEMORY)
        puts("memory");
    else
        expect(said.entries != 0 && said.path_bytes == 0 && said.version != 0, "other counts", said.entries, 0);
}

int main(int argc, char **argv) {
    if (!load(argc, argv)) return 1;
    table read_once;
    if (!strcmp(argv[1], "sizes")) sizes();
    if (!strcmp(argv[1], "numbers")) numbers();
    if (!strcmp(argv[1], "searches")) searches();
    if (!strcmp(argv[1], "once")) once(&read_once);
    if (!strcmp(argv[1], "sound")) check(GIX_INDEX_DONE);
    if (!strcmp(argv[1], "fallen")) check(GIX_INDEX_REFUSED);
    return end();
}
