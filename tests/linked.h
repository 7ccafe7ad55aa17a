/* What tests/linked.c and tests/written.c share: the bytes of a file, and tables, filled before they are read. */
#ifndef LINKED_H
#define LINKED_H

#include "check.h"

static uint8_t bytes[MOST];
static size_t bytes_len;

/* A table of its own memory, filled, of just so many rows and bytes. */
typedef struct {
    gix_index_row *rows;
    uint8_t *paths, text[200];
    size_t rows_len, paths_len;
    gix_index_summary said;
    uint32_t status;
} table;

static inline void make(table *t, size_t rows, size_t paths) {
    t->rows_len = rows;
    t->paths_len = paths;
    t->rows = malloc(rows * sizeof *t->rows);
    t->paths = malloc(paths);
    if (!t->rows || !t->paths) exit(3);
    memset(t->rows, FILL, rows * sizeof *t->rows);
    memset(t->paths, FILL, paths);
    memset(t->text, FILL, sizeof t->text);
}

/* The summary is filled before each call, which has to write all of it. */
static inline void read_into(table *t) {
    memset(&t->said, FILL, sizeof t->said);
    t->status = gix_index_read(bytes, bytes_len, kind, false, t->rows, t->rows_len, t->paths, t->paths_len, t->text,
                               sizeof t->text, &t->said);
}

static inline void drop(table *t) {
    free(t->rows);
    free(t->paths);
}

/* Whether a summary tells this and no more. */
static inline bool tells(const gix_index_summary *said, gix_index_summary wanted) {
    return !memcmp(said, &wanted, sizeof wanted);
}

/* Whether the first rows and bytes are those of another table. */
static inline bool has_same(const table *t, const table *whole) {
    return !memcmp(t->rows, whole->rows, whole->said.entries * sizeof *t->rows) &&
           !memcmp(t->paths, whole->paths, whole->said.path_bytes);
}

static inline void whole_table(table *t) {
    make(t, MOST / 16, MOST);
    read_into(t);
    expect(t->status == GIX_INDEX_DONE, "the file isn't read", t->rows_len, t->paths_len);
    size_t path_bytes = 0;
    for (size_t i = 0; i < t->said.entries; i++) path_bytes += t->rows[i].path_len;
    gix_index_summary wanted = {.entries = t->said.entries, .path_bytes = path_bytes, .version = t->said.version};
    expect(tells(&t->said, wanted), "more is told of a table", t->said.entries, t->said.path_bytes);
}

/* Reads once, into memory that is there already. Refused memory, the library leaves all but the summary as it was. */
static inline bool once(table *t) {
    static gix_index_row rows[MOST / 16];
    static uint8_t paths[MOST];
    *t = (table){.rows = rows, .paths = paths, .rows_len = MOST / 16, .paths_len = MOST};
    memset(rows, FILL, sizeof rows);
    memset(paths, FILL, sizeof paths);
    memset(t->text, FILL, sizeof t->text);
    read_into(t);
    expect(t->status == GIX_INDEX_DONE || t->status == GIX_INDEX_MEMORY, "another status", MOST / 16, MOST);
    if (t->status == GIX_INDEX_DONE) return true;
    expect(is_filled(rows, sizeof rows) && is_filled(paths, sizeof paths), "a table that was written", MOST / 16, MOST);
    expect(is_filled(t->text + t->said.text_bytes, sizeof t->text - t->said.text_bytes), "a text that goes on", 0, 0);
    puts("memory");
    return false;
}

/* Takes the kind and the bytes of the file behind the program's word, and says whether they are there. */
static inline bool load(int argc, char **argv) {
    if (argc != 4) return false;
    begin(argv[2]);
    bytes_len = read_here(argv[3], bytes);
    return true;
}

#endif
