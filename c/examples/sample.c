/* SPDX-License-Identifier: MIT OR Apache-2.0 */
/* Prints the id that an index has staged at a path, or none.
 *
 * Usage: sample INDEX PATH
 *
 * INDEX is an index of SHA-1 with at most 10,000 entries. Of a split index only its own entries are read. The status is
 * 1 if it can't be read or isn't a valid index, with a line on standard error, and 2 for a usage error. */
#define _POSIX_C_SOURCE 200809L
#include "table.h"

static gix_index_row rows[10000];
static uint8_t paths[1000000], text[300];

/* Returns the status of reading an index, and in found the row at the path, or NULL. */
static uint32_t row_at(const uint8_t *bytes, size_t len, const char *path, const gix_index_row **found) {
    gix_index_summary said = {0};
    uint32_t status = gix_index_read(bytes, len, GIX_INDEX_SHA1, false, rows, sizeof rows / sizeof *rows,
                                     paths, sizeof paths, text, sizeof text, &said);
    size_t place = status != GIX_INDEX_DONE ? said.entries :
        gix_index_find(rows, said.entries, paths, said.path_bytes, (const uint8_t *)path, strlen(path), 0);
    *found = place < said.entries ? rows + place : NULL;
    return status;
}

int main(int argc, char **argv) {
    if (argc != 3) {
        fputs("usage: sample INDEX PATH\n", stderr);
        return 2;
    }
    size_t len;
    uint8_t *bytes = gix_index_bytes_of(argv[1], &len);
    if (!bytes) {
        fprintf(stderr, "sample: %s: %s\n", argv[1], strerror(errno));
        return 1;
    }
    const gix_index_row *row;
    uint32_t status = row_at(bytes, len, argv[2], &row);
    free(bytes);
    if (status != GIX_INDEX_DONE) {
        fprintf(stderr, "sample: %s: status %u\n", argv[1], status);
        return 1;
    }
    for (size_t i = 0; row && i < 20; i++) printf("%02x", row->id[i]);
    puts(row ? "" : "none");
    return fflush(stdout) == 0 ? 0 : 1;
}
