/* SPDX-License-Identifier: MIT OR Apache-2.0 */
/* Lists the entries of an index as `git ls-files -s` does. Paths are printed without quotes.
 *
 * Usage: list sha1|sha256 FILE
 *
 * The status is 1 if FILE can't be read or isn't a valid index, with a line on standard error, and 2 for a usage
 * error. */
#define _POSIX_C_SOURCE 200809L
#include "table.h"

static void print_row(const gix_index_row *row, const uint8_t *paths) {
    size_t len = row->kind == GIX_INDEX_SHA1 ? 20 : 32;
    printf("%06o ", row->mode);
    for (size_t i = 0; i < len; i++) printf("%02x", row->id[i]);
    printf(" %u\t", row->stage);
    fwrite(paths + row->path_start, 1, row->path_len, stdout);
    putchar('\n');
}

int main(int argc, char **argv) {
    if (argc != 3 || !kind_of(argv[1])) {
        fputs("usage: list sha1|sha256 FILE\n", stderr);
        return 2;
    }
    gix_index_table t;
    bool is_read = read_table("list", argv[2], kind_of(argv[1]), &t);
    for (size_t i = 0; is_read && i < t.said.entries; i++) print_row(t.rows + i, t.paths);
    gix_index_drop_table(&t);
    return is_read && fflush(stdout) == 0 ? 0 : 1;
}
