/* SPDX-License-Identifier: MIT OR Apache-2.0 */
/* Prints which files of a work tree differ from its index, by their stats alone.
 *
 * Usage: status sha1|sha256 FOLDER
 *
 * FOLDER is the top of a work tree, and FOLDER/.git/index its index. For each entry whose file differs it prints a
 * line: a letter, a tab and the path without quotes.
 *
 * - D: the file is missing.
 * - T: it is of another type.
 * - M: it changed, or its bit for execution.
 * - R: its stat is equal, but it is no older than the index, so its contents have to be compared.
 * - A: it is only intended to be added.
 * - U: it is in conflict.
 *
 * Submodules, directories of a sparse index, and entries that are assumed unchanged or skipped are ignored.
 *
 * The status is 1 if the index can't be read, and 2 for a usage error. */
#define _POSIX_C_SOURCE 200809L
#include "table.h"

/* Returns the letter of an entry whose file has this path, or 0. */
static char letter_of(const gix_index_row *row, const char *path, struct timespec written) {
    const gix_index_comparison by_default = GIX_INDEX_COMPARISON;
    struct stat at;
    gix_index_row seen = {0};
    if (row->stage) return 'U';
    if (row->flags & (GIX_INDEX_ASSUME_VALID | GIX_INDEX_SKIP_WORKTREE)) return 0;
    if (row->mode == GIX_INDEX_COMMIT || row->mode == GIX_INDEX_DIRECTORY) return 0;
    if (lstat(path, &at) != 0 || S_ISDIR(at.st_mode)) return 'D';
    if (row->flags & GIX_INDEX_INTENT_TO_ADD) return 'A';
    if (!gix_index_set_stat(&seen, &at) || (row->mode == GIX_INDEX_LINK) != (seen.mode == GIX_INDEX_LINK)) return 'T';
    if (row->mode != seen.mode || !gix_index_matches(row, &seen, &by_default)) return 'M';
    return gix_index_is_racy(row, written.tv_sec, (uint32_t)written.tv_nsec, &by_default) ? 'R' : 0;
}

int main(int argc, char **argv) {
    gix_index_table t;
    char path[4097] = "", last[sizeof path];
    if (argc != 3 || !kind_of(argv[1])) return fputs("usage: status sha1|sha256 FOLDER\n", stderr), 2;
    if (chdir(argv[2]) != 0) return perror(argv[2]), 1;
    bool is_read = read_table("status", ".git/index", kind_of(argv[1]), &t);
    for (size_t i = 0; is_read && i < t.said.entries; i++) {
        const gix_index_row *row = t.rows + i;
        memcpy(last, path, sizeof path);
        snprintf(path, sizeof path, "%.*s", (int)row->path_len, (const char *)t.paths + row->path_start);
        char letter = letter_of(row, path, t.mtime);
        if (letter && strcmp(path, last) != 0) printf("%c\t%s\n", letter, path);
    }
    gix_index_drop_table(&t);
    return is_read && fflush(stdout) == 0 ? 0 : 1;
}
