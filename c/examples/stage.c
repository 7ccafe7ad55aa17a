/* SPDX-License-Identifier: MIT OR Apache-2.0 */
/* Stages or unstages a path in place, under the lock of the index, as `git update-index` does.
 *
 * Usage: stage sha1|sha256 INDEX PATH [ID]
 *
 * PATH is relative to the top of the work tree, as git lists it. Run this program there. With ID, which `git
 * hash-object -w PATH` prints, the file there is staged with its mode and stat (or a submodule, at the commit ID).
 * Entries in its way are removed. Without ID, PATH is removed, and all entries below it; the work tree is unchanged. A
 * path in a directory of a sparse index is rejected. INDEX has to exist. The status is 1 if that can't be done, with a
 * line on standard error, and 2 for a usage error. */
#define _POSIX_C_SOURCE 200809L
#include "table.h"

/* Stores the stat, mode and id of a file in a row. Returns whether it succeeded. */
static bool fill(gix_index_row *row, const char *path, const char *id) {
    struct stat seen;
    size_t digits = row->kind == GIX_INDEX_SHA1 ? 40 : 64;
    bool is_id = strlen(id) == digits && strspn(id, "0123456789abcdef") == digits;
    for (size_t i = 0; is_id && i < digits / 2; i++) sscanf(id + 2 * i, "%2hhx", row->id + i);
    return is_id && lstat(path, &seen) == 0 && gix_index_set_stat(row, &seen);
}

int main(int argc, char **argv) {
    gix_index_row change = {.kind = argc > 3 ? kind_of(argv[1]) : 0};
    if (!change.kind || argc > 5) return fputs("usage: stage sha1|sha256 INDEX PATH [ID]\n", stderr), 2;
    const char *path = argv[3], *id = argv[4];
    gix_index_lock lock;
    gix_index_table t;
    size_t count = 0, len = change.path_len = strlen(path);
    bool is_read = read_locked("stage", argv[2], change.kind, &lock, &t);
    bool is_done = is_read && (!id || fill(&change, path, id));
    for (size_t i = 0; is_done && i < t.said.entries; i++) {
        gix_index_row row = t.rows[i];
        const char *other = (const char *)t.paths + row.path_start;
        if (memcmp(other, path, row.path_len < len ? row.path_len : len) != 0) continue;
        if (row.mode == GIX_INDEX_DIRECTORY && row.path_len <= len) is_done = false;
        row.flags |= GIX_INDEX_REMOVE;
        /* (the rows to be removed come first) */
        if (row.path_len == len || (row.path_len > len && other[len] == '/')) t.rows[count++] = row;
    }
    if (is_read && !is_done) fprintf(stderr, "stage: %s: it can't be staged\n", path);
    if (is_done && id) is_done = commit_changes("stage", argv[2], &lock, change.kind, &change, 1, path, len);
    if (is_done && !id)
        is_done = commit_changes("stage", argv[2], &lock, change.kind, t.rows, count, t.paths, t.said.path_bytes);
    return release(&lock, &t), is_done ? 0 : 1;
}
