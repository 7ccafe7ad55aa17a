/* SPDX-License-Identifier: MIT OR Apache-2.0 */
/* Lists the paths in conflict of an index, or resolves them in place, under its lock, by one side of the merge.
 *
 * Usage: resolve sha1|sha256 INDEX [base|ours|theirs [PATH..]]
 *
 * With a side, each PATH in conflict is staged as that side has it, or removed if the side has none. Without PATH, this
 * is done for all paths in conflict. The file in the work tree is unchanged. A line is printed for each path that is in
 * conflict or was resolved. The status is 1 if INDEX can't be locked, read or written, with a line on standard error,
 * and 2 for a usage error. */
#define _POSIX_C_SOURCE 200809L
#include "table.h"

static const char *const sides[] = {"", "base", "ours", "theirs"}; /* by their stages */

/* Returns whether a row's path is one of these, or there are none. */
static bool is_asked(const gix_index_table *t, const gix_index_row *row, char **paths) {
    if (!*paths) return true;
    for (; *paths; paths++)
        if (is_at(t, row, *paths, strlen(*paths))) return true;
    return false;
}

int main(int argc, char **argv) {
    uint32_t kind = argc > 2 ? kind_of(argv[1]) : 0, side = argc > 3 ? 3 : 0;
    while (side && strcmp(sides[side], argv[3]) != 0) side--;
    if (!kind || (argc > 3 && !side))
        return fputs("usage: resolve sha1|sha256 INDEX [base|ours|theirs [PATH..]]\n", stderr), 2;
    gix_index_lock lock;
    gix_index_table t;
    bool is_done = read_locked("resolve", argv[2], kind, &lock, &t);
    size_t count = 0; /* of the changes, one for each path, which are put in front of the rows */
    for (size_t i = 0; is_done && i < t.said.entries; i++) {
        gix_index_row row = t.rows[i];
        if (!row.stage || !is_asked(&t, &row, argc > 3 ? argv + 4 : argv + argc)) continue;
        bool is_next = count == 0 || !is_at(&t, t.rows + count - 1, t.paths + row.path_start, row.path_len);
        if (is_next) printf("%.*s\n", (int)row.path_len, (const char *)t.paths + row.path_start);
        if (is_next) count++;
        if (!is_next && row.stage != side) continue;
        row.flags = row.stage == side ? row.flags & ~GIX_INDEX_STAGE_MASK : GIX_INDEX_REMOVE;
        row.stage = 0;
        t.rows[count - 1] = row;
    }
    if (is_done && side)
        is_done = commit_changes("resolve", argv[2], &lock, kind, t.rows, count, t.paths, t.said.path_bytes);
    return release(&lock, &t), is_done && fflush(stdout) == 0 ? 0 : 1;
}
