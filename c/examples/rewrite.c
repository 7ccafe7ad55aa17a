/* SPDX-License-Identifier: MIT OR Apache-2.0 */
/* Writes an index to another file, or over itself, under a lock that is acquired before FILE is read. It preserves the
 * cached tree, if this matches the entries, and the mark of a sparse index, but no other extension. A link to a shared
 * index is followed.
 *
 * Usage: rewrite sha1|sha256 FILE OUT [4]
 *
 * The version is 4 if that of FILE is, or with the last argument; else 2, or 3 if the flags require it. OUT gets the
 * time of FILE, and keeps its permissions. The status is 1 if FILE can't be read or isn't a valid index, or if OUT
 * can't be locked or written, with a line on standard error. It is 2 for a usage error. */
#define _POSIX_C_SOURCE 200809L
#include "table.h"

int main(int argc, char **argv) {
    bool is_four = argc == 5 && strcmp(argv[4], "4") == 0;
    uint32_t kind = argc > 1 ? kind_of(argv[1]) : 0;
    if ((argc != 4 && !is_four) || !kind) {
        fputs("usage: rewrite sha1|sha256 FILE OUT [4]\n", stderr);
        return 2;
    }
    gix_index_lock lock;
    gix_index_table t = {0};
    bool is_written = lock_file("rewrite", argv[3], &lock) && read_table("rewrite", argv[2], kind, &t) &&
                      commit_table("rewrite", argv[3], &lock, &t, kind, is_four ? 4 : 2);
    gix_index_rollback(&lock);
    gix_index_drop_table(&t);
    return is_written ? 0 : 1;
}
