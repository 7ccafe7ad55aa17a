/* SPDX-License-Identifier: MIT OR Apache-2.0 */
/* Checks an index as `index-tool check` does, with its link followed: the entries have to be in order, and the cached
 * tree has to be consistent.
 *
 * Usage: check sha1|sha256 FILE
 *
 * It prints ok. The status is 1 if FILE can't be read or doesn't pass, with a line on standard error, and 2 for a usage
 * error. */
#define _POSIX_C_SOURCE 200809L
#include "table.h"

int main(int argc, char **argv) {
    if (argc != 3 || !kind_of(argv[1])) {
        fputs("usage: check sha1|sha256 FILE\n", stderr);
        return 2;
    }
    uint8_t text[8192];
    gix_index_summary said;
    uint32_t status = gix_index_check_file(argv[2], kind_of(argv[1]), text, sizeof text, &said);
    if (status != GIX_INDEX_DONE) {
        tell("check", argv[2], status, &said, text);
        return 1;
    }
    puts("ok");
    return fflush(stdout) == 0 ? 0 : 1;
}
