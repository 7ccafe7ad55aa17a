/* What the callers in C of tests/ share: checks that are counted, rooms that are filled, and the bytes of files.
 *
 * It is C and C++ at once, as the headers of c/ are. */
#ifndef CHECK_H
#define CHECK_H

#ifndef _POSIX_C_SOURCE
#define _POSIX_C_SOURCE 200809L
#endif
#include "gix_index_file.h"

/* The most bytes of a file, and the byte of which a room is full before a call. */
#define MOST 65536
#define FILL 0x5a

/* The kind of ids of all that is read and written, and how many checks failed. */
static uint32_t kind;
static int faults;

/* Counts a check, and prints what isn't so, with two numbers. */
static inline void expect(bool holds, const char *what, size_t one, size_t two) {
    if (holds) return;
    faults++;
    printf("%s (%lu, %lu)\n", what, (unsigned long)one, (unsigned long)two);
}

/* The same without numbers. */
static inline void hold(bool holds, const char *what) {
    if (holds) return;
    faults++;
    puts(what);
}

static inline bool is_filled(const void *at, size_t len) {
    const uint8_t *byte = (const uint8_t *)at;
    for (size_t i = 0; i < len; i++)
        if (byte[i] != FILL) return false;
    return true;
}

/* Takes the word of a kind, and has each line printed at once. */
static inline void begin(const char *word) {
    setvbuf(stdout, NULL, _IONBF, 0);
    kind = strcmp(word, "sha256") ? GIX_INDEX_SHA1 : GIX_INDEX_SHA256;
}

/* Reads a file into a room of MOST bytes, and tells how many it has. */
static inline size_t read_here(const char *path, uint8_t *to) {
    int file = open(path, O_RDONLY);
    ssize_t len = read(file, to, MOST);
    if (len < 0) exit(1);
    close(file);
    return (size_t)len;
}

/* Prints 'ok' where all checks hold. */
static inline int end(void) {
    if (faults == 0) puts("ok");
    return 0;
}

#endif
