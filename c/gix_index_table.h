/* SPDX-License-Identifier: MIT OR Apache-2.0 */
/* Reads and checks the index at a path, with its link followed, and passes the trees of a table to a function, for
 * POSIX systems. gix_index_file.h includes all of it, and also writes an index.
 *
 * The library itself opens no files. So this header is C code that isn't proved. With -std=c99, -std=c11 and the like,
 * define _POSIX_C_SOURCE as 200809L before the first #include. */
#ifndef GIX_INDEX_TABLE_H
#define GIX_INDEX_TABLE_H

#include "gix_index.h"

#include <errno.h>
#include <fcntl.h>
#include <stdio.h>
#include <stdlib.h>
#include <string.h>
#include <sys/stat.h>
#include <time.h>
#include <unistd.h>

/* The code below has C casts. Without these lines some compilers for C++ warn about them. */
#if defined __cplusplus && defined __GNUC__
#pragma GCC diagnostic push
#pragma GCC diagnostic ignored "-Wold-style-cast"
#endif

#ifndef UTIME_OMIT
#error "gix_index_table.h takes POSIX of 2008: define _POSIX_C_SOURCE as 200809L before the first header is included"
#endif

/* How the calls of the headers for files are linked. By default each source that includes them has functions of its
 * own. The shared library has the same calls by the same names, for callers in other languages; gix_index_file.c makes
 * them. Callers may also use gix_index_set_stat and gix_index_more_room. All other functions without GIX_INDEX_API are
 * parts of the calls, and may change. */
#ifndef GIX_INDEX_API
#define GIX_INDEX_API static inline
#endif

/* A status of calls for files in addition to those of gix_index.h: a system call failed, and errno has the reason. The
 * text is empty. For example, EFBIG is a file to be read with more than GIX_INDEX_MOST_BYTES, or without an end. EISDIR
 * is a directory to be read. */
#define GIX_INDEX_SYSTEM 6u

/* A status of gix_index_write_trees alone: the function that takes trees returned a number other than 0. */
#define GIX_INDEX_STOPPED 8u

/* The largest number of bytes of an index file: 2 to the 32nd, and the longest trailer. */
#define GIX_INDEX_MOST_BYTES 4294967328u

/* A table that owns its memory, and the bytes of the file from which it was read. gix_index_read_file fills it, and
 * gix_index_drop_table frees it. */
typedef struct {
    gix_index_row *rows; /* said.entries rows */
    uint8_t *paths;      /* said.path_bytes bytes */
    uint8_t *bytes;      /* all bytes of the file */
    size_t bytes_len;
    struct timespec mtime; /* of that file, as it was when it was read; zeros where the table wasn't read from one */
    gix_index_summary said;
} gix_index_table;

/* Frees the memory of a table. It is zeros afterwards, and another call does nothing. The table has to be one that
 * gix_index_read_file was given, or zeros. */
GIX_INDEX_API void gix_index_drop_table(gix_index_table *t) {
    free(t->rows);
    free(t->paths);
    free(t->bytes);
    memset(t, 0, sizeof *t);
}

/* Reserves memory for further rows and bytes of paths, after those that the summary counts. Returns false if an
 * allocation fails; then the table is unchanged. */
static inline bool gix_index_more_room(gix_index_table *t, size_t rows, size_t path_bytes) {
    size_t most = ((size_t)-1 >> 1) / sizeof *t->rows;
    if (rows > most - t->said.entries || path_bytes > (size_t)-1 - t->said.path_bytes - 1) return false;
    gix_index_row *more = (gix_index_row *)realloc(t->rows, (t->said.entries + rows + 1) * sizeof *more);
    if (more) t->rows = more;
    uint8_t *paths = more ? (uint8_t *)realloc(t->paths, t->said.path_bytes + path_bytes + 1) : NULL;
    if (paths) t->paths = paths;
    return paths != NULL;
}

/* Stores the stat of a file, usually that of lstat, in a row: its numbers, each modulo 2 to the 32nd as git stores it,
 * and its mode. Call lstat before the file is read for its id. So a later change of the file is noticed. A directory
 * gets the mode of a submodule, whose id is that of its commit. Returns false, and leaves the mode unchanged, for
 * another type than a regular file, a link or a directory. The other fields of the row are unchanged. */
static inline bool gix_index_set_stat(gix_index_row *row, const struct stat *seen) {
    row->ctime_secs = (uint32_t)seen->st_ctim.tv_sec;
    row->ctime_nsecs = (uint32_t)seen->st_ctim.tv_nsec;
    row->mtime_secs = (uint32_t)seen->st_mtim.tv_sec;
    row->mtime_nsecs = (uint32_t)seen->st_mtim.tv_nsec;
    row->dev = (uint32_t)seen->st_dev;
    row->ino = (uint32_t)seen->st_ino;
    row->uid = (uint32_t)seen->st_uid;
    row->gid = (uint32_t)seen->st_gid;
    row->size = (uint32_t)seen->st_size;
    if (S_ISREG(seen->st_mode)) row->mode = seen->st_mode & S_IXUSR ? GIX_INDEX_EXECUTABLE : GIX_INDEX_FILE;
    if (S_ISLNK(seen->st_mode)) row->mode = GIX_INDEX_LINK;
    if (S_ISDIR(seen->st_mode)) row->mode = GIX_INDEX_COMMIT;
    return S_ISREG(seen->st_mode) || S_ISLNK(seen->st_mode) || S_ISDIR(seen->st_mode);
}

/* Opens a file, and retries if a signal interrupts it. A new file has the permissions that the umask leaves. */
static inline int gix_index_open(const char *path, int flags) {
    int file;
    do file = open(path, flags | O_CLOEXEC, 0666);
    while (file < 0 && errno == EINTR);
    return file;
}

/* Doubles the memory, up to one byte more than a file may have. Returns NULL if that fails, with the reason in errno.
 * The old memory is freed in both cases. */
static inline uint8_t *gix_index_grow(uint8_t *bytes, size_t *room) {
    uint64_t most = GIX_INDEX_MOST_BYTES + 1, more = *room < most / 2 ? 2 * (uint64_t)*room : most;
    uint8_t *grown = more <= (size_t)-1 ? (uint8_t *)realloc(bytes, (size_t)more) : NULL;
    if (!grown) {
        free(bytes);
        errno = ENOMEM;
    }
    *room = (size_t)more;
    return grown;
}

/* Returns all bytes of an open file from its current position on. The caller frees them. Returns NULL if they can't be
 * read or are too many, with the reason in errno. room is the size of the first allocation, and at least 1. */
static inline uint8_t *gix_index_bytes_behind(int file, size_t room, size_t *len) {
    const size_t most_at_once = 1 << 30;
    uint8_t *bytes = (uint8_t *)malloc(room);
    for (*len = 0; bytes;) {
        size_t left = room - *len;
        ssize_t got = read(file, bytes + *len, left < most_at_once ? left : most_at_once);
        if (got == 0) break;
        if (got < 0 && errno == EINTR) continue;
        *len += got > 0 ? (size_t)got : 0;
        if (got < 0 || *len > GIX_INDEX_MOST_BYTES) {
            int error = got < 0 ? errno : EFBIG;
            free(bytes);
            errno = error;
            return NULL;
        }
        if (*len == room) bytes = gix_index_grow(bytes, &room);
    }
    return bytes;
}

/* Returns all bytes of the file at a path, which the caller frees, and the time at which it was last written. The time
 * is zeros for a pipe or a device. Returns NULL if the file can't be read or is too long, with the reason in errno. */
static inline uint8_t *gix_index_bytes_and_time_of(const char *path, size_t *len, struct timespec *mtime) {
    int file = gix_index_open(path, O_RDONLY);
    if (file < 0) return NULL;
    struct stat said;
    uint8_t *bytes = NULL;
    if (fstat(file, &said) == 0) {
        /* (the size is only that of the first allocation, because the file may change) */
        bool is_size = said.st_size > 0 && (uint64_t)said.st_size <= GIX_INDEX_MOST_BYTES;
        bytes = gix_index_bytes_behind(file, is_size ? (size_t)said.st_size + 1 : 1 << 16, len);
        memset(mtime, 0, sizeof *mtime);
        if (S_ISREG(said.st_mode)) *mtime = said.st_mtim;
    }
    int error = errno;
    close(file);
    errno = error;
    return bytes;
}

/* Returns all bytes of a file, which the caller frees. Returns NULL if it can't be read or is too long, with the reason
 * in errno. */
static inline uint8_t *gix_index_bytes_of(const char *path, size_t *len) {
    struct timespec mtime;
    return gix_index_bytes_and_time_of(path, len, &mtime);
}

/* Returns whether an index links to a shared index that has an id. */
static inline bool gix_index_links(const gix_index_summary *said) {
    uint8_t some = 0;
    for (size_t i = 0; i < sizeof said->shared_id; i++) some |= said->shared_id[i];
    return said->has_link && some;
}

/* Returns the path of the shared index to which the index at a path links. The caller frees it. Returns NULL if malloc
 * fails. */
static inline char *gix_index_shared_path(const char *path, uint32_t kind, const gix_index_summary *said) {
    const char *slash = strrchr(path, '/');
    size_t folder = slash ? (size_t)(slash + 1 - path) : 0, len = kind == GIX_INDEX_SHA1 ? 20 : 32;
    char *shared = (char *)malloc(folder + sizeof "sharedindex." + 2 * len);
    if (!shared) return NULL;
    memcpy(shared, path, folder);
    char *end = shared + folder + sprintf(shared + folder, "sharedindex.");
    for (size_t i = 0; i < len; i++) end += sprintf(end, "%02x", said->shared_id[i]);
    return shared;
}

/* Allocates the rows and the bytes of paths that the summary counts. Returns whether it succeeded. */
static inline bool gix_index_make_room(gix_index_table *t) {
    t->rows = (gix_index_row *)calloc(t->said.entries + 1, sizeof *t->rows);
    t->paths = (uint8_t *)malloc(t->said.path_bytes + 1);
    return t->rows && t->paths;
}

/* Fills the table from its bytes, which have no link, with the sizes in its summary. The sizes are zeros if the bytes
 * were rejected before; then this call is rejected too. */
static inline uint32_t gix_index_fill(gix_index_table *t, uint32_t kind, uint8_t *text, size_t text_len) {
    if (!gix_index_make_room(t)) return GIX_INDEX_MEMORY;
    return gix_index_read(t->bytes, t->bytes_len, kind, false, t->rows, t->said.entries, t->paths, t->said.path_bytes,
                          text, text_len, &t->said);
}

/* Fills the table from its bytes and those of the shared index, which may be missing if the link has no id. The first
 * call returns the sizes, and doesn't check the digests. If it is rejected, a second call checks them, because a wrong
 * digest is returned before all other errors. */
static inline uint32_t gix_index_fill_of_both(gix_index_table *t, const uint8_t *shared, size_t shared_len,
                                              uint32_t kind, uint8_t *text, size_t text_len) {
    for (int skip_hash = 1; skip_hash >= 0; skip_hash--) {
        uint32_t status = gix_index_read_split(t->bytes, t->bytes_len, shared, shared_len, kind, skip_hash != 0, NULL,
                                               0, NULL, 0, text, text_len, &t->said);
        if (status == GIX_INDEX_DONE || status == GIX_INDEX_NO_ROOM) break;
        if (status != GIX_INDEX_REFUSED || !skip_hash) return status;
    }
    if (!gix_index_make_room(t)) return GIX_INDEX_MEMORY;
    return gix_index_read_split(t->bytes, t->bytes_len, shared, shared_len, kind, false, t->rows, t->said.entries,
                                t->paths, t->said.path_bytes, text, text_len, &t->said);
}

/* Sets the counts and the version of a summary to 0. The text's length and of_shared stay. */
static inline void gix_index_clear_counts(gix_index_summary *said) {
    const gix_index_summary told = *said;
    memset(said, 0, sizeof *said);
    said->text_bytes = told.text_bytes;
    said->of_shared = told.of_shared;
}

/* Reads the shared index to which the bytes of the index at a path link. The caller frees the result.
 *
 * - DONE: the bytes of the shared index. They are NULL if the bytes have no link, or are rejected.
 * - REFUSED, MEMORY: for the bytes of the index, as gix_index_read returns them. MEMORY also if malloc fails for the
 *   path.
 * - SYSTEM: the file of the shared index can't be read, with the reason in errno. */
static inline uint32_t gix_index_shared_of(const char *path, const uint8_t *bytes, size_t bytes_len, uint32_t kind,
                                           uint8_t *text, size_t text_len, gix_index_summary *said, uint8_t **shared,
                                           size_t *shared_len) {
    *shared = NULL;
    *shared_len = 0;
    uint32_t status = gix_index_read(bytes, bytes_len, kind, true, NULL, 0, NULL, 0, text, text_len, said);
    if (status == GIX_INDEX_MEMORY) return status;
    if (!gix_index_links(said)) return GIX_INDEX_DONE;
    /* (a wrong digest is returned before the shared index is searched for) */
    status = gix_index_read(bytes, bytes_len, kind, false, NULL, 0, NULL, 0, text, text_len, said);
    if (status != GIX_INDEX_DONE && status != GIX_INDEX_NO_ROOM) return status;
    char *shared_path = gix_index_shared_path(path, kind, said);
    if (!shared_path) memset(said, 0, sizeof *said);
    if (!shared_path) return GIX_INDEX_MEMORY;
    *shared = gix_index_bytes_of(shared_path, shared_len);
    int error = errno;
    free(shared_path);
    errno = error;
    said->of_shared = 1;
    return *shared ? GIX_INDEX_DONE : GIX_INDEX_SYSTEM;
}

/* Reads the index at a path into a table. A link to a shared index is followed: the shared index is the file
 * sharedindex.ID in the same directory.
 *
 * The statuses, the summary in the table and the text are those of gix_index_read_split, with these differences:
 *
 * - MEMORY: also if malloc fails for the table.
 * - SYSTEM: a file can't be read, with the reason in errno. With t->said.of_shared it is the shared index. With ENOENT
 *   and without of_shared there is no index yet. The table is empty then, and gix_index_commit takes it.
 * - NO_ROOM isn't returned.
 *
 * The table need not be initialized. With each status call gix_index_drop_table, which frees the memory. */
GIX_INDEX_API uint32_t gix_index_read_file(const char *path, uint32_t kind, uint8_t *text, size_t text_len,
                                           gix_index_table *t) {
    uint8_t *shared;
    size_t shared_len;
    memset(t, 0, sizeof *t);
    t->bytes = gix_index_bytes_and_time_of(path, &t->bytes_len, &t->mtime);
    if (!t->bytes) return GIX_INDEX_SYSTEM;
    uint32_t status = gix_index_shared_of(path, t->bytes, t->bytes_len, kind, text, text_len, &t->said, &shared,
                                          &shared_len);
    if (status == GIX_INDEX_DONE && t->said.has_link)
        status = gix_index_fill_of_both(t, shared, shared_len, kind, text, text_len);
    else if (status == GIX_INDEX_DONE)
        status = gix_index_fill(t, kind, text, text_len);
    free(shared);
    if (status == GIX_INDEX_MEMORY || status == GIX_INDEX_SYSTEM) gix_index_clear_counts(&t->said);
    return status;
}

/* Checks the index at a path as gix_index_check_split checks bytes, and as `index-tool check` does. A link to a shared
 * index is followed as by gix_index_read_file.
 *
 * The statuses, the summary and the text are those of gix_index_check_split, with these differences:
 *
 * - MEMORY: also if malloc fails for a path.
 * - SYSTEM: a file can't be read, with the reason in errno. With said->of_shared it is the shared index. */
GIX_INDEX_API uint32_t gix_index_check_file(const char *path, uint32_t kind, uint8_t *text, size_t text_len,
                                            gix_index_summary *said) {
    uint8_t *shared;
    size_t len, shared_len;
    memset(said, 0, sizeof *said);
    uint8_t *bytes = gix_index_bytes_of(path, &len);
    if (!bytes) return GIX_INDEX_SYSTEM;
    uint32_t status = gix_index_shared_of(path, bytes, len, kind, text, text_len, said, &shared, &shared_len);
    if (status == GIX_INDEX_DONE)
        status = gix_index_check_split(bytes, len, shared, shared_len, kind, false, text, text_len, said);
    if (status == GIX_INDEX_SYSTEM) gix_index_clear_counts(said);
    int error = errno;
    free(bytes);
    free(shared);
    errno = error;
    return status;
}

/* A function that takes a tree: its id, of 20 or 32 bytes, and its bytes. A result other than 0 ends the call. */
typedef int gix_index_put_tree(void *context, const uint8_t *id, size_t id_len, const uint8_t *bytes, size_t bytes_len);

/* Passes the trees of a table to a function, one by one, with context. These are the trees of gix_index_trees. Each
 * follows the trees that it names, and the root is the last. So the last id is that of `git write-tree`.
 *
 * - DONE: the function took all trees.
 * - STOPPED: the function returned a number other than 0, and wasn't called again.
 * - REFUSED, WRONG_NUMBER: as gix_index_trees returns them. The function wasn't called.
 * - MEMORY: malloc or realloc failed. The function wasn't called.
 *
 * NO_ROOM isn't returned. told is written with each status, with STOPPED as with DONE. */
GIX_INDEX_API uint32_t gix_index_write_trees(const gix_index_row *rows, size_t rows_len, const uint8_t *paths,
                                             size_t paths_len, uint32_t kind, gix_index_put_tree *put, void *context,
                                             gix_index_given *told) {
    gix_index_tree *trees = NULL;
    uint8_t *bytes = NULL;
    uint32_t status = gix_index_trees(rows, rows_len, paths, paths_len, kind, NULL, 0, NULL, 0, told);
    if (status == GIX_INDEX_NO_ROOM) {
        const gix_index_given wanted = *told;
        trees = (gix_index_tree *)malloc(wanted.trees * sizeof *trees);
        bytes = (uint8_t *)malloc(wanted.bytes + 1);
        status = GIX_INDEX_MEMORY;
        memset(told, 0, sizeof *told);
        if (trees && bytes)
            status = gix_index_trees(rows, rows_len, paths, paths_len, kind, trees, wanted.trees, bytes, wanted.bytes,
                                     told);
    }
    const size_t id_len = kind == GIX_INDEX_SHA1 ? 20 : 32;
    for (size_t i = 0; i < told->trees && status == GIX_INDEX_DONE; i++)
        if (put(context, trees[i].id, id_len, bytes + trees[i].start, trees[i].len) != 0) status = GIX_INDEX_STOPPED;
    int error = errno;
    free(trees);
    free(bytes);
    errno = error;
    return status;
}

#if defined __cplusplus && defined __GNUC__
#pragma GCC diagnostic pop
#endif

#endif
