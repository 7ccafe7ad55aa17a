/* SPDX-License-Identifier: MIT OR Apache-2.0 */
/* What the examples share: a table of an index file, which may be locked, and messages for errors. */
#ifndef TABLE_H
#define TABLE_H

#include "gix_index_file.h"

/* Returns the number of a hash algorithm by its name, or 0. */
static inline uint32_t kind_of(const char *name) {
    return strcmp(name, "sha1") == 0 ? GIX_INDEX_SHA1 : strcmp(name, "sha256") == 0 ? GIX_INDEX_SHA256 : 0;
}

/* Prints to standard error, after the name of the program, why a file isn't read or doesn't pass. */
static inline void tell(const char *name, const char *path, uint32_t status, const gix_index_summary *said,
                        const uint8_t *text) {
    const char *whose = said->of_shared ? "its shared index: " : "";
    if (status == GIX_INDEX_SYSTEM) fprintf(stderr, "%s: %s: %s%s\n", name, path, whose, strerror(errno));
    if (status == GIX_INDEX_MEMORY) fprintf(stderr, "%s: %s: out of memory\n", name, path);
    if (status == GIX_INDEX_REFUSED)
        fprintf(stderr, "%s: %s: %s%.*s\n", name, path, whose, (int)said->text_bytes, (const char *)text);
}

/* Reads a file into a table, with its link followed. If that fails, it prints why. */
static inline bool read_table(const char *name, const char *path, uint32_t kind, gix_index_table *t) {
    uint8_t text[300];
    uint32_t status = gix_index_read_file(path, kind, text, sizeof text, t);
    if (status == GIX_INDEX_DONE) return true;
    tell(name, path, status, &t->said, text);
    return false;
}

/* Returns the type of the file at a lock's path, which isn't a regular file. */
static inline const char *name_of(const gix_index_lock *lock) {
    mode_t mode = lock->mode;
    return S_ISDIR(mode) ? "directory" : S_ISFIFO(mode) ? "fifo" : S_ISSOCK(mode) ? "socket" : "device";
}

/* Locks a file. If that fails, it prints why. */
static inline bool lock_file(const char *name, const char *path, gix_index_lock *lock) {
    uint32_t status = gix_index_lock_file(path, lock);
    const char *at = lock->lock_path ? lock->lock_path : lock->path ? lock->path : path;
    if (status == GIX_INDEX_SYSTEM && errno == EEXIST)
        fprintf(stderr, "%s: %s: %s is there: another process writes the index, or died while it did; if none runs, "
                "remove that file\n", name, path, at);
    else if (status == GIX_INDEX_NOT_REGULAR)
        fprintf(stderr, "%s: %s: %s is a %s, and no regular file: it isn't replaced\n", name, path, lock->path,
                name_of(lock));
    else if (status != GIX_INDEX_DONE)
        fprintf(stderr, "%s: %s: %s: %s\n", name, path, at,
                status == GIX_INDEX_MEMORY ? "out of memory" : strerror(errno));
    return status == GIX_INDEX_DONE;
}

/* Locks a file and reads it. Call release in each case. */
static inline bool read_locked(const char *name, const char *path, uint32_t kind, gix_index_lock *lock,
                               gix_index_table *t) {
    memset(t, 0, sizeof *t);
    return lock_file(name, path, lock) && read_table(name, lock->path, kind, t);
}

/* Returns whether a row has this path. */
static inline bool is_at(const gix_index_table *t, const gix_index_row *row, const void *path, size_t len) {
    return row->path_len == len && memcmp(t->paths + row->path_start, path, len) == 0;
}

/* Releases a lock and drops a table. */
static inline void release(gix_index_lock *lock, gix_index_table *t) {
    gix_index_rollback(lock);
    gix_index_drop_table(t);
}

/* Returns whether a file was written. If it wasn't, it prints why. */
static inline bool is_written(const char *name, const char *path, uint32_t status, const gix_index_written *told) {
    if (status == GIX_INDEX_REFUSED)
        fprintf(stderr, "%s: %s: %s (%zu)\n", name, path,
                told->fault == GIX_INDEX_FAULT_ORDER  ? "an entry isn't above the one before it"
                : told->fault == GIX_INDEX_FAULT_NAME ? "git lets no such name stand in a path"
                : told->fault == GIX_INDEX_FAULT_ROW  ? "an entry can't be written"
                                                      : "there is too much for a file", told->fault_place);
    else if (status != GIX_INDEX_DONE)
        fprintf(stderr, "%s: %s: %s\n", name, path, status == GIX_INDEX_MEMORY ? "out of memory" : strerror(errno));
    return status == GIX_INDEX_DONE;
}

/* Changes the index that is locked, and writes it. If that fails, it prints why. */
static inline bool commit_changes(const char *name, const char *path, gix_index_lock *lock, uint32_t kind,
                                  const gix_index_row *rows, size_t count, const void *paths, size_t paths_len) {
    gix_index_written told;
    uint32_t status = gix_index_commit_changes(lock, kind, rows, count, (const uint8_t *)paths, paths_len, true, &told);
    return is_written(name, path, status, &told);
}

/* Writes a table in place of the file that is locked, in the version that was read, or in a larger one. If that fails,
 * it prints why. */
static inline bool commit_table(const char *name, const char *path, gix_index_lock *lock, const gix_index_table *t,
                                uint32_t kind, uint32_t version) {
    gix_index_form form = {kind, t->said.version > version ? t->said.version : version, false};
    gix_index_written told;
    uint32_t status = gix_index_commit(lock, t, &form, true, &told);
    return is_written(name, path, status, &told);
}

#endif
