/* SPDX-License-Identifier: MIT OR Apache-2.0 */
/* Reads and checks the index at a path, with its link followed, and changes it or replaces it by a table under a lock,
 * for POSIX systems. gix_index_table.h has only the calls that read and check.
 *
 * These calls are safe if git may write the same index concurrently:
 *
 * 1. gix_index_lock_file;
 * 2. gix_index_read_file of lock->path, if the entries are needed or gix_index_commit follows;
 * 3. gix_index_commit_changes, which makes changes as git makes them, or gix_index_commit, which writes a table.
 *
 * If a step before the third fails, or the index is to stay, call gix_index_rollback. The index that is replaced is the
 * one that was read.
 *
 * gix_index_write_file and gix_index_write_file_over lock only when they write. What another process wrote after the
 * index was read is lost.
 *
 * The library itself opens no files. So this header is C code that isn't proved. With -std=c99, -std=c11 and the like,
 * define _POSIX_C_SOURCE as 200809L before the first #include. */
#ifndef GIX_INDEX_FILE_H
#define GIX_INDEX_FILE_H

#include "gix_index_table.h"

/* The code below has C casts. Without these lines some compilers for C++ warn about them. */
#if defined __cplusplus && defined __GNUC__
#pragma GCC diagnostic push
#pragma GCC diagnostic ignored "-Wold-style-cast"
#endif

/* A status of calls that lock, in addition to those of the other headers. GIX_INDEX_SYSTEM with EEXIST means that the
 * lock file exists: another process writes the index. Try again later. A process that was killed leaves its lock file.
 * Remove the file by hand if no process uses the repository. GIX_INDEX_SYSTEM with ELOOP means that a chain has more
 * than GIX_INDEX_MOST_LINKS symbolic links. */
#define GIX_INDEX_NOT_REGULAR 7u /* what is to be written over is a directory, a device, a fifo or a socket */

/* The largest number of symbolic links that are followed to the file that is locked, as in git. */
#define GIX_INDEX_MOST_LINKS 5

/* A lock on the index at a path. While the lock file exists, git and other programs that respect it don't write the
 * index. */
typedef struct {
    char *path;            /* the index: the file that the given path names, behind all symbolic links */
    char *lock_path;       /* the lock file: that path and `.lock`; NULL if the call failed earlier */
    int file;              /* the lock file, open to be written */
    bool is_held;          /* whether the lock file is this lock's own */
    mode_t mode;           /* the type and the permissions of the index; 0 if there is none */
    struct timespec mtime; /* when the index was written last; zeros if there is none */
} gix_index_lock;

/* Removes the lock file if this lock owns it, and keeps its path. errno is unchanged. */
static inline void gix_index_unlock(gix_index_lock *lock) {
    int error = errno;
    if (lock->is_held) {
        if (lock->file >= 0) close(lock->file);
        unlink(lock->lock_path);
    }
    lock->is_held = false;
    errno = error;
}

/* Releases a lock. The index is unchanged, the lock file is removed if this lock owns it, and the memory is freed.
 * errno is unchanged. The lock is zeros afterwards, and another call does nothing. The lock has to be one that
 * gix_index_lock_file was given, or zeros. */
GIX_INDEX_API void gix_index_rollback(gix_index_lock *lock) {
    int error = errno;
    gix_index_unlock(lock);
    free(lock->path);
    free(lock->lock_path);
    memset(lock, 0, sizeof *lock);
    errno = error;
}

/* Stores what is at the index's path. */
static inline uint32_t gix_index_look(gix_index_lock *lock) {
    struct stat seen;
    bool is_there = lstat(lock->path, &seen) == 0;
    if (!is_there && errno != ENOENT) return GIX_INDEX_SYSTEM;
    lock->mode = is_there ? seen.st_mode : 0;
    memset(&lock->mtime, 0, sizeof lock->mtime);
    if (is_there) lock->mtime = seen.st_mtim;
    return !is_there || S_ISREG(seen.st_mode) ? GIX_INDEX_DONE : GIX_INDEX_NOT_REGULAR;
}

/* Returns the path that a symbolic link names; a relative one starts at the link's directory. The caller frees it.
 * Returns NULL if that fails, with the reason in errno. */
static inline char *gix_index_target_of(const char *path) {
    char link[4096];
    ssize_t len = readlink(path, link, sizeof link);
    if (len == sizeof link) errno = ENAMETOOLONG;
    if (len < 0 || len == sizeof link) return NULL;
    const char *slash = link[0] == '/' ? NULL : strrchr(path, '/');
    size_t folder = slash ? (size_t)(slash + 1 - path) : 0;
    char *target = (char *)malloc(folder + (size_t)len + 1);
    if (!target) return NULL;
    memcpy(target, path, folder);
    memcpy(target + folder, link, (size_t)len);
    target[folder + (size_t)len] = 0;
    return target;
}

/* Follows the links at the index's path, and stores what is at their end. */
static inline uint32_t gix_index_follow(gix_index_lock *lock) {
    for (int links = 0;; links++) {
        uint32_t status = gix_index_look(lock);
        if (status == GIX_INDEX_DONE && links > 0 && !lock->mode) {
            errno = ENOENT;
            return GIX_INDEX_SYSTEM;
        }
        if (status != GIX_INDEX_NOT_REGULAR || !S_ISLNK(lock->mode)) return status;
        errno = ELOOP;
        char *target = links < GIX_INDEX_MOST_LINKS ? gix_index_target_of(lock->path) : NULL;
        if (!target) return errno == ENOMEM ? GIX_INDEX_MEMORY : GIX_INDEX_SYSTEM;
        free(lock->path);
        lock->path = target;
    }
}

/* Creates the lock file, and stores what is at the index's path. The lock file gets that file's permissions before its
 * first byte. */
static inline uint32_t gix_index_make_lock(gix_index_lock *lock) {
    size_t len = strlen(lock->path);
    lock->lock_path = (char *)malloc(len + sizeof ".lock");
    if (!lock->lock_path) return GIX_INDEX_MEMORY;
    memcpy(lock->lock_path, lock->path, len);
    memcpy(lock->lock_path + len, ".lock", sizeof ".lock");
    lock->file = gix_index_open(lock->lock_path, O_WRONLY | O_CREAT | O_EXCL);
    if (lock->file < 0) return GIX_INDEX_SYSTEM;
    lock->is_held = true;
    uint32_t status = gix_index_look(lock);
    if (status == GIX_INDEX_DONE && lock->mode && fchmod(lock->file, lock->mode & 07777) != 0)
        status = GIX_INDEX_SYSTEM;
    if (status != GIX_INDEX_DONE) gix_index_unlock(lock);
    return status;
}

/* Locks the index at a path as git locks it. `git rev-parse --git-path index` prints the path. First it follows
 * symbolic links, at most GIX_INDEX_MOST_LINKS; the target of the last one has to exist. Then it creates the lock file,
 * which must not exist. What is read from lock->path afterwards stays until gix_index_commit_changes, gix_index_commit
 * or gix_index_rollback ends the lock. If the process ends before, the lock file stays, and git writes no index.
 *
 * - DONE: the lock is held.
 * - NOT_REGULAR: the file at lock->path isn't a regular file, and lock->mode is its mode.
 * - MEMORY: malloc failed.
 * - SYSTEM: a system call failed.
 *
 * The lock need not be initialized. With each status other than DONE no lock is held, and all files are unchanged. Call
 * gix_index_rollback then too: it frees the memory. The paths in the lock are those at the end of all links. So with
 * EEXIST lock->lock_path is the existing lock file. */
GIX_INDEX_API uint32_t gix_index_lock_file(const char *path, gix_index_lock *lock) {
    size_t size = strlen(path) + 1;
    memset(lock, 0, sizeof *lock);
    lock->file = -1;
    lock->path = (char *)malloc(size);
    if (!lock->path) return GIX_INDEX_MEMORY;
    memcpy(lock->path, path, size);
    if (size == 1) {
        errno = ENOENT;
        return GIX_INDEX_SYSTEM;
    }
    uint32_t status = gix_index_follow(lock);
    return status == GIX_INDEX_DONE ? gix_index_make_lock(lock) : status;
}

/* Writes all bytes to a file, and retries if a signal interrupts it. */
static inline bool gix_index_put_all(int file, const uint8_t *bytes, size_t len) {
    while (len > 0) {
        ssize_t put = write(file, bytes, len);
        if (put < 0 && errno == EINTR) continue;
        if (put < 0) return false;
        bytes += put;
        len -= (size_t)put;
    }
    return true;
}

/* Returns whether an index may get this time. git reads 32 bits of the seconds. With 0 seconds it would trust every
 * entry. */
static inline bool gix_index_is_time(struct timespec time) { return (uint32_t)time.tv_sec != 0; }

/* Sets this time on the lock file. If it may not be used, sets that of the old index, or else leaves the time of
 * creation. */
static inline bool gix_index_put_time(const gix_index_lock *lock, struct timespec mtime) {
    if (!gix_index_is_time(mtime)) mtime = lock->mtime;
    struct timespec times[2];
    memset(times, 0, sizeof times);
    times[0].tv_nsec = UTIME_OMIT;
    times[1] = mtime;
    return !gix_index_is_time(mtime) || futimens(lock->file, times) == 0;
}

/* Writes the bytes to the lock file, and renames it to the index. After a failure the lock is still held. */
static inline bool gix_index_replace(gix_index_lock *lock, const uint8_t *bytes, size_t len, struct timespec mtime,
                                     bool is_synced) {
    errno = EBADF;
    if (!lock->is_held || !gix_index_put_all(lock->file, bytes, len)) return false;
    if (!gix_index_put_time(lock, mtime)) return false;
    if (is_synced && fsync(lock->file) != 0) return false;
    int file = lock->file;
    lock->file = -1;
    if (close(file) != 0 || rename(lock->lock_path, lock->path) != 0) return false;
    lock->is_held = false;
    return true;
}

/* Returns the largest number of bytes of an index with these rows and without extensions. paths_len counts the bytes of
 * all paths. */
static inline size_t gix_index_most(const gix_index_row *rows, size_t rows_len, size_t paths_len) {
    size_t most = 44;
    for (size_t i = 0; i < rows_len; i++) most += 96 + (rows[i].path_len < paths_len ? rows[i].path_len : paths_len);
    return most;
}

/* The bytes of a shared index, if there is one. */
typedef struct {
    uint8_t *bytes;
    size_t len;
} gix_index_shared;

/* Returns the bytes of the table as an index, which replaces another one if its bytes are given. With shared, the rows
 * are changes of that other index. The caller frees the result, which is NULL if the status isn't DONE. */
static inline uint8_t *gix_index_image(const gix_index_row *rows, size_t rows_len, const uint8_t *paths,
                                       size_t paths_len, const uint8_t *index, size_t index_len,
                                       const gix_index_shared *shared, const gix_index_form *form,
                                       gix_index_written *told, uint32_t *status) {
    size_t most = gix_index_most(rows, rows_len, paths_len) + index_len + (shared ? shared->len : 0);
    memset(told, 0, sizeof *told);
    for (size_t len = most;; len = told->bytes) {
        uint8_t *bytes = (uint8_t *)malloc(len);
        *status = GIX_INDEX_MEMORY;
        if (!bytes) return NULL;
        if (shared)
            *status = gix_index_update(rows, rows_len, paths, paths_len, index, index_len, shared->bytes, shared->len,
                                       form->kind, bytes, len, told);
        else if (index)
            *status = gix_index_write_over(rows, rows_len, paths, paths_len, index, index_len, form, bytes, len, told);
        else
            *status = gix_index_write(rows, rows_len, paths, paths_len, form, bytes, len, told);
        if (*status == GIX_INDEX_DONE) return bytes;
        free(bytes);
        if (*status != GIX_INDEX_NO_ROOM) return NULL;
    }
}

/* Writes a table as the index that is locked, and ends the lock. If the table has the bytes of an index, as
 * gix_index_read_file leaves them, it writes what gix_index_write_over writes; otherwise what gix_index_write writes.
 * So extensions that still match the rows are preserved.
 *
 * The file has the permissions of the index that it replaces, or those that the umask leaves. Its time is the first of
 * these that exists:
 *
 * - t->mtime, unless it is zeros. So git compares each file that it would have compared with the index that was read.
 * - The time of the old index.
 * - The time of its creation.
 *
 * A time of 0 seconds isn't set, because git would trust every entry by it. With is_synced the file is synced to the
 * disk before it replaces the index.
 *
 * - DONE: the index is written.
 * - REFUSED, MEMORY, WRONG_NUMBER: as those calls return them. MEMORY also if malloc fails for the bytes.
 * - SYSTEM: a system call failed, with the reason in errno. With EBADF the lock isn't held.
 *
 * NO_ROOM isn't returned. With each status other than DONE the index is unchanged. With each status the lock is
 * released as by gix_index_rollback. told is written with each status. */
GIX_INDEX_API uint32_t gix_index_commit(gix_index_lock *lock, const gix_index_table *t, const gix_index_form *form,
                                        bool is_synced, gix_index_written *told) {
    uint32_t status;
    uint8_t *bytes = gix_index_image(t->rows, t->said.entries, t->paths, t->said.path_bytes, t->bytes, t->bytes_len,
                                     NULL, form, told, &status);
    if (bytes && !gix_index_replace(lock, bytes, told->bytes, t->mtime, is_synced)) status = GIX_INDEX_SYSTEM;
    gix_index_rollback(lock);
    int error = errno;
    free(bytes);
    errno = error;
    return status;
}

/* Reads the bytes of the index that is locked, and of the shared index that it links to. The caller frees them. If
 * there is no index yet, the bytes are those of an index without entries. told is that of the last call. */
static inline uint8_t *gix_index_locked_bytes(const gix_index_lock *lock, const gix_index_form *form, size_t *len,
                                              gix_index_shared *shared, gix_index_written *told, uint32_t *status) {
    gix_index_summary said;
    uint8_t *bytes;
    if (!lock->mode) {
        bytes = gix_index_image(NULL, 0, NULL, 0, NULL, 0, NULL, form, told, status);
        *len = told->bytes;
        return bytes;
    }
    *status = GIX_INDEX_SYSTEM;
    bytes = gix_index_bytes_of(lock->path, len);
    if (!bytes) return NULL;
    *status = gix_index_shared_of(lock->path, bytes, *len, form->kind, NULL, 0, &said, &shared->bytes, &shared->len);
    /* (if the bytes are rejected, gix_index_update returns the error) */
    if (*status == GIX_INDEX_DONE || *status == GIX_INDEX_REFUSED) return bytes;
    told->of_shared = said.of_shared;
    int error = errno;
    free(bytes);
    errno = error;
    return NULL;
}

/* Changes the index that is locked as gix_index_update changes bytes, writes the result in its place, and ends the
 * lock. A link to a shared index is followed as by gix_index_read_file. If there is no index yet, the changes are made
 * to one without entries. It gets version 2, or 3 if a row has GIX_INDEX_EXTENDED. A wrong kind isn't noticed then,
 * and git reads wrong entries from the new index.
 *
 * Permissions and is_synced are as for gix_index_commit. The time is that of the old index, so git compares each file
 * that it would have compared.
 *
 * - DONE: the index is written.
 * - REFUSED, MEMORY, WRONG_NUMBER: as gix_index_update returns them. MEMORY also if malloc fails for the bytes. For a
 *   damaged index, gix_index_check_file returns a message.
 * - SYSTEM: a system call failed, with the reason in errno. With told->of_shared it was one for the shared index. With
 *   EBADF the lock isn't held.
 *
 * NO_ROOM isn't returned. With each status other than DONE the index is unchanged. With each status the lock is
 * released as by gix_index_rollback. told is written with each status. */
GIX_INDEX_API uint32_t gix_index_commit_changes(gix_index_lock *lock, uint32_t kind, const gix_index_row *rows,
                                                size_t rows_len, const uint8_t *paths, size_t paths_len,
                                                bool is_synced, gix_index_written *told) {
    const gix_index_form form = {kind, 2, false};
    gix_index_shared shared = {NULL, 0};
    size_t len = 0;
    uint32_t status;
    memset(told, 0, sizeof *told);
    uint8_t *bytes = NULL, *index = gix_index_locked_bytes(lock, &form, &len, &shared, told, &status);
    if (index)
        bytes = gix_index_image(rows, rows_len, paths, paths_len, index, len, &shared, &form, told, &status);
    if (bytes && !gix_index_replace(lock, bytes, told->bytes, lock->mtime, is_synced)) status = GIX_INDEX_SYSTEM;
    gix_index_rollback(lock);
    int error = errno;
    free(index);
    free(shared.bytes);
    free(bytes);
    errno = error;
    return status;
}

/* Writes the bytes to a path under its lock, and frees them. */
static inline uint32_t gix_index_put_file(const char *path, uint8_t *bytes, size_t bytes_len) {
    gix_index_lock lock;
    uint32_t status = gix_index_lock_file(path, &lock);
    if (status == GIX_INDEX_DONE && !gix_index_replace(&lock, bytes, bytes_len, lock.mtime, false))
        status = GIX_INDEX_SYSTEM;
    gix_index_rollback(&lock);
    int error = errno;
    free(bytes);
    errno = error;
    return status;
}

/* Writes a table as the index at a path, which is locked once the bytes are ready. If the index was changed after it
 * was read, the change is lost. gix_index_lock_file and gix_index_commit are safe if git writes concurrently.
 *
 * The bytes of gix_index_write are written to the lock file, which then replaces the index. So the path has the old
 * index or the new one at each moment. Permissions and time are those of the old index, as for gix_index_commit. A new
 * index has the time of its creation. By this time git may trust more entries than by that of the index from which they
 * were read. Nothing is synced to the disk; git by default doesn't sync an index either.
 *
 * - DONE: the path has the index.
 * - NOT_REGULAR, SYSTEM: as gix_index_lock_file and gix_index_commit return them. The path is unchanged. The lock of
 *   another process is left, and that of this call is removed, if possible.
 * - REFUSED, MEMORY, WRONG_NUMBER: as gix_index_write returns them, and no file was changed. MEMORY also if malloc
 *   fails.
 *
 * NO_ROOM isn't returned. told is written with each status. */
GIX_INDEX_API uint32_t gix_index_write_file(const char *path, const gix_index_row *rows, size_t rows_len,
                                            const uint8_t *paths, size_t paths_len, const gix_index_form *form,
                                            gix_index_written *told) {
    uint32_t status;
    uint8_t *bytes = gix_index_image(rows, rows_len, paths, paths_len, NULL, 0, NULL, form, told, &status);
    return bytes ? gix_index_put_file(path, bytes, told->bytes) : status;
}

/* Writes a table as the index at a path, as gix_index_write_file does, but with the bytes that gix_index_write_over
 * writes. They replace the bytes of an index, such as those of a table that was read from a file. So its extensions
 * that still match the rows are preserved. */
GIX_INDEX_API uint32_t gix_index_write_file_over(const char *path, const gix_index_row *rows, size_t rows_len,
                                                 const uint8_t *paths, size_t paths_len, const uint8_t *index,
                                                 size_t index_len, const gix_index_form *form,
                                                 gix_index_written *told) {
    uint32_t status;
    uint8_t *bytes = gix_index_image(rows, rows_len, paths, paths_len, index, index_len, NULL, form, told,
                                     &status);
    return bytes ? gix_index_put_file(path, bytes, told->bytes) : status;
}

#if defined __cplusplus && defined __GNUC__
#pragma GCC diagnostic pop
#endif

#endif
