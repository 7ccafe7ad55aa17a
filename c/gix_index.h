/* SPDX-License-Identifier: MIT OR Apache-2.0 */
/* The git index for C. Calls read the bytes of an index file into a table of its entries. They write a table as an
 * index or as tree objects. They change an index; each change is a row of such a table.
 *
 * gix_index.pc links libgix_index.so. For libgix_index.a, pass -l:libgix_index.a in place of -lgix_index. Both use
 * malloc, realloc and free of the C library.
 *
 * Memory. All memory that a call reads or writes is owned by the caller. A pointer has a length that counts elements of
 * its type. It has to be valid for all of them during the call, and aligned as its type requires. With a length of 0 it
 * may be NULL, and is never followed. A pointer without a length may not be NULL. Memory that a call writes may not
 * overlap any other argument. Calls allocate with malloc and free all of it before they return. There is no handle and
 * nothing to free.
 *
 * Threads. Calls share nothing. Any number of them may run at the same time on memory of their own, and may read the
 * same memory. No call may be made in a signal handler, or in a child that a process with threads has forked.
 *
 * A bool is 0 or 1. Ids are bytes, not base 16. `git rev-parse --show-object-format` prints the hash algorithm of a
 * repository. Paths are bytes without a NUL at their end. They start at the top of the work tree: src/main.c, and not
 * /src/main.c or ./src/main.c. The library stores no objects. `git commit` needs the object of each id, and `git
 * hash-object -w` stores it.
 *
 * The standard is git's document gitformat-index. The language is C since C99, or C++ since C++98. */
#ifndef GIX_INDEX_H
#define GIX_INDEX_H

#ifndef __cplusplus
#include <stdbool.h>
#endif
#include <stddef.h>
#include <stdint.h>

#ifdef __cplusplus
extern "C" {
#endif

/* ---- The version of the library, and that of the crate gix-index that it ports */

#define GIX_INDEX_VERSION "1.0.0"
#define GIX_INDEX_VERSION_MAJOR 1
#define GIX_INDEX_VERSION_MINOR 0
#define GIX_INDEX_VERSION_PATCH 0
#define GIX_INDEX_VERSION_NUMBER 0x010000u /* the three, a byte each */
#define GIX_INDEX_UPSTREAM_VERSION "0.55.0"

/* ---- Statuses: what a call answers */

#define GIX_INDEX_DONE 0u         /* it did what it says */
#define GIX_INDEX_REFUSED 1u      /* the bytes of an index, or the rows, are rejected for the reason in fault */
#define GIX_INDEX_MEMORY 2u       /* malloc or realloc gave nothing */
#define GIX_INDEX_NO_ROOM 3u      /* the caller's memory is too small; the call returns the sizes it needs */
#define GIX_INDEX_WRONG_NUMBER 4u /* the kind or the version that was passed is invalid */
#define GIX_INDEX_NONE 5u         /* gix_index_find_prefix alone: no path begins with the prefix */

/* ---- Kinds of ids */

#define GIX_INDEX_SHA1 1u   /* 20 bytes */
#define GIX_INDEX_SHA256 2u /* 32 bytes */

/* ---- Stages, modes and flags of an entry */

#define GIX_INDEX_UNCONFLICTED 0u
#define GIX_INDEX_BASE 1u   /* the common ancestor's entry */
#define GIX_INDEX_OURS 2u
#define GIX_INDEX_THEIRS 3u

#define GIX_INDEX_DIRECTORY 0040000u /* a directory of a sparse index */
#define GIX_INDEX_FILE 0100644u
#define GIX_INDEX_EXECUTABLE 0100755u
#define GIX_INDEX_LINK 0120000u
#define GIX_INDEX_COMMIT 0160000u /* a submodule */

#define GIX_INDEX_STAGE_MASK 0x3000u
#define GIX_INDEX_EXTENDED 0x4000u     /* the entry has a second word of flags in the file; without this bit the flags
                                        * INTENT_TO_ADD and SKIP_WORKTREE below are lost */
#define GIX_INDEX_ASSUME_VALID 0x8000u
#define GIX_INDEX_REMOVE 0x20000u /* not stored: calls that write skip the row, and gix_index_update removes its path
                                   * from the index */
#define GIX_INDEX_INTENT_TO_ADD 0x20000000u
#define GIX_INDEX_SKIP_WORKTREE 0x40000000u

/* ---- What becomes of the cached tree of an index that is written over */

#define GIX_INDEX_NO_TREE 0u       /* there is none */
#define GIX_INDEX_TREE_KEPT 1u     /* it matches the rows, and is kept */
#define GIX_INDEX_TREE_LEFT_OUT 2u /* it doesn't match the rows, and is left out */

/* ---- Faults: what is told with GIX_INDEX_REFUSED */

#define GIX_INDEX_FAULT_HEADER 1u    /* no header of an index, or it declares more entries than the bytes can hold */
#define GIX_INDEX_FAULT_VERSION 2u   /* the version isn't 2, 3 or 4 */
#define GIX_INDEX_FAULT_LIMIT 3u     /* not returned: these calls have no limit on memory */
#define GIX_INDEX_FAULT_ENTRY 4u     /* an entry can't be read: the place is its number, from 0 on */
#define GIX_INDEX_FAULT_EXTENSION 5u /* a mandatory extension isn't understood */
#define GIX_INDEX_FAULT_LINK 6u      /* the link is damaged, or doesn't match the shared index */
#define GIX_INDEX_FAULT_TRAILER 7u   /* what follows the entries and extensions isn't as long as the trailer */
#define GIX_INDEX_FAULT_DIGEST 8u    /* the digest isn't the trailer: another hash algorithm, or damage */
/* (9 isn't used) */
#define GIX_INDEX_FAULT_ORDER 10u       /* calls that check, write, update or give trees: the entry at the place isn't
                                         * above the one before it */
#define GIX_INDEX_FAULT_CACHED_TREE 11u /* calls that check alone: the cached tree doesn't hold together, or counts more
                                         * entries than there are */
#define GIX_INDEX_FAULT_ROW 12u         /* calls that write, update or give trees: the row at the place doesn't meet a
                                         * condition of the call; its mode is one of git's */
#define GIX_INDEX_FAULT_COUNT 13u       /* calls that write or update: more than 4294967295 entries; gix_index_trees:
                                         * more than 2147483647 */
#define GIX_INDEX_FAULT_LENGTH 14u      /* calls that write or update: the file would have more bytes than 4294967295 */
#define GIX_INDEX_FAULT_MODE 15u        /* calls that write, update or give trees: the mode of the row at the place is
                                         * none of git's */
#define GIX_INDEX_FAULT_NAME 16u        /* gix_index_update and gix_index_trees alone: git rejects a name in the path of
                                         * the row at the place, such as `..`, `.git` or an empty one */
#define GIX_INDEX_FAULT_UNMERGED 17u    /* gix_index_trees alone: the row at the place is in conflict */
#define GIX_INDEX_FAULT_BELOW 18u       /* gix_index_trees: the row at the place is below another row's path.
                                         * gix_index_update: it is in a directory that the sparse index has as one
                                         * entry; `git sparse-checkout reapply --no-sparse-index` expands it */

/* ---- Tables */

/* An entry. Its path is path_len bytes of the table's paths, from path_start on. Two paths may share bytes. */
typedef struct {
    uint32_t ctime_secs; /* when the file's own data changed last, in seconds since the begin of 1970 */
    uint32_t ctime_nsecs;
    uint32_t mtime_secs; /* when its contents changed last */
    uint32_t mtime_nsecs;
    uint32_t dev;
    uint32_t ino;
    uint32_t uid;
    uint32_t gid;
    uint32_t size; /* in bytes, modulo 2 to the 32nd */
    uint32_t mode;  /* GIX_INDEX_FILE, or another of the five modes */
    uint32_t flags; /* GIX_INDEX_EXTENDED and so on; bits 12 and 13 are the stage; the lowest 12 bits aren't used */
    uint32_t stage; /* the stage too, GIX_INDEX_UNCONFLICTED to GIX_INDEX_THEIRS: set it and flags alike */
    uint32_t kind;  /* of its id: GIX_INDEX_SHA1 or GIX_INDEX_SHA256 */
    uint8_t id[32]; /* zeros behind the 20 bytes of SHA-1 */
    size_t path_start;
    size_t path_len;
} gix_index_row;

/* What a call that reads returns in addition to its status. It is written with each status. For each field, the comment
 * lists the statuses with which it has a value; with others it is 0. With the faults ORDER and CACHED_TREE the bytes
 * were read, and entries, version, has_link and shared_id are as with DONE. */
typedef struct {
    size_t entries;     /* DONE, NO_ROOM: how many entries the index has, and so how many rows it takes */
    size_t path_bytes;  /* DONE, NO_ROOM: how many bytes all paths have together, and so how many for paths it takes;
                         * calls that check say 0 */
    size_t text_bytes;  /* REFUSED, MEMORY: how many bytes of text were written */
    size_t fault_place; /* REFUSED: the place that the fault names, or 0 */
    uint32_t fault;     /* REFUSED: one of the faults above */
    uint32_t version;   /* DONE, NO_ROOM: 2, 3 or 4 */
    uint32_t has_link;  /* DONE, NO_ROOM: 1 if there is a link to a shared index, and it wasn't followed; else 0 */
    uint32_t of_shared; /* REFUSED, MEMORY: 1 if the shared index caused it; else 0 */
    uint8_t shared_id[32]; /* DONE, NO_ROOM: with has_link the shared index's id, as a row has one, or zeros for none */
} gix_index_summary;

/* A range of rows of a table: their indices, counted from 0, from start up to end. The row at end isn't in the
 * range. */
typedef struct {
    size_t start;
    size_t end;
} gix_index_places;

/* The options of calls that write. */
typedef struct {
    uint32_t kind;    /* of the ids and of the digest, as each row has it */
    uint32_t version; /* 4, or 2 or 3: both give version 3 if a row has GIX_INDEX_EXTENDED, and else 2 */
    bool skip_hash;   /* zeros in place of the digest, as git's index.skipHash asks */
} gix_index_form;

/* What a call that writes returns in addition to its status. It is written with each status. For each field, the
 * comment lists the statuses with which it has a value; with others it is 0. */
typedef struct {
    size_t bytes;       /* DONE, NO_ROOM: how many bytes the index has */
    size_t fault_place; /* REFUSED: the place that the fault names, or 0 */
    uint32_t fault;     /* REFUSED: ORDER, ROW, MODE, NAME, BELOW, COUNT, LENGTH; or a fault of gix_index_read_split,
                         * for the index that is written over or updated */
    uint32_t version;   /* DONE, NO_ROOM: 2, 3 or 4 */
    uint32_t tree;      /* gix_index_write_over, if that index and the rows are accepted: NO_TREE, TREE_KEPT or
                         * TREE_LEFT_OUT. Other calls: 0 */
    uint32_t of_shared; /* gix_index_update, REFUSED, MEMORY: 1 if the shared index caused it; else 0 */
} gix_index_written;

/* A tree: its id, and the range of its bytes in the bytes of all trees. */
typedef struct {
    uint8_t id[32]; /* zeros behind the 20 bytes of SHA-1 */
    size_t start;
    size_t len;
} gix_index_tree;

/* What gix_index_trees returns in addition to its status. It is written with each status. For each field, the comment
 * lists the statuses with which it has a value; with others it is 0. */
typedef struct {
    size_t trees;       /* DONE, NO_ROOM: how many trees there are */
    size_t bytes;       /* DONE, NO_ROOM: how many bytes they have together */
    size_t fault_place; /* REFUSED: the row that the fault names, or 0 */
    uint32_t fault;     /* REFUSED: ROW, MODE, ORDER, UNMERGED, NAME, BELOW, COUNT */
} gix_index_given;

/* Which numbers of a stat are compared, as in git (git-config, "core.trustctime" and "core.checkStat"). */
typedef struct {
    bool trust_ctime; /* the ctime too */
    bool check_stat;  /* inode, owner and group too */
    bool use_nsec;    /* with check_stat, nanoseconds too */
    bool use_stdev;   /* with check_stat, the device too */
} gix_index_comparison;

/* What git compares by default: gix_index_comparison by_default = GIX_INDEX_COMPARISON; */
#define GIX_INDEX_COMPARISON {true, true, false, false}

/* What is seen of a file in the work tree, and what its file system supports (git-config, "core.symlinks" and
 * "core.fileMode"). */
typedef struct {
    bool is_file;
    bool is_dir;
    bool is_symlink;
    bool is_executable;  /* it is a file, and its owner may execute it; not used for a link */
    bool has_symlinks;   /* core.symlinks: if false, a file stands for a link */
    bool executable_bit; /* core.fileMode: if false, a file keeps its mode */
} gix_index_seen;

/* ---- Calls */

/* Returns the version of the library that is linked, in the form of GIX_INDEX_VERSION_NUMBER. Each library with the
 * same major version and at least this minor version has the calls and structs of this header. */
uint32_t gix_index_version(void);

/* Reads an index from all bytes of its file.
 *
 * The digest of all bytes before the trailer is compared with the trailer, unless the trailer is zeros or skip_hash is
 * set. Of a split index only its own entries are read, some of them with an empty path.
 *
 * - DONE: the table is the first entries of rows and the first path_bytes of paths, in the order of the file. The rest
 *   of rows and paths is unchanged.
 * - REFUSED: text has a message, as far as it fits, without a NUL at its end.
 * - NO_ROOM: the call would succeed with the sizes of the summary. So a call with both lengths 0, and NULL for rows and
 *   paths, returns the sizes. For an index without entries it returns DONE.
 * - MEMORY: malloc or realloc failed.
 * - WRONG_NUMBER: kind isn't valid.
 *
 * With each status other than DONE, rows and paths are unchanged. No byte of text after text_bytes is written. */
uint32_t gix_index_read(const uint8_t *bytes, size_t bytes_len, uint32_t kind, bool skip_hash, gix_index_row *rows,
                        size_t rows_len, uint8_t *paths, size_t paths_len, uint8_t *text, size_t text_len,
                        gix_index_summary *summary);

/* Reads an index with the shared index that it links to, each from all bytes of its file. The shared index is the file
 * sharedindex.ID in the directory of the index. ID is the summary's shared_id in lower-case base 16, as gix_index_read
 * returns it with has_link.
 *
 * Both are read as by gix_index_read. If there is no link, or its id is zeros, shared isn't read, and its length may be
 * 0. Otherwise the trailer of shared has to be the id, or zeros. The table has the entries of both, as the link joins
 * them. With DONE and NO_ROOM has_link is 0, because the table is complete. entries and path_bytes are those of both,
 * and version is that of bytes.
 *
 * REFUSED: the fault is one of gix_index_read, with of_shared if it is in shared; or LINK, if the two don't match. A
 * shared index with another id is DIGEST, with of_shared. All other results are as for gix_index_read. */
uint32_t gix_index_read_split(const uint8_t *bytes, size_t bytes_len, const uint8_t *shared, size_t shared_len,
                              uint32_t kind, bool skip_hash, gix_index_row *rows, size_t rows_len, uint8_t *paths,
                              size_t paths_len, uint8_t *text, size_t text_len, gix_index_summary *summary);

/* Checks an index, given as all bytes of its file. The bytes are read as by gix_index_read, and then these are checked:
 *
 * - The entries increase strictly by path, byte by byte, and then by stage, as the calls below require.
 * - The cached tree, if there is one, is consistent and counts no more entries than there are.
 *
 * Objects aren't read. Of a split index only its own entries are checked. More than one entry with an empty path is out
 * of order then, and has_link is set.
 *
 * - DONE: the check passes.
 * - REFUSED: the fault is one of gix_index_read. ORDER: fault_place is the first entry that isn't greater than the one
 *   before it. CACHED_TREE: the entries are in order. The text is a message, as for gix_index_read. It is empty if
 *   there was no memory for it.
 * - MEMORY: malloc or realloc failed, possibly for the names in a message.
 * - WRONG_NUMBER: kind isn't valid.
 *
 * NO_ROOM isn't returned. No byte of text after text_bytes is written. */
uint32_t gix_index_check(const uint8_t *bytes, size_t bytes_len, uint32_t kind, bool skip_hash, uint8_t *text,
                         size_t text_len, gix_index_summary *summary);

/* Checks an index with the shared index that it links to, each given as all bytes of its file, as `index-tool check`
 * does. Both are read and joined as by gix_index_read_split, and the result is checked as by gix_index_check. If there
 * is no link, or its id is zeros, shared isn't read, and its length may be 0. With DONE and the faults ORDER and
 * CACHED_TREE has_link is 0, and entries counts those of both.
 *
 * - DONE: the check passes.
 * - REFUSED: the fault is one of gix_index_read_split. ORDER: fault_place is the first entry of both that isn't greater
 *   than the one before it. CACHED_TREE: the entries of both are in order.
 *
 * All other results are as for gix_index_check. gix_index_table.h checks the index at a path and follows its link. */
uint32_t gix_index_check_split(const uint8_t *bytes, size_t bytes_len, const uint8_t *shared, size_t shared_len,
                               uint32_t kind, bool skip_hash, uint8_t *text, size_t text_len,
                               gix_index_summary *summary);

/* Returns the index of the row with this path and this stage, counted from 0, or rows_len if there is none.
 *
 * The rows have to increase strictly by path, byte by byte, and then by stage, as those of a valid index do
 * (gix_index_check checks this). For other rows, a returned index below rows_len is still that of a row with the path
 * and the stage. The stages are those of the flags. A path that exceeds the end of paths is cut there. No memory is
 * allocated. */
size_t gix_index_find(const gix_index_row *rows, size_t rows_len, const uint8_t *paths, size_t paths_len,
                      const uint8_t *path, size_t path_len, uint32_t stage);

/* Returns the index at which a row with this path and this stage is, or would be inserted so that the rows stay in
 * order. This is the number of rows that are less than both. It is rows_len if all are.
 *
 * The rows have to be in order as for gix_index_find. For other rows the result is at most rows_len, and nothing else
 * is guaranteed. Paths are cut as there, and no memory is allocated. */
size_t gix_index_lower_bound(const gix_index_row *rows, size_t rows_len, const uint8_t *paths, size_t paths_len,
                             const uint8_t *path, size_t path_len, uint32_t stage);

/* Finds the rows whose path begins with the bytes of the prefix. The empty prefix finds all rows, also in a table
 * without rows: the range is 0 up to 0, and the status is DONE.
 *
 * The paths of the rows have to be in order, as those for gix_index_find are. Then the range has all such rows. For
 * other rows the range is still in the table, and nothing else is guaranteed. Paths are cut as there, and no memory is
 * allocated.
 *
 * - DONE: places is written.
 * - NONE: no path begins with the prefix, and places is unchanged. */
uint32_t gix_index_find_prefix(const gix_index_row *rows, size_t rows_len, const uint8_t *paths, size_t paths_len,
                               const uint8_t *prefix, size_t prefix_len, gix_index_places *places);

/* Returns the index of the row that is closest to a directory, counted from 0, or rows_len if there is none. The
 * directory is a path without a slash at its end.
 *
 * If rows have the directory's path, the result is the first of them whose mode is that of a directory of a sparse
 * index or a submodule. A file with this path has no row below it. Otherwise the result is the first row below the
 * directory: its path begins with the directory and a slash. So there is a row exactly if the path is a directory.
 *
 * The rows have to be in order as for gix_index_find_prefix. For other rows, a returned row still is the directory or
 * is below it. Paths are cut as there, and no memory is allocated. */
size_t gix_index_closest(const gix_index_row *rows, size_t rows_len, const uint8_t *paths, size_t paths_len,
                         const uint8_t *directory, size_t directory_len);

/* Returns the index of the first row that is a directory or is below it, counted from 0, or rows_len if there is none.
 * The case of ASCII letters is ignored. Either the row's path is the directory's and its mode is that of a directory,
 * or its path begins with the directory and a slash.
 *
 * The rows may be in any order, and each up to the result is compared. Paths are cut as there, and no memory is
 * allocated. */
size_t gix_index_closest_icase(const gix_index_row *rows, size_t rows_len, const uint8_t *paths, size_t paths_len,
                               const uint8_t *directory, size_t directory_len);

/* Returns whether two rows have the stat of the same unchanged file. Usually one is a row of an index, and the other
 * has the stat that gix_index_set_stat of gix_index_file.h stored. The time of the last change and the size are always
 * compared. The rest is compared as the comparison selects. If the rows match, the file may still have changed if the
 * row is racy. */
bool gix_index_matches(const gix_index_row *row, const gix_index_row *seen, const gix_index_comparison *comparison);

/* Returns whether the file of a row may have changed when its index was written or later. Its stat proves nothing then,
 * and its contents have to be compared. secs and nsecs are the time at which the index was written, since the begin of
 * 1970. The result is true if the file was last changed no earlier; nanoseconds are compared if the comparison selects
 * them. It is also true if nsecs is a second or more, which is no time. */
bool gix_index_is_racy(const gix_index_row *row, int64_t secs, uint32_t nsecs, const gix_index_comparison *comparison);

/* Returns the mode that a row with this mode has to get to match what is seen at its path. It is the same mode if they
 * match already.
 *
 * - If the bit for execution of a file changed, the result is the other of the two modes of files.
 * - If another type is seen, the result is the mode of what is seen.
 * - If the file system has no links, a file at the path of a link counts as the link.
 * - If the file system has no bit for execution, the row's bit is used. */
uint32_t gix_index_mode_for(uint32_t mode, const gix_index_seen *seen);

/* Computes the id that git has for a file with these bytes, as `git hash-object --stdin` prints it. It is 32 bytes,
 * with zeros after the 20 bytes of SHA-1. The caller applies filters and line ends to a file of the work tree. The
 * object isn't stored. `git hash-object -w FILE` applies filters, stores the object and prints its id. For a symbolic
 * link the bytes are its target. `git hash-object -w --stdin` stores them.
 *
 * - DONE: id is written.
 * - WRONG_NUMBER: kind isn't valid, and id is unchanged.
 *
 * No memory is allocated. */
uint32_t gix_index_blob_id(uint32_t kind, const uint8_t *bytes, size_t bytes_len, uint8_t id[32]);

/* Writes a table as all bytes of an index: the header, the entries, no extension, and the digest. Reading these bytes
 * gives the same rows, except:
 *
 * - Rows with GIX_INDEX_REMOVE are skipped, whatever else they have.
 * - Of the flags, GIX_INDEX_STAGE_MASK, EXTENDED and ASSUME_VALID are stored. INTENT_TO_ADD and SKIP_WORKTREE are
 *   stored only with EXTENDED. Other bits are lost.
 *
 * The rows have to meet these conditions:
 *
 * - They increase strictly by path, byte by byte, and then by stage.
 * - Each has the kind of the form. Its stage is that in bits 12 and 13 of its flags.
 * - Its path is in paths, isn't empty, and has no NUL. Paths may be in any order, with other bytes between them.
 * - Its mode is one of the five above other than GIX_INDEX_DIRECTORY. The mark of a sparse index is an extension.
 *
 * Of an id of SHA-1 only the first 20 bytes are used. A table whose summary has has_link lacks the shared entries, and
 * shouldn't be written. A table of gix_index_read_split may be.
 *
 * - DONE: the index is the first told->bytes of bytes. The rest of bytes is unchanged.
 * - NO_ROOM: the call would succeed with told->bytes bytes. So a call with NULL and the length 0 returns this size.
 * - REFUSED: MODE or ROW, if a row doesn't meet the conditions other than order. fault_place is the first such row.
 *   It is MODE if the mode of this row is none of the five, and ROW otherwise. ORDER, if all rows meet them.
 *   fault_place is then the first row that isn't greater than the one before it; skipped rows don't count. Otherwise
 *   COUNT or LENGTH.
 * - MEMORY: malloc or realloc failed. The rows meet the conditions and are in order.
 * - WRONG_NUMBER: the kind or the version of the form is invalid.
 *
 * With each status other than DONE, bytes is unchanged. gix_index_file.h reads the index at a path with its link
 * followed, and writes a table to a path under a lock. */
uint32_t gix_index_write(const gix_index_row *rows, size_t rows_len, const uint8_t *paths, size_t paths_len,
                         const gix_index_form *form, uint8_t *bytes, size_t bytes_len, gix_index_written *told);

/* Writes a table as all bytes of an index that replaces another one. The other index is given as all bytes of its file.
 * It usually is the one from which the table was read. It is read as by gix_index_read, without skip_hash.
 *
 * - If that index is sparse, so is the new one, and rows may have the mode GIX_INDEX_DIRECTORY.
 * - Its cached tree is preserved if it matches the rows, and left out otherwise; told->tree has which. It matches if
 *   the rows that aren't in conflict have trees, and if these hold for each of its directories that has a number of
 *   entries: it has the id and the number that `git write-tree` gives it, and no row below it is in conflict.
 * - Its stages of resolved conflicts are preserved.
 * - If the rows are its entries, bit by bit, its untracked cache and the data of a file system monitor are preserved
 *   too.
 * - If it has an end marker, the new one has an end marker after these.
 * - A link isn't preserved. The table should have the shared entries.
 *
 * REFUSED: the fault is one of gix_index_read for index, which comes before those of the table; or one of
 * gix_index_write. MEMORY: malloc or realloc failed. All other results are as for gix_index_write. */
uint32_t gix_index_write_over(const gix_index_row *rows, size_t rows_len, const uint8_t *paths, size_t paths_len,
                              const uint8_t *index, size_t index_len, const gix_index_form *form, uint8_t *bytes,
                              size_t bytes_len, gix_index_written *told);

/* Changes an index and writes the result as all bytes of the index that replaces it. The index is given as all bytes of
 * its file. It is read as by gix_index_read_split with the shared index that it links to, without skip_hash. If there
 * is no link, shared isn't read, and its length may be 0.
 *
 * The rows are the changes. They are made one after another, as `git update-index --add --replace` makes them. They
 * need not be sorted.
 *
 * - A row of stage 0 stages its entry. It replaces the entries with its path at all stages, which resolves a conflict.
 * - A row of another stage replaces only the entry with its path and its stage. An entry of stage 0 stays, and `git
 *   fsck` rejects such an index. So begin a conflict with a row that removes the path.
 * - A row also replaces entries of its stage that are in its way. They are a file whose path has to be a directory, or
 *   entries below its path.
 * - A row with GIX_INDEX_REMOVE removes its path at each stage, but not what is below it, as `git update-index
 *   --force-remove` does. Of such a row only flags, path_start and path_len are used. A path that exceeds the end of
 *   paths is cut there. A path without an entry is skipped, also one that git rejects, such as ./a.
 * - A directory of a sparse index isn't expanded, although git does. A row whose path is in one is rejected, also one
 *   with GIX_INDEX_REMOVE. `git sparse-checkout reapply --no-sparse-index` expands all directories.
 *
 * Extensions are preserved as git preserves them. The cached tree loses the counts on the way to each path. The
 * untracked cache loses the data of the path's directories. Sides of conflicts that are removed are recorded. `git
 * checkout -m` restores them if the path still has an entry. The data of a file system monitor move with the entries.
 * The result has version 4 if the index has. Otherwise it has version 3 if an entry has GIX_INDEX_EXTENDED, and version
 * 2 if none has. It has its digest, no link, and an end marker if the index has one.
 *
 * - DONE: the index is the first told->bytes of bytes. The rest of bytes is unchanged.
 * - NO_ROOM: the call would succeed with told->bytes bytes. So a call with NULL and the length 0 returns this size.
 * - REFUSED: told->fault is the first of the values below.
 * - MEMORY: malloc or realloc failed.
 * - WRONG_NUMBER: kind isn't valid.
 *
 * The values of told->fault, in their order:
 *
 * - one of gix_index_read_split, with of_shared if it is in shared;
 * - ORDER: fault_place is the first entry of the index that isn't greater than the one before it;
 * - MODE or ROW: fault_place is the first row without GIX_INDEX_REMOVE that doesn't meet the conditions of
 *   gix_index_write, other than order. For a sparse index they are those of gix_index_write_over;
 * - NAME or ROW: fault_place is the first row whose change is rejected by itself. NAME: a name of its path is empty, or
 *   git rejects it, such as `..` and `.git`. ROW: its id is zeros, its mode is GIX_INDEX_DIRECTORY, or there is no room
 *   for its path;
 * - BELOW: fault_place is the first row whose path is in a directory that the index has as one entry;
 * - COUNT or LENGTH; or ROW with fault_place 0: a path of the shared index has a NUL, which version 4 can't store.
 *
 * With each status other than DONE, bytes is unchanged. gix_index_file.h changes the index at a path under its lock. */
uint32_t gix_index_update(const gix_index_row *rows, size_t rows_len, const uint8_t *paths, size_t paths_len,
                          const uint8_t *index, size_t index_len, const uint8_t *shared, size_t shared_len,
                          uint32_t kind, uint8_t *bytes, size_t bytes_len, gix_index_written *told);

/* Builds the tree objects of a table, as `git write-tree` makes them. There is a tree for each directory that has
 * entries: its id, and its bytes, as `git cat-file tree` prints them. Each follows the trees that it names, so that the
 * root is the last. Its bytes begin at the end of those of the tree before it. Store them in this order.
 *
 * The rows have to meet the conditions of gix_index_write. A row may also have the mode GIX_INDEX_DIRECTORY, as in a
 * sparse index. It names a tree that exists already. Rows with GIX_INDEX_REMOVE are skipped. A row with
 * GIX_INDEX_INTENT_TO_ADD has to meet the conditions, but is in no tree, and a directory that has only such rows has no
 * tree. Whether the objects that rows name exist isn't checked.
 *
 * - DONE: the trees are the first told->trees of trees, and their bytes the first told->bytes of bytes. The rest of
 *   both is unchanged. There is always a tree of the root, even without bytes.
 * - NO_ROOM: the call would succeed with the sizes in told. So a call with NULL and the length 0 for both returns the
 *   sizes.
 * - REFUSED: ROW, MODE or ORDER, as gix_index_write returns them for the first row that doesn't meet the conditions. If
 *   all rows meet them, the fault is that of the first row that can't be in a tree (below), or COUNT with fault_place
 *   0.
 * - MEMORY: malloc or realloc failed. The rows meet the conditions and are in order.
 * - WRONG_NUMBER: kind isn't valid.
 *
 * The errors of a row that can't be in a tree:
 *
 * - UNMERGED: it is in conflict.
 * - NAME: a name of its path is empty, or git rejects it, such as `..` and `.git`.
 * - BELOW: the path of another row is in the way.
 * - ROW: its id is zeros, it is below more than 2048 directories, or it is a directory whose path has no slash at its
 *   end.
 *
 * With each status other than DONE, trees and bytes are unchanged. gix_index_table.h passes each tree to a function. */
uint32_t gix_index_trees(const gix_index_row *rows, size_t rows_len, const uint8_t *paths, size_t paths_len,
                         uint32_t kind, gix_index_tree *trees, size_t trees_len, uint8_t *bytes, size_t bytes_len,
                         gix_index_given *told);

#ifdef __cplusplus
}
#endif

#endif
