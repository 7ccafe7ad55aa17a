/* Put before the C library (LD_PRELOAD): counts a program's requests for memory and its calls of the system, and
 * refuses one of them, or one and all behind it. tests/failing.py begins programs with it.
 *
 * REFUSED_KIND   request  one of malloc, realloc, aligned_alloc, posix_memalign and mmap
 *                call     one that opens, looks at, reads, writes, moves in, syncs, renames or removes a file
 *                move     one that reads or writes more than one byte; it moves one then, and isn't refused
 *                wait     one that opens, reads or writes; it is interrupted before it did anything
 * REFUSED_NTH    which one, counted from 1
 * REFUSED_ON     where it is set, each one behind it as well
 * REFUSED_ALSO   where it is set, calls that look at a file otherwise, read a link, set permissions or times, or close
 *                a file count as well
 * REFUSED_ERROR  the number of the error of a call (by default EIO)
 * REFUSED_SIZE   before the REFUSED_NTH reading the file has so many bytes, whatever REFUSED_KIND is
 * REFUSED_COUNTS a file for how many there were of the four kinds, how many requests were for a block that there was
 *                none of before, as a vector's first one is, and how many bytes the largest request was for
 */
#include "preload.h"

#include <stdarg.h>
#include <stdio.h>
#include <sys/mman.h>
#include <sys/syscall.h>

enum kind { REQUEST, CALL, MOVE, WAIT, KINDS };
static const char *const names[KINDS] = {"request", "call", "move", "wait"};

static long counts[KINDS], blocks, nth, readings, size = -1;
static size_t largest;
static enum kind refused = KINDS;
static int goes_on, counts_also, is_begun, error_number = EIO;

__attribute__((constructor)) static void begin(void) {
  const char *kind = getenv("REFUSED_KIND");
  for (enum kind at = 0; kind && at < KINDS; at++)
    if (!strcmp(kind, names[at])) refused = at;
  nth = number_of("REFUSED_NTH", 0);
  size = number_of("REFUSED_SIZE", -1);
  error_number = number_of("REFUSED_ERROR", EIO);
  goes_on = is_set("REFUSED_ON");
  counts_also = is_set("REFUSED_ALSO");
  is_begun = 1;
}

__attribute__((destructor)) static void end(void) {
  const char *path = getenv("REFUSED_COUNTS");
  char text[128];
  if (!path) return;
  int len = snprintf(text, sizeof text, "%ld %ld %ld %ld %ld %zu\n", counts[REQUEST], counts[CALL], counts[MOVE],
                     counts[WAIT], blocks, largest);
  int file = syscall(SYS_open, path, O_WRONLY | O_CREAT | O_TRUNC, 0600);
  if (file >= 0 && syscall(SYS_write, file, text, len) == len) syscall(SYS_close, file);
}

/* Counts one, and says whether it is refused. */
static int is_refused(enum kind kind, int error) {
  if (!is_begun) return 0;
  long number = ++counts[kind];
  if (kind != refused || (goes_on ? number < nth : number != nth)) return 0;
  errno = error;
  return 1;
}

static int no_memory(const void *old, size_t len) {
  blocks += is_begun && !old;
  if (is_begun && len > largest) largest = len;
  return is_refused(REQUEST, ENOMEM);
}
static int fails(void) { return is_refused(CALL, error_number); }
static int also_fails(void) { return counts_also && fails(); }
static int is_interrupted(void) { return is_refused(WAIT, EINTR); }
static size_t moved(size_t len) { return len > 1 && is_refused(MOVE, 0) ? 1 : len; }

void *malloc(size_t len) {
  static __typeof__(&malloc) next;
  if (!next) next = NEXT(malloc);
  return no_memory(NULL, len) ? NULL : next(len);
}

void *realloc(void *old, size_t len) {
  static __typeof__(&realloc) next;
  if (!next) next = NEXT(realloc);
  return no_memory(old, len) ? NULL : next(old, len);
}

void *aligned_alloc(size_t alignment, size_t len) {
  return no_memory(NULL, len) ? NULL : NEXT(aligned_alloc)(alignment, len);
}

int posix_memalign(void **to, size_t alignment, size_t len) {
  return no_memory(NULL, len) ? ENOMEM : NEXT(posix_memalign)(to, alignment, len);
}

void *mmap(void *at, size_t len, int rights, int flags, int file, off_t from) {
  return no_memory(NULL, len) ? MAP_FAILED : NEXT(mmap)(at, len, rights, flags, file, from);
}

int open(const char *path, int flags, ...) {
  va_list rest;
  va_start(rest, flags);
  mode_t mode = va_arg(rest, mode_t);
  va_end(rest);
  return fails() || is_interrupted() ? -1 : NEXT(open)(path, flags, mode);
}

int openat(int folder, const char *path, int flags, ...) {
  va_list rest;
  va_start(rest, flags);
  mode_t mode = va_arg(rest, mode_t);
  va_end(rest);
  return fails() || is_interrupted() ? -1 : NEXT(openat)(folder, path, flags, mode);
}

int open64(const char *path, int flags, ...) {
  va_list rest;
  va_start(rest, flags);
  mode_t mode = va_arg(rest, mode_t);
  va_end(rest);
  if (also_fails() || (counts_also && is_interrupted())) return -1;
  return NEXT(open64)(path, flags, mode);
}

int statx(int folder, const char *restrict path, int flags, unsigned mask, struct statx *restrict to) {
  return fails() ? -1 : NEXT(statx)(folder, path, flags, mask, to);
}

off_t lseek(int file, off_t to, int from) { return fails() ? -1 : NEXT(lseek)(file, to, from); }
int rename(const char *from, const char *to) { return fails() ? -1 : NEXT(rename)(from, to); }
int unlink(const char *path) { return fails() ? -1 : NEXT(unlink)(path); }
int fsync(int file) { return fails() ? -1 : NEXT(fsync)(file); }
int ftruncate(int file, off_t len) { return fails() ? -1 : NEXT(ftruncate)(file, len); }

int lstat(const char *path, struct stat *to) { return also_fails() ? -1 : NEXT(lstat)(path, to); }
int fstat(int file, struct stat *to) { return also_fails() ? -1 : NEXT(fstat)(file, to); }
int fchmod(int file, mode_t mode) { return also_fails() ? -1 : NEXT(fchmod)(file, mode); }
int futimens(int file, const struct timespec times[2]) { return also_fails() ? -1 : NEXT(futimens)(file, times); }

/* A file is closed where that fails too, as Linux has it. */
int close(int file) {
  int done = NEXT(close)(file);
  return also_fails() ? -1 : done;
}

ssize_t readlink(const char *path, char *to, size_t len) {
  return also_fails() ? -1 : NEXT(readlink)(path, to, len);
}

/* The file is longer or shorter than it was, as where another program writes it meanwhile. */
static void resize(int file) {
  char path[32];
  if (size < 0 || ++readings != nth) return;
  snprintf(path, sizeof path, "/proc/self/fd/%d", file);
  syscall(SYS_truncate, path, size);
}

ssize_t read(int file, void *to, size_t len) {
  resize(file);
  return fails() || is_interrupted() ? -1 : NEXT(read)(file, to, moved(len));
}

ssize_t write(int file, const void *from, size_t len) {
  return fails() || is_interrupted() ? -1 : NEXT(write)(file, from, moved(len));
}

ssize_t __write(int file, const void *from, size_t len) { return write(file, from, len); }
