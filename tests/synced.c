/* Put before the C library (LD_PRELOAD): tells whether what a program renames was brought to the disk before.
 *
 * SYNCED        a file that gets a line for each rename: `synced` where the file was brought to the disk and nothing
 *               was written to it since then, else `unsynced`
 * SYNCED_FAILS  the name of a call, `fsync` or `fchmod`, that fails with EIO each time
 */
#include "preload.h"

/* The files that are on the disk as they are, by their inodes. */
enum { MOST = 64 };
static ino_t synced[MOST];

static int fails(const char *name) {
  const char *wanted = getenv("SYNCED_FAILS");
  if (!wanted || strcmp(wanted, name)) return 0;
  errno = EIO;
  return 1;
}

/* Puts one inode in place of another, where this is noted. */
static void replace(ino_t old, ino_t new) {
  for (int at = 0; at < MOST; at++)
    if (synced[at] == old) {
      synced[at] = new;
      return;
    }
}

static void forget(int file) {
  struct stat at;
  if (!NEXT(fstat)(file, &at)) replace(at.st_ino, 0);
}

int fsync(int file) {
  struct stat at;
  if (fails("fsync")) return -1;
  int done = NEXT(fsync)(file);
  if (!done && !NEXT(fstat)(file, &at)) replace(0, at.st_ino);
  return done;
}

int fchmod(int file, mode_t mode) { return fails("fchmod") ? -1 : NEXT(fchmod)(file, mode); }

ssize_t write(int file, const void *from, size_t len) {
  forget(file);
  return NEXT(write)(file, from, len);
}

ssize_t __write(int file, const void *from, size_t len) { return write(file, from, len); }

static int is_synced(const char *path) {
  struct stat at;
  if (NEXT(stat)(path, &at)) return 0;
  for (int place = 0; place < MOST; place++)
    if (synced[place] == at.st_ino) return 1;
  return 0;
}

int rename(const char *from, const char *to) {
  const char *path = getenv("SYNCED"), *line = is_synced(from) ? "synced\n" : "unsynced\n";
  int file = path ? open(path, O_WRONLY | O_CREAT | O_APPEND, 0600) : -1;
  if (file >= 0) {
    if (NEXT(write)(file, line, strlen(line)) < 0) abort();
    close(file);
  }
  return NEXT(rename)(from, to);
}
