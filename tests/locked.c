/* What test_called asks of locks and of reading files, in one process: locked KIND FILE. FILE is an index, and what is
 * made stands beside it, in the folder FILE.d, which is gone at the end.
 *
 * A line on standard output for each thing that isn't so, or 'ok'. The status is 1 where a file can't be made here. */
#include "check.h"

/* A time long ago, in whose seconds and nanoseconds no file is made here. */
static const struct timespec past = {1600000000, 123456789}, earlier = {1500000000, 5}, nil = {0, 7};

static uint8_t text[300];
static gix_index_table t;

static void need(bool holds, const char *what) {
    if (holds) return;
    perror(what);
    exit(1);
}

static bool is_time(struct timespec a, struct timespec b) { return a.tv_sec == b.tv_sec && a.tv_nsec == b.tv_nsec; }

/* Makes a file with this mode and this time. */
static void make(const char *path, mode_t mode, struct timespec time) {
    const struct timespec times[2] = {time, time};
    int file = open(path, O_WRONLY | O_CREAT | O_TRUNC, 0600);
    bool is_made = file >= 0 && write(file, "old\n", 4) == 4 && fchmod(file, mode) == 0 && futimens(file, times) == 0;
    need(is_made, path);
    close(file);
}

static bool is_old(const char *path) {
    size_t len;
    uint8_t *bytes = gix_index_bytes_of(path, &len);
    bool is_same = bytes && len == 4 && !memcmp(bytes, "old\n", 4);
    free(bytes);
    return is_same;
}

static bool is_there(const char *path) {
    struct stat seen;
    return lstat(path, &seen) == 0;
}

/* Locks the path, and commits the table with this time: the status. */
static uint32_t commit(const char *path, struct timespec time, bool is_synced) {
    gix_index_form form = {.kind = kind, .version = 2};
    gix_index_lock lock;
    gix_index_written told;
    uint32_t status = gix_index_lock_file(path, &lock);
    expect(status == GIX_INDEX_DONE && lock.is_held && is_there("index.lock"), "no lock is made", status, lock.is_held);
    t.mtime = time;
    status = gix_index_commit(&lock, &t, &form, is_synced, &told);
    expect(!lock.is_held && !lock.path && !lock.lock_path && !is_there("index.lock"), "a lock is left", status, 0);
    return status;
}

/* The index has these permissions and this time, or that of its making where it is nil. */
static void holds(mode_t mode, struct timespec time, const char *what) {
    struct stat seen;
    need(stat("index", &seen) == 0, "index");
    expect((seen.st_mode & 07777) == mode, what, seen.st_mode & 07777, mode);
    expect(is_time(time, nil) ? seen.st_mtim.tv_sec > past.tv_sec : is_time(seen.st_mtim, time), what,
           (size_t)seen.st_mtim.tv_sec, (size_t)time.tv_sec);
    gix_index_table again;
    uint32_t status = gix_index_read_file("index", kind, text, sizeof text, &again);
    expect(status == GIX_INDEX_DONE && again.said.entries == t.said.entries, what, status, again.said.entries);
    expect(is_time(again.mtime, seen.st_mtim), "a table has another time", (size_t)again.mtime.tv_sec, 0);
    gix_index_drop_table(&again);
}

static void commits(void) {
    umask(027);
    make("index", 0640, earlier);
    expect(commit("index", past, true) == GIX_INDEX_DONE, "it isn't committed", 0, 0);
    holds(0640, past, "another time than the table's");
    expect(commit("index", (struct timespec){0}, false) == GIX_INDEX_DONE, "it isn't committed again", 0, 0);
    holds(0640, past, "another time than the old index's");
    make("index", 0400, nil);
    expect(commit("index", nil, false) == GIX_INDEX_DONE, "it isn't committed over one of time 0", 0, 0);
    holds(0400, nil, "a time of 0");
    unlink("index");
    expect(commit("index", nil, true) == GIX_INDEX_DONE, "a new one isn't committed", 0, 0);
    holds(0640, nil, "a new index's time or mode");
    unlink("index");
    expect(commit("index", past, false) == GIX_INDEX_DONE, "a new one isn't committed with a time", 0, 0);
    holds(0640, past, "a new index with a time");
    /* (a path without a lock of its own has the old index's time) */
    gix_index_form form = {.kind = kind, .version = 4};
    gix_index_written told;
    make("index", 0604, earlier);
    uint32_t status = gix_index_write_file("index", t.rows, t.said.entries, t.paths, t.said.path_bytes, &form, &told);
    expect(status == GIX_INDEX_DONE, "a path isn't written", status, 0);
    holds(0604, earlier, "another time than that of the path");
}

/* What ends a lock without a commit leaves the index as it was. */
static void ends(void) {
    gix_index_form form = {.kind = kind, .version = 2};
    gix_index_lock lock, other;
    gix_index_written told;
    make("index", 0600, past);
    expect(gix_index_lock_file("index", &lock) == GIX_INDEX_DONE, "no lock is made", 0, 0);
    uint32_t status = gix_index_lock_file("index", &other);
    expect(status == GIX_INDEX_SYSTEM && errno == EEXIST, "a lock is passed over", status, (size_t)errno);
    expect(other.lock_path && !strcmp(other.lock_path, "index.lock"), "a lock isn't named", 0, 0);
    gix_index_rollback(&other);
    expect(is_there("index.lock"), "another's lock is removed", 0, 0);
    gix_index_rollback(&lock);
    gix_index_rollback(&lock);
    expect(!is_there("index.lock") && is_old("index"), "a lock isn't given up", 0, 0);
    size_t len = t.rows[1].path_len;
    t.rows[1].path_len = SIZE_MAX;
    expect(commit("index", past, false) == GIX_INDEX_REFUSED, "an unfit table is committed", 0, 0);
    t.rows[1].path_len = len;
    expect(is_old("index"), "an unfit table is written", 0, 0);
    expect(gix_index_lock_file("index", &lock) == GIX_INDEX_DONE, "no lock is made again", 0, 0);
    unlink("index");
    need(mkdir("index", 0700) == 0, "index");
    status = gix_index_commit(&lock, &t, &form, false, &told);
    expect(status == GIX_INDEX_SYSTEM && errno == EISDIR, "a directory is replaced", status, (size_t)errno);
    expect(!is_there("index.lock"), "a lock is left after a failure", 0, 0);
    status = gix_index_commit(&lock, &t, &form, false, &told);
    expect(status == GIX_INDEX_SYSTEM && errno == EBADF, "no lock is committed", status, (size_t)errno);
    rmdir("index");
}

/* A path that can't be locked so, and where it is seen that it can't. */
static void no_lock(const char *path, uint32_t wanted, int error, mode_t type, const char *at) {
    gix_index_lock lock;
    errno = 0;
    uint32_t status = gix_index_lock_file(path, &lock);
    expect(status == wanted && (!error || errno == error), path, status, (size_t)errno);
    expect(!type || (lock.mode & S_IFMT) == type, path, lock.mode, type);
    expect(!lock.is_held && !strcmp(lock.path, at), lock.path, lock.is_held, 0);
    gix_index_rollback(&lock);
}

static void links(void) {
    gix_index_lock lock;
    make("index", 0600, past);
    need(mkdir("inner", 0700) == 0 && symlink("../index", "inner/1") == 0 && symlink("inner/1", "2") == 0 &&
         symlink("2", "3") == 0 && symlink("3", "4") == 0 && symlink("4", "5") == 0 && symlink("5", "6") == 0 &&
         symlink("no/index", "lost") == 0 && symlink("new", "free") == 0 && symlink("loop", "loop") == 0, "links");
    uint32_t status = gix_index_lock_file("5", &lock);
    expect(status == GIX_INDEX_DONE && !strcmp(lock.path, "inner/../index"), "five links aren't followed", status, 0);
    gix_index_rollback(&lock);
    no_lock("6", GIX_INDEX_SYSTEM, ELOOP, S_IFLNK, "inner/1");
    no_lock("loop", GIX_INDEX_SYSTEM, ELOOP, S_IFLNK, "loop");
    no_lock("lost", GIX_INDEX_SYSTEM, ENOENT, 0, "no/index");
    no_lock("", GIX_INDEX_SYSTEM, ENOENT, 0, "");
    no_lock("index/index", GIX_INDEX_SYSTEM, ENOTDIR, 0, "index/index");
    no_lock("inner", GIX_INDEX_NOT_REGULAR, 0, S_IFDIR, "inner");
    need(mkfifo("fifo", 0600) == 0 && symlink("fifo", "tied") == 0, "fifo");
    no_lock("tied", GIX_INDEX_NOT_REGULAR, 0, S_IFIFO, "fifo");
    no_lock("free", GIX_INDEX_SYSTEM, ENOENT, 0, "new");
    status = gix_index_lock_file("new", &lock);
    expect(status == GIX_INDEX_DONE && !strcmp(lock.path, "new") && !lock.mode, "no new file is locked", status, 0);
    expect(is_there("new.lock") && !is_there("new"), "another lock is made", 0, 0);
    gix_index_rollback(&lock);
}

/* A file is read with each first room, and a directory isn't. */
static void readings(const char *file) {
    size_t len, other_len;
    uint8_t *bytes = gix_index_bytes_of(file, &len);
    need(bytes != NULL, file);
    for (size_t room = 1; room < len + 3; room += room < 70 ? 1 : len / 7) {
        int opened = open(file, O_RDONLY);
        uint8_t *other = gix_index_bytes_behind(opened, room, &other_len);
        expect(other && other_len == len && !memcmp(other, bytes, len), "a file is read otherwise", room, other_len);
        free(other);
        close(opened);
    }
    free(bytes);
    expect(!gix_index_bytes_of("inner", &len) && errno == EISDIR, "a directory is read", (size_t)errno, 0);
    expect(!gix_index_bytes_of("no", &len) && errno == ENOENT, "no file is read", (size_t)errno, 0);
    gix_index_table none;
    uint32_t status = gix_index_read_file("inner", kind, text, sizeof text, &none);
    expect(status == GIX_INDEX_SYSTEM && errno == EISDIR, "a directory is read as an index", status, (size_t)errno);
    gix_index_drop_table(&none);
}

static void tidy(void) {
    const char *const names[] = {"index", "inner/1", "2", "3", "4", "5", "6", "lost", "free", "loop", "fifo", "tied"};
    for (size_t i = 0; i < sizeof names / sizeof *names; i++) unlink(names[i]);
    rmdir("inner");
}

int main(int argc, char **argv) {
    char folder[4096];
    if (argc != 3 || snprintf(folder, sizeof folder, "%s.d", argv[2]) >= (int)sizeof folder) return 1;
    begin(argv[1]);
    need(gix_index_read_file(argv[2], kind, text, sizeof text, &t) == GIX_INDEX_DONE, argv[2]);
    need(mkdir(folder, 0700) == 0 && chdir(folder) == 0, folder);
    commits();
    ends();
    links();
    readings(argv[2]);
    tidy();
    gix_index_drop_table(&t);
    expect(rmdir(folder) == 0, "a file is left", (size_t)errno, 0);
    return end();
}
