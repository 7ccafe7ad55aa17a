/* What test_files asks in one process of the files that gix_index_file.h opens: files KIND FILE SPLIT. FILE and SPLIT
 * are sound indices of three entries, SPLIT with the shared one beside it; what is written stands at FILE.out.
 *
 * Each call leaves as many files open as were before it, whatever it answers. FILE and SPLIT are read and pass a check,
 * a file without bytes is refused, and a folder isn't taken for one; or memory is wanting, and then no entry is told
 * of, or a call of the system fails. A line on standard output for each
 * thing that isn't so, or 'ok'. */
#include "check.h"

#define MOST_FILES 64
#define ENTRIES 3

static uint8_t text[300];
static char out[4096];
static int files;

static int open_files(void) {
    int count = 0;
    for (int file = 0; file < MOST_FILES; file++) count += fcntl(file, F_GETFD) >= 0;
    return count;
}

/* What was called last leaves no file open. */
static void closes(const char *what) {
    int now = open_files();
    if (now != files) {
        faults++;
        printf("%s: %d open files, and before %d\n", what, now, files);
    }
    files = now;
}

static void told(const char *what, uint32_t wanted, uint32_t status, const gix_index_summary *said) {
    closes(what);
    if (status == GIX_INDEX_SYSTEM) return;
    if (status == GIX_INDEX_MEMORY && !said->entries && !said->path_bytes && !said->has_link) return;
    if (status == wanted && (status == GIX_INDEX_REFUSED || (said->entries == ENTRIES && !said->has_link))) return;
    faults++;
    printf("%s: status %u, with %zu entries\n", what, status, said->entries);
}

static void reads(const char *path, uint32_t wanted) {
    gix_index_table t;
    gix_index_summary said;
    uint32_t status = gix_index_read_file(path, kind, text, sizeof text, &t);
    told("gix_index_read_file", wanted, status, &t.said);
    gix_index_drop_table(&t);
    status = gix_index_check_file(path, kind, text, sizeof text, &said);
    told("gix_index_check_file", wanted, status, &said);
}

static void writes(const char *path, const gix_index_table *t) {
    gix_index_form form = {.kind = kind, .version = 4};
    gix_index_written told;
    gix_index_write_file(path, t->rows, t->said.entries, t->paths, t->said.path_bytes, &form, &told);
    closes("gix_index_write_file");
    gix_index_write_file_over(path, t->rows, t->said.entries, t->paths, t->said.path_bytes, t->bytes, t->bytes_len,
                              &form, &told);
    closes("gix_index_write_file_over");
}

/* A lock that is committed with a table, or given up where there is none, and one that can't be had meanwhile. */
static void locks(const char *path, const gix_index_table *t) {
    gix_index_form form = {.kind = kind, .version = 2};
    gix_index_written told;
    gix_index_lock lock, other;
    gix_index_lock_file(path, &lock);
    gix_index_lock_file(path, &other);
    gix_index_rollback(&other);
    if (t) gix_index_commit(&lock, t, &form, true, &told);
    gix_index_rollback(&lock);
    closes(t ? "gix_index_commit" : "gix_index_rollback");
}

int main(int argc, char **argv) {
    if (argc != 4 || snprintf(out, sizeof out, "%s.out", argv[2]) >= (int)sizeof out) return 1;
    begin(argv[1]);
    files = open_files();
    reads(argv[2], GIX_INDEX_DONE);
    reads(argv[3], GIX_INDEX_DONE);
    reads(".", GIX_INDEX_SYSTEM);
    reads("/dev/null", GIX_INDEX_REFUSED);
    reads("no such file", GIX_INDEX_SYSTEM);
    gix_index_table t;
    if (gix_index_read_file(argv[2], kind, text, sizeof text, &t) == GIX_INDEX_DONE) {
        writes(out, &t);
        writes(".", &t);
        locks(out, &t);
        locks(out, NULL);
    }
    gix_index_drop_table(&t);
    return end();
}
