/* What test_called asks of writing, in one process: written WORD KIND FILE.
 *
 * threads   reads the file and writes it in four threads at once, many times
 * rooms     writes its table in each way into rooms of each size, from none up to one too large, and reads it again
 * unfit     writes its table with a row that can't stand in a file, or out of order
 * files     writes its table to a path beside it, also where a lock is there and where the path can't be written
 * written   reads and writes it without a request for memory of its own, so that each is the library's
 *
 * A line on standard output for each thing that isn't so, or 'ok'. The status is 1 where a file can't be read here. */
#include "linked.h"

#include <pthread.h>

#define THREADS 4
#define ROUNDS 200

/* How the table of the file is written: in a version, with its digest or without. */
static gix_index_form form_of(uint32_t version, bool skip_hash) {
    gix_index_form form = {.kind = kind, .version = version, .skip_hash = skip_hash};
    return form;
}

static uint32_t write_into(const table *t, const gix_index_form *form, uint8_t *room, size_t len,
                           gix_index_written *told) {
    return gix_index_write(t->rows, t->said.entries, t->paths, t->said.path_bytes, form, room, len, told);
}

/* The table that each thread has to read, and the index that it has to write. */
static table shared;
static uint8_t shared_image[MOST];
static gix_index_written shared_told;

static bool writes_same(const table *t, uint8_t *room) {
    gix_index_form form = form_of(4, false);
    gix_index_written told;
    uint32_t status = write_into(t, &form, room, shared_told.bytes, &told);
    return status == GIX_INDEX_DONE && told.bytes == shared_told.bytes && told.version == shared_told.version &&
           !memcmp(room, shared_image, told.bytes);
}

static void *rounds(void *count) {
    uint8_t *room = malloc(shared_told.bytes);
    for (int i = 0; room && i < ROUNDS; i++) {
        table t;
        make(&t, shared.said.entries, shared.said.path_bytes);
        read_into(&t);
        *(int *)count += t.status == GIX_INDEX_DONE && has_same(&t, &shared) && writes_same(&t, room);
        drop(&t);
    }
    free(room);
    return NULL;
}

static void threads(void) {
    pthread_t running[THREADS];
    int counts[THREADS] = {0};
    whole_table(&shared);
    gix_index_form form = form_of(4, false);
    uint32_t status = write_into(&shared, &form, shared_image, MOST, &shared_told);
    expect(status == GIX_INDEX_DONE, "the table isn't written", shared.said.entries, shared.said.path_bytes);
    for (int i = 0; i < THREADS; i++)
        if (pthread_create(running + i, NULL, rounds, counts + i)) exit(3);
    for (int i = 0; i < THREADS; i++) {
        pthread_join(running[i], NULL);
        expect(counts[i] == ROUNDS, "a thread read another table", shared.said.entries, shared.said.path_bytes);
    }
    drop(&shared);
}

static void try_room(const table *whole, const gix_index_form *form, const uint8_t *image, size_t len,
                     size_t room_len) {
    gix_index_written told = {7, 7, 7, 7, 7, 7};
    uint8_t *room = malloc(room_len);
    if (!room) exit(3);
    memset(room, FILL, room_len);
    uint32_t status = write_into(whole, form, room, room_len, &told);
    bool fits = room_len >= len;
    expect(status == (fits ? GIX_INDEX_DONE : GIX_INDEX_NO_ROOM), "another status of writing", room_len, len);
    expect(told.bytes == len && told.fault == 0 && told.fault_place == 0, "another length", told.bytes, len);
    expect(told.version >= 2 && told.version <= 4 && told.tree == 0, "another version or a tree", told.version, len);
    expect(!fits || !memcmp(room, image, len), "another index", room_len, len);
    expect(is_filled(room + (fits ? len : 0), room_len - (fits ? len : 0)), "a room that was written", room_len, len);
    free(room);
}

/* The image is read as a table, which is compared with another. */
static void read_back(const table *whole, const uint8_t *image, size_t len, uint32_t version) {
    table again;
    make(&again, whole->said.entries, whole->said.path_bytes);
    again.status = gix_index_read(image, len, kind, false, again.rows, again.rows_len, again.paths, again.paths_len,
                                  again.text, sizeof again.text, &again.said);
    expect(again.status == GIX_INDEX_DONE && has_same(&again, whole), "another table is read back", len, version);
    expect(again.said.version == version && !again.said.has_link, "another version", again.said.version, version);
    drop(&again);
}

static void rooms(void) {
    static uint8_t image[MOST];
    table whole;
    whole_table(&whole);
    size_t digest = kind == GIX_INDEX_SHA1 ? 20 : 32;
    for (uint32_t version = 2; version <= 4; version++) {
        for (int skip = 0; skip < 2; skip++) {
            gix_index_form form = form_of(version, skip);
            gix_index_written told;
            uint32_t status = write_into(&whole, &form, image, MOST, &told);
            expect(status == GIX_INDEX_DONE, "the table isn't written", version, skip);
            uint32_t wanted = version == 4 ? 4 : whole.said.version == 3 ? 3 : 2;
            expect(told.version == wanted, "another version", version, skip);
            uint8_t zeros = 0;
            for (size_t i = told.bytes - digest; i < told.bytes; i++) zeros |= image[i];
            expect((zeros == 0) == skip, "another trailer", version, skip);
            for (size_t len = 0; len <= told.bytes + 1; len++) try_room(&whole, &form, image, told.bytes, len);
            read_back(&whole, image, told.bytes, told.version);
        }
    }
    drop(&whole);
}

/* The table is refused so, and nothing is written. */
static void try_unfit(const table *t, uint32_t fault, size_t place, const char *what) {
    static uint8_t room[MOST];
    gix_index_form form = form_of(2, false);
    gix_index_written told = {7, 7, 7, 7, 7, 7};
    memset(room, FILL, sizeof room);
    uint32_t status = write_into(t, &form, room, sizeof room, &told);
    expect(status == GIX_INDEX_REFUSED && told.fault == fault && told.fault_place == place, what, told.fault, place);
    expect(told.bytes == 0 && told.version == 0 && told.tree == 0, "more is told of an unfit table", 0, place);
    expect(is_filled(room, sizeof room), "an unfit table is written", 0, place);
}

/* The row at place 1 is another, and so has to be this fault. */
static void try_row(table *t, gix_index_row row, uint32_t fault, const char *what) {
    gix_index_row old = t->rows[1];
    t->rows[1] = row;
    try_unfit(t, fault, 1, what);
    t->rows[1] = old;
}

static void try_rows(table *t) {
    gix_index_row row = t->rows[1], other = row;
    for (uint32_t number = 0; number < 4; number++) {
        other.kind = number;
        if (number != row.kind) try_row(t, other, GIX_INDEX_FAULT_ROW, "a kind is let through");
    }
    other = row;
    other.stage = row.stage + 1;
    try_row(t, other, GIX_INDEX_FAULT_ROW, "a stage is let through");
    other = row;
    other.mode = GIX_INDEX_DIRECTORY;
    try_row(t, other, GIX_INDEX_FAULT_ROW, "a directory is let through");
    const uint32_t modes[] = {0, 0100600, 0100664, 0120644, 0140000, 0200644, UINT32_MAX};
    for (size_t i = 0; i < sizeof modes / sizeof *modes; i++) {
        other.mode = modes[i];
        try_row(t, other, GIX_INDEX_FAULT_MODE, "a mode is let through");
    }
    other = row;
    other.path_len = 0;
    try_row(t, other, GIX_INDEX_FAULT_ROW, "no path is let through");
    const size_t starts[] = {t->said.path_bytes, t->said.path_bytes + 1, SIZE_MAX, SIZE_MAX - 1};
    for (size_t i = 0; i < sizeof starts / sizeof *starts; i++) {
        other = row;
        other.path_start = starts[i];
        other.path_len = 2;
        try_row(t, other, GIX_INDEX_FAULT_ROW, "a path outside is let through");
        other.path_start = 1;
        other.path_len = starts[i];
        try_row(t, other, GIX_INDEX_FAULT_ROW, "a path that is too long is let through");
    }
    try_row(t, t->rows[0], GIX_INDEX_FAULT_ORDER, "a row that is there twice is let through");
}

/* A row that is marked is passed over, whatever else it has, and the rest is written. */
static void try_mark(table *t, gix_index_row row) {
    static uint8_t room[MOST];
    static gix_index_row rows[MOST / 16];
    static uint8_t paths[MOST];
    gix_index_form form = form_of(2, false);
    gix_index_written told;
    gix_index_summary said;
    gix_index_row old = t->rows[1];
    t->rows[1] = row;
    t->rows[1].flags |= GIX_INDEX_REMOVE;
    uint32_t status = write_into(t, &form, room, sizeof room, &told);
    t->rows[1] = old;
    expect(status == GIX_INDEX_DONE, "a marked row is refused", told.fault, told.fault_place);
    status = gix_index_read(room, told.bytes, kind, false, rows, MOST / 16, paths, MOST, t->text, sizeof t->text,
                            &said);
    expect(status == GIX_INDEX_DONE && said.entries == t->said.entries - 1, "a marked row is written", said.entries, 0);
    expect(!memcmp(rows + 1, t->rows + 2, offsetof(gix_index_row, path_start)), "another row is left out", 0, 0);
}

/* Rows that nobody could write, and one behind a marked one that isn't above the one before that. */
static void try_marks(table *t) {
    gix_index_row none = {.flags = 0x3000, .mode = UINT32_MAX, .path_start = SIZE_MAX, .path_len = SIZE_MAX};
    try_mark(t, t->rows[1]);
    try_mark(t, t->rows[0]);
    try_mark(t, t->rows[2]);
    try_mark(t, none);
    gix_index_row marked = t->rows[1], last = t->rows[2];
    t->rows[1].flags |= GIX_INDEX_REMOVE;
    t->rows[2] = t->rows[0];
    try_unfit(t, GIX_INDEX_FAULT_ORDER, 2, "a row behind a marked one is let through");
    t->rows[1] = marked;
    t->rows[2] = last;
}

static void try_form(const table *t, uint32_t of_kind, uint32_t version) {
    uint8_t room = FILL;
    gix_index_form form = {.kind = of_kind, .version = version};
    gix_index_written told = {7, 7, 7, 7, 7, 7};
    uint32_t status = write_into(t, &form, &room, 1, &told);
    expect(status == GIX_INDEX_WRONG_NUMBER && room == FILL, "a wrong number is let through", of_kind, version);
    bool is_nothing = told.bytes == 0 && told.fault == 0 && told.fault_place == 0;
    expect(is_nothing && told.version == 0 && told.tree == 0, "a wrong number is told of", of_kind, version);
}

static void unfit(void) {
    table whole;
    whole_table(&whole);
    try_rows(&whole);
    gix_index_row last = whole.rows[2];
    whole.rows[2] = whole.rows[1];
    try_unfit(&whole, GIX_INDEX_FAULT_ORDER, 2, "a row that is there twice is let through");
    whole.rows[2] = last;
    uint8_t *byte = whole.paths + whole.rows[2].path_start + 1, old = *byte;
    *byte = 0;
    try_unfit(&whole, GIX_INDEX_FAULT_ROW, 2, "a NUL is let through");
    *byte = old;
    try_marks(&whole);
    for (uint32_t number = 0; number < 7; number++) {
        if (number < 2 || number > 4) try_form(&whole, kind, number);
        if (number < 1 || number > 2) try_form(&whole, number, 2);
    }
    drop(&whole);
}

/* A path beside the file. */
static char *beside(const char *file, const char *end) {
    char *path = malloc(strlen(file) + strlen(end) + 1);
    if (!path) exit(3);
    return strcat(strcpy(path, file), end);
}

static uint32_t write_file(const char *path, const table *t) {
    gix_index_form form = form_of(2, false);
    gix_index_written told;
    errno = 0;
    return gix_index_write_file(path, t->rows, t->said.entries, t->paths, t->said.path_bytes, &form, &told);
}

static void files(const char *file) {
    table whole;
    whole_table(&whole);
    char *path = beside(file, ".out"), *lock = beside(file, ".out.lock"), *lost = beside(file, ".none/out");
    expect(write_file(path, &whole) == GIX_INDEX_DONE, "a file isn't written", 0, 0);
    expect(access(lock, F_OK) != 0, "a lock is left", 0, 0);
    int held = open(path, O_RDONLY);
    static uint8_t image[MOST];
    ssize_t len = read(held, image, MOST);
    close(held);
    read_back(&whole, image, len, whole.said.version);
    expect(write_file(path, &whole) == GIX_INDEX_DONE, "a file isn't written again", 0, 0);
    close(open(lock, O_CREAT | O_WRONLY, 0600));
    expect(write_file(path, &whole) == GIX_INDEX_SYSTEM && errno == EEXIST, "a lock is passed over", errno, 0);
    expect(access(lock, F_OK) == 0, "another's lock is removed", 0, 0);
    unlink(lock);
    expect(write_file(lost, &whole) == GIX_INDEX_SYSTEM && errno == ENOENT, "a folder is passed over", errno, 0);
    unlink(path);
    if (mkdir(path, 0700)) exit(3);
    expect(write_file(path, &whole) == GIX_INDEX_NOT_REGULAR, "a folder is replaced", errno, 0);
    expect(access(lock, F_OK) != 0, "a lock is left after a failure", 0, 0);
    rmdir(path);
    whole.rows[1].path_len = SIZE_MAX;
    expect(write_file(path, &whole) == GIX_INDEX_REFUSED, "an unfit table is written", 0, 0);
    expect(access(path, F_OK) != 0 && access(lock, F_OK) != 0, "a file is left of an unfit table", 0, 0);
    free(path);
    free(lock);
    free(lost);
    drop(&whole);
}

/* Reads once and writes once. Refused memory, the library leaves the room as it was. */
static void written(void) {
    static uint8_t room[MOST];
    table t;
    if (!once(&t)) return;
    gix_index_form form = form_of(4, false);
    gix_index_written told;
    memset(room, FILL, sizeof room);
    uint32_t status = write_into(&t, &form, room, sizeof room, &told);
    expect(status == GIX_INDEX_DONE || status == GIX_INDEX_MEMORY, "another status of writing", status, told.fault);
    if (status == GIX_INDEX_DONE) return;
    expect(is_filled(room, sizeof room) && told.bytes == 0, "a room that was written", status, told.fault);
    puts("memory");
}

int main(int argc, char **argv) {
    if (!load(argc, argv)) return 1;
    if (!strcmp(argv[1], "threads")) threads();
    if (!strcmp(argv[1], "rooms")) rooms();
    if (!strcmp(argv[1], "unfit")) unfit();
    if (!strcmp(argv[1], "files")) files(argv[3]);
    if (!strcmp(argv[1], "written")) written();
    return end();
}
