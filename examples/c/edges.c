/* What the headers promise at the edges of a store's life, each promise tried once: edges FILE. */
#define _POSIX_C_SOURCE 200809L
#include <errno.h>
#include <signal.h>
#include <stdint.h>
#include <sys/wait.h>
#include <unistd.h>

/* Which of the next syncs by fsync fails; none where it is negative. */
static int failing = -1;

static int sync_or_fail(int file)
{
    if (failing-- != 0)
        return fsync(file);
    errno = EIO;
    return -1;
}

/* How many bytes this thread has written into files. */
static __thread uint64_t written;

/* In front of which of the next writes the process is killed, and of which removal of a name; of none where it is negative. */
static int fatal_write = -1, fatal_removal = -1;

static void die_in_turn(int *turn)
{
    if ((*turn)-- == 0)
        kill(getpid(), SIGKILL);
}

static ssize_t write_and_count(int file, const void *bytes, size_t length, off_t at)
{
    die_in_turn(&fatal_write);
    const ssize_t put = pwrite(file, bytes, length, at);
    if (put > 0)
        written += (uint64_t)put;
    return put;
}

static int unlink_or_die(const char *path)
{
    die_in_turn(&fatal_removal);
    return unlink(path);
}

#include "nsf.h"

/* Whether the steps of a change behind the first one are refused. */
static bool lacks_memory = false;

static uint32_t finish_or_refuse(nsf_handle *handle, uint64_t txn)
{
    return lacks_memory ? (uint32_t)NSF_NO_MEMORY : nsf_finish(handle, txn);
}

#define fsync sync_or_fail
#define pwrite write_and_count
#define unlink unlink_or_die
#define nsf_finish finish_or_refuse
#include "nsf_shared.h"

enum { PAGES = 4, ENTRIES = 256, SLOTS = 16, LONG = 1000000, WAITERS = 12, ROUNDS = 20, MARKED = 300 };

static void must(uint32_t refused, const char *what)
{
    if (!refused)
        return;
    fprintf(stderr, "%s: %s\n", what, refused == NSF_SYSTEM ? strerror(errno) : nsf_message(refused));
    exit(1);
}

static void tell(const char *what, bool is_so)
{
    printf("%s: %s\n", what, is_so ? "yes" : "no");
}

/* ---- threads that wait for a shared store */

typedef struct waiter {
    nsf_shared *shared;
    uint32_t (*call)(nsf_seat *seat);
    pthread_t thread;
    uint32_t refused;
} waiter;

static uint32_t call_begin(nsf_seat *seat)
{
    uint64_t txn;
    return nsf_seat_begin(seat, &txn);
}

static uint32_t call_create(nsf_seat *seat)
{
    return nsf_seat_create_index(seat, LONG);
}

static uint32_t call_drop(nsf_seat *seat)
{
    return nsf_seat_drop_index(seat, LONG);
}

static void *wait_for(void *at)
{
    waiter *w = (waiter *)at;
    nsf_seat seat;
    must(nsf_seat_take(&seat, w->shared), "take a seat");
    w->refused = w->call(&seat);
    nsf_seat_leave(&seat);
    return NULL;
}

/* Has another thread make a call, and returns once it waits: once so many wait. */
static void begin_to_wait(waiter *w, nsf_shared *shared, uint32_t (*call)(nsf_seat *), uint64_t waiting)
{
    const struct timespec moment = {0, 1000000};
    uint64_t calls = 0;
    w->shared = shared;
    w->call = call;
    if (pthread_create(&w->thread, NULL, wait_for, w) != 0)
        exit(1);
    while (calls < waiting) {
        nanosleep(&moment, NULL);
        pthread_mutex_lock(&shared->lock);
        calls = shared->calls;
        pthread_mutex_unlock(&shared->lock);
    }
}

/* A store that is closed is gone once the call returns: those that wait are turned away before. */
static bool are_turned_away(void)
{
    nsf_shared *shared = (nsf_shared *)malloc(sizeof *shared);
    nsf_seat seat;
    waiter waiters[WAITERS];
    uint64_t txn;
    bool is_so = true;
    if (!shared)
        exit(1);
    must(nsf_shared_create(shared, NULL, PAGES, ENTRIES, SLOTS), "create");
    must(nsf_seat_take(&seat, shared), "take a seat");
    must(nsf_seat_begin(&seat, &txn), "begin");
    for (int i = 0; i < WAITERS; i++)
        begin_to_wait(&waiters[i], shared, i == 0 ? call_create : call_begin, (uint64_t)i + 1);
    must(nsf_shared_close(shared), "close");
    nsf_seat_leave(&seat);
    memset(shared, 255, sizeof *shared);
    free(shared);
    for (int i = 0; i < WAITERS; i++) {
        pthread_join(waiters[i].thread, NULL);
        is_so = is_so && waiters[i].refused == NSF_STOPPED;
    }
    return is_so;
}

/* A creation behind a dropping is served as soon as no transaction is active, long before its time is over. */
static bool is_served_in_turn(void)
{
    nsf_shared shared;
    nsf_seat seat;
    waiter drops, creates;
    uint64_t txn;
    must(nsf_shared_create(&shared, NULL, PAGES, ENTRIES, SLOTS), "create");
    must(nsf_seat_take(&seat, &shared), "take a seat");
    must(nsf_seat_create_index(&seat, LONG), "create the index");
    must(nsf_seat_begin(&seat, &txn), "begin");
    begin_to_wait(&drops, &shared, call_drop, 1);
    begin_to_wait(&creates, &shared, call_create, 2);
    must(nsf_seat_commit(&seat, txn), "commit");
    pthread_join(drops.thread, NULL);
    pthread_join(creates.thread, NULL);
    nsf_seat_leave(&seat);
    must(nsf_shared_close(&shared), "close");
    return !drops.refused && !creates.refused;
}

/* ---- seats and their transactions */

/* A shared store in memory, with two seats. */
typedef struct pair {
    nsf_shared shared;
    nsf_seat seat;
    nsf_seat other;
} pair;

static void open_pair(pair *p)
{
    must(nsf_shared_create(&p->shared, NULL, PAGES, 4 * ENTRIES, SLOTS), "create");
    must(nsf_seat_take(&p->seat, &p->shared), "take a seat");
    must(nsf_seat_take(&p->other, &p->shared), "take a seat");
}

static void close_pair(pair *p)
{
    nsf_seat_leave(&p->other);
    nsf_seat_leave(&p->seat);
    must(nsf_shared_close(&p->shared), "close");
}

/* A transaction of another seat is none: each call of it is refused by NSF_NO_SUCH_TXN, and changes nothing. */
static bool are_apart(void)
{
    pair p;
    nsf_place place, none;
    nsf_reply row = NSF_NO_REPLY;
    uint64_t txn;
    open_pair(&p);
    must(nsf_seat_begin(&p.seat, &txn), "begin");
    must(nsf_seat_insert(&p.seat, txn, "ant", 3, "1", 1, &place), "insert");
    bool is_so = nsf_seat_insert(&p.other, txn, "bee", 3, "2", 1, &none) == NSF_NO_SUCH_TXN;
    is_so = is_so && nsf_seat_update(&p.other, txn, place, "bee", 3, "2", 1) == NSF_NO_SUCH_TXN;
    is_so = is_so && nsf_seat_delete(&p.other, txn, place) == NSF_NO_SUCH_TXN;
    is_so = is_so && nsf_seat_finish(&p.other, txn) == NSF_NO_SUCH_TXN;
    is_so = is_so && nsf_seat_commit(&p.other, txn) == NSF_NO_SUCH_TXN;
    is_so = is_so && nsf_seat_commit_later(&p.other, txn) == NSF_NO_SUCH_TXN;
    is_so = is_so && nsf_seat_roll_back(&p.other, txn) == NSF_NO_SUCH_TXN;
    must(nsf_seat_commit(&p.seat, txn), "commit");
    must(nsf_seat_get_committed(&p.other, place, &row), "get");
    is_so = is_so && row.kind == NSF_ROW && row.key_length == 3 && memcmp(row.key, "ant", 3) == 0;
    is_so = is_so && nsf_seat_commit(&p.seat, txn) == NSF_NO_SUCH_TXN;
    close_pair(&p);
    return is_so;
}

/* What a seat leaves behind is rolled back, and nothing else: the index is created at once. */
static bool is_rolled_back(void)
{
    pair p;
    nsf_place kept, lost;
    nsf_reply row = NSF_NO_REPLY;
    uint64_t txns[2];
    bool is_so = true;
    open_pair(&p);
    must(nsf_seat_begin(&p.seat, &txns[0]), "begin");
    must(nsf_seat_insert(&p.seat, txns[0], "ant", 3, "1", 1, &kept), "insert");
    for (int i = 0; i < 3; i++) {
        must(nsf_seat_begin(&p.other, &txns[1]), "begin");
        must(nsf_seat_insert(&p.other, txns[1], "bee", 3, "2", 1, &lost), "insert");
    }
    is_so = is_so && nsf_seat_create_index(&p.seat, 0) == NSF_TXNS_ACTIVE;
    nsf_seat_leave(&p.other);
    is_so = is_so && nsf_seat_create_index(&p.seat, 0) == NSF_TXNS_ACTIVE;
    must(nsf_seat_commit(&p.seat, txns[0]), "commit");
    must(nsf_seat_create_index(&p.seat, 0), "create the index");
    must(nsf_seat_get(&p.seat, lost, &row), "get");
    is_so = is_so && row.kind == NSF_NO_ROW;
    must(nsf_seat_get(&p.seat, kept, &row), "get");
    is_so = is_so && row.kind == NSF_ROW;
    close_pair(&p);
    return is_so;
}

/* Where a step of a change behind its first one is refused, that is told, and the others can be made, or the change taken back. */
static bool is_told_begun(void)
{
    pair p;
    nsf_place places[2] = {{0, 0}, {0, 0}};
    nsf_reply row = NSF_NO_REPLY;
    uint64_t txn;
    open_pair(&p);
    must(nsf_seat_put(&p.other, "ant", 3, "1", 1, &places[0]), "put");
    must(nsf_seat_begin(&p.seat, &txn), "begin");
    lacks_memory = true;
    bool is_so = nsf_seat_insert(&p.seat, txn, "bee", 3, "2", 1, &places[1]) == NSF_BEGUN && places[1].slot == 1;
    is_so = is_so && nsf_seat_finish(&p.seat, txn) == NSF_NO_MEMORY;
    is_so = is_so && nsf_seat_delete(&p.seat, txn, places[0]) == NSF_BEGUN;
    is_so = is_so && nsf_seat_put(&p.other, "cow", 3, "3", 1, &places[1]) == NSF_NO_MEMORY;
    lacks_memory = false;
    must(nsf_seat_finish(&p.seat, txn), "finish");
    must(nsf_seat_commit(&p.seat, txn), "commit");
    must(nsf_seat_get(&p.seat, places[0], &row), "get");
    is_so = is_so && row.kind == NSF_NO_ROW;
    close_pair(&p);
    return is_so;
}

/* A cleaning by pieces comes to the end of the index, and no sooner than that. */
static bool is_cleaned_by_pieces(void)
{
    pair p;
    nsf_place place;
    nsf_status status = NSF_NO_STATUS;
    uint64_t txn, more, cleaned = 0;
    bool is_at_end = false;
    int pieces = 0;
    open_pair(&p);
    must(nsf_seat_create_index(&p.seat, LONG), "create the index");
    while (status.life != NSF_COMPLETE)
        must(nsf_seat_progress(&p.seat, &status), "progress");
    for (int i = 0; i < MARKED; i++) {
        must(nsf_seat_put(&p.seat, &i, sizeof i, "", 0, &place), "put");
        must(nsf_seat_begin(&p.seat, &txn), "begin");
        must(nsf_seat_delete(&p.seat, txn, place), "delete");
        must(nsf_seat_commit_later(&p.seat, txn), "commit");
    }
    for (; !is_at_end; pieces++) {
        must(nsf_seat_clean_on(&p.seat, &more, &is_at_end), "clean");
        cleaned += more;
    }
    close_pair(&p);
    return pieces == 2 && cleaned == MARKED;
}

/* What isn't open is closed without harm: as after a refused opening, or a second time. */
static bool is_closed_twice(const char *path)
{
    nsf_handle handle = NSF_VACANT;
    nsf_file file;
    pair p;
    bool is_so = nsf_file_open(&file, path) == NSF_SYSTEM;
    nsf_file_close(&file);
    is_so = is_so && nsf_file_create(&file, path, 0, 0, 0) == NSF_BAD_GEOMETRY;
    nsf_file_close(&file);
    is_so = is_so && nsf_create(&handle, -1, 0, 0, 0) == NSF_BAD_GEOMETRY;
    nsf_close_if_open(&handle);
    is_so = is_so && nsf_shared_open(&p.shared, path) == NSF_SYSTEM && nsf_shared_close(&p.shared) == NSF_OK;
    is_so = is_so && nsf_shared_create(&p.shared, NULL, 0, 0, 0) == NSF_BAD_GEOMETRY && nsf_shared_close(&p.shared) == NSF_OK;
    open_pair(&p);
    close_pair(&p);
    close_pair(&p);
    return is_so;
}

static bool has_each_a_text(void)
{
    const char *none = nsf_message(UINT32_MAX);
    bool is_so = nsf_message(22) == none && nsf_message(NSF_BEGUN + 1) == none;
    for (uint32_t number = 0; number <= NSF_BEGUN; number = number == NSF_NO_SUCH_EVENT ? (uint32_t)NSF_SYSTEM : number + 1)
        is_so = is_so && (number == 22 || nsf_message(number) != none);
    return is_so;
}

/* ---- files */

/* A child of a fork keeps neither the lock of a file nor a line: the file is closed and opened again while the child lives. */
static bool is_free_of_children(const char *path)
{
    nsf_file file;
    must(nsf_file_create(&file, path, PAGES, ENTRIES, SLOTS), path);
    fflush(stdout);
    const pid_t child = fork();
    if (child == 0)
        for (;;)
            pause();
    nsf_file_close(&file);
    const uint32_t refused = nsf_file_open(&file, path);
    if (!refused)
        nsf_file_close(&file);
    kill(child, SIGKILL);
    waitpid(child, NULL, 0);
    unlink(path);
    return !refused;
}

static bool is_there(const char *path)
{
    return access(path, F_OK) == 0;
}

/* A creation of which the first sync fails, or the second one, leaves no file. */
static bool leaves_nothing(const char *path, const char *draft)
{
    nsf_file file;
    bool is_so = true;
    for (int i = 0; i < 2; i++) {
        failing = i;
        is_so = is_so && nsf_file_create(&file, path, PAGES, ENTRIES, SLOTS) == NSF_SYSTEM && errno == EIO;
        is_so = is_so && !is_there(path) && !is_there(draft);
    }
    failing = -1;
    return is_so;
}

/* A creation leaves a file alone that has the name, or that of the draft and isn't one; and a draft that somebody has locked. */
static bool leaves_others(const char *path, const char *draft)
{
    nsf_file file;
    bool is_so = true;
    const char *names[2] = {path, draft};
    for (int i = 0; i < 2; i++) {
        const int other = open(names[i], O_RDWR | O_CREAT | O_EXCL, 0666);
        is_so = is_so && write(other, "other", 5) == 5;
        close(other);
        is_so = is_so && nsf_file_create(&file, path, PAGES, ENTRIES, SLOTS) == NSF_SYSTEM && errno == EEXIST;
        is_so = is_so && is_there(names[i]) && !is_there(names[1 - i]);
        unlink(names[i]);
    }
    is_so = is_so && symlink("/dev/null", draft) == 0;
    is_so = is_so && nsf_file_create(&file, path, PAGES, ENTRIES, SLOTS) == NSF_SYSTEM && errno == EEXIST;
    unlink(draft);
    const int maker = open(draft, O_RDWR | O_CREAT | O_EXCL, 0666);
    is_so = is_so && flock(maker, LOCK_EX) == 0;
    is_so = is_so && nsf_file_create(&file, path, PAGES, ENTRIES, SLOTS) == NSF_SYSTEM && errno == EWOULDBLOCK;
    is_so = is_so && is_there(draft);
    unlink(draft);
    close(maker);
    return is_so;
}

/* Has a child make the store, which is killed in front of this write, and of this removal of a name. Tells whether it was. */
static bool is_killed_at(const char *path, int write, int removal)
{
    int status = 0;
    fflush(stdout);
    const pid_t child = fork();
    if (child == 0) {
        nsf_file file;
        fatal_write = write;
        fatal_removal = removal;
        _exit(nsf_file_create(&file, path, PAGES, ENTRIES, SLOTS) == NSF_OK ? 0 : 1);
    }
    waitpid(child, &status, 0);
    return WIFSIGNALED(status);
}

/* Opens what a killed creation left, or makes it. Tells whether that is sound, and nothing of a draft is left. */
static bool goes_on(const char *path, const char *draft)
{
    nsf_file file;
    must(is_there(path) ? nsf_file_open(&file, path) : nsf_file_create(&file, path, PAGES, ENTRIES, SLOTS), path);
    const bool is_so = nsf_can_open(&file.handle) && is_there(path) && !is_there(draft);
    nsf_file_close(&file);
    unlink(path);
    return is_so;
}

/* Wherever a creation is killed, the next one goes on; or an opening does, where the file has its name, and that of its draft too. */
static bool is_made_behind_kills(const char *path, const char *draft)
{
    bool is_so = true;
    int write = 0;
    while (is_so && is_killed_at(path, write, -1)) {
        is_so = is_there(draft) && !is_there(path) && goes_on(path, draft);
        write += write < 3 ? 1 : 293;
    }
    unlink(path);
    is_so = is_so && is_killed_at(path, -1, 0) && is_there(draft) && is_there(path) && goes_on(path, draft);
    return is_so && write > (int)nsf_sectors(PAGES, ENTRIES, SLOTS);
}

/* Harms a byte of the file, and tells what an opening answers, and whether a look at its bytes finds it sound. */
static uint32_t open_harmed(const char *path, off_t at, bool *is_sound)
{
    const size_t length = nsf_sectors(PAGES, ENTRIES, SLOTS) * NSF_SECTOR;
    nsf_handle handle = NSF_VACANT;
    nsf_file file;
    uint8_t *bytes = (uint8_t *)malloc(length), harmed = 'z';
    const int held = open(path, O_RDWR);
    if (!bytes || pwrite(held, &harmed, 1, at) != 1 || pread(held, bytes, length, 0) != (ssize_t)length)
        exit(1);
    close(held);
    *is_sound = nsf_open(&handle, -1, bytes, length) == NSF_OK && nsf_can_open(&handle);
    nsf_close_if_open(&handle);
    free(bytes);
    const uint32_t refused = nsf_file_open(&file, path);
    nsf_file_close(&file);
    return refused;
}

/* A store whose index isn't that of its rows isn't opened: here a byte of a row's key is another one, or of an entry's. */
static bool is_refused_unsound(const char *path)
{
    static const char key[] = "a key that no other bytes are";
    const size_t length = nsf_sectors(PAGES, ENTRIES, SLOTS) * NSF_SECTOR;
    nsf_file file;
    nsf_reply reply = NSF_NO_REPLY;
    nsf_place place;
    uint64_t txn, ticket;
    bool is_so = true, is_complete = false, is_sound;
    int unsound = 0;
    must(nsf_file_create(&file, path, PAGES, ENTRIES, SLOTS), path);
    must(nsf_begin(&file.handle, &txn), "begin");
    must(nsf_insert(&file.handle, txn, key, sizeof key, "", 0, &place), "insert");
    must(nsf_commit(&file.handle, txn, &ticket), "commit");
    must(nsf_create_index(&file.handle, &ticket), "create the index");
    while (!is_complete)
        must(nsf_build_step(&file.handle, &is_complete), "build");
    must(nsf_image(&file.handle, &reply), "image");
    nsf_file_close(&file);
    uint8_t *bytes = (uint8_t *)malloc(length);
    const int held = open(path, O_RDWR);
    if (!bytes || pread(held, bytes, length, 0) != (ssize_t)length)
        exit(1);
    for (size_t at = 0; at + sizeof key <= length; at++)
        if (memcmp(bytes + at, key, sizeof key) == 0) {
            const uint32_t refused = open_harmed(path, (off_t)at, &is_sound);
            is_so = is_so && (refused == NSF_UNSOUND ? !is_sound : refused != NSF_OK || is_sound);
            unsound += refused == NSF_UNSOUND;
            is_so = is_so && pwrite(held, bytes + at, 1, (off_t)at) == 1;
        }
    close(held);
    free(bytes);
    unlink(path);
    return is_so && unsound > 0;
}

/* An opening syncs the folder, and then the file, of which all is written back by then. Where a sync fails, it is refused, and the file is
 * there as before, and not locked. */
static bool is_made_safe(const char *path)
{
    const uint64_t length = nsf_sectors(PAGES, ENTRIES, SLOTS) * NSF_SECTOR;
    nsf_file file;
    bool is_so = true;
    must(nsf_file_create(&file, path, PAGES, ENTRIES, SLOTS), path);
    nsf_file_close(&file);
    for (int i = 0; i < 2; i++) {
        failing = i;
        written = 0;
        is_so = is_so && nsf_file_open(&file, path) == NSF_SYSTEM && errno == EIO;
        is_so = is_so && written == (i == 0 ? 0 : length);
    }
    failing = -1;
    must(nsf_file_open(&file, path), path);
    is_so = is_so && nsf_can_open(&file.handle);
    nsf_file_close(&file);
    unlink(path);
    return is_so;
}

static volatile sig_atomic_t caught;

static void catch(int number)
{
    caught = number;
}

/* A signal of the process doesn't come to the thread of a store, here the only one that the host doesn't block it in. */
static bool takes_no_signal(const char *path)
{
    const struct timespec moment = {0, 50000000};
    nsf_file file;
    sigset_t one, before;
    must(nsf_file_create(&file, path, PAGES, ENTRIES, SLOTS), path);
    signal(SIGUSR1, catch);
    sigemptyset(&one);
    sigaddset(&one, SIGUSR1);
    pthread_sigmask(SIG_BLOCK, &one, &before);
    kill(getpid(), SIGUSR1);
    nanosleep(&moment, NULL);
    const bool is_so = caught == 0;
    pthread_sigmask(SIG_SETMASK, &before, NULL);
    nsf_file_close(&file);
    unlink(path);
    return is_so && caught == SIGUSR1;
}

int main(int words, char **word)
{
    if (words != 2) {
        fprintf(stderr, "usage: %s FILE\n", word[0]);
        return 2;
    }
    char draft[4096];
    bool is_so = true;
    snprintf(draft, sizeof draft, "%s.nsf-draft", word[1]);
    tell("a child of a fork keeps no store open", is_free_of_children(word[1]));
    tell("a refused creation leaves nothing", leaves_nothing(word[1], draft));
    tell("a creation leaves other files alone", leaves_others(word[1], draft));
    tell("a creation that is killed is in nobody's way", is_made_behind_kills(word[1], draft));
    tell("a store whose index isn't that of its rows is refused", is_refused_unsound(word[1]));
    tell("what isn't open is closed without harm", is_closed_twice(word[1]));
    tell("each refusal has a text", has_each_a_text());
    tell("an opening makes safe what it finds", is_made_safe(word[1]));
    tell("the thread of a store takes no signals", takes_no_signal(word[1]));
    for (int i = 0; i < ROUNDS; i++)
        is_so = are_turned_away() && is_so;
    tell("who waits as a store is closed is turned away", is_so);
    tell("a creation behind a dropping is served in turn", is_served_in_turn());
    tell("a transaction is of one seat", are_apart());
    tell("what a seat leaves behind is rolled back", is_rolled_back());
    tell("a change that is begun is told so", is_told_begun());
    tell("an index is cleaned by pieces", is_cleaned_by_pieces());
    return 0;
}
