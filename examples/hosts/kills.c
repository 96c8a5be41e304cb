/* Kills a host at random moments, again and again, and checks it after each opening:
 *
 *     kills FOLDER ROWS KILLS [SEED]
 *
 * A process opens the host in FOLDER, which redoes the records of its indexes, and checks both. Then four threads write: each transaction
 * changes one to four rows of 500 bytes, and one in ten is rolled back. A fifth thread builds the second index while they go on; once it
 * is complete, it checks it, drops it, and creates it again. It cleans, and takes checkpoints. After a while the process is killed
 * (SIGKILL). */
#define _GNU_SOURCE
#include "check.h"

#include <signal.h>
#include <stdio.h>
#include <stdlib.h>
#include <string.h>
#include <sys/mman.h>
#include <sys/wait.h>
#include <unistd.h>

enum { WRITERS = 4, CHANGES_MOST = 4, CLEANED = 64, LOG_MOST = 2000, TIDY_EACH = 16, KEYS = 1000000 };
enum { FIRST_MS = 100, MORE_MS = 500, OPENING_MOST_MS = 20000 };
#define LAST_NS 1000000000

/* What all processes together did: it outlives them. */
typedef struct totals {
    atomic_ulong commits, rolled_back, builds, checkpoints, cleaned, redone, checks, kills_in_build;
    atomic_bool is_writing, is_building;
} totals;

typedef struct worker {
    host *host;
    uint64_t random;
} worker;

static totals *totals_of_all;
static uint32_t rows_at_first;
static atomic_bool has_ended;

static uint64_t draw(uint64_t *random, uint64_t below)
{
    *random ^= *random << 13;
    *random ^= *random >> 7;
    *random ^= *random << 17;
    return *random % below;
}

static void fill(row *row, uint64_t *random)
{
    memset(row, (int)draw(random, 256), sizeof *row);
    for (int which = 0; which < INDEXES; which++) {
        uint64_t number = draw(random, KEYS);
        memset(row->keys[which], 0, KEY_BYTES);
        for (int i = 7; i >= 0; i--, number >>= 8)
            row->keys[which][i] = (uint8_t)number;
    }
}

/* ---- the writers */

/* A third of the rows that are there go, and of the others one key stays now and then. A refusal (a lock that another transaction holds)
 * is returned. */
static uint32_t change_one(session *session, uint64_t *random)
{
    uint32_t number = 1 + (uint32_t)draw(random, rows_at_first + rows_at_first / 4);
    row old, next;
    bool had = store_get(session->connection, number, &old);
    fill(&next, random);
    if (had && draw(random, 3) == 0)
        memcpy(next.keys[0], old.keys[0], KEY_BYTES);
    if (had && draw(random, 3) == 0)
        return session_delete(session, number);
    return session_put(session, number, &next);
}

static void *write_rows(void *of)
{
    worker *worker = of;
    session *session = session_open(worker->host);
    while (!atomic_load(&has_ended)) {
        uint32_t refused = 0;
        session_begin(session);
        for (uint64_t count = 1 + draw(&worker->random, CHANGES_MOST); count && !refused; count--)
            refused = change_one(session, &worker->random);
        if (refused || draw(&worker->random, 10) == 0) {
            session_roll_back(session);
            atomic_fetch_add(&totals_of_all->rolled_back, 1);
        } else if (session_commit(session)) {
            atomic_fetch_add(&totals_of_all->commits, 1);
        }
    }
    session_close(session);
    return NULL;
}

/* ---- checks */

static void check_both(session *session, const char *when)
{
    for (int which = 0; which < INDEXES; which++) {
        if (!session->host->parts[which].is_open)
            continue;
        checked checked = check_index(session, which);
        atomic_fetch_add(&totals_of_all->checks, 1);
        if (is_exact(&checked))
            continue;
        printf("index %d, %s: %lu visible entries of no row, %lu rows in no entry, %lu rows, %lu visible, %s\n", which, when,
               checked.of_no_row, checked.in_no_entry, checked.rows, checked.visible, checked.is_complete ? "complete" : "building");
        fflush(stdout);
        _exit(4);
    }
}

/* ---- the builder */

/* Cleans both indexes, and takes a checkpoint of each whose log has grown long. */
static void tidy(session *session, nsf_index_cursor *cleaned)
{
    host *host = session->host;
    for (int which = 0; which < INDEXES; which++) {
        atomic_fetch_add(&totals_of_all->cleaned, host_clean(session, which, &cleaned[which], CLEANED));
        if (atomic_load(&host->next[which]) < host->streams[which].from + LOG_MOST)
            continue;
        host_checkpoint(session, which);
        atomic_fetch_add(&totals_of_all->checkpoints, 1);
    }
}

/* Builds the second index to its end. */
static void build_once(session *session, nsf_index_cursor *cleaned)
{
    atomic_store(&totals_of_all->is_building, true);
    bool goes_on = true;
    for (int stretch = 1; goes_on && !atomic_load(&has_ended); stretch++) {
        goes_on = host_build(session, 1);
        if (stretch % TIDY_EACH == 0)
            tidy(session, cleaned);
    }
    atomic_store(&totals_of_all->is_building, false);
}

static void build_again(session *session, uint64_t lasts)
{
    nsf_index_cursor cleaned[INDEXES] = {NSF_INDEX_FIRST, NSF_INDEX_FIRST};
    uint64_t began = nanoseconds();
    while (nanoseconds() - began < lasts) {
        if (!session->host->parts[1].is_open && !host_create_index(session, 1))
            stop("create", "refused");
        build_once(session, cleaned);
        check_both(session, "once it was built");
        atomic_fetch_add(&totals_of_all->builds, 1);
        host_drop_index(session, 1);
        cleaned[1] = (nsf_index_cursor)NSF_INDEX_FIRST;
    }
}

/* ---- one life of the process */

static void live(const char *folder, uint64_t seed, uint64_t lasts)
{
    pthread_t threads[WRITERS];
    worker workers[WRITERS];
    host *host = host_open(folder, false);
    session *session = session_open(host);
    atomic_fetch_add(&totals_of_all->redone, atomic_load(&host->redone));
    check_both(session, "after opening");
    atomic_store(&totals_of_all->is_writing, true);
    for (int i = 0; i < WRITERS; i++) {
        workers[i] = (worker){.host = host, .random = seed * WRITERS + (uint64_t)i + 1};
        pthread_create(&threads[i], NULL, write_rows, &workers[i]);
    }
    build_again(session, lasts);
    atomic_store(&has_ended, true);
    for (int i = 0; i < WRITERS; i++)
        pthread_join(threads[i], NULL);
    check_both(session, "at the end");
    session_close(session);
    host_close(host);
}

/* The table, and the first index complete. */
static void begin(const char *folder)
{
    uint64_t random = 12345;
    row row;
    host *host = host_open(folder, false);
    session *session = session_open(host);
    session_begin(session);
    for (uint32_t number = 1; number <= rows_at_first; number++) {
        fill(&row, &random);
        store_put(session->connection, number, &row);
    }
    if (!session_commit(session) || !host_create_index(session, 0))
        stop("begin", "it failed");
    while (host_build(session, 0)) {
    }
    check_both(session, "at the beginning");
    store_try(session);
    check_both(session, "after the trial");
    session_close(session);
    host_close(host);
}

/* ---- the parent */

static void end_if_failed(int status)
{
    if (WIFEXITED(status) && WEXITSTATUS(status) == 0)
        return;
    printf("FAILED: a process ended with %s %d\n", WIFEXITED(status) ? "status" : "signal",
           WIFEXITED(status) ? WEXITSTATUS(status) : WTERMSIG(status));
    exit(1);
}

/* Waits until the process writes, or, one time in five, not even that: opening is killed too. */
static void kill_later(pid_t child, uint64_t *random)
{
    bool waits = draw(random, 5) != 0;
    for (int i = 0; i < OPENING_MOST_MS && waits && !atomic_load(&totals_of_all->is_writing); i++)
        usleep(1000);
    usleep((useconds_t)(1000 * (FIRST_MS + draw(random, MORE_MS))));
    if (atomic_load(&totals_of_all->is_building))
        atomic_fetch_add(&totals_of_all->kills_in_build, 1);
    kill(child, SIGKILL);
}

/* A process that makes the table (where `lasts` is 0), lives until it is killed, or ends by itself. */
static void run_process(const char *folder, uint64_t *random, uint64_t lasts)
{
    int status;
    uint64_t seed = draw(random, UINT32_MAX) + 1;
    atomic_store(&totals_of_all->is_writing, false);
    atomic_store(&totals_of_all->is_building, false);
    pid_t child = fork();
    if (!child) {
        if (lasts)
            live(folder, seed, lasts);
        else
            begin(folder);
        _exit(0);
    }
    bool is_killed = lasts == UINT64_MAX;
    if (is_killed)
        kill_later(child, random);
    waitpid(child, &status, 0);
    if (!(is_killed && WIFSIGNALED(status) && WTERMSIG(status) == SIGKILL))
        end_if_failed(status);
}

int main(int count, char **words)
{
    if (count < 4)
        return 2;
    uint64_t random = count > 4 ? strtoull(words[4], NULL, 10) + 1 : 1;
    int kills = atoi(words[3]);
    rows_at_first = (uint32_t)atoi(words[2]);
    totals_of_all = mmap(NULL, sizeof *totals_of_all, PROT_READ | PROT_WRITE, MAP_SHARED | MAP_ANONYMOUS, -1, 0);
    if (totals_of_all == MAP_FAILED)
        return 2;
    run_process(words[1], &random, 0);
    for (int i = 0; i < kills; i++)
        run_process(words[1], &random, UINT64_MAX);
    run_process(words[1], &random, LAST_NS);
    totals *all = totals_of_all;
    printf("seed %s: %d kills, %lu of them while an index was built; %lu commits, %lu rolled back, %lu builds to the end, %lu checkpoints, "
           "%lu entries cleaned, %lu bytes of records redone; %lu checks of an index, each exact\n",
           count > 4 ? words[4] : "0", kills, all->kills_in_build, all->commits, all->rolled_back, all->builds, all->checkpoints,
           all->cleaned, all->redone, all->checks);
    return 0;
}
