/* What indexes cost a host, and what their builds do:
 *
 *     costs FOLDER ROWS [SECONDS]
 *
 * Four threads write; a transaction changes one row, and both its keys. They are counted for so many seconds, with no index, one, and two:
 * of the store's own, and of the part; and while the second index of the part is being built. A build is also timed with no writer. */
#define _GNU_SOURCE
#include "own.h"

#include <stdio.h>
#include <stdlib.h>
#include <string.h>
#include <unistd.h>

enum { WRITERS = 4, KEYS = 1000000, MILLION = 1000000 };

typedef void (*putter)(session *session, uint32_t number, const row *row);

typedef struct writer {
    host *host;
    putter put;
    uint64_t random;
    pthread_t thread;
} writer;

/* Commits a second, and microseconds of a processor that a commit took the writers. */
typedef struct counted {
    double rate, processor;
} counted;

static uint32_t rows;
static double seconds = 3;
static atomic_bool has_ended;
static atomic_ulong processor, all_commits; /* of the writers of one count: nanoseconds of a processor, and commits */
static atomic_ulong commits, longest; /* the longest transaction, in nanoseconds, from before it begins until it has committed */

static uint64_t draw(uint64_t *random, uint64_t below)
{
    *random ^= *random << 13;
    *random ^= *random >> 7;
    *random ^= *random << 17;
    return *random % below;
}

static void fill(row *row, uint64_t *random)
{
    memset(row, (int)draw(random, 256), sizeof *row);
    for (int which = 0; which < INDEXES; which++) {
        uint64_t number = draw(random, KEYS);
        memset(row->keys[which], 0, KEY_BYTES);
        for (int i = 7; i >= 0; i--, number >>= 8)
            row->keys[which][i] = (uint8_t)number;
    }
}

static void put_with_part(session *session, uint32_t number, const row *row)
{
    if (session_put(session, number, row))
        stop("put", "an index refused it");
}

/* ---- the writers */

static void *write_rows(void *of)
{
    writer *writer = of;
    row row;
    session *session = session_open(writer->host);
    unsigned long made = 0;
    for (; !atomic_load(&has_ended); made++) {
        fill(&row, &writer->random);
        uint32_t number = 1 + (uint32_t)draw(&writer->random, rows);
        uint64_t began = nanoseconds();
        session_begin(session);
        writer->put(session, number, &row);
        if (!session_commit(session))
            stop("commit", "it failed");
        keep_greatest(&longest, nanoseconds() - began);
        atomic_fetch_add(&commits, 1);
    }
    session_close(session);
    atomic_fetch_add(&processor, processor_time());
    atomic_fetch_add(&all_commits, made);
    return NULL;
}

static void start(writer *writers, host *host, putter put)
{
    atomic_store(&has_ended, false);
    atomic_store(&processor, 0);
    atomic_store(&all_commits, 0);
    for (int i = 0; i < WRITERS; i++) {
        writers[i] = (writer){.host = host, .put = put, .random = (uint64_t)i + 1};
        pthread_create(&writers[i].thread, NULL, write_rows, &writers[i]);
    }
    usleep(300000); /* until all of them go on */
    atomic_store(&longest, 0);
}

static void end(writer *writers)
{
    atomic_store(&has_ended, true);
    for (int i = 0; i < WRITERS; i++)
        pthread_join(writers[i].thread, NULL);
}

static double since(uint64_t began)
{
    return (double)(nanoseconds() - began) * 1e-9;
}

/* Microseconds of a processor that a commit took the writers, once they have ended. */
static double processor_each(void)
{
    unsigned long made = atomic_load(&all_commits);
    return made ? (double)atomic_load(&processor) * 1e-3 / (double)made : 0;
}

/* Commits a second, and what one took. */
static counted rate(host *host, putter put)
{
    writer writers[WRITERS];
    start(writers, host, put);
    uint64_t began = nanoseconds();
    unsigned long before = atomic_load(&commits);
    usleep((useconds_t)(seconds * MILLION));
    counted found = {.rate = (double)(atomic_load(&commits) - before) / since(began)};
    end(writers);
    found.processor = processor_each();
    return found;
}

/* ---- builds */

static void build(session *session, int which)
{
    if (!host_create_index(session, which))
        stop("create", "refused");
    while (host_build(session, which)) {
    }
}

static double quiet_build(session *session, int which)
{
    uint64_t began = nanoseconds();
    build(session, which);
    return since(began);
}

static double quiet_own(session *session, int which)
{
    uint64_t began = nanoseconds();
    session_begin(session);
    own_create(session, which);
    if (!session_commit(session))
        stop("commit", "it failed");
    return since(began);
}

/* What is seen beside a build: commits a second, how long it took, the longest transaction, the longest time that a writer waited for the
 * build alone, and the longest time of a processor that the build held the lock of its index. */
typedef struct beside {
    double rate, processor, took, longest_ms, waited_ms, held_ms, share;
} beside;

static double milliseconds(unsigned long nanoseconds)
{
    return (double)nanoseconds * 1e-6;
}

/* Builds again and again until the seconds are over; what lies between two builds isn't counted. */
static beside beside_builds(session *session, int which)
{
    host *host = session->host;
    writer writers[WRITERS];
    beside seen = {.rate = 0};
    unsigned long made = 0, builds = 0;
    start(writers, host, put_with_part);
    atomic_store(&host->parts[which].longest, 0);
    atomic_store(&host->parts[which].held, 0);
    atomic_store(&host->parts[which].waited, 0);
    atomic_store(&host->longest, 0);
    for (; seen.took < seconds; builds++) {
        if (builds)
            host_drop_index(session, which);
        uint64_t began = nanoseconds();
        unsigned long before = atomic_load(&commits);
        build(session, which);
        made += atomic_load(&commits) - before;
        seen.took += since(began);
    }
    end(writers);
    seen.processor = processor_each();
    seen.rate = (double)made / seen.took;
    seen.longest_ms = milliseconds(atomic_load(&longest));
    seen.took /= (double)builds;
    unsigned long lock = atomic_load(&host->parts[which].longest), held = atomic_load(&host->longest);
    seen.share = (double)atomic_load(&host->parts[which].waited) * 1e-9 / seen.took;
    seen.held_ms = milliseconds(atomic_load(&host->parts[which].held));
    seen.waited_ms = milliseconds(lock > held ? lock : held);
    return seen;
}

static beside beside_own(session *session, int which)
{
    writer writers[WRITERS];
    start(writers, session->host, own_put);
    uint64_t began = nanoseconds();
    unsigned long before = atomic_load(&commits);
    session_begin(session);
    own_create(session, which);
    if (!session_commit(session))
        stop("commit", "it failed");
    double took = since(began), found = (double)(atomic_load(&commits) - before) / took;
    usleep(100000);
    end(writers);
    double waited = milliseconds(atomic_load(&longest));
    return (beside){.rate = found, .processor = processor_each(), .took = took, .longest_ms = waited, .waited_ms = waited};
}

/* ---- the rounds */

static void make_rows(const char *folder)
{
    uint64_t random = 12345;
    row row;
    host *host = host_open(folder, false);
    session *session = session_open(host);
    session_begin(session);
    for (uint32_t number = 1; number <= rows; number++) {
        fill(&row, &random);
        store_put(session->connection, number, &row);
    }
    if (!session_commit(session))
        stop("commit", "it failed");
    session_close(session);
    host_close(host);
}

typedef struct results {
    counted none, one, two;
    double build;
    beside beside;
} results;

static results try_own(const char *folder)
{
    results found;
    host *host = host_open(folder, false);
    session *session = session_open(host);
    own_begin(session);
    found.none = rate(host, own_put);
    found.build = quiet_own(session, 0);
    found.one = rate(host, own_put);
    found.beside = beside_own(session, 1);
    found.two = rate(host, own_put);
    session_begin(session);
    own_end(session);
    session_commit(session);
    session_close(session);
    host_close(host);
    return found;
}

static results try_part(const char *folder)
{
    results found;
    host *host = host_open(folder, false);
    session *session = session_open(host);
    found.none = rate(host, put_with_part);
    found.build = quiet_build(session, 0);
    found.one = rate(host, put_with_part);
    found.beside = beside_builds(session, 1);
    found.two = rate(host, put_with_part);
    session_close(session);
    host_close(host);
    return found;
}

/* Each in a folder of its own, which is as large at the beginning. */
static results in_folder(const char *folder, const char *name, results (*try_it)(const char *))
{
    char path[4096];
    snprintf(path, sizeof path, "%s-%s", folder, name);
    make_rows(path);
    return try_it(path);
}

static void print_counted(const char *what, counted part, counted own)
{
    printf("%-44s %7.0f (%4.0f) %7.0f (%4.0f)\n", what, part.rate, part.processor, own.rate, own.processor);
}

static void print(const results *own, const results *part)
{
    printf("%s, %u rows of %d bytes, %d writers, a transaction changes one row and both keys, no sync, %.0f s each\n", own_store, rows,
           ROW_BYTES, WRITERS, seconds);
    printf("%-44s %14s %14s\n", "", "the part", "its own way");
    print_counted("commits a second (processor us), no index", part->none, own->none);
    print_counted("one index", part->one, own->one);
    print_counted("two indexes", part->two, own->two);
    counted part_beside = {part->beside.rate, part->beside.processor}, own_beside = {own->beside.rate, own->beside.processor};
    print_counted("one, and the second is being built", part_beside, own_beside);
    printf("%-44s %14.2f %14.2f\n", "  of those with two (goal: 0.8)", part_beside.rate / part->two.rate, own_beside.rate / own->two.rate);
    printf("%-44s %14.3f %14.3f\n", "  longest wait for the build, ms (goal: 1)", part->beside.waited_ms, own->beside.waited_ms);
    printf("%-44s %14.3f\n", "  share of the time that a writer waited so", part->beside.share);
    printf("%-44s %14.3f\n", "  longest hold of its lock, processor ms", part->beside.held_ms);
    printf("%-44s %14.3f %14.3f\n", "  longest transaction, ms", part->beside.longest_ms, own->beside.longest_ms);
    printf("%-44s %14.3f %14.3f\n", "  seconds of that build", part->beside.took, own->beside.took);
    printf("%-44s %14.3f %14.3f\n", "seconds of a build with no writer", part->build, own->build);
    printf("%-44s %14.2f\n", "  of those of its own way (goal: 1.5)", part->build / own->build);
    printf("its own way: %s\n", own_index);
}

int main(int count, char **words)
{
    if (count < 3)
        return 2;
    rows = (uint32_t)atoi(words[2]);
    if (count > 3)
        seconds = atof(words[3]);
    results own = in_folder(words[1], "own", try_own), part = in_folder(words[1], "part", try_part);
    print(&own, &part);
    return 0;
}
