/* The owner of a shared store: the part of nsf_shared.h that its thread runs. Include nsf_shared.h, and call nothing of this file. */
#ifndef NSF_OWNER_H
#define NSF_OWNER_H

#include "nsf_file.h"

#include <time.h>

/* So many steps the builder makes behind each look at what is wanted, and so many before its records are flushed. */
enum { NSF_BUILD_STEPS = 32, NSF_BUILD_STEPS_A_FLUSH = 1024 };

/* So many transactions may be active. */
enum { NSF_TXNS = 16 };

struct nsf_request;

/* A transaction that is active, and the number of its seat: 0 where it is nobody's, and is to be rolled back yet. */
typedef struct nsf_owned {
    uint64_t txn;
    uint64_t seat;
} nsf_owned;

typedef struct nsf_shared {
    nsf_file in_file;
    nsf_handle *handle;
    bool is_in_file;
    pthread_t owner;
    pthread_mutex_t lock; /* of what stands up to the next comment */
    pthread_cond_t wanted;
    pthread_cond_t told;
    bool is_told;     /* how the opening went */
    uint32_t refused; /* the opening; in the end, the last flush */
    int error;        /* errno behind that */
    struct nsf_request *first; /* what is wanted and wasn't taken by the owner, the oldest first */
    struct nsf_request **last;
    bool stops;
    uint64_t calls; /* of seats, that aren't over */
    uint64_t seats; /* that were taken so far */
    bool is_open;   /* of who opens and closes it */
    /* what is to be opened, or made (`pages` is above 0) */
    const char *path;
    uint32_t pages;
    uint32_t entries;
    uint32_t slots;
    /* the owner's */
    struct nsf_request *unsafe; /* commits that are to be answered once they are safe */
    struct nsf_request *held;   /* beginnings that wait until the index is created or dropped */
    struct nsf_request *quiet;  /* the creation or dropping that waits until no transaction is active */
    struct timespec patience;   /* so long it waits */
    nsf_owned active[NSF_TXNS]; /* the transactions that are active */
    size_t active_count;
    uint64_t unflushed;         /* steps of the builder since the last flush */
    bool builds;                /* the index isn't complete, and no step of the builder was refused */
} nsf_shared;

typedef struct nsf_seat {
    nsf_shared *shared;
    pthread_cond_t answered;
    uint64_t number; /* from 1 on */
    uint32_t active; /* its transactions that are active */
} nsf_seat;

/* What a seat wants, where it waits for it. */
typedef struct nsf_request {
    struct nsf_request *next;
    nsf_seat *seat;
    uint32_t (*serve)(nsf_shared *shared, struct nsf_request *request); /* what the owner calls for it */
    bool begins;      /* it begins a transaction */
    bool wants_quiet; /* it waits until none is active, to create the index or (`drops`) to drop it */
    bool drops;
    bool wants_safe; /* its ticket is to be safe before it is answered */
    bool tells_why;  /* it is answered the number of a refused flush */
    bool is_answered;
    uint32_t refused;
    long patience; /* milliseconds */
    uint64_t txn;
    uint64_t number; /* a ticket, or a count */
    nsf_place place;
    const void *key;
    const void *body;
    size_t key_length;
    size_t body_length;
    nsf_place *places;
    nsf_reply *replies;
    size_t room;
    nsf_scan *scan;
    uint32_t (*read)(nsf_handle *handle, nsf_scan *scan, nsf_reply *reply); /* a pair of it */
    nsf_status *status;
} nsf_request;

/* ---- the owner */

static inline void nsf_answer(nsf_request *request, uint32_t refused)
{
    nsf_shared *shared = request->seat->shared;
    pthread_mutex_lock(&shared->lock);
    request->refused = refused;
    request->is_answered = true;
    pthread_cond_signal(&request->seat->answered); /* behind the lock the request may be gone */
    pthread_mutex_unlock(&shared->lock);
}

static inline void nsf_push(nsf_request **list, nsf_request *request)
{
    while (*list)
        list = &(*list)->next;
    request->next = NULL;
    *list = request;
}

/* How far the index is. */
static inline uint32_t nsf_life(nsf_shared *shared)
{
    nsf_status status = NSF_NO_STATUS;
    nsf_stat(shared->handle, &status);
    return status.life;
}

static inline void nsf_look_at_index(nsf_shared *shared)
{
    const uint32_t life = nsf_life(shared);
    shared->builds = life == NSF_BUILDING || life == NSF_BUILDING_AT;
}

/* Makes all that was committed safe, and answers who waits for it. */
static inline void nsf_make_safe(nsf_shared *shared)
{
    nsf_reply reply = NSF_NO_REPLY;
    uint32_t refused = nsf_flush(shared->handle, &reply);
    nsf_request *request = shared->unsafe;
    shared->unsafe = NULL;
    shared->unflushed = 0;
    while (request) {
        nsf_request *next = request->next;
        nsf_answer(request, refused && !request->tells_why ? (uint32_t)NSF_UNSAFE : refused);
        request = next;
    }
}

static inline void nsf_serve_now(nsf_shared *shared, nsf_request *request)
{
    uint32_t refused = request->serve(shared, request);
    if (!refused && request->wants_safe)
        nsf_push(&shared->unsafe, request);
    else
        nsf_answer(request, refused);
}

/* Takes what a seat wants. A creation or dropping waits until no transaction is active, with whoever is to begin one behind it; where the
 * index is there already, or is not, it is answered at once. */
static inline void nsf_take(nsf_shared *shared, nsf_request *request)
{
    if (shared->quiet && (request->begins || request->wants_quiet)) {
        nsf_push(&shared->held, request);
    } else if (request->wants_quiet && request->drops == (nsf_life(shared) != NSF_ABSENT)) {
        clock_gettime(CLOCK_MONOTONIC, &shared->patience);
        shared->patience.tv_sec += request->patience / 1000;
        shared->patience.tv_nsec += request->patience % 1000 * 1000000;
        if (shared->patience.tv_nsec >= 1000000000) {
            shared->patience.tv_sec++;
            shared->patience.tv_nsec -= 1000000000;
        }
        shared->quiet = request;
    } else {
        nsf_serve_now(shared, request);
    }
}

static inline void nsf_take_each(nsf_shared *shared, nsf_request *request)
{
    while (request) {
        nsf_request *next = request->next;
        nsf_take(shared, request);
        request = next;
    }
}

/* Whether the time of the creation or dropping that waits is over. */
static inline bool nsf_is_late(const nsf_shared *shared)
{
    struct timespec now;
    clock_gettime(CLOCK_MONOTONIC, &now);
    return now.tv_sec > shared->patience.tv_sec
        || (now.tv_sec == shared->patience.tv_sec && now.tv_nsec >= shared->patience.tv_nsec);
}

/* Serves the creation or dropping that waits, once no transaction is active or its time is over. Then it takes what waits behind it, up to
 * the next of its kind that has to wait. */
static inline void nsf_end_quiet(nsf_shared *shared)
{
    while (shared->quiet && (shared->active_count == 0 || nsf_is_late(shared))) {
        nsf_request *request = shared->quiet;
        shared->quiet = NULL;
        nsf_serve_now(shared, request);
        request = shared->held;
        shared->held = NULL;
        nsf_take_each(shared, request);
        nsf_look_at_index(shared);
    }
}

/* Where the transaction of this seat stands in the list of those that are active, or behind its end. */
static inline size_t nsf_find_active(const nsf_shared *shared, uint64_t txn, uint64_t seat)
{
    size_t at = 0;
    while (at < shared->active_count && (shared->active[at].txn != txn || shared->active[at].seat != seat))
        at++;
    return at;
}

/* Whether the transaction that is asked about is of the seat that asks. */
static inline bool nsf_is_owned(const nsf_shared *shared, const nsf_request *request)
{
    return nsf_find_active(shared, request->txn, request->seat->number) < shared->active_count;
}

/* The transaction is active no longer. */
static inline void nsf_forget(nsf_shared *shared, size_t at)
{
    shared->active[at] = shared->active[--shared->active_count];
}

/* Rolls a seat's transactions back, or nobody's. Those of which that is refused are nobody's then. */
static inline void nsf_roll_back_of(nsf_shared *shared, uint64_t seat)
{
    for (size_t at = shared->active_count; at-- > 0;)
        if (shared->active[at].seat == seat) {
            shared->active[at].seat = 0;
            if (nsf_roll_back(shared->handle, shared->active[at].txn) == NSF_OK)
                nsf_forget(shared, at);
        }
}

/* Makes some steps of the builder. One that is refused ends the building, until nsf_seat_build_on, or until a dropping is refused; a new
 * index is built anyhow (nsf_seat_progress tells the life of the index). */
static inline void nsf_build_on(nsf_shared *shared)
{
    bool is_complete = false;
    for (int i = 0; i < NSF_BUILD_STEPS && shared->builds; i++)
        if (nsf_build_step(shared->handle, &is_complete) != NSF_OK || is_complete)
            shared->builds = false;
    shared->unflushed += NSF_BUILD_STEPS;
    if (shared->unflushed >= NSF_BUILD_STEPS_A_FLUSH || !shared->builds)
        nsf_make_safe(shared);
}

/* Waits until something is wanted, or until the time of who wants quiet is over. */
static inline void nsf_await_request(nsf_shared *shared)
{
    if (shared->quiet)
        pthread_cond_timedwait(&shared->wanted, &shared->lock, &shared->patience);
    else
        pthread_cond_wait(&shared->wanted, &shared->lock);
}

/* Answers who waits for quiet, or behind it, that the store is closed. */
static inline void nsf_turn_away(nsf_shared *shared)
{
    nsf_request *request = shared->held;
    if (shared->quiet)
        nsf_answer(shared->quiet, NSF_STOPPED);
    while (request) {
        nsf_request *next = request->next;
        nsf_answer(request, NSF_STOPPED);
        request = next;
    }
    shared->quiet = shared->held = NULL;
}

static inline void nsf_serve_all(nsf_shared *shared)
{
    nsf_look_at_index(shared);
    pthread_mutex_lock(&shared->lock);
    while (!shared->stops || shared->first) {
        if (!shared->first && !shared->builds)
            nsf_await_request(shared);
        nsf_request *request = shared->first;
        shared->first = NULL;
        shared->last = &shared->first;
        pthread_mutex_unlock(&shared->lock);
        nsf_take_each(shared, request);
        nsf_roll_back_of(shared, 0);
        nsf_end_quiet(shared);
        if (shared->unsafe)
            nsf_make_safe(shared);
        if (shared->builds)
            nsf_build_on(shared);
        pthread_mutex_lock(&shared->lock);
    }
    pthread_mutex_unlock(&shared->lock);
    nsf_turn_away(shared);
}

static inline uint32_t nsf_open_as_owner(nsf_shared *shared)
{
    if (!shared->is_in_file)
        return nsf_create(shared->handle, -1, shared->pages, shared->entries, shared->slots);
    if (shared->pages == 0)
        return nsf_file_open(&shared->in_file, shared->path);
    return nsf_file_create(&shared->in_file, shared->path, shared->pages, shared->entries, shared->slots);
}

/* Opens the store, serves it, and closes it. */
static inline void *nsf_own(void *at)
{
    nsf_shared *shared = (nsf_shared *)at;
    nsf_reply reply = NSF_NO_REPLY;
    uint32_t refused = nsf_open_as_owner(shared);
    pthread_mutex_lock(&shared->lock);
    shared->refused = refused;
    shared->error = errno;
    shared->is_told = true;
    pthread_cond_signal(&shared->told);
    pthread_mutex_unlock(&shared->lock);
    if (refused)
        return NULL;
    nsf_serve_all(shared);
    shared->refused = nsf_flush(shared->handle, &reply);
    if (shared->is_in_file)
        nsf_file_close(&shared->in_file);
    else
        nsf_close(shared->handle);
    return NULL;
}

#endif
