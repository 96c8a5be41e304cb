/* A store of nsf.h that several threads of a host share, over POSIX.
 *
 * The store belongs to one thread of this file's, its owner, which opens it, alone calls nsf.h, and closes it: so what nsf.h says of one
 * thread holds, and each run of the store is a list of calls. The threads of the host hand the owner what they want done, and wait until
 * it is. Commits that come meanwhile are made safe by one flush. Between what they want the owner builds the index, if it isn't complete.
 *
 * A host's thread has a seat. A seat is in one call at a time; several seats may be in calls at once. A transaction is of the seat that began
 * it: of another one each call is refused by NSF_NO_SUCH_TXN, and where its seat leaves it is rolled back. The owner takes no signals.
 *
 * By NSF_UNSAFE what was asked for is done, but a flush was refused, so that it isn't safe yet: nsf_seat_await tries again, and says why not.
 * Where the device has failed, an opening of the store shows whether it was committed.
 *
 * None of this file is proved. Link with -pthread. Needs POSIX of 2008, as nsf_file.h does. */
#ifndef NSF_SHARED_H
#define NSF_SHARED_H

#include "nsf_owner.h"

/* ---- opening and closing */

static inline uint32_t nsf_refuse(int why)
{
    errno = why;
    return NSF_SYSTEM;
}

/* The lock and what is waited for, with times of a clock that nobody sets. */
static inline int nsf_shared_locks(nsf_shared *shared)
{
    pthread_condattr_t steady;
    int failed = pthread_condattr_init(&steady);
    if (failed)
        return failed;
    failed = pthread_condattr_setclock(&steady, CLOCK_MONOTONIC);
    if (!failed)
        failed = pthread_mutex_init(&shared->lock, NULL);
    if (!failed && (failed = pthread_cond_init(&shared->wanted, &steady)) != 0)
        pthread_mutex_destroy(&shared->lock);
    if (!failed && (failed = pthread_cond_init(&shared->told, NULL)) != 0) {
        pthread_cond_destroy(&shared->wanted);
        pthread_mutex_destroy(&shared->lock);
    }
    pthread_condattr_destroy(&steady);
    return failed;
}

static inline void nsf_shared_unlock(nsf_shared *shared)
{
    pthread_cond_destroy(&shared->told);
    pthread_cond_destroy(&shared->wanted);
    pthread_mutex_destroy(&shared->lock);
}

/* Starts the owner, which takes no signals, and waits until it has opened the store. */
static inline uint32_t nsf_shared_start(nsf_shared *shared, const char *path, uint32_t pages, uint32_t entries, uint32_t slots)
{
    const nsf_handle vacant = NSF_VACANT;
    memset(shared, 0, sizeof *shared);
    shared->path = path;
    shared->pages = pages;
    shared->entries = entries;
    shared->slots = slots;
    shared->is_in_file = path != NULL;
    shared->handle = &shared->in_file.handle;
    shared->in_file.handle = vacant;
    shared->last = &shared->first;
    int failed = nsf_shared_locks(shared);
    if (failed)
        return nsf_refuse(failed);
    failed = nsf_start_thread(&shared->owner, nsf_own, shared);
    if (failed) {
        nsf_shared_unlock(shared);
        return nsf_refuse(failed);
    }
    pthread_mutex_lock(&shared->lock);
    while (!shared->is_told)
        pthread_cond_wait(&shared->told, &shared->lock);
    pthread_mutex_unlock(&shared->lock);
    shared->is_open = !shared->refused;
    if (shared->is_open)
        return NSF_OK;
    pthread_join(shared->owner, NULL);
    nsf_shared_unlock(shared);
    errno = shared->error;
    return shared->refused;
}

/* Makes a store in a new file, as nsf_file_create does, or in memory where the path is NULL. `shared` stays where it is until
 * nsf_shared_close. A store that is made or opened here is called by no other function than those of this file. */
static inline uint32_t nsf_shared_create(nsf_shared *shared, const char *path, uint32_t pages, uint32_t entries, uint32_t slots)
{
    shared->is_open = false;
    return pages == 0 ? (uint32_t)NSF_BAD_GEOMETRY : nsf_shared_start(shared, path, pages, entries, slots);
}

/* Opens the store in a file, as nsf_file_open does. The build of an index that isn't complete goes on. */
static inline uint32_t nsf_shared_open(nsf_shared *shared, const char *path)
{
    return nsf_shared_start(shared, path, 0, 0, 0);
}

/* Opens the store in a file, or makes it where no file has the name. */
static inline uint32_t nsf_shared_open_or_create(nsf_shared *shared, const char *path, uint32_t pages, uint32_t entries, uint32_t slots)
{
    return access(path, F_OK) == 0 ? nsf_shared_open(shared, path) : nsf_shared_create(shared, path, pages, entries, slots);
}

/* Makes what was committed safe and closes the store. No seat is in a call then, but one that waits to begin a transaction or to create
 * or drop the index, which is answered NSF_STOPPED; nor will be. It waits until that call is over. Transactions that are active are lost.
 * Answers why what was committed isn't safe, if it isn't; the store is closed then too. Where none is open, as after a refused opening, or
 * once it was closed, it does nothing. */
static inline uint32_t nsf_shared_close(nsf_shared *shared)
{
    if (!shared->is_open)
        return NSF_OK;
    shared->is_open = false;
    pthread_mutex_lock(&shared->lock);
    shared->stops = true;
    pthread_cond_signal(&shared->wanted);
    pthread_mutex_unlock(&shared->lock);
    pthread_join(shared->owner, NULL);
    pthread_mutex_lock(&shared->lock);
    while (shared->calls > 0)
        pthread_cond_wait(&shared->told, &shared->lock);
    pthread_mutex_unlock(&shared->lock);
    nsf_shared_unlock(shared);
    return shared->refused;
}

/* Makes a seat, for one thread at a time. It stays where it is until nsf_seat_leave. */
static inline uint32_t nsf_seat_take(nsf_seat *seat, nsf_shared *shared)
{
    seat->shared = NULL;
    seat->active = 0;
    int failed = pthread_cond_init(&seat->answered, NULL);
    if (failed)
        return nsf_refuse(failed);
    seat->shared = shared;
    pthread_mutex_lock(&shared->lock);
    seat->number = ++shared->seats;
    pthread_mutex_unlock(&shared->lock);
    return NSF_OK;
}

/* Hands the owner what is wanted, and waits until it is answered: by NSF_STOPPED where the store is being closed. A thread can't be
 * cancelled meanwhile. */
static inline uint32_t nsf_want(nsf_seat *seat, nsf_request *request, uint32_t (*serve)(nsf_shared *, nsf_request *))
{
    nsf_shared *shared = seat->shared;
    int cancels;
    request->seat = seat;
    request->serve = serve;
    pthread_setcancelstate(PTHREAD_CANCEL_DISABLE, &cancels);
    pthread_mutex_lock(&shared->lock);
    shared->calls++;
    request->refused = NSF_STOPPED;
    request->is_answered = shared->stops;
    if (!request->is_answered) {
        request->next = NULL;
        *shared->last = request;
        shared->last = &request->next;
        pthread_cond_signal(&shared->wanted);
    }
    while (!request->is_answered)
        pthread_cond_wait(&seat->answered, &shared->lock);
    shared->calls--;
    pthread_cond_signal(&shared->told); /* to who closes the store */
    pthread_mutex_unlock(&shared->lock);
    pthread_setcancelstate(cancels, NULL);
    if (request->refused == NSF_STOPPED)
        seat->active = 0; /* what was active is lost */
    return request->refused;
}

static inline nsf_request nsf_no_request(void)
{
    nsf_request request;
    memset(&request, 0, sizeof request);
    return request;
}

static inline uint32_t nsf_serve_leave(nsf_shared *shared, nsf_request *request)
{
    nsf_roll_back_of(shared, request->seat->number);
    return NSF_OK;
}

/* Gives the seat up. Its transactions that are active are rolled back; where the store was closed before, they are lost, and `shared` is to
 * stand where it did. A seat that was given up is left as it is. */
static inline void nsf_seat_leave(nsf_seat *seat)
{
    nsf_request request = nsf_no_request();
    if (!seat->shared)
        return;
    if (seat->active > 0 && seat->shared->is_open)
        nsf_want(seat, &request, nsf_serve_leave);
    pthread_cond_destroy(&seat->answered);
    seat->shared = NULL;
}

/* ---- the calls of a seat. Each answers as the call of nsf.h of the same name does, and makes all steps that a change wants. A transaction of
 * another seat is none (NSF_NO_SUCH_TXN). Where the first step of a change is refused, nothing was done. Where one behind it is, the answer is
 * NSF_BEGUN: the change is begun (an insertion has its place), and nsf_seat_finish makes the other steps, or says why not, or
 * nsf_seat_roll_back takes it back. */

static inline uint32_t nsf_serve_begin(nsf_shared *shared, nsf_request *request)
{
    uint32_t refused = nsf_begin(shared->handle, &request->txn);
    if (!refused && shared->active_count < NSF_TXNS) {
        shared->active[shared->active_count].txn = request->txn;
        shared->active[shared->active_count].seat = request->seat->number;
        shared->active_count++;
    }
    return refused;
}

/* Begins a transaction. While the index is to be created or dropped, it waits. */
static inline uint32_t nsf_seat_begin(nsf_seat *seat, uint64_t *txn)
{
    nsf_request request = nsf_no_request();
    request.begins = true;
    uint32_t refused = nsf_want(seat, &request, nsf_serve_begin);
    *txn = refused ? 0 : request.txn;
    if (!refused)
        seat->active++;
    return refused;
}

/* Makes the steps of a change behind its first one, which was answered so. */
static inline uint32_t nsf_finish_begun(nsf_shared *shared, nsf_request *request, uint32_t refused)
{
    if (refused)
        return refused;
    return nsf_finish(shared->handle, request->txn) ? (uint32_t)NSF_BEGUN : (uint32_t)NSF_OK;
}

static inline uint32_t nsf_serve_insert(nsf_shared *shared, nsf_request *request)
{
    if (!nsf_is_owned(shared, request))
        return NSF_NO_SUCH_TXN;
    return nsf_finish_begun(shared, request, nsf_insert(shared->handle, request->txn, request->key, request->key_length, request->body,
                                                        request->body_length, &request->place));
}

static inline uint32_t nsf_seat_insert(nsf_seat *seat, uint64_t txn, const void *key, size_t key_length, const void *body,
                                       size_t body_length, nsf_place *place)
{
    nsf_request request = nsf_no_request();
    request.txn = txn;
    request.key = key;
    request.key_length = key_length;
    request.body = body;
    request.body_length = body_length;
    uint32_t refused = nsf_want(seat, &request, nsf_serve_insert);
    *place = request.place;
    return refused;
}

static inline uint32_t nsf_serve_finish(nsf_shared *shared, nsf_request *request)
{
    return nsf_is_owned(shared, request) ? nsf_finish(shared->handle, request->txn) : (uint32_t)NSF_NO_SUCH_TXN;
}

/* Makes the steps that a change of the transaction still owes. */
static inline uint32_t nsf_seat_finish(nsf_seat *seat, uint64_t txn)
{
    nsf_request request = nsf_no_request();
    request.txn = txn;
    return nsf_want(seat, &request, nsf_serve_finish);
}

static inline uint32_t nsf_serve_delete(nsf_shared *shared, nsf_request *request)
{
    if (!nsf_is_owned(shared, request))
        return NSF_NO_SUCH_TXN;
    return nsf_finish_begun(shared, request, nsf_delete(shared->handle, request->txn, request->place));
}

static inline uint32_t nsf_seat_delete(nsf_seat *seat, uint64_t txn, nsf_place place)
{
    nsf_request request = nsf_no_request();
    request.txn = txn;
    request.place = place;
    return nsf_want(seat, &request, nsf_serve_delete);
}

static inline uint32_t nsf_serve_update(nsf_shared *shared, nsf_request *request)
{
    if (!nsf_is_owned(shared, request))
        return NSF_NO_SUCH_TXN;
    return nsf_finish_begun(shared, request, nsf_update(shared->handle, request->txn, request->place, request->key, request->key_length,
                                                        request->body, request->body_length));
}

static inline uint32_t nsf_seat_update(nsf_seat *seat, uint64_t txn, nsf_place place, const void *key, size_t key_length,
                                       const void *body, size_t body_length)
{
    nsf_request request = nsf_no_request();
    request.txn = txn;
    request.place = place;
    request.key = key;
    request.key_length = key_length;
    request.body = body;
    request.body_length = body_length;
    return nsf_want(seat, &request, nsf_serve_update);
}

static inline uint32_t nsf_serve_commit(nsf_shared *shared, nsf_request *request)
{
    const size_t at = nsf_find_active(shared, request->txn, request->seat->number);
    if (at == shared->active_count)
        return NSF_NO_SUCH_TXN;
    uint32_t refused = nsf_commit(shared->handle, request->txn, &request->number);
    if (!refused)
        nsf_forget(shared, at);
    return refused;
}

/* Counts a transaction of the seat that has ended, where it has. */
static inline uint32_t nsf_ended(nsf_seat *seat, uint32_t refused)
{
    if (seat->active > 0 && (!refused || refused == NSF_UNSAFE))
        seat->active--;
    return refused;
}

/* Commits, and waits until the transaction is safe. By NSF_UNSAFE it is committed, and not safe yet; by any other refusal it is active as
 * before. */
static inline uint32_t nsf_seat_commit(nsf_seat *seat, uint64_t txn)
{
    nsf_request request = nsf_no_request();
    request.txn = txn;
    request.wants_safe = true;
    return nsf_ended(seat, nsf_want(seat, &request, nsf_serve_commit));
}

/* Commits, and waits for nothing: it is safe once nsf_seat_await answered 0 behind it. */
static inline uint32_t nsf_seat_commit_later(nsf_seat *seat, uint64_t txn)
{
    nsf_request request = nsf_no_request();
    request.txn = txn;
    return nsf_ended(seat, nsf_want(seat, &request, nsf_serve_commit));
}

static inline uint32_t nsf_serve_nothing(nsf_shared *shared, nsf_request *request)
{
    (void)shared;
    (void)request;
    return NSF_OK;
}

/* Waits until all that was committed before is safe. */
static inline uint32_t nsf_seat_await(nsf_seat *seat)
{
    nsf_request request = nsf_no_request();
    request.wants_safe = true;
    request.tells_why = true;
    return nsf_want(seat, &request, nsf_serve_nothing);
}

static inline uint32_t nsf_serve_roll_back(nsf_shared *shared, nsf_request *request)
{
    const size_t at = nsf_find_active(shared, request->txn, request->seat->number);
    if (at == shared->active_count)
        return NSF_NO_SUCH_TXN;
    uint32_t refused = nsf_roll_back(shared->handle, request->txn);
    if (!refused)
        nsf_forget(shared, at);
    return refused;
}

static inline uint32_t nsf_seat_roll_back(nsf_seat *seat, uint64_t txn)
{
    nsf_request request = nsf_no_request();
    request.txn = txn;
    return nsf_ended(seat, nsf_want(seat, &request, nsf_serve_roll_back));
}

static inline uint32_t nsf_serve_put(nsf_shared *shared, nsf_request *request)
{
    uint32_t refused = nsf_serve_begin(shared, request);
    if (refused)
        return refused;
    refused = nsf_insert(shared->handle, request->txn, request->key, request->key_length, request->body, request->body_length, &request->place);
    if (!refused)
        refused = nsf_finish(shared->handle, request->txn);
    if (!refused)
        refused = nsf_serve_commit(shared, request);
    if (refused && nsf_serve_roll_back(shared, request) != NSF_OK)
        shared->active[nsf_find_active(shared, request->txn, request->seat->number)].seat = 0;
    return refused;
}

/* Inserts a row in a transaction of its own, and waits until it is safe. By NSF_UNSAFE the row is there; by any other refusal it isn't. */
static inline uint32_t nsf_seat_put(nsf_seat *seat, const void *key, size_t key_length, const void *body, size_t body_length,
                                    nsf_place *place)
{
    nsf_request request = nsf_no_request();
    request.begins = true;
    request.wants_safe = true;
    request.key = key;
    request.key_length = key_length;
    request.body = body;
    request.body_length = body_length;
    uint32_t refused = nsf_want(seat, &request, nsf_serve_put);
    *place = request.place;
    return refused;
}

static inline uint32_t nsf_serve_get(nsf_shared *shared, nsf_request *request)
{
    return nsf_get(shared->handle, request->place, request->replies);
}

/* The row at a place, committed or not: NSF_ROW or NSF_NO_ROW. */
static inline uint32_t nsf_seat_get(nsf_seat *seat, nsf_place place, nsf_reply *reply)
{
    nsf_request request = nsf_no_request();
    request.place = place;
    request.replies = reply;
    return nsf_want(seat, &request, nsf_serve_get);
}

static inline uint32_t nsf_serve_get_committed(nsf_shared *shared, nsf_request *request)
{
    return nsf_get_committed(shared->handle, &request->place, request->replies);
}

static inline uint32_t nsf_seat_get_committed(nsf_seat *seat, nsf_place place, nsf_reply *reply)
{
    nsf_request request = nsf_no_request();
    request.place = place;
    request.replies = reply;
    return nsf_want(seat, &request, nsf_serve_get_committed);
}

static inline uint32_t nsf_serve_find(nsf_shared *shared, nsf_request *request)
{
    return nsf_find(shared->handle, request->key, request->key_length, request->places, request->room, &request->number);
}

static inline uint32_t nsf_seat_find(nsf_seat *seat, const void *key, size_t key_length, nsf_place *places, size_t room, uint64_t *found)
{
    nsf_request request = nsf_no_request();
    request.key = key;
    request.key_length = key_length;
    request.places = places;
    request.room = room;
    uint32_t refused = nsf_want(seat, &request, nsf_serve_find);
    *found = refused ? 0 : request.number;
    return refused;
}

static inline uint32_t nsf_serve_pairs(nsf_shared *shared, nsf_request *request)
{
    uint32_t refused = NSF_OK;
    while (request->number < request->room) {
        refused = request->read(shared->handle, request->scan, &request->replies[request->number]);
        if (refused || request->replies[request->number].kind == NSF_AT_END)
            break;
        request->number++;
    }
    return refused;
}

static inline uint32_t nsf_want_pairs(nsf_seat *seat, nsf_scan *scan, nsf_reply *pairs, size_t room, size_t *count,
                                      uint32_t (*read)(nsf_handle *, nsf_scan *, nsf_reply *))
{
    nsf_request request = nsf_no_request();
    request.scan = scan;
    request.read = read;
    request.replies = pairs;
    request.room = room;
    uint32_t refused = nsf_want(seat, &request, nsf_serve_pairs);
    *count = (size_t)request.number;
    return refused;
}

/* The next pairs of a scan, as many as there is room for, all of one moment; fewer where no more are left. Tells how many. */
static inline uint32_t nsf_seat_scan(nsf_seat *seat, nsf_scan *scan, nsf_reply *pairs, size_t room, size_t *count)
{
    return nsf_want_pairs(seat, scan, pairs, room, count, nsf_scan_next);
}

/* The same from the end: at first the last pairs of the scan, the last one first. A scan of what is committed is refused. */
static inline uint32_t nsf_seat_scan_back(nsf_seat *seat, nsf_scan *scan, nsf_reply *pairs, size_t room, size_t *count)
{
    return nsf_want_pairs(seat, scan, pairs, room, count, nsf_scan_previous);
}

static inline uint32_t nsf_serve_create_index(nsf_shared *shared, nsf_request *request)
{
    return nsf_create_index(shared->handle, &request->number);
}

static inline uint32_t nsf_serve_drop_index(nsf_shared *shared, nsf_request *request)
{
    return nsf_drop_index(shared->handle, &request->number);
}

static inline uint32_t nsf_want_quiet(nsf_seat *seat, long patience, bool drops, uint32_t (*serve)(nsf_shared *, nsf_request *))
{
    nsf_request request = nsf_no_request();
    request.wants_quiet = true;
    request.drops = drops;
    request.wants_safe = true;
    request.patience = patience < 0 ? 0 : patience;
    return nsf_want(seat, &request, serve);
}

/* Creates the index once no transaction is active: others wait so long before they begin one. After so many milliseconds (behind another
 * creation or dropping that waits, they count from its end) it is refused by NSF_TXNS_ACTIVE where some still are, and all is as before.
 * Who calls it has no transaction of its own. The owner then builds it. */
static inline uint32_t nsf_seat_create_index(nsf_seat *seat, long milliseconds)
{
    return nsf_want_quiet(seat, milliseconds, false, nsf_serve_create_index);
}

/* Drops the index, complete or not, as nsf_seat_create_index creates it. */
static inline uint32_t nsf_seat_drop_index(nsf_seat *seat, long milliseconds)
{
    return nsf_want_quiet(seat, milliseconds, true, nsf_serve_drop_index);
}

static inline uint32_t nsf_serve_build(nsf_shared *shared, nsf_request *request)
{
    (void)request;
    nsf_look_at_index(shared);
    return NSF_OK;
}

/* Has the owner go on with a build that a refusal ended. */
static inline uint32_t nsf_seat_build_on(nsf_seat *seat)
{
    nsf_request request = nsf_no_request();
    return nsf_want(seat, &request, nsf_serve_build);
}

static inline uint32_t nsf_serve_progress(nsf_shared *shared, nsf_request *request)
{
    nsf_stat(shared->handle, request->status);
    return NSF_OK;
}

/* How far the store and its index are. */
static inline uint32_t nsf_seat_progress(nsf_seat *seat, nsf_status *status)
{
    nsf_request request = nsf_no_request();
    request.status = status;
    return nsf_want(seat, &request, nsf_serve_progress);
}

static inline uint32_t nsf_serve_clean(nsf_shared *shared, nsf_request *request)
{
    nsf_reply reply = NSF_NO_REPLY;
    uint32_t refused = NSF_OK;
    for (int i = 0; !refused && i < 256 && reply.kind != NSF_WRAPPED; i++) {
        refused = nsf_ask_of(shared->handle, NSF_CLEAN, 0, &reply);
        if (!refused && reply.kind == NSF_CLEANED)
            request->number++;
    }
    request->replies[0] = reply;
    return refused;
}

/* Looks at some entries of the index, from where it stopped, and takes those out that are marked and that nobody needs any more. Tells how
 * many, and whether it is at the end of the index; the next call begins anew then. */
static inline uint32_t nsf_seat_clean_on(nsf_seat *seat, uint64_t *cleaned, bool *is_at_end)
{
    nsf_reply reply = NSF_NO_REPLY;
    nsf_request request = nsf_no_request();
    request.replies = &reply;
    uint32_t refused = nsf_want(seat, &request, nsf_serve_clean);
    *cleaned = request.number;
    *is_at_end = !refused && reply.kind == NSF_WRAPPED;
    return refused;
}

/* The same up to the end of the index. Other seats have their turn meanwhile. */
static inline uint32_t nsf_seat_clean(nsf_seat *seat, uint64_t *cleaned)
{
    bool is_at_end = false;
    uint32_t refused = NSF_OK;
    *cleaned = 0;
    while (!refused && !is_at_end) {
        uint64_t more;
        refused = nsf_seat_clean_on(seat, &more, &is_at_end);
        *cleaned += more;
    }
    return refused;
}

#endif
