/* A host of two indexes: how it keeps the duties. */
#define _GNU_SOURCE
#include "host.h"

#include <stdio.h>
#include <stdlib.h>
#include <string.h>
#include <time.h>

enum {
    PIECE_ENTRIES = 512,  /* entries of a checkpoint that are saved at a time */
    SWEPT = 64,           /* old records that are removed at a time */
    TOLD_MOST = 256,      /* changes of a transaction after which records are moved out of the indexes */
    FEW_STEPS = 8,        /* the builder's stretch while transactions commit */
    MANY_STEPS = 256,     /* the builder's stretch otherwise */
    UNLOGGED_MOST = 2048, /* steps of the builder that may wait for a commit */
    RESTS = 3             /* while transactions commit, the builder rests so many times as long as it works */
};

static const record_key STATE = {.stream = 0, .place = 0};

void stop(const char *what, const char *why)
{
    fprintf(stderr, "host: %s: %s\n", what, why);
    _Exit(3);
}

static void stop_if(uint32_t refused, const char *what)
{
    if (refused)
        stop(what, nsf_index_message(refused));
}

static record_key key_of(int which, uint64_t stream, uint64_t place)
{
    return (record_key){.which = (uint8_t)which, .stream = stream, .place = place};
}

/* ---- the changes of the open transaction */

static bool reserve_changes(host *host)
{
    if (host->count + INDEXES <= host->room)
        return true;
    size_t room = 2 * host->room + INDEXES;
    change *changes = realloc(host->changes, room * sizeof *changes);
    if (!changes)
        return false;
    host->changes = changes;
    host->room = room;
    return true;
}

static void add_change(host *host, int which, uint32_t number, const row *old, const row *next)
{
    change *change = &host->changes[host->count++];
    host->told++;
    memset(change, 0, sizeof *change);
    change->which = which;
    change->number = number;
    change->had = old != NULL;
    change->has = next != NULL;
    if (old)
        memcpy(change->old, old->keys[which], KEY_BYTES);
    if (next)
        memcpy(change->next, next->keys[which], KEY_BYTES);
}

/* H4: to take a change back is a change. Nothing of it is refused: both entries are there, since no cleaner ran. */
static void take_back(host *host, const change *change)
{
    part *part = &host->parts[change->which];
    host->told++;
    stop_if(part_prepare(part, change->number, change->has ? change->next : NULL, change->had ? change->old : NULL), "take back");
    if (change->had)
        stop_if(part_put(part, change->number, change->old), "take back");
}

/* Few records wait in the indexes at a time: there is room for these, so that no change is refused for want of memory for its records. */
static void move_records(host *host)
{
    for (int which = 0; which < INDEXES; which++)
        if (host->parts[which].is_open)
            stop_if(part_records(&host->parts[which], &host->waiting[which]), "records");
    host->told = 0;
}

static void take_back_to(host *host, size_t count)
{
    while (host->count > count) {
        take_back(host, &host->changes[--host->count]);
        if (host->told >= TOLD_MOST)
            move_records(host);
    }
}

static bool is_touched(host *host, int which, const row *old, const row *next)
{
    return host->parts[which].is_open && !(old && next && !memcmp(old->keys[which], next->keys[which], KEY_BYTES));
}

/* H3: whatever may be refused is refused before the row changes. */
uint32_t host_prepare(host *host, uint32_t number, const row *old, const row *next)
{
    size_t before = host->count;
    if (!reserve_changes(host))
        return NSF_INDEX_NO_MEMORY;
    if (host->told >= TOLD_MOST)
        move_records(host);
    for (int which = 0; which < INDEXES; which++) {
        if (!is_touched(host, which, old, next))
            continue;
        part *part = &host->parts[which];
        uint32_t refused = part_prepare(part, number, old ? old->keys[which] : NULL, next ? next->keys[which] : NULL);
        if (refused) {
            take_back_to(host, before);
            return refused;
        }
        add_change(host, which, number, old, next);
    }
    return 0;
}

void host_put(host *host, uint32_t number, const row *old, const row *next)
{
    for (int which = 0; next && which < INDEXES; which++)
        if (is_touched(host, which, old, next))
            stop_if(part_put(&host->parts[which], number, next->keys[which]), "put");
}

/* ---- transactions */

void host_enter(session *session)
{
    pthread_mutex_lock(&session->host->writing);
    session->is_writing = true;
}

void host_begin(session *session)
{
    host_enter(session);
    store_begin(session->connection);
}

static void end_writing(session *session)
{
    session->is_writing = false;
    pthread_mutex_unlock(&session->host->writing);
}

/* H8: what waits is logged by this transaction, and stays in `waiting` until it has committed. */
static void log_records(session *session)
{
    host *host = session->host;
    for (int which = 0; which < INDEXES; which++)
        atomic_store(&host->logged[which], atomic_load(&host->parts[which].built));
    move_records(host);
    for (int which = 0; which < INDEXES; which++) {
        bytes *waiting = &host->waiting[which];
        if (waiting->length)
            store_write(session->connection, key_of(which, host->streams[which].log, host->next[which]++), waiting->at, waiting->length);
    }
}

static bool commit_records(session *session)
{
    log_records(session);
    if (!store_commit(session->connection))
        return false;
    for (int which = 0; which < INDEXES; which++)
        session->host->waiting[which].length = 0;
    session->host->count = 0;
    return true;
}

/* The store has taken its rows back. The indexes are told, and a transaction of its own logs what they were told before and now, before
 * another may begin. Where that can't be, the process ends: opening redoes what was logged before. */
static void tell_rollback(session *session)
{
    if (session->host->count) {
        take_back_to(session->host, 0);
        store_begin(session->connection);
        if (!commit_records(session))
            stop("rollback", "its records can't be logged");
    }
    end_writing(session);
}

bool host_commit(session *session)
{
    if (!commit_records(session)) {
        tell_rollback(session);
        return false;
    }
    end_writing(session);
    return true;
}

void host_roll_back(session *session)
{
    store_roll_back(session->connection);
    tell_rollback(session);
}

/* ---- indexes */

static void write_streams(session *session, int which)
{
    record_key key = STATE;
    key.which = (uint8_t)which;
    store_write(session->connection, key, (const uint8_t *)&session->host->streams[which], sizeof(streams));
}

static void commit_or_stop(session *session, const char *what)
{
    if (!host_commit(session))
        stop(what, "the commit failed");
}

/* H6: no change is under way, since this transaction writes; and all rows lie in the pages that are named. */
bool host_create_index(session *session, int which)
{
    host *host = session->host;
    streams *streams = &host->streams[which];
    uint32_t last = 0;
    host_begin(session);
    store_last(session->connection, &last);
    uint32_t refused = part_open(&host->parts[which], ENTRIES_MOST, last / NSF_INDEX_SLOTS + 1);
    if (!refused) {
        streams->pages = host->parts[which].pages;
        streams->log = ++streams->newest;
        streams->from = streams->saved = 0;
        host->next[which] = 0;
        write_streams(session, which);
    }
    commit_or_stop(session, "create");
    return !refused;
}

/* Removes records that stand in no stream in use: those before `from`, and those between the log and the checkpoint. */
static void sweep(session *session, int which)
{
    streams *streams = &session->host->streams[which];
    uint64_t first = streams->saved && streams->saved < streams->log ? streams->saved : streams->log;
    uint64_t second = first == streams->log ? streams->saved : streams->log;
    record_key ranges[][2] = {
        {key_of(which, session->host->swept[which] + 1, 0), key_of(which, first, first == streams->log ? streams->from : 0)},
        {key_of(which, first + 1, 0), key_of(which, second, second == streams->log ? streams->from : 0)},
        {key_of(which, (second > first ? second : first) + 1, 0), key_of(which + 1, 0, 0)},
    };
    for (size_t i = 0; i < sizeof ranges / sizeof *ranges; i++)
        for (uint32_t removed = SWEPT; removed == SWEPT;) {
            host_begin(session);
            removed = store_remove(session->connection, &ranges[i][0], ranges[i][1], SWEPT);
            commit_or_stop(session, "sweep");
        }
    session->host->swept[which] = first - 1;
}

void host_drop_index(session *session, int which)
{
    host *host = session->host;
    host_begin(session);
    part_close(&host->parts[which]);
    host->waiting[which].length = 0;
    host->streams[which].log = ++host->streams[which].newest;
    host->streams[which].saved = host->streams[which].pages = 0;
    write_streams(session, which);
    commit_or_stop(session, "drop");
    sweep(session, which);
}

/* The next commit logs what the builder did. Where there was none for long, an empty transaction does. */
static void log_build(session *session, int which, bool is_complete)
{
    host *host = session->host;
    unsigned long unlogged = atomic_load(&host->parts[which].built) - atomic_load(&host->logged[which]);
    if (unlogged < UNLOGGED_MOST && !is_complete)
        return;
    host_begin(session);
    uint64_t began = nanoseconds();
    commit_or_stop(session, "build");
    keep_greatest(&host->longest, nanoseconds() - began);
}

static void rest(uint64_t worked)
{
    struct timespec time = {.tv_nsec = (long)(worked * RESTS < 1000000 ? worked * RESTS : 1000000)};
    nanosleep(&time, NULL);
}

/* H5: the page is read from a snapshot, with no lock. */
static void hand_over(session *session, int which, uint32_t page)
{
    nsf_index_pair pairs[NSF_INDEX_SLOTS];
    size_t count = store_read_page(session->connection, which, page, pairs);
    stop_if(part_take_page(&session->host->parts[which], page, pairs, count), "take page");
}

/* While transactions commit, stretches are short, and the builder rests after each. */
bool host_build(session *session, int which)
{
    host *host = session->host;
    uint32_t stop = NSF_INDEX_MORE, page = 0;
    unsigned long commits = atomic_load(&host->commits);
    bool is_busy = atomic_exchange(&host->seen, commits) != commits;
    uint64_t began = nanoseconds();
    stop_if(part_build(&host->parts[which], is_busy ? FEW_STEPS : MANY_STEPS, &stop, &page), "build");
    uint64_t worked = nanoseconds() - began;
    if (stop == NSF_INDEX_WANTS_PAGE) {
        hand_over(session, which, page);
        return true;
    }
    log_build(session, which, stop == NSF_INDEX_IS_COMPLETE);
    if (is_busy)
        rest(worked);
    return stop != NSF_INDEX_IS_COMPLETE;
}

/* H7: no change waits for its end while `writing` is held. The next commit logs what was taken out. */
uint32_t host_clean(session *session, int which, nsf_index_cursor *cursor, uint32_t most)
{
    uint32_t cleaned = 0;
    pthread_mutex_lock(&session->host->writing);
    uint64_t began = nanoseconds();
    stop_if(part_clean(&session->host->parts[which], cursor, most, &cleaned), "clean");
    keep_greatest(&session->host->longest, nanoseconds() - began);
    pthread_mutex_unlock(&session->host->writing);
    return cleaned;
}

/* ---- checkpoints, and opening */

static void write_piece(session *session, int which, uint64_t stream, uint64_t *pieces, bytes *piece)
{
    if (piece->length)
        store_write(session->connection, key_of(which, stream, (*pieces)++), piece->at, piece->length);
    piece->length = 0;
}

/* A checkpoint in pieces, with transactions between them. The log is redone from the place where it stood at the beginning. */
void host_checkpoint(session *session, int which)
{
    host *host = session->host;
    streams *streams = &host->streams[which];
    part *part = &host->parts[which];
    bytes piece = {0}, *waiting = &host->waiting[which];
    nsf_index_cursor cursor = NSF_INDEX_FIRST;
    uint64_t pieces = 0;
    host_begin(session);
    uint64_t stream = ++streams->newest, begun = host->next[which];
    stop_if(part_save_life(part, waiting, &piece), "save");
    write_piece(session, which, stream, &pieces, &piece);
    commit_or_stop(session, "save");
    for (bool is_last = false; !is_last;) {
        host_begin(session);
        stop_if(part_save(part, waiting, &cursor, PIECE_ENTRIES, &piece, &is_last), "save");
        write_piece(session, which, stream, &pieces, &piece);
        commit_or_stop(session, "save");
    }
    host_begin(session);
    streams->saved = stream;
    streams->from = begun;
    write_streams(session, which);
    commit_or_stop(session, "save");
    bytes_free(&piece);
    sweep(session, which);
}

typedef struct loading {
    host *host;
    int which;
} loading;

static void load_streams(void *context, uint64_t place, const uint8_t *bytes, size_t length)
{
    loading *loading = context;
    if (place != 0 || length != sizeof(streams))
        stop("open", "the state of an index has another length");
    memcpy(&loading->host->streams[loading->which], bytes, length);
}

static void redo(void *context, uint64_t place, const uint8_t *bytes, size_t length)
{
    loading *loading = context;
    stop_if(part_redo(&loading->host->parts[loading->which], bytes, length), "redo");
    atomic_fetch_add(&loading->host->redone, length);
    loading->host->next[loading->which] = place + 1;
}

/* H9: the checkpoint, and the log since it began. */
static void load(session *session, int which)
{
    host *host = session->host;
    streams *streams = &host->streams[which];
    loading loading = {.host = host, .which = which};
    host_begin(session);
    store_each(session->connection, key_of(which, 0, 0), key_of(which, 1, 0), load_streams, &loading);
    if (streams->pages) {
        stop_if(part_empty(&host->parts[which], ENTRIES_MOST, streams->pages), "open");
        if (streams->saved)
            store_each(session->connection, key_of(which, streams->saved, 0), key_of(which, streams->saved + 1, 0), redo, &loading);
        host->next[which] = streams->from;
        store_each(session->connection, key_of(which, streams->log, streams->from), key_of(which, streams->log + 1, 0), redo, &loading);
        stop_if(part_reopen(&host->parts[which]), "reopen");
    }
    commit_or_stop(session, "open");
    if (streams->newest)
        sweep(session, which);
}

host *host_open(const char *folder, bool is_synced)
{
    host *host = calloc(1, sizeof *host);
    if (!host)
        stop("open", "no memory");
    pthread_mutex_init(&host->writing, NULL);
    for (int which = 0; which < INDEXES; which++)
        part_make(&host->parts[which]);
    host->store = store_open(folder, is_synced);
    session *session = session_open(host);
    for (int which = 0; which < INDEXES; which++)
        load(session, which);
    session_close(session);
    return host;
}

void host_close(host *host)
{
    for (int which = 0; which < INDEXES; which++) {
        part_destroy(&host->parts[which]);
        bytes_free(&host->waiting[which]);
    }
    store_close(host->store);
    pthread_mutex_destroy(&host->writing);
    free(host->changes);
    free(host);
}

session *session_open(host *host)
{
    session *session = calloc(1, sizeof *session);
    if (!session)
        stop("open", "no memory");
    session->host = host;
    session->connection = connection_open(host->store, session);
    return session;
}

void session_close(session *session)
{
    connection_close(session->connection);
    free(session);
}

/* ---- reading */

size_t host_range(session *session, int which, range *range, nsf_index_pair *pairs, size_t room)
{
    bool is_writing = session->is_writing;
    if (!is_writing)
        pthread_mutex_lock(&session->host->writing);
    size_t count = part_range(&session->host->parts[which], range, pairs, room);
    if (!is_writing)
        pthread_mutex_unlock(&session->host->writing);
    return count;
}
