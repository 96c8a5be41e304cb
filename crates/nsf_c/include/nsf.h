/* NSF from C: a table of rows with a secondary index that is built while the table is written, and a log that makes it safe.
 *
 * The functions named nsf_.. that are declared here and not defined are proved, over the duties named below: each does by the
 * engine's calls what is said at it, and says so by its result. Nothing checks the C side, so what it breaks breaks the proof.
 *
 * What a caller owes
 *   - A handle begins as NSF_VACANT. nsf_create and nsf_open take a vacant handle, and every other call one that is open: one
 *     that nsf_create or nsf_open answered 0 for, and that wasn't closed since. A call that is refused at opening leaves it vacant.
 *   - A handle is never copied, nor changed but by these calls.
 *   - One thread at a time is in a call of a handle, and all calls of a handle are of one thread. No call is made from a signal
 *     handler, or in the child of a fork.
 *   - A pointer is not null and is aligned for its type, also where its length is 0. Behind it lie as many values as its length
 *     says, set to something. What a call may write (a handle, a reply, a stat, places, the sectors of nsf_save) overlaps nothing else
 *     that is passed. While a call runs nobody else changes what is passed to it.
 *   - malloc and free are one allocator's, and align as the C standard asks.
 *   - Of a line (nsf_create): the descriptor is open and blocks as long as the store is open, and nothing else reads from it or
 *     writes to it. Its other end does what it is asked before it says so. Where that end may be closed before the store is, SIGPIPE
 *     is ignored: a write to it would end the process. A signal that is caught in the calling thread restarts its system calls
 *     (SA_RESTART), or the call it interrupts may count as one of a failed device.
 *
 * A call keeps no pointer that it was passed, but the handle's own. No call ends the process (but see SIGPIPE) or runs for ever; on a
 * line it waits for the other end. Where memory is refused, a call answers 1. */
#ifndef NSF_H
#define NSF_H

#include <stdbool.h>
#include <stddef.h>
#include <stdint.h>

#ifdef __cplusplus
extern "C" {
#endif

enum { NSF_KEY_MAX = 56, NSF_BODY_MAX = 69, NSF_SLOTS_PER_PAGE = 63, NSF_SECTOR = 512 };

/* Where a store is, if one is open. */
typedef struct nsf_handle {
    void *at;
} nsf_handle;

#define NSF_VACANT {0}

/* What a call answers: 0, or why it was refused. A refused event changed nothing, but that a copy may have written groups of records
 * (nsf_stat tells the horizon), and that a flush or a copy that was refused by 2 may have written some of what it was to write; from
 * then on each flush, copy and commit is refused by 2, until the store is opened again. nsf_flush and nsf_image are several such steps: those
 * before the refused one stand. An answer of 0 is not all: where what was asked for isn't met, the reply is NSF_SKIPPED, and nothing was done. */
enum {
    NSF_OK = 0,
    NSF_NO_MEMORY = 1,
    NSF_DEVICE_FAILED = 2,
    NSF_NOT_FORMATTED = 3,
    NSF_DAMAGED = 4, /* as an event's: `number` of the reply is the sector */
    NSF_DEVICE_TOO_SMALL = 5,
    NSF_BAD_GEOMETRY = 6,
    NSF_TOO_MANY_TXNS = 7,
    NSF_TOO_MANY_CHANGES = 8,
    NSF_NO_SUCH_TXN = 9,
    NSF_NO_SUCH_ROW = 10,
    NSF_ROW_BUSY = 11,
    NSF_HEAP_FULL = 12,
    NSF_INDEX_FULL = 13,
    NSF_KEY_TOO_LONG = 14,
    NSF_BODY_TOO_LONG = 15,
    NSF_TXNS_ACTIVE = 16,
    NSF_INDEX_EXISTS = 17,
    NSF_NO_INDEX = 18,
    NSF_NOT_BUILT = 19,
    NSF_STOPPED = 20,
    NSF_EXHAUSTED = 21,
    NSF_OLD_VERSION = 23,
    NSF_NO_SUCH_EVENT = 24,
    /* of inline functions alone */
    NSF_SYSTEM = 100,  /* errno says why; EINVAL where the length of a file is no number of sectors from 1 to 2^23 */
    NSF_UNREADY = 101, /* the reply was NSF_SKIPPED */
    NSF_UNSAFE = 102,  /* what was asked for is done, but a flush was refused (nsf_shared.h) */
    NSF_UNSOUND = 103, /* of an opening: nsf_can_open says no */
    NSF_BEGUN = 104    /* of a seat's change: its first step is made, and one behind it was refused (nsf_shared.h) */
};

/* The text of a refusal. */
static inline const char *nsf_message(uint32_t refusal)
{
    switch (refusal) {
    case NSF_OK: return "done";
    case NSF_NO_MEMORY: return "an allocation was refused";
    case NSF_DEVICE_FAILED: return "a call of the device failed: open the store again";
    case NSF_NOT_FORMATTED: return "the first bytes are not this format's";
    case NSF_DAMAGED: return "a sector holds nothing that the format allows";
    case NSF_DEVICE_TOO_SMALL: return "there are fewer sectors than the geometry needs";
    case NSF_BAD_GEOMETRY: return "a number of pages, entries or slots is outside its limits";
    case NSF_TOO_MANY_TXNS: return "as many transactions are active as may be";
    case NSF_TOO_MANY_CHANGES: return "the transaction has made as many changes as it may";
    case NSF_NO_SUCH_TXN: return "no active transaction has this number";
    case NSF_NO_SUCH_ROW: return "no row is at this place";
    case NSF_ROW_BUSY: return "another active transaction holds the row";
    case NSF_HEAP_FULL: return "no place is free for a further row";
    case NSF_INDEX_FULL: return "the index has no room for a further entry";
    case NSF_KEY_TOO_LONG: return "the key has more bytes than a key may have";
    case NSF_BODY_TOO_LONG: return "the body has more bytes than a body may have";
    case NSF_TXNS_ACTIVE: return "a transaction is active";
    case NSF_INDEX_EXISTS: return "the index exists, built or being built";
    case NSF_NO_INDEX: return "no index exists";
    case NSF_NOT_BUILT: return "the index is not complete yet";
    case NSF_STOPPED: return "the store was told to stop";
    case NSF_EXHAUSTED: return "the last number that a record may have is given away";
    case NSF_OLD_VERSION: return "the store is of an older version of the format: `nsf-store migrate` moves it to a new file";
    case NSF_NO_SUCH_EVENT: return "no event has this kind";
    case NSF_SYSTEM: return "the system refused a call: errno says why";
    case NSF_UNREADY: return "the transaction owes a step, has changes left, or is rolling back: nothing was done";
    case NSF_UNSAFE: return "it is done, and not safe yet, as a flush was refused";
    case NSF_UNSOUND: return "the index of the store isn't that of its rows: restore a copy, or `nsf-store salvage`";
    case NSF_BEGUN: return "the change is begun, and a further step of it was refused: finish it, or roll it back";
    default: return "no refusal has this number";
    }
}

/* What nsf_serve may be asked. What a kind has no use for is not looked at. An insertion, a deletion, an update or a commit of a
 * transaction that owes a step of its newest change, or is rolling back, is NSF_SKIPPED; but a commit behind a flush or a copy that
 * was refused by 2 is always refused by 2. */
enum {
    NSF_BEGIN = 1,    /* a transaction; replies NSF_TXN */
    NSF_INSERT = 2,   /* txn, key, body; NSF_RID */
    NSF_DELETE = 3,   /* txn, place; NSF_STEPPED */
    NSF_UPDATE = 4,   /* txn, place, key, body; NSF_STEPPED */
    NSF_STEP = 5,     /* txn: the step that it owes of its newest change; NSF_STEPPED, or NSF_SKIPPED where it owes none */
    NSF_UNDO = 6,     /* txn, which rolls back from then on: a step of taking its newest change back; NSF_UNDONE, or NSF_EMPTY where
                       * none is left */
    NSF_END = 7,      /* txn; NSF_ENDED, or NSF_SKIPPED where it has a change left */
    NSF_COMMIT = 8,   /* txn; NSF_TICKET: it is safe once a horizon is no less than `number` */
    NSF_CREATE = 9,   /* the index, which is then to be built; NSF_TICKET */
    NSF_BUILD = 10,   /* a step of the builder; NSF_SCANNED to NSF_IDLE */
    NSF_CLEAN = 11,   /* a step of the cleaner; NSF_CLEANED, NSF_KEPT or NSF_WRAPPED */
    NSF_FLUSH = 12,   /* one group of records (nsf_flush writes all); NSF_HORIZON or NSF_LOG_FULL */
    NSF_COPY = 13,    /* one step of an image (nsf_image takes all); NSF_COPIED, NSF_FLIPPED or NSF_AGAIN */
    NSF_GET = 14,     /* place; NSF_ROW or NSF_NO_ROW */
    NSF_FIND = 15,    /* key; NSF_FOUND: `number` rows have it, and the places of as many as there is room for are put */
    NSF_LIFE = 16,    /* how far the index is; NSF_ABSENT to NSF_COMPLETE */
    NSF_DROP = 17     /* the index, complete or not; NSF_TICKET */
};

typedef struct nsf_event {
    uint32_t kind;
    uint32_t page;
    uint64_t txn;
    uint16_t slot;
} nsf_event;

/* The place of a row: a page, and a slot of it from 0 to 62. */
typedef struct nsf_place {
    uint32_t page;
    uint16_t slot;
} nsf_place;

/* What is told. */
enum {
    NSF_REFUSED = 0,
    NSF_TXN = 1,          /* number */
    NSF_RID = 2,          /* page, slot */
    NSF_STEPPED = 3,
    NSF_UNDONE = 4,
    NSF_EMPTY = 5,
    NSF_ENDED = 6,
    NSF_TICKET = 7,       /* number */
    NSF_SCANNED = 8,      /* page: the pairs of its rows were taken */
    NSF_PLACED = 9,       /* key, page, slot: the pair has a live entry now */
    NSF_REJECTED = 10,    /* key, page, slot: the pair had an entry, which stays as it was */
    NSF_MARKED = 11,      /* key, page, slot, number: a checkpoint of the pair attempted last */
    NSF_DONE = 12,        /* number: the index is complete */
    NSF_IDLE = 13,        /* it was complete before */
    NSF_CLEANED = 14,     /* key, page, slot: the marked entry was taken out */
    NSF_KEPT = 15,        /* key, page, slot: the entry was left */
    NSF_WRAPPED = 16,     /* the cleaner was at the end, and begins anew */
    NSF_HORIZON = 17,     /* number: all records up to it are in the log, and synced */
    NSF_LOG_FULL = 18,    /* every slot of the log is open, and a record waits: take an image */
    NSF_COPIED = 19,
    NSF_FLIPPED = 20,     /* number: the image is current, and all records up to it are synced */
    NSF_AGAIN = 21,       /* the image was given up; the next copy takes a whole one */
    NSF_ROW = 22,         /* key, body */
    NSF_NO_ROW = 23,
    NSF_FOUND = 24,       /* number */
    NSF_ABSENT = 25,      /* there is no index */
    NSF_BUILDING = 26,    /* it is being built, and no pair is checkpointed */
    NSF_BUILDING_AT = 27, /* key, page, slot: the pair that is checkpointed last */
    NSF_COMPLETE = 28,
    NSF_SKIPPED = 29,     /* what was asked for isn't met, and nothing was done */
    NSF_PAIR = 30,        /* key, page, slot: a visible pair */
    NSF_AT_END = 31       /* no pair of the range is left */
};

/* What was not set is 0. Behind the bytes of a key or a body are zeros. */
typedef struct nsf_reply {
    uint32_t kind;
    uint32_t page;
    uint64_t number;
    uint16_t slot;
    uint8_t key_length;
    uint8_t body_length;
    uint8_t key[NSF_KEY_MAX];
    uint8_t body[NSF_BODY_MAX];
} nsf_reply;

#define NSF_NO_REPLY {0, 0, 0, 0, 0, 0, {0}, {0}}

/* A range of keys, and perhaps a pair from which to go on. The keys stand beside it. */
enum { NSF_UNBOUNDED = 0, NSF_INCLUDED = 1, NSF_EXCLUDED = 2 };

typedef struct nsf_bounds {
    uint32_t from;      /* NSF_UNBOUNDED: from the first key on; NSF_INCLUDED, NSF_EXCLUDED: from a key on, with it or without */
    uint32_t to;        /* so its end */
    uint32_t goes_on;   /* 1: the pair is given from which to go on; 0: none is */
    uint32_t committed; /* 1: the index as is committed, 0: as it stands, with what isn't committed yet */
    uint32_t page;      /* the place of the pair that is given */
    uint16_t slot;
} nsf_bounds;

/* What a store is, and how far it has come. */
typedef struct nsf_status {
    uint64_t last;     /* the number of the last record made */
    uint64_t horizon;  /* every record up to this one is synced */
    uint64_t attempts; /* attempts of the builder since the store was opened */
    uint64_t rows;     /* rows of the table, committed or not */
    uint64_t entries;  /* entries of the index */
    uint64_t marked;   /* those of them that are marked; the others are visible */
    uint32_t pages;
    uint32_t life;     /* NSF_ABSENT to NSF_COMPLETE */
} nsf_status;

/* What a status is set to before nsf_stat fills it. */
#define NSF_NO_STATUS {0, 0, 0, 0, 0, 0, 0, 0}

/* How many sectors of 512 bytes a store of 1 to 65536 pages, 64 to 8388608 entries and 4 to 16384 slots needs; 0 for any other numbers. */
uint64_t nsf_sectors(uint32_t pages, uint32_t entries, uint32_t slots);

/* Makes a store of this geometry, with no row and no index, and opens it.
 *
 * Where `line` is negative it is in memory, and gone when it is closed. Else `line` is a descriptor of a stream (one end of a
 * socketpair, say), which stays open until the store is closed, and is asked one thing after another:
 *     8 bytes N, the least first, and 512 bytes     write these at sector N
 *     8 bytes of 255                                sync: return once all that was written is safe
 * The other end answers each by one byte: 0 once it is done, any other if it failed. At the end of a call nothing is left unanswered. The
 * other end is never read from again once it said that something failed: the call answers 2 then. At first it is to have as many
 * sectors as nsf_sectors tells, all zeros and safe. A write of one sector is to harm no other, and may be torn by a crash.
 * nsf_file.h has an other end over a file. */
uint32_t nsf_create(nsf_handle *handle, int32_t line, uint32_t pages, uint32_t entries, uint32_t slots);

/* Opens the store that the bytes hold, as sectors of 512; bytes behind the last whole one are not looked at. The bytes are copied. In
 * memory where `line` is negative; else at the other end of the line are the same sectors, all of them safe. Whatever a crash left of
 * a store that was made and written by these calls is opened: with a prefix of what was committed, which has everything that a horizon
 * told of; and so is what nsf_save copied. */
uint32_t nsf_open(nsf_handle *handle, int32_t line, const uint8_t *bytes, size_t length);

/* Copies sectors out that the store holds, from number `first` on: as many as there are and as there is room for. Answers how many;
 * behind these the room stays as it was. A store that nsf_create made has as many as nsf_sectors tells, one that nsf_open opened as
 * many as it was given. All of them, copied with no other call between, are what a crash may leave now. So a store in memory is
 * saved by nsf_flush and nsf_save, and opened again by nsf_open. */
uint64_t nsf_save(nsf_handle *handle, uint64_t first, uint8_t (*sectors)[NSF_SECTOR], size_t room);

/* Closes the store. What was not flushed is lost. (nsf_close_if_open takes a vacant handle too.) */
void nsf_close(nsf_handle *handle);

/* Serves an event. Where it answers a number, the reply's kind is NSF_REFUSED and nothing was done, but as said at the refusals. */
uint32_t nsf_serve(nsf_handle *handle, const nsf_event *event, const uint8_t *key, size_t key_length, const uint8_t *body,
                   size_t body_length, nsf_place *places, size_t room, nsf_reply *reply);

/* Flushes until every record made is synced; where the log is full, it takes an image and goes on. Replies NSF_HORIZON. */
uint32_t nsf_flush(nsf_handle *handle, nsf_reply *reply);

/* Takes an image of the store and makes it current. Replies NSF_FLIPPED. */
uint32_t nsf_image(nsf_handle *handle, nsf_reply *reply);

/* Tells the first visible pair of a range of keys, or the first one behind the pair that is given by its key and its place: NSF_PAIR, or
 * NSF_AT_END where none is left. Pairs come in the order of their keys' bytes, then of their places. Where no index is complete it is
 * refused by 18 or 19, a number that is none of those above by 24, a key that is too long by 14, a slot that is on no page by 10. Of
 * several it is that of the first: where the range begins, where it ends, the pair, `committed`, the index. */
uint32_t nsf_next(nsf_handle *handle, const nsf_bounds *bounds, const uint8_t *from, size_t from_length, const uint8_t *to,
                  size_t to_length, const uint8_t *behind, size_t behind_length, nsf_reply *reply);

/* Tells the last visible pair of a range of keys, or the last one before the pair that is given by its key and its place: NSF_PAIR, or
 * NSF_AT_END where none is left. Of the index as it stands alone: where `committed` isn't 0 it is refused by 24. The other refusals are
 * those of nsf_next. */
uint32_t nsf_previous(nsf_handle *handle, const nsf_bounds *bounds, const uint8_t *from, size_t from_length, const uint8_t *to,
                      size_t to_length, const uint8_t *ahead, size_t ahead_length, nsf_reply *reply);

/* Tells the committed row at a place: NSF_ROW or NSF_NO_ROW, or 10 for a slot that is on no page. What isn't committed yet is left out,
 * also where the caller made it. */
uint32_t nsf_get_committed(nsf_handle *handle, const nsf_place *place, nsf_reply *reply);

/* Whether the index fits the rows, so that all that is promised holds of this store: true of each one that only these calls
 * wrote. To be asked while no transaction is active, as behind nsf_open. */
bool nsf_can_open(nsf_handle *handle);

void nsf_stat(nsf_handle *handle, nsf_status *status);

/* ---- the calls with less to write. These functions are not proved. */

/* Closes the store, where one is open under the handle. */
static inline void nsf_close_if_open(nsf_handle *handle)
{
    if (handle->at)
        nsf_close(handle);
}

/* Saves the store into these bytes, as many whole sectors as they hold. Answers how many bytes were set. */
static inline size_t nsf_save_bytes(nsf_handle *handle, uint8_t *bytes, size_t length)
{
    return (size_t)nsf_save(handle, 0, (uint8_t (*)[NSF_SECTOR])bytes, length / NSF_SECTOR) * NSF_SECTOR;
}

static inline uint32_t nsf_ask(nsf_handle *handle, const nsf_event *event, nsf_reply *reply)
{
    uint8_t none = 0;
    nsf_place nowhere = {0, 0};
    return nsf_serve(handle, event, &none, 0, &none, 0, &nowhere, 0, reply);
}

static inline uint32_t nsf_ask_of(nsf_handle *handle, uint32_t kind, uint64_t txn, nsf_reply *reply)
{
    nsf_event event = {kind, 0, txn, 0};
    return nsf_ask(handle, &event, reply);
}

/* As nsf_ask, of what may be skipped. */
static inline uint32_t nsf_ask_ready(nsf_handle *handle, const nsf_event *event, nsf_reply *reply)
{
    uint32_t refused = nsf_ask(handle, event, reply);
    return !refused && reply->kind == NSF_SKIPPED ? (uint32_t)NSF_UNREADY : refused;
}

/* The same of what answers a ticket, which is 0 where it is refused. */
static inline uint32_t nsf_ask_ticket(nsf_handle *handle, uint32_t kind, uint64_t txn, uint64_t *ticket)
{
    nsf_event event = {kind, 0, txn, 0};
    nsf_reply reply = NSF_NO_REPLY;
    uint32_t refused = nsf_ask_ready(handle, &event, &reply);
    *ticket = refused ? 0 : reply.number;
    return refused;
}

static inline uint32_t nsf_begin(nsf_handle *handle, uint64_t *txn)
{
    nsf_reply reply = NSF_NO_REPLY;
    uint32_t refused = nsf_ask_of(handle, NSF_BEGIN, 0, &reply);
    *txn = refused ? 0 : reply.number;
    return refused;
}

/* A change is one step without an index; with one, further steps put or mark entries. This makes all that are owed. */
static inline uint32_t nsf_finish(nsf_handle *handle, uint64_t txn)
{
    nsf_reply reply = NSF_NO_REPLY;
    uint32_t refused;
    do {
        refused = nsf_ask_of(handle, NSF_STEP, txn, &reply);
    } while (!refused && reply.kind == NSF_STEPPED);
    return refused;
}

/* Inserts, deletes or updates a row by the first step: nsf_finish makes the others. */
static inline uint32_t nsf_insert(nsf_handle *handle, uint64_t txn, const void *key, size_t key_length, const void *body,
                                  size_t body_length, nsf_place *place)
{
    nsf_event event = {NSF_INSERT, 0, txn, 0};
    nsf_place nowhere = {0, 0};
    nsf_reply reply = NSF_NO_REPLY;
    uint32_t refused = nsf_serve(handle, &event, (const uint8_t *)key, key_length, (const uint8_t *)body, body_length, &nowhere, 0, &reply);
    place->page = reply.page;
    place->slot = reply.slot;
    return !refused && reply.kind == NSF_SKIPPED ? (uint32_t)NSF_UNREADY : refused;
}

static inline uint32_t nsf_delete(nsf_handle *handle, uint64_t txn, nsf_place place)
{
    nsf_event event = {NSF_DELETE, place.page, txn, place.slot};
    nsf_reply reply = NSF_NO_REPLY;
    return nsf_ask_ready(handle, &event, &reply);
}

static inline uint32_t nsf_update(nsf_handle *handle, uint64_t txn, nsf_place place, const void *key, size_t key_length,
                                  const void *body, size_t body_length)
{
    nsf_event event = {NSF_UPDATE, place.page, txn, place.slot};
    nsf_place nowhere = {0, 0};
    nsf_reply reply = NSF_NO_REPLY;
    uint32_t refused = nsf_serve(handle, &event, (const uint8_t *)key, key_length, (const uint8_t *)body, body_length, &nowhere, 0, &reply);
    return !refused && reply.kind == NSF_SKIPPED ? (uint32_t)NSF_UNREADY : refused;
}

static inline uint32_t nsf_commit(nsf_handle *handle, uint64_t txn, uint64_t *ticket)
{
    return nsf_ask_ticket(handle, NSF_COMMIT, txn, ticket);
}

/* Takes all changes of the transaction back, and ends it. */
static inline uint32_t nsf_roll_back(nsf_handle *handle, uint64_t txn)
{
    nsf_reply reply = NSF_NO_REPLY;
    uint32_t refused;
    do {
        refused = nsf_ask_of(handle, NSF_UNDO, txn, &reply);
    } while (!refused && reply.kind == NSF_UNDONE);
    return refused ? refused : nsf_ask_of(handle, NSF_END, txn, &reply);
}

static inline uint32_t nsf_create_index(nsf_handle *handle, uint64_t *ticket)
{
    return nsf_ask_ticket(handle, NSF_CREATE, 0, ticket);
}

static inline uint32_t nsf_drop_index(nsf_handle *handle, uint64_t *ticket)
{
    return nsf_ask_ticket(handle, NSF_DROP, 0, ticket);
}

/* Makes a step of the builder, and tells whether the index is complete. */
static inline uint32_t nsf_build_step(nsf_handle *handle, bool *is_complete)
{
    nsf_reply reply = NSF_NO_REPLY;
    uint32_t refused = nsf_ask_of(handle, NSF_BUILD, 0, &reply);
    *is_complete = reply.kind == NSF_DONE || reply.kind == NSF_IDLE;
    return refused;
}

static inline uint32_t nsf_get(nsf_handle *handle, nsf_place place, nsf_reply *reply)
{
    nsf_event event = {NSF_GET, place.page, 0, place.slot};
    return nsf_ask(handle, &event, reply);
}

/* A scan: a range of keys, and how far it has come. */
typedef struct nsf_scan {
    nsf_bounds bounds;
    uint8_t from[NSF_KEY_MAX];
    uint8_t to[NSF_KEY_MAX];
    uint8_t behind[NSF_KEY_MAX];
    size_t from_length;
    size_t to_length;
    size_t behind_length;
} nsf_scan;

/* A scan of all keys. Set `bounds.committed` to read what is committed. */
static inline nsf_scan nsf_scan_all(void)
{
    nsf_scan scan = {{NSF_UNBOUNDED, NSF_UNBOUNDED, 0, 0, 0, 0}, {0}, {0}, {0}, 0, 0, 0};
    return scan;
}

/* A scan from one key to another, each with the scan's bound (NSF_INCLUDED, NSF_EXCLUDED, or NSF_UNBOUNDED, and then the key is not
 * looked at). A key that is too long is refused by nsf_scan_next. */
static inline nsf_scan nsf_scan_between(uint32_t from, const void *first, size_t first_length, uint32_t to, const void *last,
                                        size_t last_length)
{
    nsf_scan scan = nsf_scan_all();
    scan.bounds.from = from;
    scan.bounds.to = to;
    scan.from_length = from == NSF_UNBOUNDED ? 0 : first_length;
    scan.to_length = to == NSF_UNBOUNDED ? 0 : last_length;
    for (size_t i = 0; i < scan.from_length && i < NSF_KEY_MAX; i++)
        scan.from[i] = ((const uint8_t *)first)[i];
    for (size_t i = 0; i < scan.to_length && i < NSF_KEY_MAX; i++)
        scan.to[i] = ((const uint8_t *)last)[i];
    return scan;
}

/* A scan of the keys that begin with these bytes. */
static inline nsf_scan nsf_scan_prefix(const void *prefix, size_t length)
{
    nsf_scan scan = nsf_scan_between(NSF_INCLUDED, prefix, length, NSF_INCLUDED, prefix, length);
    for (size_t i = length; i < NSF_KEY_MAX; i++)
        scan.to[i] = 255;
    if (length < NSF_KEY_MAX)
        scan.to_length = NSF_KEY_MAX;
    return scan;
}

/* Keeps the pair that was told, as the place from which to go on. */
static inline void nsf_scan_keep(nsf_scan *scan, const nsf_reply *reply)
{
    scan->bounds.goes_on = 1;
    scan->bounds.page = reply->page;
    scan->bounds.slot = reply->slot;
    scan->behind_length = reply->key_length;
    for (size_t i = 0; i < reply->key_length; i++)
        scan->behind[i] = reply->key[i];
}

/* The next pair of the scan: NSF_PAIR, or NSF_AT_END. Between two calls the store may change: as long as the scan goes one way, no
 * pair comes twice, and each that was visible throughout comes. */
static inline uint32_t nsf_scan_next(nsf_handle *handle, nsf_scan *scan, nsf_reply *reply)
{
    uint32_t refused;
    if (scan->from_length > NSF_KEY_MAX || scan->to_length > NSF_KEY_MAX)
        return NSF_KEY_TOO_LONG;
    refused = nsf_next(handle, &scan->bounds, scan->from, scan->from_length, scan->to, scan->to_length, scan->behind,
                       scan->behind_length, reply);
    if (!refused && reply->kind == NSF_PAIR)
        nsf_scan_keep(scan, reply);
    return refused;
}

/* The same backward: at first the last pair of the scan, then the one before the pair that the scan told last, in either direction. */
static inline uint32_t nsf_scan_previous(nsf_handle *handle, nsf_scan *scan, nsf_reply *reply)
{
    uint32_t refused;
    if (scan->from_length > NSF_KEY_MAX || scan->to_length > NSF_KEY_MAX)
        return NSF_KEY_TOO_LONG;
    refused = nsf_previous(handle, &scan->bounds, scan->from, scan->from_length, scan->to, scan->to_length, scan->behind,
                           scan->behind_length, reply);
    if (!refused && reply->kind == NSF_PAIR)
        nsf_scan_keep(scan, reply);
    return refused;
}

/* Puts as many places as there is room for, and tells in `found` how many there are. */
static inline uint32_t nsf_find(nsf_handle *handle, const void *key, size_t key_length, nsf_place *places, size_t room, uint64_t *found)
{
    nsf_event event = {NSF_FIND, 0, 0, 0};
    uint8_t none = 0;
    nsf_reply reply = NSF_NO_REPLY;
    uint32_t refused = nsf_serve(handle, &event, (const uint8_t *)key, key_length, &none, 0, places, room, &reply);
    *found = refused ? 0 : reply.number;
    return refused;
}

#ifdef __cplusplus
}
#endif

#endif
