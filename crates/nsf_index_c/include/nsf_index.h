/* NSF's index as a part: one index of a table that another program keeps. That program is the host. The index is built while the
 * host goes on changing rows. It has no rows, no transactions, no log, no device, no threads and no callbacks: the host calls, and
 * writes to its own log what it takes from the index. Several indexes are several handles.
 *
 * What a host owes. Nothing checks it, and what is promised below holds only of a host that keeps it. docs/PART.md says what is lost
 * where one of these is broken.
 *  H8  (This is the one that hosts forget first.) Every record goes into the host's log, in the order of the calls, ALSO THOSE OF A
 *      CHANGE THAT IS ROLLED BACK. The records and the host's own records of its rows stand in that log in one order, in which the
 *      calls and the changes were made: the record of a mark, then the row's change, then the record of the put. After a stop the log
 *      ends at one place for both. A host whose store takes back what a transaction wrote when it rolls back writes the records of
 *      that transaction by another one, before the next commit.
 *  H1  One call of an index at a time: one lock of the host's for each index, held for a call. Calls may come from several threads, each
 *      under that lock. (The library keeps nothing of a thread: its memory is what malloc gives. That a handle may pass between threads so
 *      is not proved.)
 *  H2  A row is changed by one transaction at a time, until that has ended.
 *  H3  nsf_index_prepare comes before the row changes. nsf_index_put comes after it, and only of a pair that the row has.
 *  H4  To take a change back is a change: it is prepared with the pair that the row is to get back as the new one, then the row is set,
 *      then that pair is put.
 *  H5  The pairs of a page are those of its rows, each row as it was at some moment since the index was created or reopened. Any
 *      snapshot of that time serves, with no lock. A row that had one pair all that time is among them.
 *  H6  When the index is created no row is between its prepare and its put, and every row lies in the pages that are named. Rows that
 *      come later may lie in later pages.
 *  H7  nsf_index_clean isn't called for pairs of a change that is prepared and has not ended. (Where it is, no row is lost, but a later
 *      nsf_index_put or a prepare that takes the change back may be refused.)
 *  H9  After a stop: nsf_index_empty, then nsf_index_redo of each record of the last checkpoint and of each record logged since that
 *      began, then nsf_index_reopen with the pages that nsf_index_create had (no record holds their number), and then unfinished
 *      transactions are taken back, by H4.
 *
 * What it then has, at every moment: each visible entry is the pair of a row; the pair of each row with no unfinished change is visible,
 * as far as the index is built; a complete index with no unfinished change shows exactly the rows.
 *
 * What a caller of C owes
 *   - A handle begins as NSF_INDEX_VACANT. It is never copied, nor changed but by these calls, and is closed once.
 *   - A pointer is not null and is aligned for its type, also where its count is 0. Behind it lie as many values as its count says, set
 *     to something. What a call may write overlaps nothing else that is passed. While a call runs nobody else changes what is passed.
 *   - malloc and free are one allocator's, and align as the C standard asks. No call is made from a signal handler.
 *
 * Each call answers 0, or the number of a refusal, and where it is refused it changed nothing of the index. (nsf_index_apply and
 * nsf_index_build keep what they did before the step that was refused, and the records of that wait.) What a call tells through
 * pointers is set where it answers 0; counts are 0 where it is refused. No call keeps a pointer, ends the process, waits, or runs for
 * ever. The work of a call grows with its own counts (most, count, room) and with the logarithm of the entries, but for
 * nsf_index_close, which frees every entry. */
#ifndef NSF_INDEX_H
#define NSF_INDEX_H

#include <stdbool.h>
#include <stddef.h>
#include <stdint.h>
#include <string.h>

#ifdef __cplusplus
extern "C" {
#endif

enum {
    NSF_INDEX_VERSION = 1,      /* of this header; a library serves it that answers the same number to nsf_index_version */
    NSF_INDEX_KEY_MAX = 56,     /* bytes of a key; a host cuts longer ones, and looks at the row */
    NSF_INDEX_SLOTS = 63,       /* slots of a page: row number n lies at page n / 63, slot n % 63 */
    NSF_INDEX_RECORD_MAX = 63,  /* bytes of a record */
    NSF_INDEX_RECORD_ROOM = 64, /* bytes that a record and its length take at most */
    NSF_INDEX_ENTRIES_MIN = 64, /* how many entries an index may have at most is between these */
    NSF_INDEX_ENTRIES_MAX = 8388608
};

uint32_t nsf_index_version(void);

/* Where an index is, and whether one is open (1 or 0). */
typedef struct nsf_index {
    void *at;
    uint32_t is_open;
} nsf_index;

#define NSF_INDEX_VACANT {0, 0}

/* What a call answers: 0, or why it was refused. */
enum {
    NSF_INDEX_OK = 0,
    NSF_INDEX_NO_MEMORY = 1,
    NSF_INDEX_BAD_SIZE = 6,
    NSF_INDEX_FULL = 13,
    NSF_INDEX_BAD_PAIR = 24,
    NSF_INDEX_NOT_WANTED = 25,
    NSF_INDEX_BAD_RECORD = 26,
    NSF_INDEX_RECORDS_WAIT = 27,
    NSF_INDEX_NOT_OPEN = 28,
    NSF_INDEX_ALREADY_OPEN = 29,
    NSF_INDEX_NOT_REOPENED = 30,
    NSF_INDEX_NOT_EMPTIED = 31,
    NSF_INDEX_NO_ROOM = 32,
    NSF_INDEX_BAD_CHANGE = 33
};

/* The text of a refusal. */
static inline const char *nsf_index_message(uint32_t refusal)
{
    switch (refusal) {
    case NSF_INDEX_OK: return "done";
    case NSF_INDEX_NO_MEMORY: return "an allocation was refused";
    case NSF_INDEX_BAD_SIZE: return "an index may have 64 to 8388608 entries at most";
    case NSF_INDEX_FULL: return "the index has as many entries as it may have";
    case NSF_INDEX_BAD_PAIR: return "a key is longer than 56 bytes, a slot is above 62, or the pairs are not those of the page in the order of its slots";
    case NSF_INDEX_NOT_WANTED: return "the builder wants another page, or none";
    case NSF_INDEX_BAD_RECORD: return "the bytes are no record of an index";
    case NSF_INDEX_RECORDS_WAIT: return "records wait: take them first, by nsf_index_records";
    case NSF_INDEX_NOT_OPEN: return "no index is open under the handle";
    case NSF_INDEX_ALREADY_OPEN: return "an index is open under the handle";
    case NSF_INDEX_NOT_REOPENED: return "the index is being redone: reopen it first, by nsf_index_reopen";
    case NSF_INDEX_NOT_EMPTIED: return "only an index of nsf_index_empty is redone and reopened, and once";
    case NSF_INDEX_NO_ROOM: return "there is room for fewer than 64 bytes";
    case NSF_INDEX_BAD_CHANGE: return "no change has this kind";
    default: return "no refusal has this number";
    }
}

/* What an entry is. A visible one is what the index shows; a marked one is of a change that is unfinished or was taken back, or of a row
 * that is gone, and the cleaner takes it out. */
enum { NSF_INDEX_NONE = 0, NSF_INDEX_VISIBLE = 1, NSF_INDEX_MARKED = 2 };

/* A pair: the place of a row, and the key that it has. Pairs are ordered by the bytes of their keys, then by their places. Where a call
 * tells an entry, `state` is what the entry is; of what a caller passes, `state` and the bytes of `key` from `length` on are not looked
 * at. What a call tells has zeros there. */
typedef struct nsf_index_pair {
    uint32_t page;
    uint16_t slot;
    uint8_t length;
    uint8_t state;
    uint8_t key[NSF_INDEX_KEY_MAX];
} nsf_index_pair;

/* Where a call that goes over the entries goes on: at the first entry, where `goes_on` is 0, or at the first one after the pair. The
 * call moves it. It begins as NSF_INDEX_FIRST. */
typedef struct nsf_index_cursor {
    uint32_t goes_on;
    nsf_index_pair pair;
} nsf_index_cursor;

#define NSF_INDEX_FIRST {0, {0, 0, 0, 0, {0}}}

/* What is to be done. The first three are prepared before the row changes. */
enum {
    NSF_INDEX_INSERTION = 1, /* a row with new_pair is to come */
    NSF_INDEX_DELETION = 2,  /* the row with old_pair is to go */
    NSF_INDEX_UPDATE = 3,    /* the row with old_pair is to have new_pair; they may lie at two places */
    NSF_INDEX_PUT = 4,       /* new_pair is put: a row has it now */
    NSF_INDEX_MARK = 5       /* old_pair is marked */
};

/* A pair that the kind has no use for is not looked at. */
typedef struct nsf_index_change {
    uint32_t kind;
    nsf_index_pair old_pair;
    nsf_index_pair new_pair;
} nsf_index_change;

/* How far the index is built. */
enum {
    NSF_INDEX_BUILDING = 1,    /* it is being built, and the builder has made no checkpoint */
    NSF_INDEX_BUILDING_AT = 2, /* it is being built, and the builder has made a checkpoint at a pair */
    NSF_INDEX_COMPLETE = 3
};

/* What an index is. */
typedef struct nsf_index_status {
    uint64_t entries; /* visible and marked ones */
    uint64_t marked;  /* the marked ones */
    uint64_t room;    /* how many entries may still be added */
    uint64_t records; /* how many records wait to be taken */
    uint32_t life;    /* NSF_INDEX_BUILDING, NSF_INDEX_BUILDING_AT or NSF_INDEX_COMPLETE */
    uint32_t is_redone; /* 1 between nsf_index_empty and nsf_index_reopen, else 0 */
} nsf_index_status;

#define NSF_INDEX_NO_STATUS {0, 0, 0, 0, 0, 0}

/* ---- beginning and end. Each other call is refused NSF_INDEX_NOT_OPEN where no index is open under the handle. */

/* Creates an index of a table whose rows lie in the pages 0 to `pages` - 1. It is to be built. It will have at most so many entries.
 * Refused: NSF_INDEX_ALREADY_OPEN; NSF_INDEX_BAD_SIZE where `entries` is not from 64 to 8388608; NSF_INDEX_NO_MEMORY. */
uint32_t nsf_index_create(nsf_index *index, uint32_t entries, uint32_t pages);

/* Makes an index with no entry, which is to be redone and then reopened: after a stop. A checkpoint may hold more entries than the index
 * had at any one moment, so leave room. Refused as nsf_index_create is. */
uint32_t nsf_index_empty(nsf_index *index, uint32_t entries);

/* Sets what a record says: its bytes, without the byte before them that is its length. Records are redone in the order of the log; to
 * redo one again changes nothing. (nsf_index_redo_all takes many, as nsf_index_records gave them.) Refused: NSF_INDEX_BAD_RECORD;
 * NSF_INDEX_NOT_EMPTIED where the index was created or is reopened; NSF_INDEX_FULL and NSF_INDEX_NO_MEMORY, only where an entry is to be
 * added. */
uint32_t nsf_index_redo(nsf_index *index, const uint8_t *record, size_t length);

/* Once all records are redone: the builder goes on above its checkpoint, and reads so many pages, as when the index was created. Refused:
 * NSF_INDEX_NOT_EMPTIED. It takes no memory. */
uint32_t nsf_index_reopen(nsf_index *index, uint32_t pages);

/* Lets the index go, with the records that wait. Refused: NSF_INDEX_NOT_OPEN, so that it may be called of any handle. */
uint32_t nsf_index_close(nsf_index *index);

/* ---- changes of rows. Each is refused NSF_INDEX_NOT_REOPENED while the index is redone, and NSF_INDEX_BAD_PAIR where a pair that it
 * names is none. Each leaves a record for each pair, which wait to be taken. */

/* Before a row changes: marks the pair that the row has, and the one that it is to have. Whatever can be refused is refused here, with
 * neither marked: NSF_INDEX_FULL, and NSF_INDEX_NO_MEMORY. Both come only where one of the pairs has no entry, or memory for records is
 * refused. Refused NSF_INDEX_BAD_CHANGE where the kind is none of NSF_INDEX_INSERTION, NSF_INDEX_DELETION and NSF_INDEX_UPDATE. */
uint32_t nsf_index_prepare(nsf_index *index, const nsf_index_change *change);

/* After a row has changed: the row has the pair now, and it becomes visible. NSF_INDEX_FULL never comes where the pair has an entry, as
 * after nsf_index_prepare; NSF_INDEX_NO_MEMORY then only where memory for the record is refused, which nsf_index_reserve keeps away. */
uint32_t nsf_index_put(nsf_index *index, const nsf_index_pair *pair);

/* Marks one pair. A change may be prepared so too, pair by pair. Refused as nsf_index_put is. */
uint32_t nsf_index_mark(nsf_index *index, const nsf_index_pair *pair);

/* Many changes in one call, in their order, up to the first that is refused. Tells how many were made: those are done, and stay. */
uint32_t nsf_index_apply(nsf_index *index, const nsf_index_change *changes, size_t count, size_t *made);

/* ---- records. Each call that changes the index leaves its records waiting. One is taken as a byte with its length, and then so many
 * bytes, 63 at most. It sets one cell, so to redo it again changes nothing. Which index it is of, the host's log says. */

/* Makes room for so many records beside those that wait: as long as no more are made, no call is refused for want of memory for a record.
 * The room stays once all records were taken, for so many and those that had waited. So a host that reserves some records at the
 * beginning, and takes all that wait before that many more are made, is never refused nsf_index_put after nsf_index_prepare, nor a
 * rollback. Refused: NSF_INDEX_NO_MEMORY. */
uint32_t nsf_index_reserve(nsf_index *index, uint32_t count);

/* Takes records that wait, in the order of the calls: as many as wait, or as there is room for at 64 bytes each. `used` is how many bytes
 * of the room they have, and is 0 where none waits. It takes no memory. Refused, with all left waiting: NSF_INDEX_NO_ROOM where the room
 * is less than 64 bytes. */
uint32_t nsf_index_records(nsf_index *index, uint8_t *bytes, size_t room, size_t *used);

/* ---- the build. Steps and pages in any order with other calls. Each is refused NSF_INDEX_NOT_REOPENED while the index is redone. */

enum { NSF_INDEX_MORE = 1, NSF_INDEX_WANTS_PAGE = 2, NSF_INDEX_IS_COMPLETE = 3 };

/* Steps of the builder, at most so many, and why they ended: NSF_INDEX_MORE where so many were made; NSF_INDEX_WANTS_PAGE where the pairs
 * of `page` are wanted; NSF_INDEX_IS_COMPLETE. A step attempts one pair, or makes a checkpoint. It leaves one record at most. Refused
 * NSF_INDEX_FULL or NSF_INDEX_NO_MEMORY: the steps before stay made, and it may be tried again. */
uint32_t nsf_index_build(nsf_index *index, uint32_t most, uint32_t *stop, uint32_t *page);

/* Tells whether the pairs of a page are wanted (1 or 0), and of which. A page that nobody hands over is wanted as long as it takes. */
uint32_t nsf_index_wants_page(nsf_index *index, uint32_t *page, uint32_t *is_wanted);

/* Hands over the pairs of the rows of the page that is wanted, in the order of their slots; none is right where the page has no rows.
 * 68 bytes for each wait in memory until the pair is attempted. Refused: NSF_INDEX_NOT_WANTED; NSF_INDEX_BAD_PAIR, also where a pair is of
 * another page, or the slots don't rise; NSF_INDEX_NO_MEMORY. */
uint32_t nsf_index_take_page(nsf_index *index, uint32_t page, const nsf_index_pair *pairs, size_t count);

/* How far the index is built; and the pair of the builder's last checkpoint, where it is NSF_INDEX_BUILDING_AT. */
uint32_t nsf_index_life(nsf_index *index, uint32_t *life, nsf_index_pair *highest);

/* ---- the cleaner */

enum { NSF_INDEX_END = 0, NSF_INDEX_GO_ON = 1, NSF_INDEX_FOUND = 2 };

/* Looks for the next marked entry after the cursor, among so many entries at most: NSF_INDEX_FOUND where the cursor is at it now;
 * NSF_INDEX_GO_ON where the cursor is at the last that was looked at; NSF_INDEX_END where none is left, and the cursor stays. Refused:
 * NSF_INDEX_BAD_PAIR. */
uint32_t nsf_index_next_marked(nsf_index *index, nsf_index_cursor *cursor, uint32_t most, uint32_t *found);

/* Takes the entry of a pair out where it is marked and the build has passed it for good, and tells whether it did (1 or 0). It leaves a
 * record where it did. Refused: NSF_INDEX_BAD_PAIR, NSF_INDEX_NOT_REOPENED, NSF_INDEX_NO_MEMORY (for the record). */
uint32_t nsf_index_clean(nsf_index *index, const nsf_index_pair *pair, uint32_t *did);

/* ---- reading. What the index shows is its visible entries; it shows every row only once it is complete. */

/* What entry a pair has. Refused: NSF_INDEX_BAD_PAIR. */
uint32_t nsf_index_get(nsf_index *index, const nsf_index_pair *pair, uint32_t *state);

/* The first entry whose key is this one or comes after it; `found->state` is NSF_INDEX_NONE where there is none. Further ones come by
 * nsf_index_page, with a cursor at what was found (nsf_index_after). Refused: NSF_INDEX_BAD_PAIR where the key is longer than 56 bytes. */
uint32_t nsf_index_find(nsf_index *index, const uint8_t *key, size_t length, nsf_index_pair *found);

/* The next entries after the cursor, in order, visible and marked, as many as there is room for. Tells how many; fewer than the room where
 * no further one is left. The cursor is at the last of them then. Refused: NSF_INDEX_BAD_PAIR. */
uint32_t nsf_index_page(nsf_index *index, nsf_index_cursor *cursor, nsf_index_pair *entries, size_t room, size_t *count);

/* What the index is. */
uint32_t nsf_index_stat(nsf_index *index, nsf_index_status *status);

/* ---- checkpoints. Take the records that wait into the log; remember the place in the log; save the life, and then the entries in pieces,
 * with any calls between two pieces. A piece is refused NSF_INDEX_RECORDS_WAIT while records wait: take them into the log first. A
 * checkpoint counts once all its pieces are safe, and with them the log up to the last piece. Then the log before the remembered place
 * may go. It is redone as the log is. */

/* The record of how far the index is built. Refused: NSF_INDEX_RECORDS_WAIT, NSF_INDEX_NOT_REOPENED, NSF_INDEX_NO_ROOM,
 * NSF_INDEX_NO_MEMORY. */
uint32_t nsf_index_save_life(nsf_index *index, uint8_t *bytes, size_t room, size_t *used);

/* The records of the next entries after the cursor, as many as there is room for at 64 bytes each. `is_last` is 1 where no further entry
 * was left, else 0, and the cursor is where the next piece begins. Refused, with the cursor as it was: as nsf_index_save_life, and
 * NSF_INDEX_BAD_PAIR. */
uint32_t nsf_index_save(nsf_index *index, nsf_index_cursor *cursor, uint8_t *bytes, size_t room, size_t *used, uint32_t *is_last);

/* ---- the calls with less to write. These functions are not proved. */

/* The pair of a row by its number. A key that is too long makes a pair that each call refuses. */
static inline nsf_index_pair nsf_index_pair_of(uint64_t row, const void *key, size_t length)
{
    nsf_index_pair pair = {(uint32_t)(row / NSF_INDEX_SLOTS), (uint16_t)(row % NSF_INDEX_SLOTS), 0, 0, {0}};
    pair.length = length <= NSF_INDEX_KEY_MAX ? (uint8_t)length : (uint8_t)(NSF_INDEX_KEY_MAX + 1);
    if (length <= NSF_INDEX_KEY_MAX && length > 0)
        memcpy(pair.key, key, length);
    return pair;
}

/* The number of the row of a pair. */
static inline uint64_t nsf_index_row_of(const nsf_index_pair *pair)
{
    return (uint64_t)pair->page * NSF_INDEX_SLOTS + pair->slot;
}

/* A cursor at a pair. */
static inline nsf_index_cursor nsf_index_after(const nsf_index_pair *pair)
{
    nsf_index_cursor cursor = NSF_INDEX_FIRST;
    cursor.goes_on = 1;
    cursor.pair = *pair;
    return cursor;
}

/* The change of a row from one pair to another; either may be null, where there is none. */
static inline nsf_index_change nsf_index_change_of(const nsf_index_pair *old_pair, const nsf_index_pair *new_pair)
{
    nsf_index_change change = {0, {0, 0, 0, 0, {0}}, {0, 0, 0, 0, {0}}};
    change.kind = (new_pair ? NSF_INDEX_INSERTION : 0) + (old_pair ? NSF_INDEX_DELETION : 0);
    if (old_pair)
        change.old_pair = *old_pair;
    if (new_pair)
        change.new_pair = *new_pair;
    return change;
}

/* Redoes records as nsf_index_records, nsf_index_save and nsf_index_save_life gave them, up to the first that is refused. Bytes that end
 * within a record are refused NSF_INDEX_BAD_RECORD. */
static inline uint32_t nsf_index_redo_all(nsf_index *index, const uint8_t *bytes, size_t length)
{
    size_t at = 0;
    while (at < length) {
        const size_t size = bytes[at++];
        if (size > length - at)
            return NSF_INDEX_BAD_RECORD;
        const uint32_t refused = nsf_index_redo(index, bytes + at, size);
        if (refused)
            return refused;
        at += size;
    }
    return NSF_INDEX_OK;
}

/* The next entry after the cursor; `found->state` is NSF_INDEX_NONE where there is none. */
static inline uint32_t nsf_index_next(nsf_index *index, nsf_index_cursor *cursor, nsf_index_pair *found)
{
    size_t count;
    const uint32_t refused = nsf_index_page(index, cursor, found, 1, &count);
    if (count == 0)
        found->state = NSF_INDEX_NONE;
    return refused;
}

/* The first entry of this key, be it visible or marked, as for a check that a key is unique; `found->state` is NSF_INDEX_NONE where there
 * is none. */
static inline uint32_t nsf_index_any(nsf_index *index, const uint8_t *key, size_t length, nsf_index_pair *found)
{
    const uint32_t refused = nsf_index_find(index, key, length, found);
    if (!refused && found->state && (found->length != length || memcmp(found->key, key, length) != 0))
        found->state = NSF_INDEX_NONE;
    return refused;
}

/* How many entries there are, how many of them are marked, and how many may still be added: 0 where no index is open. */
static inline uint64_t nsf_index_entries(nsf_index *index)
{
    nsf_index_status status = NSF_INDEX_NO_STATUS;
    return nsf_index_stat(index, &status) ? 0 : status.entries;
}

static inline uint64_t nsf_index_marked(nsf_index *index)
{
    nsf_index_status status = NSF_INDEX_NO_STATUS;
    return nsf_index_stat(index, &status) ? 0 : status.marked;
}

static inline uint64_t nsf_index_room(nsf_index *index)
{
    nsf_index_status status = NSF_INDEX_NO_STATUS;
    return nsf_index_stat(index, &status) ? 0 : status.room;
}

#ifdef __cplusplus
}
#endif
#endif
