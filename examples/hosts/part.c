/* One index of a host, under a lock of its own. */
#define _GNU_SOURCE
#include "part.h"

#include <sched.h>
#include <stdio.h>
#include <stdlib.h>
#include <string.h>
#include <time.h>

/* RESERVED records may wait without a refusal for want of memory: more than a stretch of the builder and a transaction leave. */
enum { FIRST_ROOM = 4096, RESERVED = 8192 };

uint64_t nanoseconds(void)
{
    struct timespec now;
    clock_gettime(CLOCK_MONOTONIC, &now);
    return (uint64_t)now.tv_sec * 1000000000 + (uint64_t)now.tv_nsec;
}

uint64_t processor_time(void)
{
    struct timespec now;
    clock_gettime(CLOCK_THREAD_CPUTIME_ID, &now);
    return (uint64_t)now.tv_sec * 1000000000 + (uint64_t)now.tv_nsec;
}

void keep_greatest(atomic_ulong *greatest, uint64_t found)
{
    if (found > atomic_load(greatest))
        atomic_store(greatest, found);
}

/* ---- bytes */

void bytes_reserve(bytes *bytes, size_t more)
{
    size_t room = bytes->room ? bytes->room : FIRST_ROOM;
    while (room < bytes->length + more)
        room *= 2;
    if (room == bytes->room)
        return;
    uint8_t *at = realloc(bytes->at, room);
    if (!at) {
        fprintf(stderr, "part: no memory for records\n");
        _Exit(3);
    }
    bytes->at = at;
    bytes->room = room;
}

void bytes_free(bytes *bytes)
{
    free(bytes->at);
    memset(bytes, 0, sizeof *bytes);
}

/* ---- the lock */

/* A change has the right of way: the builder looks for changes that wait before it takes the lock again. */
static void lock_for_change(part *part)
{
    if (!pthread_mutex_trylock(&part->lock))
        return;
    uint64_t began = nanoseconds();
    atomic_fetch_add(&part->changing, 1);
    pthread_mutex_lock(&part->lock);
    atomic_fetch_sub(&part->changing, 1);
    uint64_t waited = nanoseconds() - began;
    atomic_fetch_add(&part->waited, waited);
    keep_greatest(&part->longest, waited);
}

static void unlock(part *part)
{
    pthread_mutex_unlock(&part->lock);
}

/* Returns when the hold began. */
static uint64_t lock_for_builder(part *part)
{
    while (atomic_load(&part->changing))
        sched_yield();
    pthread_mutex_lock(&part->lock);
    return processor_time();
}

static void unlock_of_builder(part *part, uint64_t began)
{
    uint64_t held = processor_time() - began;
    pthread_mutex_unlock(&part->lock);
    keep_greatest(&part->held, held);
}

/* ---- beginning and end */

void part_make(part *part)
{
    pthread_mutexattr_t kind;
    memset(part, 0, sizeof *part);
    pthread_mutexattr_init(&kind);
    pthread_mutexattr_settype(&kind, PTHREAD_MUTEX_ADAPTIVE_NP);
    pthread_mutex_init(&part->lock, &kind);
    pthread_mutexattr_destroy(&kind);
}

void part_destroy(part *part)
{
    part_close(part);
    pthread_mutex_destroy(&part->lock);
}

static uint32_t open_with(part *part, uint32_t refused, uint32_t pages)
{
    if (refused)
        return refused;
    refused = nsf_index_reserve(&part->index, RESERVED);
    if (refused)
        nsf_index_close(&part->index);
    part->is_open = !refused;
    part->pages = pages;
    return refused;
}

uint32_t part_open(part *part, uint32_t entries, uint32_t pages)
{
    lock_for_change(part);
    uint32_t refused = open_with(part, nsf_index_create(&part->index, entries, pages), pages);
    unlock(part);
    return refused;
}

uint32_t part_empty(part *part, uint32_t entries, uint32_t pages)
{
    lock_for_change(part);
    uint32_t refused = open_with(part, nsf_index_empty(&part->index, entries), pages);
    unlock(part);
    return refused;
}

void part_close(part *part)
{
    lock_for_change(part);
    nsf_index_close(&part->index); /* refused where none is open, and nothing is done then */
    part->is_open = false;
    unlock(part);
}

/* ---- changes */

uint32_t part_prepare(part *part, uint32_t number, const uint8_t *old, const uint8_t *next)
{
    nsf_index_pair old_pair = nsf_index_pair_of(number, old, old ? KEY_BYTES : 0);
    nsf_index_pair new_pair = nsf_index_pair_of(number, next, next ? KEY_BYTES : 0);
    nsf_index_change change = nsf_index_change_of(old ? &old_pair : NULL, next ? &new_pair : NULL);
    lock_for_change(part);
    uint32_t refused = nsf_index_prepare(&part->index, &change);
    unlock(part);
    return refused;
}

uint32_t part_put(part *part, uint32_t number, const uint8_t *key)
{
    nsf_index_pair pair = nsf_index_pair_of(number, key, KEY_BYTES);
    lock_for_change(part);
    uint32_t refused = nsf_index_put(&part->index, &pair);
    unlock(part);
    return refused;
}

/* ---- the builder, and the cleaner */

uint32_t part_build(part *part, uint32_t most, uint32_t *stop, uint32_t *page)
{
    uint64_t began = lock_for_builder(part);
    uint32_t refused = nsf_index_build(&part->index, most, stop, page);
    unlock_of_builder(part, began);
    atomic_fetch_add(&part->built, most);
    return refused;
}

uint32_t part_take_page(part *part, uint32_t page, const nsf_index_pair *pairs, size_t count)
{
    uint64_t began = lock_for_builder(part);
    uint32_t refused = nsf_index_take_page(&part->index, page, pairs, count);
    unlock_of_builder(part, began);
    return refused;
}

/* Takes marked entries out, among the next so many. The walk begins anew once it has come to the end. */
uint32_t part_clean(part *part, nsf_index_cursor *cursor, uint32_t most, uint32_t *cleaned)
{
    uint32_t refused = 0, found = NSF_INDEX_FOUND, did;
    uint64_t began = lock_for_builder(part);
    for (uint32_t i = 0; i < most && !refused && found == NSF_INDEX_FOUND; i++) {
        refused = nsf_index_next_marked(&part->index, cursor, most, &found);
        if (refused || found != NSF_INDEX_FOUND)
            continue;
        refused = nsf_index_clean(&part->index, &cursor->pair, &did);
        *cleaned += !refused && did;
    }
    unlock_of_builder(part, began);
    if (found == NSF_INDEX_END)
        *cursor = (nsf_index_cursor)NSF_INDEX_FIRST;
    return refused;
}

/* ---- reading: nothing is there where no index is open */

size_t part_page(part *part, nsf_index_cursor *cursor, nsf_index_pair *pairs, size_t room)
{
    size_t count = 0;
    lock_for_change(part);
    nsf_index_page(&part->index, cursor, pairs, room, &count);
    unlock(part);
    return count;
}

range range_of(const uint8_t *low, const uint8_t *high)
{
    range range = {.cursor = NSF_INDEX_FIRST};
    memcpy(range.low, low, KEY_BYTES);
    memcpy(range.high, high, KEY_BYTES);
    return range;
}

/* The first entry is found by its key, and those after it are read as they come; the lock is held. */
static size_t read_range(part *part, range *range, nsf_index_pair *pairs, size_t room)
{
    size_t count = 0;
    if (range->cursor.goes_on)
        return nsf_index_page(&part->index, &range->cursor, pairs, room, &count) ? 0 : count;
    if (nsf_index_find(&part->index, range->low, KEY_BYTES, &pairs[0]) || pairs[0].state == NSF_INDEX_NONE)
        return 0;
    range->cursor = nsf_index_after(&pairs[0]);
    return nsf_index_page(&part->index, &range->cursor, pairs + 1, room - 1, &count) ? 0 : count + 1;
}

/* Of the next so many entries those that are visible. None need be among them, where the range has not ended. */
size_t part_range(part *part, range *range, nsf_index_pair *pairs, size_t room)
{
    lock_for_change(part);
    size_t read = read_range(part, range, pairs, room), count = 0;
    unlock(part);
    range->has_ended = read < room;
    for (size_t i = 0; i < read; i++)
        if (memcmp(pairs[i].key, range->high, KEY_BYTES) > 0)
            range->has_ended = true;
        else if (pairs[i].state == NSF_INDEX_VISIBLE)
            pairs[count++] = pairs[i];
    return count;
}

bool part_is_visible(part *part, uint32_t number, const uint8_t *key)
{
    nsf_index_pair pair = nsf_index_pair_of(number, key, KEY_BYTES);
    uint32_t state = NSF_INDEX_NONE;
    lock_for_change(part);
    nsf_index_get(&part->index, &pair, &state);
    unlock(part);
    return state == NSF_INDEX_VISIBLE;
}

/* How far the index is built, as nsf_index_life says; 0 where none is open. */
uint32_t part_life(part *part, nsf_index_pair *highest)
{
    uint32_t life = 0;
    lock_for_change(part);
    nsf_index_life(&part->index, &life, highest);
    unlock(part);
    return life;
}

/* ---- records */

/* Appends all records that wait; the lock is held. */
static uint32_t take_records(part *part, bytes *to)
{
    nsf_index_status status = NSF_INDEX_NO_STATUS;
    size_t used = 0;
    uint32_t refused = nsf_index_stat(&part->index, &status);
    if (refused || !status.records)
        return refused;
    bytes_reserve(to, status.records * NSF_INDEX_RECORD_ROOM);
    refused = nsf_index_records(&part->index, to->at + to->length, to->room - to->length, &used);
    to->length += used;
    return refused;
}

uint32_t part_records(part *part, bytes *waiting)
{
    lock_for_change(part);
    uint32_t refused = take_records(part, waiting);
    unlock(part);
    return refused;
}

uint32_t part_save_life(part *part, bytes *waiting, bytes *piece)
{
    size_t used = 0;
    bytes_reserve(piece, NSF_INDEX_RECORD_ROOM);
    uint64_t began = lock_for_builder(part);
    uint32_t refused = take_records(part, waiting);
    if (!refused)
        refused = nsf_index_save_life(&part->index, piece->at + piece->length, NSF_INDEX_RECORD_ROOM, &used);
    unlock_of_builder(part, began);
    piece->length += used;
    return refused;
}

uint32_t part_save(part *part, bytes *waiting, nsf_index_cursor *cursor, uint32_t most, bytes *piece, bool *is_last)
{
    size_t room = (size_t)most * NSF_INDEX_RECORD_ROOM, used = 0;
    uint32_t last = 0;
    bytes_reserve(piece, room);
    uint64_t began = lock_for_builder(part);
    uint32_t refused = take_records(part, waiting);
    if (!refused)
        refused = nsf_index_save(&part->index, cursor, piece->at + piece->length, room, &used, &last);
    unlock_of_builder(part, began);
    piece->length += used;
    *is_last = last;
    return refused;
}

uint32_t part_redo(part *part, const uint8_t *records, size_t length)
{
    lock_for_change(part);
    uint32_t refused = nsf_index_redo_all(&part->index, records, length);
    unlock(part);
    return refused;
}

uint32_t part_reopen(part *part)
{
    lock_for_change(part);
    uint32_t refused = nsf_index_reopen(&part->index, part->pages);
    unlock(part);
    return refused;
}
