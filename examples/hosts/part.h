/* One index of a host, under a lock of its own: the calls of nsf_index.h as the hosts here use them.
 *
 * Keys have KEY_BYTES bytes, and rows have numbers. Each call holds the lock of the index for itself alone (duty H1), and no call waits for
 * a disk. What the calls leave to be logged is moved by part_records into the buffer that is given. Each call returns 0, or why it was
 * refused, where nothing else is said. */
#ifndef PART_H
#define PART_H
#include "nsf_index.h"

#include <pthread.h>
#include <stdatomic.h>
#include <stdbool.h>
#include <stddef.h>
#include <stdint.h>

enum { KEY_BYTES = 16 };

typedef struct bytes {
    uint8_t *at;
    size_t length, room;
} bytes;

typedef struct part {
    nsf_index index;
    pthread_mutex_t lock;
    bool is_open;
    uint32_t pages;       /* the pages that the builder reads: nsf_index_create was given their number */
    atomic_uint changing; /* how many changes wait for the lock */
    atomic_ulong waited;  /* how long changes waited for the lock, in nanoseconds */
    atomic_ulong longest; /* the longest of these waits */
    atomic_ulong held;    /* the longest time of a processor that the builder or the cleaner held it, in nanoseconds */
    atomic_ulong built;   /* how many steps the builder made */
} part;

/* The entries whose keys lie between two keys, as they are read. */
typedef struct range {
    uint8_t low[KEY_BYTES], high[KEY_BYTES];
    nsf_index_cursor cursor;
    bool has_ended;
} range;

void part_make(part *part);
void part_destroy(part *part);
uint32_t part_open(part *part, uint32_t entries, uint32_t pages);
void part_close(part *part);

/* Changes: the row's key, or NULL, and the one that it is to have, or NULL. Where prepare is refused, nothing has changed. */
uint32_t part_prepare(part *part, uint32_t number, const uint8_t *old, const uint8_t *next);
uint32_t part_put(part *part, uint32_t number, const uint8_t *key);

/* The builder, and the cleaner. `stop` is why the builder stopped: NSF_INDEX_WANTS_PAGE, or what nsf_index.h says beside it. */
uint32_t part_build(part *part, uint32_t most, uint32_t *stop, uint32_t *page);
uint32_t part_take_page(part *part, uint32_t page, const nsf_index_pair *pairs, size_t count);
uint32_t part_clean(part *part, nsf_index_cursor *cursor, uint32_t most, uint32_t *cleaned);

/* Reading. */
size_t part_page(part *part, nsf_index_cursor *cursor, nsf_index_pair *pairs, size_t room);
size_t part_range(part *part, range *range, nsf_index_pair *pairs, size_t room);
bool part_is_visible(part *part, uint32_t number, const uint8_t *key);
uint32_t part_life(part *part, nsf_index_pair *highest);
range range_of(const uint8_t *low, const uint8_t *high);

/* Records: those that wait for the log are appended to `waiting`, in the order of the calls. A piece of a checkpoint is appended to
 * `piece`, with the records that waited before it appended to `waiting`. */
uint32_t part_records(part *part, bytes *waiting);
uint32_t part_save_life(part *part, bytes *waiting, bytes *piece);
uint32_t part_save(part *part, bytes *waiting, nsf_index_cursor *cursor, uint32_t most, bytes *piece, bool *is_last);

/* After a stop: an empty index, the records of a checkpoint and of the log, and then the end of redo. */
uint32_t part_empty(part *part, uint32_t entries, uint32_t pages);
uint32_t part_redo(part *part, const uint8_t *records, size_t length);
uint32_t part_reopen(part *part);

void bytes_reserve(bytes *bytes, size_t more);
void bytes_free(bytes *bytes);
uint64_t nanoseconds(void);
uint64_t processor_time(void); /* of the thread that calls, in nanoseconds */
void keep_greatest(atomic_ulong *greatest, uint64_t found);
#endif
