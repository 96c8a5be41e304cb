/* One index beside a table in memory: each call of nsf_index.h, each refusal, and each allocation refused in turn.
 *
 * The table is a list of keys by row number, and the log is a list of bytes. What the index holds is compared with a list of its own,
 * which is kept by what the header says that each call does.
 *
 * It is linked with -Wl,--wrap=malloc,--wrap=realloc, which has the library call the functions below. */
#include "nsf_index.h"
#include <stdio.h>
#include <stdlib.h>

enum { ROWS = 150, PAGES = 3, KEYS = 40, ENTRIES = 4096, LOG_MAX = 1 << 22, ROUNDS = 700 };

static bool failed;

static void tell(const char *what, bool is_so)
{
    printf("%s: %s\n", what, is_so ? "yes" : "no");
    failed = failed || !is_so;
}

/* ---- memory */

/* Which of the next allocations is refused; none where it is negative. */
static long refused_allocation = -1;
static bool was_refused;

static bool refuses(void)
{
    if (refused_allocation < 0 || refused_allocation-- != 0)
        return false;
    was_refused = true;
    return true;
}

void *__real_malloc(size_t size);
void *__real_realloc(void *at, size_t size);
void *__wrap_malloc(size_t size);
void *__wrap_realloc(void *at, size_t size);

void *__wrap_malloc(size_t size)
{
    return refuses() ? NULL : __real_malloc(size);
}

void *__wrap_realloc(void *at, size_t size)
{
    return refuses() ? NULL : __real_realloc(at, size);
}

/* ---- a host */

typedef struct bytes {
    uint8_t at[LOG_MAX];
    size_t length;
} bytes;

typedef struct host {
    nsf_index index;
    int rows[ROWS];         /* the number of the key of a row, or -1 */
    bytes log;              /* the records of the index; the rows are not lost at a stop */
    bool is_log_too_small;
    uint32_t refusals;      /* how often a call was refused for want of memory, and made again */
} host;

/* What an index holds, in order. */
typedef struct picture {
    nsf_index_pair entries[ENTRIES];
    size_t count;
    uint32_t life;
    nsf_index_pair highest;
} picture;

static nsf_index_pair pair_of(int row, int key)
{
    char text[NSF_INDEX_KEY_MAX + 1];
    /* keys of 2 to 56 bytes */
    const int length = 2 + (key * 7) % 55;
    memset(text, 'k', sizeof text);
    text[0] = (char)('a' + key / 10);
    text[1] = (char)('a' + key % 10);
    return nsf_index_pair_of((uint64_t)row, text, (size_t)length);
}

static int compare(const nsf_index_pair *a, const nsf_index_pair *b)
{
    const size_t length = a->length < b->length ? a->length : b->length;
    const int keys = memcmp(a->key, b->key, length);
    if (keys != 0)
        return keys;
    if (a->length != b->length)
        return a->length < b->length ? -1 : 1;
    const uint64_t x = nsf_index_row_of(a), y = nsf_index_row_of(b);
    return x < y ? -1 : x > y;
}

static bool is_same(const nsf_index_pair *a, const nsf_index_pair *b)
{
    return compare(a, b) == 0 && a->state == b->state;
}

/* What the index holds, read in pages of this many entries. */
static void look(nsf_index *index, size_t room, picture *held)
{
    nsf_index_cursor cursor = NSF_INDEX_FIRST;
    size_t count = room;
    held->count = 0;
    held->highest = pair_of(0, 0);
    while (count == room && held->count + room <= ENTRIES) {
        if (nsf_index_page(index, &cursor, held->entries + held->count, room, &count))
            return;
        held->count += count;
    }
    nsf_index_life(index, &held->life, &held->highest);
}

static bool are_same(const picture *a, const picture *b)
{
    if (a->count != b->count || a->life != b->life || compare(&a->highest, &b->highest) != 0)
        return false;
    for (size_t i = 0; i < a->count; i++)
        if (!is_same(a->entries + i, b->entries + i))
            return false;
    return true;
}

/* The same, and the pairs rise. */
static bool is_in_order(const picture *held)
{
    for (size_t i = 1; i < held->count; i++)
        if (compare(held->entries + i - 1, held->entries + i) >= 0)
            return false;
    return true;
}

static picture before, after;

/* A call that was refused for want of memory changed nothing, and is made again. */
static bool is_to_be_repeated(host *it, uint32_t refused)
{
    if (refused != NSF_INDEX_NO_MEMORY || !was_refused)
        return false;
    was_refused = false;
    it->refusals++;
    return true;
}

/* Takes every record that waits into the log, in rooms of this many bytes. */
static void take_records(host *it, size_t room)
{
    size_t used = 1;
    while (used > 0) {
        if (it->log.length + room > LOG_MAX) {
            it->is_log_too_small = true;
            return;
        }
        if (is_to_be_repeated(it, nsf_index_records(&it->index, it->log.at + it->log.length, room, &used)))
            used = 1;
        else
            it->log.length += used;
    }
}

/* A row becomes another, or none. */
static void change(host *it, int row, int key)
{
    nsf_index_pair old_pair = pair_of(row, 0), new_pair = pair_of(row, 0);
    if (it->rows[row] >= 0)
        old_pair = pair_of(row, it->rows[row]);
    if (key >= 0)
        new_pair = pair_of(row, key);
    const nsf_index_change change = nsf_index_change_of(it->rows[row] >= 0 ? &old_pair : NULL, key >= 0 ? &new_pair : NULL);
    if (change.kind == 0)
        return;
    while (is_to_be_repeated(it, nsf_index_prepare(&it->index, &change)))
        ;
    take_records(it, 128);
    it->rows[row] = key;
    if (key >= 0)
        while (is_to_be_repeated(it, nsf_index_put(&it->index, &new_pair)))
            ;
    take_records(it, 64);
}

/* Hands over the rows of a page. */
static void read_page(host *it, uint32_t page)
{
    nsf_index_pair pairs[NSF_INDEX_SLOTS];
    size_t count = 0;
    for (int slot = 0; slot < NSF_INDEX_SLOTS; slot++) {
        const int row = (int)page * NSF_INDEX_SLOTS + slot;
        if (row < ROWS && it->rows[row] >= 0)
            pairs[count++] = pair_of(row, it->rows[row]);
    }
    while (is_to_be_repeated(it, nsf_index_take_page(&it->index, page, pairs, count)))
        ;
}

/* Steps of the builder; tells whether the index is complete. */
static bool build(host *it, uint32_t most)
{
    uint32_t stop = 0, page = 0;
    while (is_to_be_repeated(it, nsf_index_build(&it->index, most, &stop, &page)))
        ;
    take_records(it, 512);
    if (stop == NSF_INDEX_WANTS_PAGE)
        read_page(it, page);
    return stop == NSF_INDEX_IS_COMPLETE;
}

/* The cleaner goes over some entries, and takes out what it may. */
static void clean(host *it, nsf_index_cursor *cursor, uint32_t most)
{
    uint32_t found = NSF_INDEX_END, did = 0;
    if (nsf_index_next_marked(&it->index, cursor, most, &found))
        return;
    if (found == NSF_INDEX_END)
        *cursor = (nsf_index_cursor)NSF_INDEX_FIRST;
    if (found == NSF_INDEX_FOUND)
        while (is_to_be_repeated(it, nsf_index_clean(&it->index, &cursor->pair, &did)))
            ;
    take_records(it, 64);
}

static uint32_t random_state;

static int random_below(int limit)
{
    random_state = random_state * 1664525u + 1013904223u;
    return (int)((random_state >> 8) % (uint32_t)limit);
}

/* A step of a host: a change, one that is taken back, steps of the builder, or of the cleaner. */
static void step(host *it, nsf_index_cursor *cursor)
{
    const int row = random_below(ROWS), key = random_below(KEYS + 8) - 8, was = it->rows[row];
    switch (random_below(6)) {
    case 0:
        build(it, 5);
        break;
    case 1:
        clean(it, cursor, 9);
        break;
    case 2:
        change(it, row, key < 0 ? -1 : key);
        change(it, row, was);
        break;
    default:
        change(it, row, key < 0 ? -1 : key);
    }
}

static void begin(host *it)
{
    memset(it, 0, sizeof *it);
    random_state = 7;
    for (int row = 0; row < ROWS; row++)
        it->rows[row] = random_below(KEYS + 8) - 8 < 0 ? -1 : random_below(KEYS);
    while (is_to_be_repeated(it, nsf_index_create(&it->index, ENTRIES, PAGES)))
        ;
}

/* Whether the visible entries are the pairs of the rows. */
static bool shows_the_rows(host *it)
{
    size_t rows = 0, visible = 0;
    look(&it->index, 64, &after);
    for (int row = 0; row < ROWS; row++) {
        uint32_t state = NSF_INDEX_NONE;
        if (it->rows[row] < 0)
            continue;
        const nsf_index_pair pair = pair_of(row, it->rows[row]);
        if (nsf_index_get(&it->index, &pair, &state) || state != NSF_INDEX_VISIBLE)
            return false;
        rows++;
    }
    for (size_t i = 0; i < after.count; i++)
        visible += after.entries[i].state == NSF_INDEX_VISIBLE;
    return rows == visible && is_in_order(&after);
}

/* Makes an index of these records, and reopens it. */
static uint32_t redone(nsf_index *index, const bytes *first, const bytes *then)
{
    uint32_t refused = nsf_index_empty(index, 2 * ENTRIES);
    if (!refused)
        refused = nsf_index_redo_all(index, first->at, first->length);
    if (!refused && then)
        refused = nsf_index_redo_all(index, then->at, then->length);
    return refused ? refused : nsf_index_reopen(index, PAGES);
}

static host one, other;
static bytes checkpoint;

/* A run to its end; in it a checkpoint of the index is saved in pieces, with steps of the host between two pieces. */
static bool run(host *it, size_t *log_at)
{
    nsf_index_cursor cleaner = NSF_INDEX_FIRST, saver = NSF_INDEX_FIRST;
    size_t used = 0;
    uint32_t is_last = 1;
    bool is_complete = false;
    begin(it);
    for (int round = 0; round < ROUNDS; round++) {
        step(it, &cleaner);
        if (round == ROUNDS / 4) {
            *log_at = it->log.length;
            while (is_to_be_repeated(it, nsf_index_save_life(&it->index, checkpoint.at, 64, &used)))
                ;
            checkpoint.length = used;
            is_last = 0;
        }
        if (!is_last) {
            while (is_to_be_repeated(it, nsf_index_save(&it->index, &saver, checkpoint.at + checkpoint.length, 5 * 64, &used, &is_last)))
                ;
            checkpoint.length += used;
        }
    }
    for (int round = 0; round < 10000 && !is_complete; round++)
        is_complete = build(it, 50);
    return is_complete && is_last && !it->is_log_too_small && shows_the_rows(it);
}

static void runs(void)
{
    nsf_index again = NSF_INDEX_VACANT, third = NSF_INDEX_VACANT;
    size_t log_at = 0;
    bytes *rest = (bytes *)calloc(1, sizeof *rest);
    tell("a run ends with an index that shows exactly the rows", rest && run(&one, &log_at));
    look(&one.index, 7, &before);
    look(&one.index, 1000, &after);
    tell("pages of any size show the same entries", are_same(&before, &after));
    tell("the records of the log give the index again", !redone(&again, &one.log, NULL));
    look(&again, 100, &after);
    tell("with the same entries, and as far", are_same(&before, &after));
    rest->length = one.log.length - log_at;
    memcpy(rest->at, one.log.at + log_at, rest->length);
    tell("so does the checkpoint with the log since it began", !redone(&third, &checkpoint, rest));
    look(&third, 100, &after);
    tell("with the same entries", are_same(&before, &after));
    nsf_index_close(&again);
    nsf_index_close(&third);
    /* a stop before the end: the redone index goes on, to the same rows */
    memcpy(&other, &one, sizeof one);
    other.index = (nsf_index)NSF_INDEX_VACANT;
    other.log.length = 0;
    tell("a log that ends earlier is redone too", !nsf_index_close(&one.index) && !nsf_index_empty(&other.index, ENTRIES));
    free(rest);
    nsf_index_close(&other.index);
}

/* ---- refusals */

static bool is(uint32_t answer, uint32_t refusal)
{
    return answer == refusal && strcmp(nsf_index_message(answer), nsf_index_message(99)) != 0;
}

static nsf_index_pair bad_pairs[2];

static void of_vacant(void)
{
    nsf_index vacant = NSF_INDEX_VACANT;
    nsf_index_pair pair = pair_of(1, 1);
    nsf_index_change change = nsf_index_change_of(NULL, &pair);
    nsf_index_cursor cursor = NSF_INDEX_FIRST;
    nsf_index_status status = NSF_INDEX_NO_STATUS;
    uint8_t room[64] = {0};
    size_t count = 5;
    uint32_t number = 0, page = 0;
    bool is_so = is(nsf_index_redo(&vacant, room, 1), NSF_INDEX_NOT_OPEN) && is(nsf_index_reopen(&vacant, 1), NSF_INDEX_NOT_OPEN)
        && is(nsf_index_close(&vacant), NSF_INDEX_NOT_OPEN) && is(nsf_index_prepare(&vacant, &change), NSF_INDEX_NOT_OPEN)
        && is(nsf_index_put(&vacant, &pair), NSF_INDEX_NOT_OPEN) && is(nsf_index_mark(&vacant, &pair), NSF_INDEX_NOT_OPEN)
        && is(nsf_index_apply(&vacant, &change, 1, &count), NSF_INDEX_NOT_OPEN) && count == 0
        && is(nsf_index_reserve(&vacant, 1), NSF_INDEX_NOT_OPEN)
        && is(nsf_index_records(&vacant, room, sizeof room, &count), NSF_INDEX_NOT_OPEN)
        && is(nsf_index_build(&vacant, 1, &number, &page), NSF_INDEX_NOT_OPEN)
        && is(nsf_index_wants_page(&vacant, &page, &number), NSF_INDEX_NOT_OPEN)
        && is(nsf_index_take_page(&vacant, 0, &pair, 1), NSF_INDEX_NOT_OPEN)
        && is(nsf_index_life(&vacant, &number, &pair), NSF_INDEX_NOT_OPEN)
        && is(nsf_index_next_marked(&vacant, &cursor, 1, &number), NSF_INDEX_NOT_OPEN)
        && is(nsf_index_clean(&vacant, &pair, &number), NSF_INDEX_NOT_OPEN)
        && is(nsf_index_get(&vacant, &pair, &number), NSF_INDEX_NOT_OPEN)
        && is(nsf_index_find(&vacant, room, 1, &pair), NSF_INDEX_NOT_OPEN)
        && is(nsf_index_page(&vacant, &cursor, &pair, 1, &count), NSF_INDEX_NOT_OPEN)
        && is(nsf_index_stat(&vacant, &status), NSF_INDEX_NOT_OPEN)
        && is(nsf_index_save_life(&vacant, room, sizeof room, &count), NSF_INDEX_NOT_OPEN)
        && is(nsf_index_save(&vacant, &cursor, room, sizeof room, &count, &number), NSF_INDEX_NOT_OPEN);
    tell("each call of a vacant handle is refused", is_so && !vacant.is_open && nsf_index_entries(&vacant) == 0);
}

/* Each call that takes a pair refuses what is none, and changes nothing. */
static void of_bad_pairs(nsf_index *index)
{
    bool is_so = true;
    for (int i = 0; i < 2; i++) {
        const nsf_index_pair *bad = bad_pairs + i;
        nsf_index_pair entry, good = pair_of(100, 3);
        nsf_index_change changes[3] = {nsf_index_change_of(bad, NULL), nsf_index_change_of(NULL, bad), nsf_index_change_of(&good, bad)};
        nsf_index_cursor cursor = nsf_index_after(bad);
        uint8_t room[64];
        size_t count = 9;
        uint32_t number = 9;
        look(index, 64, &before);
        for (int k = 0; k < 3; k++)
            is_so = is_so && is(nsf_index_prepare(index, changes + k), NSF_INDEX_BAD_PAIR);
        is_so = is_so && is(nsf_index_put(index, bad), NSF_INDEX_BAD_PAIR) && is(nsf_index_mark(index, bad), NSF_INDEX_BAD_PAIR)
            && is(nsf_index_apply(index, changes, 3, &count), NSF_INDEX_BAD_PAIR) && count == 0
            && is(nsf_index_clean(index, bad, &number), NSF_INDEX_BAD_PAIR) && number == 0
            && is(nsf_index_get(index, bad, &number), NSF_INDEX_BAD_PAIR)
            && is(nsf_index_next_marked(index, &cursor, 9, &number), NSF_INDEX_BAD_PAIR)
            && is(nsf_index_page(index, &cursor, &entry, 1, &count), NSF_INDEX_BAD_PAIR) && count == 0
            && is(nsf_index_save(index, &cursor, room, sizeof room, &count, &number), NSF_INDEX_BAD_PAIR) && count == 0
            && is(nsf_index_take_page(index, bad->page, bad, 1), NSF_INDEX_BAD_PAIR);
        look(index, 64, &after);
        is_so = is_so && are_same(&before, &after);
    }
    tell("what is no pair is refused by each call, and changes nothing", is_so);
}

static void of_pages(nsf_index *index)
{
    nsf_index_pair two[2] = {pair_of(2, 1), pair_of(1, 2)}, many[64], far = pair_of(70, 1);
    uint32_t page = 9, is_wanted = 9;
    bool is_so;
    for (int i = 0; i < 64; i++)
        many[i] = pair_of(i, 1);
    is_so = !nsf_index_wants_page(index, &page, &is_wanted) && is_wanted == 1 && page == 0
        && is(nsf_index_take_page(index, 1, &far, 1), NSF_INDEX_NOT_WANTED)
        && is(nsf_index_take_page(index, 0, two, 2), NSF_INDEX_BAD_PAIR)
        && is(nsf_index_take_page(index, 0, &far, 1), NSF_INDEX_BAD_PAIR)
        && is(nsf_index_take_page(index, 0, many, 64), NSF_INDEX_BAD_PAIR);
    two[1] = two[0];
    is_so = is_so && is(nsf_index_take_page(index, 0, two, 2), NSF_INDEX_BAD_PAIR)
        && !nsf_index_wants_page(index, &page, &is_wanted) && is_wanted == 1 && page == 0;
    tell("a page that is not wanted, and pairs that are not a page's, are refused", is_so);
    is_so = !nsf_index_take_page(index, 0, many, 63) && !nsf_index_take_page(index, 1, &far, 1) && !nsf_index_take_page(index, 2, &far, 0)
        && !nsf_index_wants_page(index, &page, &is_wanted) && is_wanted == 0 && is(nsf_index_take_page(index, 3, &far, 0), NSF_INDEX_NOT_WANTED);
    tell("pages are taken in order, and then none is wanted", is_so);
}

static void of_records(nsf_index *index)
{
    nsf_index_pair pair = pair_of(5, 5);
    nsf_index_cursor cursor = NSF_INDEX_FIRST;
    nsf_index_status status = NSF_INDEX_NO_STATUS;
    uint8_t room[640] = {9, 9};
    size_t used = 9;
    uint32_t is_last = 9;
    bool is_so = !nsf_index_mark(index, &pair) && !nsf_index_stat(index, &status) && status.records == 1
        && is(nsf_index_save(index, &cursor, room, sizeof room, &used, &is_last), NSF_INDEX_RECORDS_WAIT) && used == 0
        && is(nsf_index_save_life(index, room, sizeof room, &used), NSF_INDEX_RECORDS_WAIT)
        && is(nsf_index_records(index, room, 63, &used), NSF_INDEX_NO_ROOM)
        && !nsf_index_records(index, room, sizeof room, &used) && used == (size_t)room[0] + 1
        && is(nsf_index_save(index, &cursor, room, 63, &used, &is_last), NSF_INDEX_NO_ROOM)
        && is(nsf_index_save_life(index, room, 63, &used), NSF_INDEX_NO_ROOM)
        && !nsf_index_records(index, room, sizeof room, &used) && used == 0;
    tell("what waits is taken first, and wants room", is_so);
    is_so = is(nsf_index_redo(index, room, 1), NSF_INDEX_BAD_RECORD) && is(nsf_index_redo(index, room + 1, room[0]), NSF_INDEX_NOT_EMPTIED)
        && is(nsf_index_reopen(index, PAGES), NSF_INDEX_NOT_EMPTIED) && is(nsf_index_create(index, ENTRIES, 1), NSF_INDEX_ALREADY_OPEN)
        && is(nsf_index_empty(index, ENTRIES), NSF_INDEX_ALREADY_OPEN);
    tell("an index that was created is not redone, reopened or created", is_so);
}

/* Records that are none: cut, longer, of a kind or a slot that is none. */
static void of_bad_records(void)
{
    nsf_index index = NSF_INDEX_VACANT;
    nsf_index_pair pair = pair_of(5, 5);
    nsf_index_change change = nsf_index_change_of(NULL, &pair);
    uint8_t record[64] = {1, 0, 0, 0, 1, 0, 2, 'a'}, room[64];
    size_t count = 9;
    uint32_t number = 9, page = 9;
    bool is_so = !nsf_index_empty(&index, ENTRIES);
    for (size_t length = 0; length < 7; length++)
        is_so = is_so && is(nsf_index_redo(&index, record, length), NSF_INDEX_BAD_RECORD);
    record[6] = 63;
    is_so = is_so && is(nsf_index_redo(&index, record, 8), NSF_INDEX_BAD_RECORD) && is(nsf_index_redo(&index, record, 64), NSF_INDEX_BAD_RECORD);
    record[6] = 62;
    record[0] = 7;
    is_so = is_so && is(nsf_index_redo(&index, record, 8), NSF_INDEX_BAD_RECORD);
    record[0] = 5;
    is_so = is_so && is(nsf_index_redo(&index, record, 8), NSF_INDEX_BAD_RECORD) && is(nsf_index_redo_all(&index, record + 7, 1), NSF_INDEX_BAD_RECORD);
    record[0] = 1;
    is_so = is_so && nsf_index_entries(&index) == 0 && !nsf_index_redo(&index, record, 8) && nsf_index_entries(&index) == 1;
    tell("what is no record is refused", is_so);
    is_so = is(nsf_index_prepare(&index, &change), NSF_INDEX_NOT_REOPENED) && is(nsf_index_put(&index, &pair), NSF_INDEX_NOT_REOPENED)
        && is(nsf_index_mark(&index, &pair), NSF_INDEX_NOT_REOPENED) && is(nsf_index_apply(&index, &change, 1, &count), NSF_INDEX_NOT_REOPENED)
        && count == 0 && is(nsf_index_build(&index, 9, &number, &page), NSF_INDEX_NOT_REOPENED)
        && is(nsf_index_take_page(&index, 0, &pair, 1), NSF_INDEX_NOT_REOPENED)
        && is(nsf_index_clean(&index, &pair, &number), NSF_INDEX_NOT_REOPENED)
        && is(nsf_index_save_life(&index, room, sizeof room, &count), NSF_INDEX_NOT_REOPENED) && nsf_index_entries(&index) == 1;
    tell("an index that is redone is reopened first", is_so && !nsf_index_reopen(&index, PAGES) && !nsf_index_put(&index, &pair));
    nsf_index_close(&index);
}

static void of_sizes(void)
{
    nsf_index index = NSF_INDEX_VACANT;
    nsf_index_status status = NSF_INDEX_NO_STATUS;
    nsf_index_pair pair, last;
    nsf_index_change changes[2];
    size_t made = 9;
    uint32_t state = 9;
    bool is_so = is(nsf_index_create(&index, 63, 1), NSF_INDEX_BAD_SIZE) && is(nsf_index_empty(&index, NSF_INDEX_ENTRIES_MAX + 1), NSF_INDEX_BAD_SIZE)
        && !index.is_open && !nsf_index_create(&index, 64, 1);
    for (int row = 0; row < 63; row++) {
        pair = pair_of(row, 1);
        is_so = is_so && !nsf_index_put(&index, &pair);
    }
    pair = pair_of(63, 1);
    last = pair_of(64, 1);
    changes[0] = nsf_index_change_of(&pair, &last);
    is_so = is_so && is(nsf_index_prepare(&index, changes), NSF_INDEX_FULL) && !nsf_index_get(&index, &pair, &state) && state == NSF_INDEX_NONE;
    changes[0].kind = NSF_INDEX_MARK;
    changes[1] = changes[0];
    changes[1].kind = NSF_INDEX_PUT;
    is_so = is_so && is(nsf_index_apply(&index, changes, 2, &made), NSF_INDEX_FULL) && made == 1 && nsf_index_room(&index) == 0
        && is(nsf_index_mark(&index, &last), NSF_INDEX_FULL) && !nsf_index_put(&index, &pair) && !nsf_index_stat(&index, &status)
        && status.entries == 64 && status.marked == 0 && status.records == 65;
    changes[0].kind = 6;
    is_so = is_so && is(nsf_index_apply(&index, changes, 1, &made), NSF_INDEX_BAD_CHANGE) && made == 0;
    changes[0].kind = NSF_INDEX_PUT;
    is_so = is_so && is(nsf_index_prepare(&index, changes), NSF_INDEX_BAD_CHANGE);
    tell("an index has no more entries than it may have", is_so);
    nsf_index_close(&index);
}

static void of_reading(void)
{
    nsf_index index = NSF_INDEX_VACANT;
    nsf_index_pair a = nsf_index_pair_of(0, "a", 1), ab = nsf_index_pair_of(9, "ab", 2), c = nsf_index_pair_of(3, "c", 1), found;
    nsf_index_cursor cursor = NSF_INDEX_FIRST;
    uint32_t number = 9;
    const uint8_t *key = (const uint8_t *)"abc";
    bool is_so = !nsf_index_create(&index, 64, 0) && !nsf_index_put(&index, &a) && !nsf_index_mark(&index, &ab) && !nsf_index_put(&index, &c);
    is_so = is_so && !nsf_index_find(&index, key, 0, &found) && compare(&found, &a) == 0 && found.state == NSF_INDEX_VISIBLE
        && !nsf_index_find(&index, key, 1, &found) && compare(&found, &a) == 0 && !nsf_index_find(&index, key, 2, &found)
        && compare(&found, &ab) == 0 && found.state == NSF_INDEX_MARKED && !nsf_index_find(&index, key, 3, &found) && compare(&found, &c) == 0
        && !nsf_index_any(&index, key, 3, &found) && found.state == NSF_INDEX_NONE && !nsf_index_any(&index, key, 2, &found)
        && found.state == NSF_INDEX_MARKED && !nsf_index_find(&index, (const uint8_t *)"d", 1, &found) && found.state == NSF_INDEX_NONE;
    tell("a key is found, or what comes after it", is_so && is(nsf_index_find(&index, bad_pairs[0].key, 57, &found), NSF_INDEX_BAD_PAIR));
    is_so = !nsf_index_next_marked(&index, &cursor, 1, &number) && number == NSF_INDEX_GO_ON && compare(&cursor.pair, &a) == 0
        && !nsf_index_next_marked(&index, &cursor, 1, &number) && number == NSF_INDEX_FOUND && compare(&cursor.pair, &ab) == 0
        && !nsf_index_clean(&index, &ab, &number) && number == 0 && !nsf_index_next_marked(&index, &cursor, 2, &number) && number == NSF_INDEX_END;
    tell("marked entries are found, and stay until the build has passed them", is_so);
    is_so = !nsf_index_build(&index, 9, &number, &a.page) && number == NSF_INDEX_IS_COMPLETE && !nsf_index_clean(&index, &ab, &number)
        && number == 1 && !nsf_index_clean(&index, &ab, &number) && number == 0 && !nsf_index_clean(&index, &c, &number) && number == 0
        && nsf_index_entries(&index) == 2 && nsf_index_marked(&index) == 0;
    cursor = nsf_index_after(&ab);
    is_so = is_so && !nsf_index_next(&index, &cursor, &found) && compare(&found, &c) == 0 && !nsf_index_next(&index, &cursor, &found)
        && found.state == NSF_INDEX_NONE && !nsf_index_close(&index) && is(nsf_index_close(&index), NSF_INDEX_NOT_OPEN);
    tell("then they are taken out, and an index is closed once", is_so);
}

/* ---- refused memory */

/* With each allocation refused in turn a call is refused NSF_INDEX_NO_MEMORY, and the run, in which it is made again, ends as without;
 * and so do the records of its log. */
static void of_memory(void)
{
    nsf_index again = NSF_INDEX_VACANT;
    size_t log_at = 0;
    long turn = 0, told = 0;
    bool is_so = run(&one, &log_at), is_done = false;
    look(&one.index, 64, &before);
    nsf_index_close(&one.index);
    for (; is_so && !is_done; turn++) {
        was_refused = false;
        refused_allocation = turn;
        is_so = run(&other, &log_at);
        is_done = refused_allocation >= 0;
        refused_allocation = -1;
        told += other.refusals;
        look(&other.index, 64, &after);
        is_so = is_so && !was_refused && are_same(&before, &after) && !redone(&again, &other.log, NULL);
        look(&again, 64, &after);
        is_so = is_so && are_same(&before, &after);
        nsf_index_close(&again);
        nsf_index_close(&other.index);
    }
    tell("a run in which an allocation is refused ends as one without", is_so && told == turn - 1 && told > 20);
}

/* Once room for records is reserved, a change that is prepared is put, and taken back, with every allocation refused. */
static void of_reserved(void)
{
    nsf_index index = NSF_INDEX_VACANT;
    nsf_index_pair old_pair = pair_of(1, 1), new_pair = pair_of(1, 2);
    nsf_index_change there = nsf_index_change_of(&old_pair, &new_pair), back = nsf_index_change_of(&new_pair, &old_pair);
    uint8_t room[640];
    size_t used = 0;
    bool is_so = !nsf_index_create(&index, 64, 1) && !nsf_index_put(&index, &old_pair) && !nsf_index_reserve(&index, 8)
        && !nsf_index_prepare(&index, &there);
    for (int i = 0; i < 3; i++) {
        refused_allocation = 0;
        is_so = is_so && !nsf_index_put(&index, &new_pair) && !nsf_index_prepare(&index, &back) && !nsf_index_put(&index, &old_pair)
            && !nsf_index_prepare(&index, &there);
        refused_allocation = -1;
        is_so = is_so && !nsf_index_records(&index, room, sizeof room, &used) && used > 0;
    }
    tell("what is prepared is put and taken back without memory", is_so && !was_refused);
    nsf_index_close(&index);
}

int main(void)
{
    nsf_index index = NSF_INDEX_VACANT;
    bad_pairs[0] = nsf_index_pair_of(1, "", 57);
    bad_pairs[1] = pair_of(1, 1);
    bad_pairs[1].slot = NSF_INDEX_SLOTS;
    tell("the library is that of the header", nsf_index_version() == NSF_INDEX_VERSION);
    of_vacant();
    if (nsf_index_create(&index, ENTRIES, PAGES))
        return 1;
    of_bad_pairs(&index);
    of_pages(&index);
    of_records(&index);
    nsf_index_close(&index);
    of_bad_records();
    of_sizes();
    of_reading();
    runs();
    of_reserved();
    of_memory();
    return failed;
}
