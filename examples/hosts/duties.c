/* Each duty of a host, kept and broken: the same schedule twice. A line for each says what was lost where the duty was broken. The program
 * fails where a schedule that keeps its duty doesn't end exact, or one that breaks it does.
 *
 * The host here has its rows in memory, each with a key of one letter. H1 (one call at a time) isn't among them: what two calls at once
 * do is not defined. */
#include "part.h"

#include <stdio.h>
#include <stdlib.h>
#include <string.h>

enum { ROWS = 200, ENTRIES = 1000, FEW_ENTRIES = 64, OF_ROW = 1, SECOND = 2, FAR = 64 };

typedef struct toy {
    part part;
    char rows[ROWS];      /* the key of each row, or 0 */
    bytes log;            /* the records of the index */
    uint32_t refused;     /* the last refusal of a put, or 0 */
} toy;

/* Pages that were read, and are handed over later. */
typedef struct held_page {
    nsf_index_pair pairs[NSF_INDEX_SLOTS];
    size_t count;
} held_page;

static void must(uint32_t refused, const char *what)
{
    if (!refused)
        return;
    fprintf(stderr, "duties: %s: refused, %u\n", what, (unsigned)refused);
    exit(3);
}

static const uint8_t *key_of(char letter, uint8_t *room)
{
    memset(room, 0, KEY_BYTES);
    room[0] = (uint8_t)letter;
    return letter ? room : NULL;
}

/* ---- the steps of a host */

static void prepare(toy *toy, uint32_t number, char old, char next)
{
    uint8_t rooms[2][KEY_BYTES];
    must(part_prepare(&toy->part, number, key_of(old, rooms[0]), key_of(next, rooms[1])), "prepare");
}

static void put(toy *toy, uint32_t number, char next)
{
    uint8_t room[KEY_BYTES];
    toy->refused = next ? part_put(&toy->part, number, key_of(next, room)) : 0;
}

/* The records since the last time go into the log. */
static void log_records(toy *toy)
{
    must(part_records(&toy->part, &toy->log), "records");
}

/* They are lost, as with the transaction that would have logged them. */
static void lose_records(toy *toy)
{
    size_t before = toy->log.length;
    log_records(toy);
    toy->log.length = before;
}

static void change(toy *toy, uint32_t number, char next)
{
    char old = toy->rows[number];
    prepare(toy, number, old, next);
    toy->rows[number] = next;
    put(toy, number, next);
}

static held_page read_page(const toy *toy, uint32_t page)
{
    held_page held = {.count = 0};
    uint8_t room[KEY_BYTES];
    for (uint32_t number = page * NSF_INDEX_SLOTS; number < (page + 1) * NSF_INDEX_SLOTS && number < ROWS; number++)
        if (toy->rows[number])
            held.pairs[held.count++] = nsf_index_pair_of(number, key_of(toy->rows[number], room), KEY_BYTES);
    return held;
}

static void hand_over(toy *toy, uint32_t page, const held_page *held)
{
    must(part_take_page(&toy->part, page, held->pairs, held->count), "take page");
}

/* Builds the index to its end: pages are read as they are wanted. */
static void build(toy *toy)
{
    uint32_t stop = NSF_INDEX_MORE, page;
    while (stop != NSF_INDEX_IS_COMPLETE) {
        must(part_build(&toy->part, 100, &stop, &page), "build");
        if (stop == NSF_INDEX_WANTS_PAGE) {
            held_page held = read_page(toy, page);
            hand_over(toy, page, &held);
        }
    }
}

/* The table is row 1 with A and row 2 with M; the index is created, of so many entries and pages. */
static void begin(toy *toy, uint32_t entries, uint32_t pages)
{
    memset(toy, 0, sizeof *toy);
    part_make(&toy->part);
    toy->rows[OF_ROW] = 'A';
    toy->rows[SECOND] = 'M';
    must(part_open(&toy->part, entries, pages), "create");
}

static void begin_built(toy *toy)
{
    begin(toy, ENTRIES, 1);
    build(toy);
    log_records(toy);
}

/* The process stops, and the index is made again of these records. */
static void restart(toy *toy, const bytes *saved, size_t since)
{
    uint32_t pages = toy->part.pages;
    part_close(&toy->part);
    must(part_empty(&toy->part, ENTRIES, pages), "empty");
    if (saved)
        must(part_redo(&toy->part, saved->at, saved->length), "redo");
    must(part_redo(&toy->part, toy->log.at + since, toy->log.length - since), "redo");
    must(part_reopen(&toy->part), "reopen");
}

/* ---- the duties: in each the letters of `rows` are what the host's table has */

/* Two transactions change a row. The first is rolled back after the second has committed; or the second waits for it. */
static void one_transaction_a_row(toy *toy, bool is_kept)
{
    begin_built(toy);
    change(toy, OF_ROW, 'B');          /* the first */
    if (!is_kept)
        change(toy, OF_ROW, 'C');      /* the second, which ought to wait */
    prepare(toy, OF_ROW, 'B', 'A');    /* the first is rolled back */
    toy->rows[OF_ROW] = 'A';
    put(toy, OF_ROW, 'A');
    if (is_kept)
        change(toy, OF_ROW, 'C');
}

/* A row is deleted while the index is built. Its pair has no entry yet, and a host might think that there is nothing to mark. */
static void mark_before_the_row(toy *toy, bool is_kept)
{
    begin(toy, ENTRIES, 1);
    held_page held = read_page(toy, 0);
    hand_over(toy, 0, &held);
    if (is_kept)
        prepare(toy, OF_ROW, 'A', 0);
    toy->rows[OF_ROW] = 0;
    build(toy);
}

/* A pair is put before its row has it, and the table then refuses the row. */
static void put_after_the_row(toy *toy, bool is_kept)
{
    begin_built(toy);
    prepare(toy, OF_ROW, 'A', 'B');
    if (!is_kept)
        put(toy, OF_ROW, 'B');
    put(toy, OF_ROW, 'A'); /* the row stays as it was */
}

/* A change is rolled back: the row has its old key again, which is put. The new one is to be marked before. */
static void taking_back_is_a_change(toy *toy, bool is_kept)
{
    begin_built(toy);
    change(toy, OF_ROW, 'B');
    if (is_kept)
        prepare(toy, OF_ROW, 'B', 'A');
    toy->rows[OF_ROW] = 'A';
    put(toy, OF_ROW, 'A');
}

/* A page comes from a snapshot that is older than the index. */
static void pages_since_creation(toy *toy, bool is_kept)
{
    memset(toy, 0, sizeof *toy);
    part_make(&toy->part);
    toy->rows[OF_ROW] = 'A';
    held_page old = read_page(toy, 0);
    toy->rows[OF_ROW] = 'B';
    must(part_open(&toy->part, ENTRIES, 1), "create");
    if (!is_kept)
        hand_over(toy, 0, &old);
    build(toy);
}

/* A page leaves a row out that is locked by a transaction, which then changes nothing. */
static void pages_with_all_rows(toy *toy, bool is_kept)
{
    begin(toy, ENTRIES, 1);
    held_page held = read_page(toy, 0);
    if (!is_kept)
        held.pairs[0] = held.pairs[--held.count];
    hand_over(toy, 0, &held);
    build(toy);
}

/* A change begins before there is an index, which it doesn't tell; and ends when there is one, which it tells of its new key. */
static void no_change_at_creation(toy *toy, bool is_kept)
{
    memset(toy, 0, sizeof *toy);
    part_make(&toy->part);
    toy->rows[OF_ROW] = 'A';
    if (is_kept)
        toy->rows[OF_ROW] = 'B'; /* the change is whole when the index is created */
    must(part_open(&toy->part, ENTRIES, 1), "create");
    held_page held = read_page(toy, 0);
    hand_over(toy, 0, &held);
    if (!is_kept) {
        toy->rows[OF_ROW] = 'B';
        put(toy, OF_ROW, 'B');
    }
    build(toy);
}

/* A row lies in a page that isn't among those that the index is created with. */
static void all_pages_named(toy *toy, bool is_kept)
{
    memset(toy, 0, sizeof *toy);
    part_make(&toy->part);
    toy->rows[OF_ROW] = 'A';
    toy->rows[FAR] = 'F';
    must(part_open(&toy->part, ENTRIES, is_kept ? 2 : 1), "create");
    build(toy);
}

/* An entry that waits for its row is cleaned, another takes its place, and there is no room when the row is there. */
static void clean_nothing_in_hand(toy *toy, bool is_kept)
{
    nsf_index_cursor cursor = NSF_INDEX_FIRST;
    uint32_t cleaned = 0, number = SECOND;
    uint8_t room[KEY_BYTES];
    begin(toy, FEW_ENTRIES, 1);
    build(toy);
    prepare(toy, OF_ROW, 'A', 'B');
    if (!is_kept)
        must(part_clean(&toy->part, &cursor, 100, &cleaned), "clean");
    do /* other rows come, until the index is full */
        number++;
    while (!part_prepare(&toy->part, number, NULL, key_of('N', room)) && (toy->rows[number] = 'N', put(toy, number, 'N'), true));
    toy->rows[OF_ROW] = 'B';
    put(toy, OF_ROW, 'B');
}

/* While a row has another key for a while, the builder leaves its pair alone and ends. The change is rolled back; the host's own record of
 * the transaction goes, and takes the records of the index with it. Then the process stops. */
static void log_what_is_rolled_back(toy *toy, bool is_kept)
{
    begin(toy, ENTRIES, 1);
    held_page held = read_page(toy, 0);
    hand_over(toy, 0, &held);
    change(toy, OF_ROW, 'B');
    if (is_kept)
        log_records(toy);
    else
        lose_records(toy);
    build(toy);
    log_records(toy);
    change(toy, OF_ROW, 'A'); /* rolled back, by H4 */
    if (is_kept)
        log_records(toy);
    else
        lose_records(toy);
    restart(toy, NULL, 0);
}

/* Two changes of a row are logged the other way round. */
static void log_in_order(toy *toy, bool is_kept)
{
    begin_built(toy);
    size_t first = toy->log.length;
    change(toy, OF_ROW, 'B');
    log_records(toy);
    size_t second = toy->log.length, length = second - first;
    change(toy, OF_ROW, 'C');
    log_records(toy);
    if (!is_kept) {
        uint8_t *turned = malloc(toy->log.length - first);
        if (!turned)
            exit(3);
        memcpy(turned, toy->log.at + second, toy->log.length - second);
        memcpy(turned + (toy->log.length - second), toy->log.at + first, length);
        memcpy(toy->log.at + first, turned, toy->log.length - first);
        free(turned);
    }
    restart(toy, NULL, 0);
}

/* A checkpoint is saved in two pieces, with a change of the first between them. The log is redone from the checkpoint's beginning on;
 * or, in the broken host, from its end on. */
static void redo_since_the_beginning(toy *toy, bool is_kept)
{
    bytes saved = {0};
    nsf_index_cursor cursor = NSF_INDEX_FIRST;
    bool is_last = false;
    begin_built(toy);
    size_t begun = toy->log.length;
    must(part_save_life(&toy->part, &toy->log, &saved), "save");
    must(part_save(&toy->part, &toy->log, &cursor, 1, &saved, &is_last), "save");
    change(toy, OF_ROW, '0'); /* below what was saved */
    while (!is_last)
        must(part_save(&toy->part, &toy->log, &cursor, 1, &saved, &is_last), "save");
    log_records(toy);
    restart(toy, &saved, is_kept ? begun : toy->log.length);
    bytes_free(&saved);
}

/* A transaction is unfinished when the process stops. The table takes its row back, and the index is to be told. */
static void take_back_what_is_unfinished(toy *toy, bool is_kept)
{
    begin_built(toy);
    change(toy, OF_ROW, 'B');
    log_records(toy);
    restart(toy, NULL, 0);
    if (is_kept)
        change(toy, OF_ROW, 'A');
    else
        toy->rows[OF_ROW] = 'A';
}

/* ---- the check: each visible entry is looked up in the rows, and each row in the entries */

static size_t add_text(char *text, size_t used, size_t room, const char *what, char key, uint32_t number)
{
    char one[96];
    snprintf(one, sizeof one, what, key, (unsigned)number);
    if (used + strlen(one) + 3 < room)
        used += (size_t)snprintf(text + used, room - used, "%s%s", used ? ", " : "", one);
    return used;
}

static bool check(toy *toy, char *text, size_t room)
{
    size_t used = 0;
    nsf_index_pair entry;
    nsf_index_cursor cursor = NSF_INDEX_FIRST;
    uint8_t key[KEY_BYTES];
    text[0] = 0;
    while (part_page(&toy->part, &cursor, &entry, 1))
        if (entry.state == NSF_INDEX_VISIBLE && toy->rows[nsf_index_row_of(&entry)] != (char)entry.key[0])
            used = add_text(text, used, room, "%c of row %u is visible, and no row has it", (char)entry.key[0],
                            (uint32_t)nsf_index_row_of(&entry));
    for (uint32_t number = 0; number < ROWS; number++)
        if (toy->rows[number] && !part_is_visible(&toy->part, number, key_of(toy->rows[number], key)))
            used = add_text(text, used, room, "%c of row %u is in no entry", toy->rows[number], number);
    if (toy->refused)
        used += (size_t)snprintf(text + used, room - used, ", and put was refused");
    return !used;
}

typedef struct duty {
    const char *name, *what;
    void (*play)(toy *, bool is_kept);
} duty;

static const duty duties[] = {
    {"H2", "one transaction a row", one_transaction_a_row},
    {"H3", "mark before the row changes", mark_before_the_row},
    {"H3", "put after the row has it", put_after_the_row},
    {"H4", "taking back is a change", taking_back_is_a_change},
    {"H5", "pages as since creation", pages_since_creation},
    {"H5", "pages with all their rows", pages_with_all_rows},
    {"H6", "no change at creation", no_change_at_creation},
    {"H6", "all pages are named", all_pages_named},
    {"H7", "no cleaning in hand", clean_nothing_in_hand},
    {"H8", "log what is rolled back", log_what_is_rolled_back},
    {"H8", "log in the order of calls", log_in_order},
    {"H9", "redo from the beginning", redo_since_the_beginning},
    {"H9", "take back the unfinished", take_back_what_is_unfinished},
};

static bool play(const duty *duty, bool is_kept, char *text, size_t room)
{
    toy toy;
    duty->play(&toy, is_kept);
    bool is_exact = check(&toy, text, room);
    part_destroy(&toy.part);
    bytes_free(&toy.log);
    return is_exact;
}

int main(void)
{
    int failed = 0;
    char kept[512], broken[512];
    for (size_t i = 0; i < sizeof duties / sizeof *duties; i++) {
        bool is_exact = play(&duties[i], true, kept, sizeof kept);
        bool is_lost = !play(&duties[i], false, broken, sizeof broken);
        printf("%s %-28s kept: %-7s broken: %s\n", duties[i].name, duties[i].what, is_exact ? "exact" : kept, is_lost ? broken : "exact");
        failed |= !is_exact || !is_lost;
    }
    return failed;
}
