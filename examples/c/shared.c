/* A table of keys and values that several threads write at once, while its index is created, built and read: shared FILE [SECONDS].
 *
 * Each of four writers puts rows of its own; every fifth transaction changes three, every seventh is rolled back. Meanwhile another
 * thread creates the index and scans what is committed. Then the file is closed, opened again, looked through and cleaned. With SECONDS the
 * writers go on so long, and it tells commits a second. */
#define _POSIX_C_SOURCE 200809L
#include "nsf_shared.h"

enum { WRITERS = 4, TURNS = 100, PAGES = 256, ENTRIES = 65536, SLOTS = 256, PATIENCE = 5000 };

typedef struct writer {
    nsf_shared *shared;
    pthread_t thread;
    unsigned number;
    unsigned turns;
    time_t until;
    unsigned rows;    /* that are to be there at the end */
    unsigned commits;
} writer;

static void must(uint32_t refused, const char *what)
{
    if (!refused)
        return;
    fprintf(stderr, "%s: %s\n", what, refused == NSF_SYSTEM ? strerror(errno) : nsf_message(refused));
    exit(1);
}

static size_t key_of(char *key, unsigned writer, unsigned turn, unsigned part)
{
    return (size_t)sprintf(key, "w%u-%06u-%u", writer, turn, part);
}

/* A transaction of three rows, of which the first is changed and the second deleted again. */
static void change_three(writer *w, nsf_seat *seat, unsigned turn)
{
    char key[NSF_KEY_MAX];
    nsf_place places[3];
    uint64_t txn;
    must(nsf_seat_begin(seat, &txn), "begin");
    for (unsigned i = 0; i < 3; i++)
        must(nsf_seat_insert(seat, txn, key, key_of(key, w->number, turn, i), "x", 1, &places[i]), "insert");
    must(nsf_seat_update(seat, txn, places[0], key, key_of(key, w->number, turn, 9), "y", 1), "update");
    must(nsf_seat_delete(seat, txn, places[1]), "delete");
    if (turn % 7 == 0) {
        must(nsf_seat_roll_back(seat, txn), "roll back");
        return;
    }
    must(nsf_seat_commit(seat, txn), "commit");
    w->rows += 2;
    w->commits++;
}

static void *write_rows(void *at)
{
    writer *w = (writer *)at;
    nsf_seat seat;
    must(nsf_seat_take(&seat, w->shared), "take a seat");
    for (unsigned turn = 0; w->until ? time(NULL) < w->until : turn < w->turns; turn++) {
        char key[NSF_KEY_MAX];
        nsf_place place;
        if (turn % 5 == 0) {
            change_three(w, &seat, turn);
            continue;
        }
        must(nsf_seat_put(&seat, key, key_of(key, w->number, turn, 0), "x", 1, &place), "put");
        w->rows++;
        w->commits++;
        if (w->until) { /* else the table would be full soon */
            uint64_t txn;
            must(nsf_seat_begin(&seat, &txn), "begin");
            must(nsf_seat_delete(&seat, txn, place), "delete");
            must(nsf_seat_commit(&seat, txn), "commit");
            w->rows--;
            w->commits++;
        }
    }
    nsf_seat_leave(&seat);
    return NULL;
}

/* Counts the pairs of a scan, a few at a time, by nsf_seat_scan or from the end by nsf_seat_scan_back. */
static unsigned long count_by(nsf_seat *seat, nsf_scan scan, uint32_t (*read)(nsf_seat *, nsf_scan *, nsf_reply *, size_t, size_t *))
{
    nsf_reply pairs[16];
    size_t count;
    unsigned long all = 0;
    do {
        must(read(seat, &scan, pairs, 16, &count), "scan");
        all += count;
    } while (count == 16);
    return all;
}

static unsigned long count_pairs(nsf_seat *seat, nsf_scan scan)
{
    return count_by(seat, scan, nsf_seat_scan);
}

static void await_index(nsf_seat *seat)
{
    nsf_status status;
    struct timespec moment = {0, 1000000};
    for (;;) {
        must(nsf_seat_progress(seat, &status), "progress");
        if (status.life == NSF_COMPLETE)
            return;
        nanosleep(&moment, NULL);
    }
}

/* How many rows there are, each of which a search by its key finds. */
static unsigned long count_rows(nsf_seat *seat)
{
    unsigned long all = 0;
    nsf_status status;
    must(nsf_seat_progress(seat, &status), "progress");
    for (uint32_t page = 0; page < status.pages; page++)
        for (uint16_t slot = 0; slot < NSF_SLOTS_PER_PAGE; slot++) {
            nsf_place place = {page, slot}, found[4];
            nsf_reply row = NSF_NO_REPLY;
            uint64_t number;
            must(nsf_seat_get_committed(seat, place, &row), "get");
            if (row.kind == NSF_NO_ROW)
                continue;
            must(nsf_seat_find(seat, row.key, row.key_length, found, 4, &number), "find");
            if (number == 1 && found[0].page == page && found[0].slot == slot)
                all++;
        }
    return all;
}

/* Whether a cleaning leaves no marked entry. No transaction is active. */
static bool is_clean(nsf_seat *seat)
{
    nsf_status status;
    uint64_t cleaned;
    must(nsf_seat_clean(seat, &cleaned), "clean");
    must(nsf_seat_progress(seat, &status), "progress");
    return status.marked == 0;
}

int main(int words, char **word)
{
    if (words < 2) {
        fprintf(stderr, "usage: %s FILE [SECONDS]\n", word[0]);
        return 2;
    }
    const time_t seconds = words > 2 ? atoi(word[2]) : 0;
    nsf_shared shared;
    nsf_seat seat;
    writer writers[WRITERS];
    unsigned long rows = 0, commits = 0;
    must(nsf_shared_create(&shared, word[1], PAGES, ENTRIES, SLOTS), word[1]);
    must(nsf_seat_take(&seat, &shared), "take a seat");
    for (unsigned i = 0; i < WRITERS; i++) {
        const writer w = {&shared, 0, i, TURNS, seconds ? time(NULL) + seconds : 0, 0, 0};
        writers[i] = w;
        if (pthread_create(&writers[i].thread, NULL, write_rows, &writers[i]) != 0)
            return 1;
    }
    must(nsf_seat_create_index(&seat, PATIENCE), "create the index");
    await_index(&seat);
    nsf_scan committed = nsf_scan_all();
    committed.bounds.committed = 1;
    count_pairs(&seat, committed);
    for (unsigned i = 0; i < WRITERS; i++) {
        pthread_join(writers[i].thread, NULL);
        rows += writers[i].rows;
        commits += writers[i].commits;
    }
    if (seconds)
        printf("%lu commits a second\n", commits / (unsigned long)seconds);
    nsf_seat_leave(&seat);
    must(nsf_shared_close(&shared), "close");

    must(nsf_shared_open(&shared, word[1]), word[1]);
    must(nsf_seat_take(&seat, &shared), "take a seat");
    await_index(&seat);
    const bool is_same = count_rows(&seat) == rows && count_pairs(&seat, nsf_scan_all()) == rows
        && count_by(&seat, nsf_scan_all(), nsf_seat_scan_back) == rows && is_clean(&seat) && count_rows(&seat) == rows;
    printf("rows of the first writer %lu\n", count_pairs(&seat, nsf_scan_prefix("w0-", 3)));
    printf("all as it was acknowledged: %s\n", is_same ? "yes" : "no");
    nsf_seat_leave(&seat);
    must(nsf_shared_close(&shared), "close");
    return is_same ? 0 : 1;
}
