/* When nsf_create and nsf_open are refused for want of memory, and when by a line that failed: then, and only then. No contract of the library
 * says that memory was refused where a call answers 1. So here each allocation is refused in turn, and each request of a line fails.
 *
 * It is linked with -Wl,--wrap=malloc,--wrap=realloc, which has the library call the functions below. */
#define _POSIX_C_SOURCE 200809L
#include "nsf_file.h"

enum { PAGES = 4, ENTRIES = 256, SLOTS = 16, STRIDE = 7 };

static void tell(const char *what, bool is_so)
{
    printf("%s: %s\n", what, is_so ? "yes" : "no");
}

/* ---- memory */

/* Which of the next allocations is refused; none where it is negative. */
static long refused_allocation = -1;
static bool was_refused;

static bool refuses(void)
{
    if (refused_allocation-- != 0)
        return false;
    was_refused = true;
    return true;
}

void *__real_malloc(size_t size);
void *__real_realloc(void *at, size_t size);
void *__wrap_malloc(size_t size);
void *__wrap_realloc(void *at, size_t size);

void *__wrap_malloc(size_t size)
{
    return refuses() ? NULL : __real_malloc(size);
}

void *__wrap_realloc(void *at, size_t size)
{
    return refuses() ? NULL : __real_realloc(at, size);
}

/* ---- a line */

/* Its other end does what it is asked, in no file, but for the request that is to fail. */
typedef struct other_end {
    int line[2];
    pthread_t thread;
    long failing; /* which request fails; none where it is negative */
    bool has_failed;
} other_end;

static void *serve(void *at)
{
    other_end *other = (other_end *)at;
    static const uint8_t sync[8] = {255, 255, 255, 255, 255, 255, 255, 255};
    uint8_t asked[8 + NSF_SECTOR];
    while (nsf_take_all(other->line[1], asked, 8)
           && (memcmp(asked, sync, 8) == 0 || nsf_take_all(other->line[1], asked + 8, NSF_SECTOR))) {
        const uint8_t answer = other->failing-- == 0;
        other->has_failed = other->has_failed || answer;
        if (write(other->line[1], &answer, 1) != 1)
            break;
    }
    return NULL;
}

static void begin_line(other_end *other, long failing)
{
    other->failing = failing;
    other->has_failed = false;
    if (socketpair(AF_UNIX, SOCK_STREAM, 0, other->line) != 0 || nsf_start_thread(&other->thread, serve, other) != 0)
        exit(1);
}

/* Ends it, and tells whether it has failed. */
static bool end_line(other_end *other)
{
    shutdown(other->line[0], SHUT_WR);
    pthread_join(other->thread, NULL);
    close(other->line[0]);
    close(other->line[1]);
    return other->has_failed;
}

/* ---- the two calls */

static uint8_t *saved;
static size_t saved_length;

static uint32_t create_on(nsf_handle *handle, int32_t line)
{
    return nsf_create(handle, line, PAGES, ENTRIES, SLOTS);
}

static uint32_t open_on(nsf_handle *handle, int32_t line)
{
    return nsf_open(handle, line, saved, saved_length);
}

/* Saves a store with a row, whose index is being built, as a crash would leave it. */
static bool save(void)
{
    nsf_handle store = NSF_VACANT;
    nsf_reply reply = NSF_NO_REPLY;
    nsf_place place;
    uint64_t txn, ticket;
    bool is_complete;
    saved_length = (size_t)nsf_sectors(PAGES, ENTRIES, SLOTS) * NSF_SECTOR;
    saved = (uint8_t *)calloc(saved_length, 1);
    const bool is_done = saved && !create_on(&store, -1) && !nsf_begin(&store, &txn) && !nsf_insert(&store, txn, "ant", 3, "1", 1, &place)
        && !nsf_commit(&store, txn, &ticket) && !nsf_create_index(&store, &ticket) && !nsf_build_step(&store, &is_complete)
        && !nsf_flush(&store, &reply) && nsf_save_bytes(&store, saved, saved_length) == saved_length;
    nsf_close_if_open(&store);
    return is_done;
}

/* With each allocation refused in turn the call answers 0, or 1 where one was refused, until none is: then 0. */
static bool wants_what_was_refused(uint32_t (*call)(nsf_handle *, int32_t))
{
    long turn = 0, told = 0;
    bool is_so = true;
    do {
        nsf_handle store = NSF_VACANT;
        was_refused = false;
        refused_allocation = turn++;
        const uint32_t refused = call(&store, -1);
        refused_allocation = -1;
        told += refused == NSF_NO_MEMORY;
        is_so = is_so && (refused == NSF_OK || (refused == NSF_NO_MEMORY && was_refused && !store.at));
        nsf_close_if_open(&store);
    } while (was_refused);
    return is_so && told > 0;
}

/* With each request of the line failing in turn the call answers 2, and once none fails 0. */
static bool fails_with_its_line(uint32_t (*call)(nsf_handle *, int32_t), long *requests)
{
    bool is_so = true, has_failed = true;
    for (*requests = 0; has_failed; *requests += STRIDE) {
        nsf_handle store = NSF_VACANT;
        other_end other;
        begin_line(&other, *requests);
        const uint32_t refused = call(&store, other.line[0]);
        nsf_close_if_open(&store);
        has_failed = end_line(&other);
        is_so = is_so && refused == (has_failed ? NSF_DEVICE_FAILED : NSF_OK);
    }
    return is_so;
}

int main(void)
{
    long requests;
    if (!save())
        return 1;
    tell("a creation wants memory where it was refused", wants_what_was_refused(create_on));
    tell("an opening wants memory where it was refused", wants_what_was_refused(open_on));
    tell("a creation fails where its line failed", fails_with_its_line(create_on, &requests) && requests > 80);
    tell("an opening fails where its line failed", fails_with_its_line(open_on, &requests));
    free(saved);
    return 0;
}
