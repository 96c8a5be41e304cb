/* A table of keys and values in a file, whose index is built while the table is written.
 *
 *     kv FILE            makes the store in FILE, fills it, builds its index among further changes, and finds by it; then opens it again;
 *                        and the same in memory, saved and opened from what was saved
 *     kv --time FILE     measures calls a second, in memory and in FILE */
#define _POSIX_C_SOURCE 200809L
#include "nsf_file.h"

#include <time.h>

static void stop_if(uint32_t refused, const char *at)
{
    if (refused == NSF_OK)
        return;
    fprintf(stderr, "kv: %s: %s\n", at, refused == NSF_SYSTEM ? strerror(errno) : nsf_message(refused));
    exit(1);
}

/* Puts a row in a transaction of its own. */
static nsf_place put(nsf_handle *store, const char *key, const char *value, uint64_t *ticket)
{
    uint64_t txn;
    nsf_place place;
    stop_if(nsf_begin(store, &txn), "begin");
    stop_if(nsf_insert(store, txn, key, strlen(key), value, strlen(value), &place), "insert");
    stop_if(nsf_finish(store, txn), "step");
    stop_if(nsf_commit(store, txn, ticket), "commit");
    return place;
}

static void take_out(nsf_handle *store, nsf_place place)
{
    uint64_t txn, ticket;
    stop_if(nsf_begin(store, &txn), "begin");
    stop_if(nsf_delete(store, txn, place), "delete");
    stop_if(nsf_finish(store, txn), "step");
    stop_if(nsf_commit(store, txn, &ticket), "commit");
}

/* Makes a step of the builder, and tells whether the index is complete. */
static bool build_step(nsf_handle *store)
{
    bool is_complete;
    stop_if(nsf_build_step(store, &is_complete), "build");
    return is_complete;
}

/* Takes back what a transaction did. */
static void try_and_roll_back(nsf_handle *store, nsf_place place)
{
    uint64_t txn;
    stop_if(nsf_begin(store, &txn), "begin");
    stop_if(nsf_update(store, txn, place, "wasp", 4, "a sting", 7), "update");
    stop_if(nsf_roll_back(store, txn), "roll back");
}

static void show(nsf_handle *store, const char *key)
{
    nsf_place places[8] = {{0, 0}};
    uint64_t found;
    stop_if(nsf_find(store, key, strlen(key), places, 8, &found), "find");
    printf("%s: %llu\n", key, (unsigned long long)found);
    for (uint64_t i = 0; i < found && i < 8; i++) {
        nsf_reply row = NSF_NO_REPLY;
        stop_if(nsf_get(store, places[i], &row), "get");
        printf("  %u.%u %.*s\n", (unsigned)places[i].page, (unsigned)places[i].slot, row.body_length, (const char *)row.body);
    }
}

static void fill_and_build(nsf_handle *store)
{
    nsf_reply reply = NSF_NO_REPLY;
    nsf_place bee;
    uint64_t ticket;
    put(store, "ant", "six legs", &ticket);
    bee = put(store, "bee", "wings", &ticket);
    put(store, "ant", "a colony", &ticket);
    stop_if(nsf_create_index(store, &ticket), "create");
    /* the table is written while the index is built */
    build_step(store);
    put(store, "cow", "four legs", &ticket);
    try_and_roll_back(store, bee);
    take_out(store, bee);
    while (!build_step(store))
        ;
    put(store, "cow", "a herd", &ticket);
    stop_if(nsf_flush(store, &reply), "flush");
    printf("safe: %s\n", reply.number >= ticket ? "yes" : "no");
}

static void show_all(nsf_handle *store)
{
    show(store, "ant");
    show(store, "bee");
    show(store, "cow");
}

static void save_and_open(void)
{
    nsf_handle store = NSF_VACANT;
    size_t length = (size_t)nsf_sectors(4, 256, 16) * NSF_SECTOR;
    uint8_t *bytes = (uint8_t *)calloc(length, 1);
    if (!bytes)
        stop_if(NSF_NO_MEMORY, "save");
    stop_if(nsf_create(&store, -1, 4, 256, 16), "create");
    fill_and_build(&store);
    printf("saved: %s\n", nsf_save_bytes(&store, bytes, length) == length ? "all" : "a part");
    nsf_close(&store);
    stop_if(nsf_open(&store, -1, bytes, length), "open");
    free(bytes);
    show_all(&store);
    nsf_close(&store);
}

/* ---- calls a second */

static double now(void)
{
    struct timespec at;
    clock_gettime(CLOCK_MONOTONIC, &at);
    return (double)at.tv_sec + 1e-9 * (double)at.tv_nsec;
}

static void told(const char *what, int count, double began)
{
    printf("%-36s %12.0f a second\n", what, count / (now() - began));
}

/* So many commits of one row each, with a flush behind every `each` of them. */
static void time_commits(nsf_handle *store, const char *what, int count, int each)
{
    nsf_reply reply = NSF_NO_REPLY;
    char key[16];
    uint64_t ticket;
    double began = now();
    for (int i = 0; i < count; i++) {
        snprintf(key, sizeof key, "%06d", i);
        put(store, key, "value", &ticket);
        if ((i + 1) % each == 0)
            stop_if(nsf_flush(store, &reply), "flush");
    }
    told(what, count, began);
}

static void time_in_memory(void)
{
    nsf_handle store = NSF_VACANT;
    nsf_reply reply = NSF_NO_REPLY;
    nsf_status status = NSF_NO_STATUS;
    nsf_place place = {0, 0};
    uint64_t found, ticket;
    double began;
    stop_if(nsf_create(&store, -1, 256, 65536, 256), "create");
    began = now();
    for (int i = 0; i < 5000000; i++)
        nsf_stat(&store, &status);
    told("stat", 5000000, began);
    began = now();
    for (int i = 0; i < 2000000; i++)
        nsf_get(&store, place, &reply);
    told("get", 2000000, began);
    time_commits(&store, "commit of a row, flush each 64, memory", 12800, 64);
    stop_if(nsf_create_index(&store, &ticket), "create");
    began = now();
    while (!build_step(&store))
        ;
    told("pairs built", 12800, began);
    began = now();
    for (int i = 0; i < 500000; i++)
        stop_if(nsf_find(&store, "006400", 6, &place, 1, &found), "find");
    told("find", 500000, began);
    nsf_close(&store);
}

static void time_in_file(const char *path)
{
    nsf_file file;
    stop_if(nsf_file_create(&file, path, 64, 4096, 64), "create");
    time_commits(&file.handle, "commit of a row, flush each, file", 500, 1);
    time_commits(&file.handle, "commit of a row, flush each 64, file", 2048, 64);
    nsf_file_close(&file);
}

int main(int count, char **words)
{
    nsf_file file;
    if (count == 3 && strcmp(words[1], "--time") == 0) {
        time_in_memory();
        time_in_file(words[2]);
        return 0;
    }
    if (count != 2) {
        fprintf(stderr, "usage: kv FILE | kv --time FILE\n");
        return 2;
    }
    stop_if(nsf_file_create(&file, words[1], 4, 256, 16), words[1]);
    fill_and_build(&file.handle);
    show_all(&file.handle);
    nsf_file_close(&file);

    stop_if(nsf_file_open(&file, words[1]), words[1]);
    printf("opened again, sound: %s\n", nsf_can_open(&file.handle) ? "yes" : "no");
    show_all(&file.handle);
    nsf_file_close(&file);

    save_and_open();
    return 0;
}
