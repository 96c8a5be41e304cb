/* An index that an application of LMDB keeps: a database of keys, each with the numbers of its rows. */
#include "../lmdb/connection.h"
#include "own.h"

#include <stdlib.h>
#include <string.h>

const char own_store[] = "LMDB", own_index[] = "a database of keys, kept by the application";

static MDB_dbi own[INDEXES];
static bool is_there[INDEXES];

static void stop_if(int failed, const char *what)
{
    if (failed)
        stop(what, mdb_strerror(failed));
}

void own_begin(session *session)
{
    (void)session;
}

typedef struct found {
    uint8_t key[KEY_BYTES], number[NUMBER_BYTES];
} found;

static int compare(const void *left, const void *right)
{
    return memcmp(left, right, sizeof(found));
}

/* The keys are sorted before they are put: that is the fastest way. */
void own_create(session *session, int which)
{
    connection *connection = session->connection;
    MDB_stat stat;
    MDB_val key, value;
    MDB_cursor *cursor;
    size_t count = 0;
    stop_if(mdb_dbi_open(connection->writing, which ? "own 1" : "own 0", MDB_CREATE | MDB_DUPSORT | MDB_DUPFIXED, &own[which]), "own");
    stop_if(mdb_stat(connection->writing, connection->store->rows, &stat), "own");
    found *all = malloc((stat.ms_entries + 1) * sizeof *all);
    if (!all)
        stop("own", "no memory");
    stop_if(mdb_cursor_open(connection->writing, connection->store->rows, &cursor), "own");
    while (!mdb_cursor_get(cursor, &key, &value, MDB_NEXT)) {
        memcpy(all[count].key, (uint8_t *)value.mv_data + which * KEY_BYTES, KEY_BYTES);
        memcpy(all[count++].number, key.mv_data, NUMBER_BYTES);
    }
    mdb_cursor_close(cursor);
    qsort(all, count, sizeof *all, compare);
    for (size_t i = 0; i < count; i++) {
        MDB_val sorted_key = {KEY_BYTES, all[i].key}, number = {NUMBER_BYTES, all[i].number};
        stop_if(mdb_put(connection->writing, own[which], &sorted_key, &number, MDB_APPENDDUP), "own");
    }
    free(all);
    is_there[which] = true;
}

void own_put(session *session, uint32_t number, const row *next)
{
    connection *connection = session->connection;
    uint8_t room[NUMBER_BYTES];
    row old;
    bool had = store_get(connection, number, &old);
    for (int which = 0; which < INDEXES; which++) {
        if (!is_there[which])
            continue;
        MDB_val old_key = {KEY_BYTES, old.keys[which]}, new_key = {KEY_BYTES, (void *)(uintptr_t)next->keys[which]};
        MDB_val value = row_key(room, number);
        if (had)
            stop_if(mdb_del(connection->writing, own[which], &old_key, &value), "own");
        stop_if(mdb_put(connection->writing, own[which], &new_key, &value, 0), "own");
    }
    store_put(connection, number, next);
}

void own_end(session *session)
{
    for (int which = 0; which < INDEXES; which++)
        if (is_there[which])
            stop_if(mdb_drop(session->connection->writing, own[which], 1), "own");
}
