/* Rows and records in LMDB: a database of rows by number, and one of records. */
#include "connection.h"

#include <stdlib.h>
#include <string.h>
#include <sys/stat.h>

enum { RECORD_KEY_BYTES = 17, READERS = 64, DATABASES = 4 };
#define MAP_BYTES ((size_t)8 << 30)

static void stop_if(int failed, const char *what)
{
    if (failed)
        stop(what, mdb_strerror(failed));
}

/* ---- keys: the highest byte first, so that LMDB's order is theirs */

static void write_number(uint8_t *to, uint64_t number, int bytes)
{
    for (int i = bytes - 1; i >= 0; i--, number >>= 8)
        to[i] = (uint8_t)number;
}

static uint64_t read_number(const uint8_t *from, int bytes)
{
    uint64_t number = 0;
    for (int i = 0; i < bytes; i++)
        number = number << 8 | from[i];
    return number;
}

MDB_val row_key(uint8_t *room, uint32_t number)
{
    write_number(room, number, NUMBER_BYTES);
    return (MDB_val){NUMBER_BYTES, room};
}

static uint32_t number_of(const MDB_val *key)
{
    return (uint32_t)read_number(key->mv_data, NUMBER_BYTES);
}

static MDB_val spell_key(uint8_t *room, record_key key)
{
    room[0] = key.which;
    write_number(room + 1, key.stream, 8);
    write_number(room + 9, key.place, 8);
    return (MDB_val){RECORD_KEY_BYTES, room};
}

/* ---- opening */

store *store_open(const char *folder, bool is_synced)
{
    store *store = calloc(1, sizeof *store);
    MDB_txn *txn;
    if (!store)
        stop("open", "no memory");
    mkdir(folder, 0755); /* where it is there already, opening it says more */
    stop_if(mdb_env_create(&store->environment), "open");
    stop_if(mdb_env_set_mapsize(store->environment, MAP_BYTES), "open");
    stop_if(mdb_env_set_maxdbs(store->environment, DATABASES), "open");
    stop_if(mdb_env_set_maxreaders(store->environment, READERS), "open");
    stop_if(mdb_env_open(store->environment, folder, is_synced ? 0 : MDB_NOSYNC, 0644), "open");
    stop_if(mdb_txn_begin(store->environment, NULL, 0, &txn), "open");
    stop_if(mdb_dbi_open(txn, "rows", MDB_CREATE, &store->rows), "open");
    stop_if(mdb_dbi_open(txn, "records", MDB_CREATE, &store->records), "open");
    stop_if(mdb_txn_commit(txn), "open");
    return store;
}

void store_close(store *store)
{
    mdb_env_close(store->environment);
    free(store);
}

connection *connection_open(store *store, session *of)
{
    connection *connection = calloc(1, sizeof *connection);
    if (!connection)
        stop("open", "no memory");
    connection->store = store;
    connection->session = of;
    return connection;
}

void connection_close(connection *connection)
{
    free(connection);
}

/* ---- transactions */

void store_begin(connection *connection)
{
    stop_if(mdb_txn_begin(connection->store->environment, NULL, 0, &connection->writing), "begin");
}

bool store_commit(connection *connection)
{
    int failed = mdb_txn_commit(connection->writing);
    connection->writing = NULL;
    return !failed;
}

void store_roll_back(connection *connection)
{
    mdb_txn_abort(connection->writing);
    connection->writing = NULL;
}

/* ---- rows */

static void copy_row(row *to, const MDB_val *from)
{
    if (from->mv_size != ROW_BYTES)
        stop("row", "it has another length");
    memcpy(to, from->mv_data, ROW_BYTES);
}

bool store_get(connection *connection, uint32_t number, row *found)
{
    uint8_t room[NUMBER_BYTES];
    MDB_val key = row_key(room, number), value;
    int failed = mdb_get(connection->writing, connection->store->rows, &key, &value);
    if (failed == MDB_NOTFOUND)
        return false;
    stop_if(failed, "get");
    copy_row(found, &value);
    return true;
}

void store_put(connection *connection, uint32_t number, const row *row)
{
    uint8_t room[NUMBER_BYTES];
    MDB_val key = row_key(room, number), value = {ROW_BYTES, (void *)(uintptr_t)row};
    stop_if(mdb_put(connection->writing, connection->store->rows, &key, &value, 0), "put");
}

void store_delete(connection *connection, uint32_t number)
{
    uint8_t room[NUMBER_BYTES];
    MDB_val key = row_key(room, number);
    stop_if(mdb_del(connection->writing, connection->store->rows, &key, NULL), "delete");
}

static MDB_cursor *cursor_of(MDB_txn *txn, MDB_dbi database)
{
    MDB_cursor *cursor;
    stop_if(mdb_cursor_open(txn, database, &cursor), "cursor");
    return cursor;
}

bool store_next(connection *connection, uint32_t *number, row *found)
{
    uint8_t room[NUMBER_BYTES];
    MDB_val key = row_key(room, *number), value;
    MDB_cursor *cursor = cursor_of(connection->writing, connection->store->rows);
    bool is_there = !mdb_cursor_get(cursor, &key, &value, MDB_SET_RANGE);
    if (is_there) {
        *number = number_of(&key);
        copy_row(found, &value);
    }
    mdb_cursor_close(cursor);
    return is_there;
}

bool store_last(connection *connection, uint32_t *number)
{
    MDB_val key, value;
    MDB_cursor *cursor = cursor_of(connection->writing, connection->store->rows);
    bool is_there = !mdb_cursor_get(cursor, &key, &value, MDB_LAST);
    if (is_there)
        *number = number_of(&key);
    mdb_cursor_close(cursor);
    return is_there;
}

/* H5: a snapshot of what is committed. */
size_t store_read_page(connection *connection, int which, uint32_t page, nsf_index_pair *pairs)
{
    uint8_t room[NUMBER_BYTES];
    MDB_val key = row_key(room, page * NSF_INDEX_SLOTS), value;
    MDB_txn *snapshot;
    size_t count = 0;
    stop_if(mdb_txn_begin(connection->store->environment, NULL, MDB_RDONLY, &snapshot), "snapshot");
    MDB_cursor *cursor = cursor_of(snapshot, connection->store->rows);
    int failed = mdb_cursor_get(cursor, &key, &value, MDB_SET_RANGE);
    while (!failed && number_of(&key) / NSF_INDEX_SLOTS == page) {
        pairs[count++] = nsf_index_pair_of(number_of(&key), (uint8_t *)value.mv_data + which * KEY_BYTES, KEY_BYTES);
        failed = mdb_cursor_get(cursor, &key, &value, MDB_NEXT);
    }
    mdb_cursor_close(cursor);
    mdb_txn_abort(snapshot);
    return count;
}

/* H3 and H4: the indexes are told before the row changes, and after it. */
static uint32_t change_row(session *session, uint32_t number, const row *next)
{
    row old;
    bool had = store_get(session->connection, number, &old);
    if (!had && !next)
        return 0;
    uint32_t refused = host_prepare(session->host, number, had ? &old : NULL, next);
    if (refused)
        return refused;
    if (next)
        store_put(session->connection, number, next);
    else
        store_delete(session->connection, number);
    host_put(session->host, number, had ? &old : NULL, next);
    return 0;
}

uint32_t session_put(session *session, uint32_t number, const row *row)
{
    return change_row(session, number, row);
}

uint32_t session_delete(session *session, uint32_t number)
{
    return change_row(session, number, NULL);
}

/* ---- records */

void store_write(connection *connection, record_key key, const uint8_t *bytes, size_t length)
{
    uint8_t room[RECORD_KEY_BYTES];
    MDB_val name = spell_key(room, key), value = {length, (void *)(uintptr_t)bytes};
    stop_if(mdb_put(connection->writing, connection->store->records, &name, &value, 0), "records");
}

static bool is_below(const MDB_val *key, record_key high)
{
    uint8_t room[RECORD_KEY_BYTES];
    spell_key(room, high);
    return memcmp(key->mv_data, room, RECORD_KEY_BYTES) < 0;
}

void store_each(connection *connection, record_key low, record_key high, visitor visit, void *context)
{
    uint8_t room[RECORD_KEY_BYTES];
    MDB_val key = spell_key(room, low), value;
    MDB_cursor *cursor = cursor_of(connection->writing, connection->store->records);
    int failed = mdb_cursor_get(cursor, &key, &value, MDB_SET_RANGE);
    while (!failed && is_below(&key, high)) {
        visit(context, read_number((uint8_t *)key.mv_data + 9, 8), value.mv_data, value.mv_size);
        failed = mdb_cursor_get(cursor, &key, &value, MDB_NEXT);
    }
    mdb_cursor_close(cursor);
}

uint32_t store_remove(connection *connection, record_key *low, record_key high, uint32_t most)
{
    uint8_t room[RECORD_KEY_BYTES];
    MDB_val key = spell_key(room, *low), value;
    MDB_cursor *cursor = cursor_of(connection->writing, connection->store->records);
    uint32_t removed = 0;
    int failed = mdb_cursor_get(cursor, &key, &value, MDB_SET_RANGE);
    while (!failed && removed < most && is_below(&key, high)) {
        stop_if(mdb_cursor_del(cursor, 0), "remove");
        removed++;
        failed = mdb_cursor_get(cursor, &key, &value, MDB_GET_CURRENT);
    }
    mdb_cursor_close(cursor);
    return removed;
}

/* LMDB has no queries and no statements of its own. */
bool store_check(connection *connection, int which)
{
    (void)connection, (void)which;
    return true;
}

void store_try(session *session)
{
    (void)session;
}
