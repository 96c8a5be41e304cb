/* Rows and records in RocksDB: a column family of each. */
#include "connection.h"

#include <stdlib.h>
#include <string.h>

enum { NUMBER_BYTES = 4, RECORD_KEY_BYTES = 17 };

static void stop_if(char *failed, const char *what)
{
    if (failed)
        stop(what, failed);
}

/* ---- keys: the highest byte first, so that RocksDB's order is theirs */

static void write_number(char *to, uint64_t number, int bytes)
{
    for (int i = bytes - 1; i >= 0; i--, number >>= 8)
        to[i] = (char)(number & 0xff);
}

static uint64_t read_number(const char *from, int bytes)
{
    uint64_t number = 0;
    for (int i = 0; i < bytes; i++)
        number = number << 8 | (uint8_t)from[i];
    return number;
}

static void spell_key(char *room, record_key key)
{
    write_number(room, key.which, 1);
    write_number(room + 1, key.stream, 8);
    write_number(room + 9, key.place, 8);
}

/* ---- opening */

store *store_open(const char *folder, bool is_synced)
{
    const char *const names[FAMILIES] = {[ROWS] = "rows", [RECORDS] = "records", [OTHERS] = "default"};
    char *failed = NULL;
    store *store = calloc(1, sizeof *store);
    if (!store)
        stop("open", "no memory");
    store->options = rocksdb_options_create();
    rocksdb_options_set_create_if_missing(store->options, 1);
    rocksdb_options_set_create_missing_column_families(store->options, 1);
    store->database_options = rocksdb_transactiondb_options_create();
    store->transaction_options = rocksdb_transaction_options_create();
    rocksdb_transaction_options_set_deadlock_detect(store->transaction_options, 1);
    store->reading = rocksdb_readoptions_create();
    store->writing = rocksdb_writeoptions_create();
    rocksdb_writeoptions_set_sync(store->writing, is_synced);
    const rocksdb_options_t *options[FAMILIES] = {store->options, store->options, store->options};
    store->database = rocksdb_transactiondb_open_column_families(store->options, store->database_options, folder, FAMILIES, names, options,
                                                                 store->families, &failed);
    stop_if(failed, "open");
    return store;
}

void store_close(store *store)
{
    for (int i = 0; i < FAMILIES; i++)
        rocksdb_column_family_handle_destroy(store->families[i]);
    rocksdb_transactiondb_close(store->database);
    rocksdb_writeoptions_destroy(store->writing);
    rocksdb_readoptions_destroy(store->reading);
    rocksdb_transaction_options_destroy(store->transaction_options);
    rocksdb_transactiondb_options_destroy(store->database_options);
    rocksdb_options_destroy(store->options);
    free(store);
}

connection *connection_open(store *store, session *of)
{
    connection *connection = calloc(1, sizeof *connection);
    if (!connection)
        stop("open", "no memory");
    connection->store = store;
    connection->session = of;
    return connection;
}

void connection_close(connection *connection)
{
    free(connection->changes);
    free(connection);
}

/* ---- transactions */

void store_begin(connection *connection)
{
    store *store = connection->store;
    connection->writing = rocksdb_transaction_begin(store->database, store->writing, store->transaction_options, NULL);
}

static void end_transaction(connection *connection)
{
    if (connection->walk)
        rocksdb_iter_destroy(connection->walk);
    rocksdb_transaction_destroy(connection->writing);
    connection->walk = NULL;
    connection->writing = NULL;
}

void store_roll_back(connection *connection)
{
    char *failed = NULL;
    rocksdb_transaction_rollback(connection->writing, &failed);
    stop_if(failed, "roll back");
    end_transaction(connection);
}

bool store_commit(connection *connection)
{
    char *failed = NULL;
    rocksdb_transaction_commit(connection->writing, &failed);
    if (failed) {
        free(failed);
        store_roll_back(connection);
        return false;
    }
    end_transaction(connection);
    return true;
}

/* ---- rows */

static void copy_row(row *to, const char *from, size_t length)
{
    if (length != ROW_BYTES)
        stop("row", "it has another length");
    memcpy(to, from, ROW_BYTES);
}

/* A transaction of rows takes the lock of the row. One that tells the indexes is alone, and reads what is committed. */
bool store_get(connection *connection, uint32_t number, row *found)
{
    store *store = connection->store;
    char key[NUMBER_BYTES], *failed = NULL, *value;
    size_t length = 0;
    write_number(key, number, NUMBER_BYTES);
    rocksdb_column_family_handle_t *rows = store->families[ROWS];
    if (connection->session->is_writing)
        value = rocksdb_transaction_get_cf(connection->writing, store->reading, rows, key, NUMBER_BYTES, &length, &failed);
    else
        value = rocksdb_transaction_get_for_update_cf(connection->writing, store->reading, rows, key, NUMBER_BYTES, &length, 1, &failed);
    if (failed && connection->session->is_writing)
        stop("get", failed);
    connection->is_refused |= failed != NULL;
    if (value)
        copy_row(found, value, length);
    free(failed);
    free(value);
    return value != NULL;
}

static void put_value(connection *connection, int family, const char *key, size_t key_length, const void *value, size_t length)
{
    char *failed = NULL;
    rocksdb_transaction_put_cf(connection->writing, connection->store->families[family], key, key_length, value, length, &failed);
    stop_if(failed, "put");
}

static void delete_value(connection *connection, int family, const char *key, size_t key_length)
{
    char *failed = NULL;
    rocksdb_transaction_delete_cf(connection->writing, connection->store->families[family], key, key_length, &failed);
    stop_if(failed, "delete");
}

void store_put(connection *connection, uint32_t number, const row *row)
{
    char key[NUMBER_BYTES];
    write_number(key, number, NUMBER_BYTES);
    put_value(connection, ROWS, key, NUMBER_BYTES, row, ROW_BYTES);
}

void store_delete(connection *connection, uint32_t number)
{
    char key[NUMBER_BYTES];
    write_number(key, number, NUMBER_BYTES);
    delete_value(connection, ROWS, key, NUMBER_BYTES);
}

static rocksdb_iterator_t *iterator_of(connection *connection, int family)
{
    store *store = connection->store;
    return rocksdb_transaction_create_iterator_cf(connection->writing, store->reading, store->families[family]);
}

static uint32_t number_at(const rocksdb_iterator_t *iterator)
{
    size_t length;
    return (uint32_t)read_number(rocksdb_iter_key(iterator, &length), NUMBER_BYTES);
}

bool store_next(connection *connection, uint32_t *number, row *found)
{
    char key[NUMBER_BYTES];
    size_t length;
    if (!connection->walk)
        connection->walk = iterator_of(connection, ROWS);
    write_number(key, *number, NUMBER_BYTES);
    rocksdb_iter_seek(connection->walk, key, NUMBER_BYTES);
    if (!rocksdb_iter_valid(connection->walk))
        return false;
    *number = number_at(connection->walk);
    const char *value = rocksdb_iter_value(connection->walk, &length);
    copy_row(found, value, length);
    return true;
}

bool store_last(connection *connection, uint32_t *number)
{
    rocksdb_iterator_t *iterator = iterator_of(connection, ROWS);
    rocksdb_iter_seek_to_last(iterator);
    bool is_there = rocksdb_iter_valid(iterator);
    if (is_there)
        *number = number_at(iterator);
    rocksdb_iter_destroy(iterator);
    return is_there;
}

/* H5: an iterator sees what is committed, at one moment. */
size_t store_read_page(connection *connection, int which, uint32_t page, nsf_index_pair *pairs)
{
    store *store = connection->store;
    char key[NUMBER_BYTES];
    size_t count = 0, length;
    rocksdb_iterator_t *iterator = rocksdb_transactiondb_create_iterator_cf(store->database, store->reading, store->families[ROWS]);
    write_number(key, page * NSF_INDEX_SLOTS, NUMBER_BYTES);
    rocksdb_iter_seek(iterator, key, NUMBER_BYTES);
    while (rocksdb_iter_valid(iterator) && number_at(iterator) / NSF_INDEX_SLOTS == page) {
        const char *value = rocksdb_iter_value(iterator, &length);
        pairs[count++] = nsf_index_pair_of(number_at(iterator), value + which * KEY_BYTES, KEY_BYTES);
        rocksdb_iter_next(iterator);
    }
    rocksdb_iter_destroy(iterator);
    return count;
}

/* ---- records */

void store_write(connection *connection, record_key key, const uint8_t *bytes, size_t length)
{
    char name[RECORD_KEY_BYTES];
    spell_key(name, key);
    put_value(connection, RECORDS, name, RECORD_KEY_BYTES, bytes, length);
}

static bool is_below(const rocksdb_iterator_t *iterator, record_key high)
{
    char name[RECORD_KEY_BYTES];
    size_t length;
    spell_key(name, high);
    return rocksdb_iter_valid(iterator) && memcmp(rocksdb_iter_key(iterator, &length), name, RECORD_KEY_BYTES) < 0;
}

static rocksdb_iterator_t *records_from(connection *connection, record_key low)
{
    char name[RECORD_KEY_BYTES];
    rocksdb_iterator_t *iterator = iterator_of(connection, RECORDS);
    spell_key(name, low);
    rocksdb_iter_seek(iterator, name, RECORD_KEY_BYTES);
    return iterator;
}

void store_each(connection *connection, record_key low, record_key high, visitor visit, void *context)
{
    rocksdb_iterator_t *iterator = records_from(connection, low);
    size_t length;
    while (is_below(iterator, high)) {
        const char *value = rocksdb_iter_value(iterator, &length);
        size_t name_length;
        visit(context, read_number(rocksdb_iter_key(iterator, &name_length) + 9, 8), (const uint8_t *)value, length);
        rocksdb_iter_next(iterator);
    }
    rocksdb_iter_destroy(iterator);
}

uint32_t store_remove(connection *connection, record_key *low, record_key high, uint32_t most)
{
    rocksdb_iterator_t *iterator = records_from(connection, *low);
    uint32_t removed = 0;
    for (; removed < most && is_below(iterator, high); removed++) {
        char name[RECORD_KEY_BYTES];
        size_t length;
        memcpy(name, rocksdb_iter_key(iterator, &length), RECORD_KEY_BYTES);
        rocksdb_iter_next(iterator);
        delete_value(connection, RECORDS, name, RECORD_KEY_BYTES);
        low->stream = read_number(name + 1, 8);
        low->place = read_number(name + 9, 8) + 1;
    }
    rocksdb_iter_destroy(iterator);
    return removed;
}

/* RocksDB has no queries and no statements of its own. */
bool store_check(connection *connection, int which)
{
    (void)connection, (void)which;
    return true;
}

void store_try(session *session)
{
    (void)session;
}
