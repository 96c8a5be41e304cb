/* What a store does for a host: rows by number, and records of the indexes in the same transactions. lmdb, sqlite and rocksdb have
 * such. Where a store fails it ends the process, but for a commit. */
#ifndef STORE_H
#define STORE_H
#include "part.h"

enum { INDEXES = 2, ROW_BYTES = 500 };

/* A row has a key for each index. */
typedef struct row {
    uint8_t keys[INDEXES][KEY_BYTES];
    uint8_t rest[ROW_BYTES - INDEXES * KEY_BYTES];
} row;

/* Records stand in streams, of each index: its log, and its checkpoint. */
typedef struct record_key {
    uint8_t which;
    uint64_t stream, place;
} record_key;

typedef struct store store;           /* one for all threads */
typedef struct connection connection; /* one of each thread */
struct session;

store *store_open(const char *folder, bool is_synced);
void store_close(store *store);
connection *connection_open(store *store, struct session *of);
void connection_close(connection *connection);

/* A transaction that writes. A commit that fails leaves all as it was before. */
void store_begin(connection *connection);
bool store_commit(connection *connection);
void store_roll_back(connection *connection);

/* Rows, in such a transaction: one, the next from a number on, the greatest number, and changes that no index is told of here. */
bool store_get(connection *connection, uint32_t number, row *found);
bool store_next(connection *connection, uint32_t *number, row *found);
bool store_last(connection *connection, uint32_t *number);
void store_put(connection *connection, uint32_t number, const row *row);
void store_delete(connection *connection, uint32_t number);

/* The pairs of a page's rows for an index, from a snapshot of what is committed: no lock is held. Their number is returned. */
size_t store_read_page(connection *connection, int which, uint32_t page, nsf_index_pair *pairs);

/* Records, in a transaction that writes. The last two end before the key `high`; removing ends after so many,
 * returns how many, and may move `low` past them: RocksDB goes slowly over what was removed. */
typedef void (*visitor)(void *context, uint64_t place, const uint8_t *bytes, size_t length);
void store_write(connection *connection, record_key key, const uint8_t *bytes, size_t length);
void store_each(connection *connection, record_key low, record_key high, visitor visit, void *context);
uint32_t store_remove(connection *connection, record_key *low, record_key high, uint32_t most);

/* Checks a complete index further, by means of the store's own, in a transaction that writes. */
bool store_check(connection *connection, int which);

/* Tries what only this store has, once the first index is complete. */
void store_try(struct session *session);

/* Says why, and ends the process. */
_Noreturn void stop(const char *what, const char *why);
#endif
