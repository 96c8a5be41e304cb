/* A connection to RocksDB, as the files of this folder share it. */
#ifndef CONNECTION_H
#define CONNECTION_H
#include "../host.h"

#include <rocksdb/c.h>

enum { ROWS, RECORDS, OTHERS, FAMILIES }; /* the column families; the last must be there, and has nothing */

struct store {
    rocksdb_transactiondb_t *database;
    rocksdb_column_family_handle_t *families[FAMILIES];
    rocksdb_options_t *options;
    rocksdb_transactiondb_options_t *database_options;
    rocksdb_transaction_options_t *transaction_options;
    rocksdb_readoptions_t *reading;
    rocksdb_writeoptions_t *writing;
};

/* A change of a row by the open transaction. No index has been told of it yet. */
typedef struct row_change {
    uint32_t number;
    bool had, has;
    row old, next;
} row_change;

struct connection {
    store *store;
    session *session;
    rocksdb_transaction_t *writing; /* the transaction that writes, if one is open */
    rocksdb_iterator_t *walk;       /* over its rows, if it has walked */
    row_change *changes;
    size_t count, room;
    bool is_refused;                /* whether a lock of a row was refused to it */
};
#endif
