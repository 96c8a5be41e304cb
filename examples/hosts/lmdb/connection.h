/* A connection to LMDB, as the files that know of LMDB share it. */
#ifndef CONNECTION_H
#define CONNECTION_H
#include "../host.h"

#include <lmdb.h>

enum { NUMBER_BYTES = 4 };

struct store {
    MDB_env *environment;
    MDB_dbi rows, records;
};

struct connection {
    store *store;
    session *session;
    MDB_txn *writing; /* the transaction that writes, if one is open */
};

/* The key of a row, in this room of NUMBER_BYTES. */
MDB_val row_key(uint8_t *room, uint32_t number);
#endif
