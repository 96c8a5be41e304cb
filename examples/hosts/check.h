/* The check of a host, in the manner of SQLite's `PRAGMA integrity_check`. */
#ifndef CHECK_H
#define CHECK_H
#include "host.h"

typedef struct checked {
    uint64_t rows, visible, marked;
    uint64_t of_no_row;     /* visible entries of which no row has the key */
    uint64_t in_no_entry;   /* rows whose entry isn't visible, though the build has passed it */
    bool is_complete, is_refused;    /* whether the store's own check found a fault */
} checked;

/* Looks each visible entry of an index up in the rows, and each row in the entries. No transaction is open meanwhile. */
checked check_index(session *session, int which);
bool is_exact(const checked *checked);
#endif
