/* A connection to SQLite, as the files of this folder share it. */
#ifndef CONNECTION_H
#define CONNECTION_H
#include "../host.h"

#include <sqlite3.h>

enum statement {
    BEGIN, COMMIT, ROLL_BACK, GET, NEXT, LAST, INSERT, UPDATE, DELETE, PAGE, WRITE = PAGE + INDEXES, EACH, REMOVE, STATEMENTS
};

struct connection {
    sqlite3 *database;
    session *session;
    sqlite3_stmt *statements[STATEMENTS];
    uint32_t refused; /* why an index refused a change last, or 0 */
};

/* The functions that the triggers call, and those for reading: functions.c, range.c. */
void add_functions(connection *connection);
void add_range(connection *connection);

/* Reads a key of at most KEY_BYTES bytes, filled up with this byte; false where the value is no such key. */
bool read_key(sqlite3_value *value, uint8_t filling, uint8_t *key);

/* Whether there is such an index, and it is complete. */
bool is_complete(connection *connection, sqlite3_int64 which);

/* Runs statements of SQL in the open transaction. Where one fails, the whole transaction is rolled back, and false is returned. */
bool session_execute(session *session, const char *sql);
#endif
