/* Rows and records in SQLite: a table of rows, and one of records, in one file with a write-ahead log. Triggers tell the indexes of each
 * change, so that any statement of SQL may change rows. (A row that comes has no pair before, so that it may be prepared once it is
 * there.) */
#include "connection.h"

#include <stdio.h>
#include <stdlib.h>
#include <string.h>
#include <sys/stat.h>

enum { PATH_ROOM = 4096, BUSY_MS = 10000 };

struct store {
    char path[PATH_ROOM];
    bool is_synced;
};

static const char schema[] =
    "CREATE TABLE IF NOT EXISTS rows(number INTEGER PRIMARY KEY, a BLOB NOT NULL, b BLOB NOT NULL, rest BLOB);"
    "CREATE TABLE IF NOT EXISTS online_index_records(which INTEGER, stream INTEGER, place INTEGER, bytes BLOB,"
    "    PRIMARY KEY(which, stream, place)) WITHOUT ROWID;"
    "CREATE TRIGGER IF NOT EXISTS rows_numbered BEFORE UPDATE OF number ON rows WHEN OLD.number <> NEW.number BEGIN"
    "    SELECT RAISE(ABORT, 'a row keeps its number'); END;"
    "CREATE TRIGGER IF NOT EXISTS rows_inserted AFTER INSERT ON rows BEGIN"
    "    SELECT online_index_prepare(NEW.number, NULL, NULL, NEW.a, NEW.b);"
    "    SELECT online_index_put(NEW.number, NULL, NULL, NEW.a, NEW.b); END;"
    "CREATE TRIGGER IF NOT EXISTS rows_to_be_updated BEFORE UPDATE OF a, b ON rows BEGIN"
    "    SELECT online_index_prepare(OLD.number, OLD.a, OLD.b, NEW.a, NEW.b); END;"
    "CREATE TRIGGER IF NOT EXISTS rows_updated AFTER UPDATE OF a, b ON rows BEGIN"
    "    SELECT online_index_put(OLD.number, OLD.a, OLD.b, NEW.a, NEW.b); END;"
    "CREATE TRIGGER IF NOT EXISTS rows_to_be_deleted BEFORE DELETE ON rows BEGIN"
    "    SELECT online_index_prepare(OLD.number, OLD.a, OLD.b, NULL, NULL); END;";

static const char *const texts[STATEMENTS] = {
    [BEGIN] = "BEGIN IMMEDIATE",
    [COMMIT] = "COMMIT",
    [ROLL_BACK] = "ROLLBACK",
    [GET] = "SELECT a, b, rest, number FROM rows WHERE number = ?1",
    [NEXT] = "SELECT a, b, rest, number FROM rows WHERE number >= ?1 ORDER BY number LIMIT 1",
    [LAST] = "SELECT max(number) FROM rows",
    [INSERT] = "INSERT INTO rows(number, a, b, rest) VALUES(?1, ?2, ?3, ?4)",
    [UPDATE] = "UPDATE rows SET a = ?2, b = ?3, rest = ?4 WHERE number = ?1",
    [DELETE] = "DELETE FROM rows WHERE number = ?1",
    [PAGE] = "SELECT number, a FROM rows WHERE number >= ?1 AND number < ?2 ORDER BY number",
    [PAGE + 1] = "SELECT number, b FROM rows WHERE number >= ?1 AND number < ?2 ORDER BY number",
    [WRITE] = "INSERT OR REPLACE INTO online_index_records(which, stream, place, bytes) VALUES(?1, ?2, ?3, ?4)",
    [EACH] = "SELECT place, bytes FROM online_index_records WHERE (which, stream, place) >= (?1, ?2, ?3)"
             " AND (which, stream, place) < (?4, ?5, ?6) ORDER BY which, stream, place",
    [REMOVE] = "DELETE FROM online_index_records WHERE (which, stream, place) IN (SELECT which, stream, place FROM online_index_records"
               " WHERE (which, stream, place) >= (?1, ?2, ?3) AND (which, stream, place) < (?4, ?5, ?6) LIMIT ?7)",
};

static void stop_at(connection *connection, const char *what)
{
    stop(what, sqlite3_errmsg(connection->database));
}

/* ---- opening */

static sqlite3 *open_database(const store *store)
{
    sqlite3 *database;
    int flags = SQLITE_OPEN_READWRITE | SQLITE_OPEN_CREATE | SQLITE_OPEN_NOMUTEX;
    if (sqlite3_open_v2(store->path, &database, flags, NULL) != SQLITE_OK)
        stop("open", sqlite3_errmsg(database));
    sqlite3_busy_timeout(database, BUSY_MS);
    const char *settings = "PRAGMA journal_mode = WAL; PRAGMA recursive_triggers = ON; PRAGMA cache_size = -65536";
    if (sqlite3_exec(database, settings, NULL, NULL, NULL) ||
        sqlite3_exec(database, store->is_synced ? "PRAGMA synchronous = FULL" : "PRAGMA synchronous = OFF", NULL, NULL, NULL))
        stop("open", sqlite3_errmsg(database));
    return database;
}

store *store_open(const char *folder, bool is_synced)
{
    store *store = calloc(1, sizeof *store);
    if (!store)
        stop("open", "no memory");
    mkdir(folder, 0755); /* where it is there already, opening the file says more */
    if (snprintf(store->path, PATH_ROOM, "%s/rows.db", folder) >= PATH_ROOM)
        stop("open", "the path is too long");
    store->is_synced = is_synced;
    sqlite3 *database = open_database(store);
    if (sqlite3_exec(database, schema, NULL, NULL, NULL) != SQLITE_OK)
        stop("open", sqlite3_errmsg(database));
    sqlite3_close(database);
    return store;
}

void store_close(store *store)
{
    free(store);
}

connection *connection_open(store *store, session *of)
{
    connection *connection = calloc(1, sizeof *connection);
    if (!connection)
        stop("open", "no memory");
    connection->database = open_database(store);
    connection->session = of;
    add_functions(connection);
    add_range(connection);
    for (int i = 0; i < STATEMENTS; i++)
        if (sqlite3_prepare_v2(connection->database, texts[i], -1, &connection->statements[i], NULL) != SQLITE_OK)
            stop_at(connection, "prepare");
    return connection;
}

void connection_close(connection *connection)
{
    for (int i = 0; i < STATEMENTS; i++)
        sqlite3_finalize(connection->statements[i]);
    sqlite3_close(connection->database);
    free(connection);
}

/* ---- running statements */

static sqlite3_stmt *take(connection *connection, enum statement which)
{
    sqlite3_stmt *statement = connection->statements[which];
    sqlite3_reset(statement);
    return statement;
}

static bool run(connection *connection, sqlite3_stmt *statement)
{
    connection->refused = 0;
    bool is_done = sqlite3_step(statement) == SQLITE_DONE;
    sqlite3_reset(statement);
    return is_done;
}

static void run_or_stop(connection *connection, sqlite3_stmt *statement, const char *what)
{
    if (!run(connection, statement))
        stop_at(connection, what);
}

/* Whether the statement gives a row, or is at its end. */
static bool step(connection *connection, sqlite3_stmt *statement, const char *what)
{
    int answer = sqlite3_step(statement);
    if (answer != SQLITE_ROW && answer != SQLITE_DONE)
        stop_at(connection, what);
    return answer == SQLITE_ROW;
}

static void copy_blob(uint8_t *to, int length, sqlite3_stmt *statement, int column)
{
    if (sqlite3_column_bytes(statement, column) != length)
        stop("row", "it has another length");
    memcpy(to, sqlite3_column_blob(statement, column), (size_t)length);
}

/* ---- transactions */

void store_begin(connection *connection)
{
    run_or_stop(connection, take(connection, BEGIN), "begin");
}

void store_roll_back(connection *connection)
{
    if (!sqlite3_get_autocommit(connection->database))
        run_or_stop(connection, take(connection, ROLL_BACK), "roll back");
}

bool store_commit(connection *connection)
{
    bool is_done = run(connection, take(connection, COMMIT));
    if (!is_done)
        store_roll_back(connection);
    return is_done;
}

bool session_execute(session *session, const char *sql)
{
    bool is_done = sqlite3_exec(session->connection->database, sql, NULL, NULL, NULL) == SQLITE_OK;
    if (!is_done)
        session_roll_back(session);
    return is_done;
}

/* ---- rows */

static bool read_row(connection *connection, enum statement which, uint32_t *number, row *found)
{
    sqlite3_stmt *statement = take(connection, which);
    sqlite3_bind_int64(statement, 1, *number);
    bool is_there = step(connection, statement, "get");
    if (is_there) {
        copy_blob(found->keys[0], KEY_BYTES, statement, 0);
        copy_blob(found->keys[1], KEY_BYTES, statement, 1);
        copy_blob(found->rest, sizeof found->rest, statement, 2);
        *number = (uint32_t)sqlite3_column_int64(statement, 3);
    }
    sqlite3_reset(statement);
    return is_there;
}

bool store_get(connection *connection, uint32_t number, row *found)
{
    return read_row(connection, GET, &number, found);
}

bool store_next(connection *connection, uint32_t *number, row *found)
{
    return read_row(connection, NEXT, number, found);
}

bool store_last(connection *connection, uint32_t *number)
{
    sqlite3_stmt *statement = take(connection, LAST);
    bool is_there = step(connection, statement, "last") && sqlite3_column_type(statement, 0) != SQLITE_NULL;
    if (is_there)
        *number = (uint32_t)sqlite3_column_int64(statement, 0);
    sqlite3_reset(statement);
    return is_there;
}

/* Returns 0, or why an index refused the change. */
static uint32_t change_row(connection *connection, enum statement which, uint32_t number, const row *row)
{
    sqlite3_stmt *statement = take(connection, which);
    sqlite3_bind_int64(statement, 1, number);
    if (row) {
        sqlite3_bind_blob(statement, 2, row->keys[0], KEY_BYTES, SQLITE_STATIC);
        sqlite3_bind_blob(statement, 3, row->keys[1], KEY_BYTES, SQLITE_STATIC);
        sqlite3_bind_blob(statement, 4, row->rest, sizeof row->rest, SQLITE_STATIC);
    }
    if (!run(connection, statement) && !connection->refused)
        stop_at(connection, "change");
    return connection->refused;
}

static bool is_there(connection *connection, uint32_t number)
{
    row row;
    return store_get(connection, number, &row);
}

uint32_t session_put(session *session, uint32_t number, const row *row)
{
    connection *connection = session->connection;
    return change_row(connection, is_there(connection, number) ? UPDATE : INSERT, number, row);
}

uint32_t session_delete(session *session, uint32_t number)
{
    return change_row(session->connection, DELETE, number, NULL);
}

void store_put(connection *connection, uint32_t number, const row *row)
{
    if (session_put(connection->session, number, row))
        stop("put", "an index refused it");
}

void store_delete(connection *connection, uint32_t number)
{
    if (session_delete(connection->session, number))
        stop("delete", "an index refused it");
}

/* H5: a statement of its own sees what is committed, at one moment. */
size_t store_read_page(connection *connection, int which, uint32_t page, nsf_index_pair *pairs)
{
    sqlite3_stmt *statement = take(connection, PAGE + (enum statement)which);
    size_t count = 0;
    sqlite3_bind_int64(statement, 1, (sqlite3_int64)page * NSF_INDEX_SLOTS);
    sqlite3_bind_int64(statement, 2, ((sqlite3_int64)page + 1) * NSF_INDEX_SLOTS);
    while (step(connection, statement, "read page")) {
        uint8_t key[KEY_BYTES];
        copy_blob(key, KEY_BYTES, statement, 1);
        pairs[count++] = nsf_index_pair_of((uint64_t)sqlite3_column_int64(statement, 0), key, KEY_BYTES);
    }
    sqlite3_reset(statement);
    return count;
}

/* ---- records */

static void bind_key(sqlite3_stmt *statement, int first, record_key key)
{
    sqlite3_bind_int64(statement, first, key.which);
    sqlite3_bind_int64(statement, first + 1, (sqlite3_int64)key.stream);
    sqlite3_bind_int64(statement, first + 2, (sqlite3_int64)key.place);
}

void store_write(connection *connection, record_key key, const uint8_t *bytes, size_t length)
{
    sqlite3_stmt *statement = take(connection, WRITE);
    bind_key(statement, 1, key);
    sqlite3_bind_blob64(statement, 4, bytes, length, SQLITE_STATIC);
    run_or_stop(connection, statement, "records");
}

void store_each(connection *connection, record_key low, record_key high, visitor visit, void *context)
{
    sqlite3_stmt *statement = take(connection, EACH);
    bind_key(statement, 1, low);
    bind_key(statement, 4, high);
    while (step(connection, statement, "records"))
        visit(context, (uint64_t)sqlite3_column_int64(statement, 0), sqlite3_column_blob(statement, 1),
              (size_t)sqlite3_column_bytes(statement, 1));
    sqlite3_reset(statement);
}

uint32_t store_remove(connection *connection, record_key *low, record_key high, uint32_t most)
{
    sqlite3_stmt *statement = take(connection, REMOVE);
    bind_key(statement, 1, *low);
    bind_key(statement, 4, high);
    sqlite3_bind_int64(statement, 7, most);
    run_or_stop(connection, statement, "remove");
    return (uint32_t)sqlite3_changes(connection->database);
}
