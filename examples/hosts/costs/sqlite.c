/* An index of SQLite: CREATE INDEX. */
#include "../sqlite/connection.h"
#include "own.h"

const char own_store[] = "SQLite", own_index[] = "CREATE INDEX";

static void execute(session *session, const char *sql)
{
    if (sqlite3_exec(session->connection->database, sql, NULL, NULL, NULL) != SQLITE_OK)
        stop(sql, sqlite3_errmsg(session->connection->database));
}

void own_begin(session *session)
{
    execute(session, "DROP TRIGGER rows_inserted; DROP TRIGGER rows_to_be_updated; DROP TRIGGER rows_updated;"
                     "DROP TRIGGER rows_to_be_deleted; DROP TRIGGER rows_numbered");
}

void own_create(session *session, int which)
{
    execute(session, which ? "CREATE INDEX own_b ON rows(b)" : "CREATE INDEX own_a ON rows(a)");
}

void own_put(session *session, uint32_t number, const row *row)
{
    store_put(session->connection, number, row);
}

void own_end(session *session)
{
    execute(session, "DROP INDEX IF EXISTS own_a; DROP INDEX IF EXISTS own_b");
}
