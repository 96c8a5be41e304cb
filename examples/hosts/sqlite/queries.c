/* The check of a complete index by queries, and a trial of statements. */
#include "connection.h"

#include <stdio.h>

/* How many entries the whole range has, how many of them have the key of their row, how many rows there are, and for how many keys the
 * function finds another row than the least. */
static const char query[] =
    "SELECT count(*), sum(%c = key),"
    "    (SELECT count(*) FROM rows),"
    "    (SELECT count(*) FROM (SELECT %c AS wanted, min(number) AS least FROM rows GROUP BY %c)"
    "        WHERE online_index_find(wanted, %d) IS NOT least)"
    " FROM online_index_range(x'', x'', %d) LEFT JOIN rows USING (number)";

bool store_check(connection *connection, int which)
{
    char text[sizeof query + 32], column = which ? 'b' : 'a';
    sqlite3_stmt *statement;
    snprintf(text, sizeof text, query, column, column, column, which, which);
    if (sqlite3_prepare_v2(connection->database, text, -1, &statement, NULL) != SQLITE_OK || sqlite3_step(statement) != SQLITE_ROW)
        stop("check", sqlite3_errmsg(connection->database));
    sqlite3_int64 entries = sqlite3_column_int64(statement, 0), fitting = sqlite3_column_int64(statement, 1);
    sqlite3_int64 rows = sqlite3_column_int64(statement, 2), unlike = sqlite3_column_int64(statement, 3);
    sqlite3_finalize(statement);
    return entries == rows && fitting == rows && unlike == 0;
}

/* ---- statements that change many rows */

static void expect(bool is_so, const char *what)
{
    if (!is_so)
        stop("try", what);
}

static bool change_by(session *session, const char *sql)
{
    session_begin(session);
    return session_execute(session, sql) && session_commit(session);
}

void store_try(session *session)
{
    expect(change_by(session, "UPDATE rows SET a = b WHERE number <= 200"), "an update of many rows");
    expect(change_by(session, "DELETE FROM rows WHERE number IN (SELECT number FROM online_index_range(x'00', x'0000000000000fff'))"),
           "rows found by the index are deleted");
    expect(change_by(session, "INSERT INTO rows(a, b, rest) SELECT b, a, rest FROM rows WHERE number <= 100"),
           "rows with numbers of SQLite");
    expect(!change_by(session, "UPDATE rows SET a = iif(number = 90, x'00', b) WHERE number <= 100"), "a key of one byte is refused");
    expect(!change_by(session, "UPDATE rows SET number = number + 1000000 WHERE number = 90"), "a row keeps its number");
    expect(sqlite3_exec(session->connection->database, "DELETE FROM rows", NULL, NULL, NULL) != SQLITE_OK, "no change without a session");
}
