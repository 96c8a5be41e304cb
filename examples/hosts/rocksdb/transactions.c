/* Transactions of RocksDB go on side by side, and hold locks of the rows that they have read or changed. The indexes are told of their
 * changes when they commit, one after another. So a transaction that is rolled back before has nothing to tell, and the indexes show what
 * is committed. */
#include "connection.h"

#include <stdlib.h>

enum { LOCK_REFUSED = 1000 };

void session_begin(session *session)
{
    store_begin(session->connection);
}

static void forget_changes(connection *connection)
{
    connection->count = 0;
    connection->is_refused = false;
}

static row_change *add_change(connection *connection)
{
    if (connection->count == connection->room) {
        connection->room = 2 * connection->room + 1;
        connection->changes = realloc(connection->changes, connection->room * sizeof *connection->changes);
        if (!connection->changes)
            stop("change", "no memory");
    }
    return &connection->changes[connection->count++];
}

/* H2: reading a row takes its lock, which is held until the transaction has ended. */
static uint32_t change_row(session *session, uint32_t number, const row *next)
{
    connection *connection = session->connection;
    row old;
    bool had = store_get(connection, number, &old);
    if (connection->is_refused)
        return LOCK_REFUSED;
    if (!had && !next)
        return 0;
    row_change *change = add_change(connection);
    *change = (row_change){.number = number, .had = had, .has = next != NULL};
    if (had)
        change->old = old;
    if (next) {
        change->next = *next;
        store_put(connection, number, next);
    } else {
        store_delete(connection, number);
    }
    return 0;
}

uint32_t session_put(session *session, uint32_t number, const row *row)
{
    return change_row(session, number, row);
}

uint32_t session_delete(session *session, uint32_t number)
{
    return change_row(session, number, NULL);
}

/* H3: prepare, and then put, before the commit that changes the rows for all others. */
static uint32_t tell_changes(session *session)
{
    host *host = session->host;
    for (size_t i = 0; i < session->connection->count; i++) {
        const row_change *change = &session->connection->changes[i];
        const row *old = change->had ? &change->old : NULL, *next = change->has ? &change->next : NULL;
        uint32_t refused = host_prepare(host, change->number, old, next);
        if (refused)
            return refused;
        host_put(host, change->number, old, next);
    }
    return 0;
}

bool session_commit(session *session)
{
    host_enter(session);
    bool is_told = !session->connection->is_refused && !tell_changes(session);
    bool has_committed = is_told && host_commit(session);
    if (!is_told)
        host_roll_back(session);
    forget_changes(session->connection);
    atomic_fetch_add(&session->host->commits, has_committed);
    return has_committed;
}

void session_roll_back(session *session)
{
    store_roll_back(session->connection);
    forget_changes(session->connection);
}
