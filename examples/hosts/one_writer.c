/* Transactions of a store that has one writer at a time: each is one that tells the indexes, from its beginning on. So a transaction finds
 * its own changes in the indexes, and a rollback has to be told them. */
#include "host.h"

void session_begin(session *session)
{
    host_begin(session);
}

bool session_commit(session *session)
{
    bool has_committed = host_commit(session);
    atomic_fetch_add(&session->host->commits, has_committed);
    return has_committed;
}

void session_roll_back(session *session)
{
    host_roll_back(session);
}
