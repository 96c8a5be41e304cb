/* A host of two indexes, over a store of rows: it keeps the duties that nsf_index.h names.
 *
 *  H1  part.c has a lock for each index, held for one call.
 *  H2  A transaction holds `writing` from its beginning to the end of its commit, or of its rollback (one_writer.c). In RocksDB it holds
 *      locks of its rows instead, and enters `writing` to commit: the indexes are told of its changes only then.
 *  H3  host_prepare is called before a row changes, and host_put after it: by session_put, by the triggers of SQLite, and for RocksDB
 *      before the commit, which is what changes the rows there.
 *  H4  host.c keeps the changes that a transaction told, and takes them back in the reverse order.
 *  H5  The builder reads its pages from snapshots of the store, with no lock.
 *  H6  host_create_index holds `writing`, and so no change is under way; it names the pages of all rows.
 *  H7  The cleaner holds `writing`, and so no change waits for its end.
 *  H8  Records are logged by the transaction that commits next, in the order of the calls. Those of a transaction that was rolled back,
 *      and of the changes that took it back, are logged by a transaction of their own, before `writing` is given up.
 *  H9  host_open redoes the checkpoint and the log. No transaction is unfinished then: the store shows none of its changes. */
#ifndef HOST_H
#define HOST_H
#include "store.h"

enum { ENTRIES_MOST = 4000000 };

/* A change of the transaction that tells the indexes, for one of them. */
typedef struct change {
    int which;
    uint32_t number;
    bool had, has;
    uint8_t old[KEY_BYTES], next[KEY_BYTES];
} change;

/* Where the records of an index stand. Streams have rising numbers; those that are named here are in use. */
typedef struct streams {
    uint64_t log, from; /* the log, and the place from which on it is redone */
    uint64_t saved;     /* the checkpoint, or 0 */
    uint64_t newest;
    uint32_t pages;
} streams;

typedef struct host {
    store *store;
    pthread_mutex_t writing;      /* held by the transaction that tells the indexes, or by the cleaner */
    part parts[INDEXES];
    bytes waiting[INDEXES];       /* records that no commit has logged yet; under `writing` */
    streams streams[INDEXES];     /* under `writing` */
    change *changes;              /* of the transaction that tells the indexes; under `writing` */
    size_t count, room;
    size_t told;                  /* how many changes the indexes were told since their records were moved; under `writing` */
    uint64_t swept[INDEXES];      /* no stream up to this one has records any more */
    atomic_ulong next[INDEXES];   /* the next place of the log; set under `writing` */
    atomic_ulong logged[INDEXES]; /* how many of the builder's steps were logged */
    atomic_ulong commits;         /* of rows */
    atomic_ulong seen;            /* how many commits there were at the builder's last stretch */
    atomic_ulong redone;          /* how many bytes of records opening has redone */
    atomic_ulong longest;         /* the longest time that `writing` was held for the builder or the cleaner, in nanoseconds */
} host;

/* What a thread has of a host. */
typedef struct session {
    host *host;
    connection *connection;
    bool is_writing;
} session;

host *host_open(const char *folder, bool is_synced);
void host_close(host *host);
session *session_open(host *host);
void session_close(session *session);

/* A transaction of rows. A refused change has changed nothing, and the transaction may go on. A commit that returns false has rolled back.
 * These are in one_writer.c, and where a store has many transactions at a time in its folder. */
void session_begin(session *session);
uint32_t session_put(session *session, uint32_t number, const row *row);
uint32_t session_delete(session *session, uint32_t number);
bool session_commit(session *session);
void session_roll_back(session *session);

/* A transaction that tells indexes: one at a time. Entering makes the transaction that is open such a one. */
void host_enter(session *session);
void host_begin(session *session);
bool host_commit(session *session);
void host_roll_back(session *session);

/* Before and after a row changes: what it is, or NULL, and what it is to be, or NULL. */
uint32_t host_prepare(host *host, uint32_t number, const row *old, const row *next);
void host_put(host *host, uint32_t number, const row *old, const row *next);

/* Indexes. A stretch of a build reads a page, or makes some steps; the build is at its end where it returns false. */
bool host_create_index(session *session, int which);
void host_drop_index(session *session, int which);
bool host_build(session *session, int which);
uint32_t host_clean(session *session, int which, nsf_index_cursor *cursor, uint32_t most);
void host_checkpoint(session *session, int which);

/* The visible entries of a range, among the next so many. No change of another transaction is among them. */
size_t host_range(session *session, int which, range *range, nsf_index_pair *pairs, size_t room);
#endif
