/* Indexes as the store has them by itself, without the part: what the part's costs are beside. */
#ifndef OWN_H
#define OWN_H
#include "../host.h"

/* What the store is, and what its own index is. */
extern const char own_store[], own_index[];

/* Nothing tells the part of changes any more. (The store that is opened next does so again.) */
void own_begin(session *session);

/* Creates an index over all rows, in the transaction that is open: others wait for its end. */
void own_create(session *session, int which);

/* Changes a row, with the indexes that there are, in the transaction that is open. */
void own_put(session *session, uint32_t number, const row *row);

/* Removes the indexes. */
void own_end(session *session);
#endif
