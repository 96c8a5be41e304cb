#include "check.h"

#include <string.h>

enum { STRETCH = 256 };

static void check_entry(session *session, int which, const nsf_index_pair *entry, checked *checked)
{
    row row;
    if (entry->state == NSF_INDEX_MARKED) {
        checked->marked++;
        return;
    }
    checked->visible++;
    checked->of_no_row += !store_get(session->connection, (uint32_t)nsf_index_row_of(entry), &row) ||
                          memcmp(row.keys[which], entry->key, KEY_BYTES) != 0;
}

static void check_entries(session *session, int which, checked *checked)
{
    nsf_index_cursor cursor = NSF_INDEX_FIRST;
    nsf_index_pair entries[STRETCH];
    size_t count = STRETCH;
    while (count == STRETCH) {
        count = part_page(&session->host->parts[which], &cursor, entries, STRETCH);
        for (size_t i = 0; i < count; i++)
            check_entry(session, which, &entries[i], checked);
    }
}

/* Whether the build has passed the pair: all rows whose pairs it has passed are in the entries. */
static bool is_passed(uint32_t life, const nsf_index_pair *highest, uint32_t number, const uint8_t *key)
{
    int order = memcmp(key, highest->key, KEY_BYTES);
    return life == NSF_INDEX_COMPLETE ||
           (life == NSF_INDEX_BUILDING_AT && (order < 0 || (order == 0 && number <= nsf_index_row_of(highest))));
}

static void check_rows(session *session, int which, checked *checked)
{
    part *part = &session->host->parts[which];
    nsf_index_pair highest;
    row row;
    uint32_t life = part_life(part, &highest), number = 0;
    for (; store_next(session->connection, &number, &row); number++) {
        checked->rows++;
        checked->in_no_entry += is_passed(life, &highest, number, row.keys[which]) && !part_is_visible(part, number, row.keys[which]);
    }
    checked->is_complete = life == NSF_INDEX_COMPLETE;
}

checked check_index(session *session, int which)
{
    checked checked = {0};
    host_begin(session);
    check_rows(session, which, &checked);
    check_entries(session, which, &checked);
    checked.is_refused = checked.is_complete && !store_check(session->connection, which);
    host_commit(session);
    return checked;
}

bool is_exact(const checked *checked)
{
    return !checked->is_refused && !checked->of_no_row && !checked->in_no_entry &&
           (!checked->is_complete || checked->visible == checked->rows);
}
