/* The functions of SQL: online_index_prepare and online_index_put, which the triggers of the table call, and online_index_find. */
#include "connection.h"

#include <string.h>

bool read_key(sqlite3_value *value, uint8_t filling, uint8_t *key)
{
    int length = sqlite3_value_bytes(value);
    if (sqlite3_value_type(value) != SQLITE_BLOB || length > KEY_BYTES)
        return false;
    memset(key, filling, KEY_BYTES);
    if (length)
        memcpy(key, sqlite3_value_blob(value), (size_t)length);
    return true;
}

bool is_complete(connection *connection, sqlite3_int64 which)
{
    nsf_index_pair highest;
    return which >= 0 && which < INDEXES && part_life(&connection->session->host->parts[which], &highest) == NSF_INDEX_COMPLETE;
}

/* The keys of a row, or NULL where there is none. Keys of rows have KEY_BYTES bytes. */
static const row *read_keys(sqlite3_value **values, row *room, bool *is_bad)
{
    if (sqlite3_value_type(values[0]) == SQLITE_NULL)
        return NULL;
    for (int which = 0; which < INDEXES; which++)
        if (sqlite3_value_bytes(values[which]) != KEY_BYTES || !read_key(values[which], 0, room->keys[which]))
            *is_bad = true;
    return room;
}

/* What a change is: the number of the row, its keys, or NULLs, and those that it is to have, or NULLs. */
typedef struct told {
    uint32_t number;
    row old_room, next_room;
    const row *old, *next;
} told;

static bool read_change(sqlite3_context *context, sqlite3_value **values, told *told)
{
    sqlite3_int64 number = sqlite3_value_int64(values[0]);
    bool is_bad = number < 1 || number > UINT32_MAX;
    told->number = (uint32_t)number;
    told->old = read_keys(values + 1, &told->old_room, &is_bad);
    told->next = read_keys(values + 1 + INDEXES, &told->next_room, &is_bad);
    if (is_bad)
        sqlite3_result_error(context, "a row has a number from 1 to 4294967295, and keys of 16 bytes", -1);
    return !is_bad;
}

static connection *writing(sqlite3_context *context)
{
    connection *connection = sqlite3_user_data(context);
    if (connection->session->is_writing)
        return connection;
    sqlite3_result_error(context, "rows are changed between session_begin and session_commit", -1);
    return NULL;
}

static void prepare(sqlite3_context *context, int count, sqlite3_value **values)
{
    (void)count;
    told told;
    connection *connection = writing(context);
    if (!connection || !read_change(context, values, &told))
        return;
    connection->refused = host_prepare(connection->session->host, told.number, told.old, told.next);
    if (connection->refused)
        sqlite3_result_error(context, "an index refused the change", -1);
}

static void put(sqlite3_context *context, int count, sqlite3_value **values)
{
    (void)count;
    told told;
    connection *connection = writing(context);
    if (connection && read_change(context, values, &told))
        host_put(connection->session->host, told.number, told.old, told.next);
}

/* online_index_find(KEY [, WHICH]): the least number of a row with this key, or NULL. */
static void find(sqlite3_context *context, int count, sqlite3_value **values)
{
    connection *connection = sqlite3_user_data(context);
    sqlite3_int64 which = count > 1 ? sqlite3_value_int64(values[1]) : 0;
    uint8_t key[KEY_BYTES];
    nsf_index_pair found;
    if (!is_complete(connection, which)) {
        sqlite3_result_error(context, "there is no such index, or it is not complete", -1);
        return;
    }
    if (!read_key(values[0], 0, key))
        return;
    range range = range_of(key, key);
    while (!range.has_ended)
        if (host_range(connection->session, (int)which, &range, &found, 1)) {
            sqlite3_result_int64(context, (sqlite3_int64)nsf_index_row_of(&found));
            return;
        }
}

static void add(connection *connection, const char *name, int count, void (*call)(sqlite3_context *, int, sqlite3_value **))
{
    if (sqlite3_create_function(connection->database, name, count, SQLITE_UTF8, connection, call, NULL, NULL) != SQLITE_OK)
        stop(name, sqlite3_errmsg(connection->database));
}

void add_functions(connection *connection)
{
    add(connection, "online_index_prepare", 1 + 2 * INDEXES, prepare);
    add(connection, "online_index_put", 1 + 2 * INDEXES, put);
    add(connection, "online_index_find", 1, find);
    add(connection, "online_index_find", 2, find);
}
