/* A table of SQL: online_index_range(LOW, HIGH [, WHICH]) has the columns key and number, a row for each entry of the index from the key
 * LOW to the key HIGH, in their order. A bound may have fewer than 16 bytes: then it is the first key, or the last one, that begins so.
 *
 * In a transaction that writes it shows that transaction's changes. Otherwise each stretch of 256 entries is what was committed at one
 * moment. */
#include "connection.h"

#include <stdlib.h>
#include <string.h>

enum { STRETCH = 256, KEY_COLUMN = 0, NUMBER_COLUMN, LOW_COLUMN, HIGH_COLUMN, WHICH_COLUMN };

typedef struct range_table {
    sqlite3_vtab base;
    connection *connection;
} range_table;

typedef struct range_cursor {
    sqlite3_vtab_cursor base;
    int which;
    range range;
    nsf_index_pair pairs[STRETCH];
    size_t count, at;
    sqlite3_int64 row;
} range_cursor;

static int connect_table(sqlite3 *database, void *of, int count, const char *const *words, sqlite3_vtab **made, char **error)
{
    (void)count, (void)words, (void)error;
    int failed = sqlite3_declare_vtab(database, "CREATE TABLE x(key BLOB, number INTEGER, low HIDDEN, high HIDDEN, which HIDDEN)");
    range_table *table = failed ? NULL : sqlite3_malloc(sizeof *table);
    if (!failed && !table)
        failed = SQLITE_NOMEM;
    if (failed)
        return failed;
    *table = (range_table){.connection = of};
    *made = &table->base;
    return SQLITE_OK;
}

static int disconnect_table(sqlite3_vtab *table)
{
    sqlite3_free(table);
    return SQLITE_OK;
}

/* Both bounds must be given; the words of the call come in the order of their columns. */
static int plan(sqlite3_vtab *table, sqlite3_index_info *info)
{
    (void)table;
    int found[WHICH_COLUMN + 1] = {0}, words = 0;
    for (int i = 0; i < info->nConstraint; i++)
        if (info->aConstraint[i].usable && info->aConstraint[i].op == SQLITE_INDEX_CONSTRAINT_EQ &&
            info->aConstraint[i].iColumn >= LOW_COLUMN)
            found[info->aConstraint[i].iColumn] = i + 1;
    if (!found[LOW_COLUMN] || !found[HIGH_COLUMN])
        return SQLITE_CONSTRAINT;
    for (int column = LOW_COLUMN; column <= WHICH_COLUMN; column++) {
        if (!found[column])
            continue;
        info->aConstraintUsage[found[column] - 1].argvIndex = ++words;
        info->aConstraintUsage[found[column] - 1].omit = 1;
    }
    info->estimatedCost = 100;
    info->estimatedRows = 100;
    if (info->nOrderBy == 1 && info->aOrderBy[0].iColumn == KEY_COLUMN && !info->aOrderBy[0].desc)
        info->orderByConsumed = 1;
    return SQLITE_OK;
}

static int open_cursor(sqlite3_vtab *table, sqlite3_vtab_cursor **made)
{
    (void)table;
    range_cursor *cursor = sqlite3_malloc(sizeof *cursor);
    if (!cursor)
        return SQLITE_NOMEM;
    memset(cursor, 0, sizeof *cursor);
    *made = &cursor->base;
    return SQLITE_OK;
}

static int close_cursor(sqlite3_vtab_cursor *cursor)
{
    sqlite3_free(cursor);
    return SQLITE_OK;
}

static void read_stretch(range_cursor *cursor)
{
    range_table *table = (range_table *)cursor->base.pVtab;
    cursor->at = cursor->count = 0;
    while (!cursor->count && !cursor->range.has_ended)
        cursor->count = host_range(table->connection->session, cursor->which, &cursor->range, cursor->pairs, STRETCH);
}

static int filter(sqlite3_vtab_cursor *of, int plan, const char *name, int count, sqlite3_value **values)
{
    (void)plan, (void)name;
    range_cursor *cursor = (range_cursor *)of;
    range_table *table = (range_table *)of->pVtab;
    uint8_t low[KEY_BYTES], high[KEY_BYTES];
    sqlite3_int64 which = count > 2 ? sqlite3_value_int64(values[2]) : 0;
    if (!is_complete(table->connection, which) || !read_key(values[0], 0, low) || !read_key(values[1], 0xff, high)) {
        table->base.zErrMsg = sqlite3_mprintf("the index is not complete, or a bound is no key of at most 16 bytes");
        return SQLITE_ERROR;
    }
    cursor->which = (int)which;
    cursor->range = range_of(low, high);
    cursor->row = 1;
    read_stretch(cursor);
    return SQLITE_OK;
}

static int next(sqlite3_vtab_cursor *of)
{
    range_cursor *cursor = (range_cursor *)of;
    cursor->row++;
    if (++cursor->at == cursor->count)
        read_stretch(cursor);
    return SQLITE_OK;
}

static int is_at_end(sqlite3_vtab_cursor *of)
{
    range_cursor *cursor = (range_cursor *)of;
    return cursor->at == cursor->count;
}

static int column(sqlite3_vtab_cursor *of, sqlite3_context *context, int column)
{
    range_cursor *cursor = (range_cursor *)of;
    const nsf_index_pair *pair = &cursor->pairs[cursor->at];
    if (column == KEY_COLUMN)
        sqlite3_result_blob(context, pair->key, KEY_BYTES, SQLITE_TRANSIENT);
    else if (column == NUMBER_COLUMN)
        sqlite3_result_int64(context, (sqlite3_int64)nsf_index_row_of(pair));
    return SQLITE_OK;
}

static int row_number(sqlite3_vtab_cursor *of, sqlite3_int64 *row)
{
    *row = ((range_cursor *)of)->row;
    return SQLITE_OK;
}

/* Without xCreate the table is there in each database, and can't be made twice. */
static const sqlite3_module module = {
    .xConnect = connect_table,
    .xDisconnect = disconnect_table,
    .xBestIndex = plan,
    .xOpen = open_cursor,
    .xClose = close_cursor,
    .xFilter = filter,
    .xNext = next,
    .xEof = is_at_end,
    .xColumn = column,
    .xRowid = row_number,
};

void add_range(connection *connection)
{
    if (sqlite3_create_module(connection->database, "online_index_range", &module, connection) != SQLITE_OK)
        stop("online_index_range", sqlite3_errmsg(connection->database));
}
