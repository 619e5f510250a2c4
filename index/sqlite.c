/* The store over SQLite. */
#include "store.h"

#include "conf.h"
#include "say.h"
#include "sqlite_sql.h"

#include <math.h>
#include <sqlite3.h>
#include <stdlib.h>
#include <stdio.h>
#include <string.h>

enum { STATEMENTS = 256, BUSY_MILLISECONDS = 10000 };

struct rows {
    struct store *store;
    const char *sql;
    sqlite3_stmt *statement;
    int busy;
};

struct statements {
    unsigned count;
    struct rows rows[STATEMENTS];
};

/* An error of the disk, of a lock or of the file is the database's, every other one the statement's. */
static void failed(struct store *store, int code)
{
    switch (code & 255) {
    case SQLITE_ERROR:
    case SQLITE_CONSTRAINT:
    case SQLITE_MISMATCH:
    case SQLITE_RANGE:
    case SQLITE_TOOBIG:
        store_fail(store, STATEMENT_WRONG, sqlite3_errmsg(store->handle));
        break;
    default:
        store_fail(store, DATABASE_LOST, sqlite3_errmsg(store->handle));
    }
}

static int run(struct store *store, const char *sql)
{
    int code = sqlite3_exec(store->handle, sql, NULL, NULL, NULL);

    if (code != SQLITE_OK)
        failed(store, code);
    return code == SQLITE_OK;
}

static int open_database(struct store *store, const struct conf *conf, int readonly)
{
    sqlite3 *handle = NULL;
    int flags = readonly ? SQLITE_OPEN_READONLY : SQLITE_OPEN_READWRITE | SQLITE_OPEN_CREATE;
    int code = sqlite3_open_v2(conf->database, &handle, flags | SQLITE_OPEN_NOMUTEX, NULL);

    store->handle = handle;
    store->cache = room_for(sizeof(struct statements));
    if (code != SQLITE_OK) {
        failed(store, code);
        return 0;
    }
    sqlite3_busy_timeout(handle, BUSY_MILLISECONDS);
    if (readonly)
        return 1;
    return run(store, "PRAGMA journal_mode = WAL") &&
           run(store, conf->normal ? "PRAGMA synchronous = NORMAL" : "PRAGMA synchronous = FULL");
}

static void close_database(struct store *store)
{
    struct statements *all = store->cache;
    unsigned k;

    for (k = 0; all != NULL && k < all->count; k++)
        sqlite3_finalize(all->rows[k].statement);
    free(all);
    sqlite3_close(store->handle);
}

/* ---- statements: each is prepared once, and once more if it is asked for while it has rows to give ---- */

/* A room for a statement: a free one of the same text, a new one, or the first that is not busy. */
static struct rows *room_of(struct store *store, const char *sql)
{
    struct statements *all = store->cache;
    unsigned k;

    for (k = 0; k < all->count; k++)
        if (!all->rows[k].busy && all->rows[k].sql == sql)
            return &all->rows[k];
    if (all->count < STATEMENTS)
        return &all->rows[all->count++];
    for (k = 0; k < STATEMENTS && all->rows[k].busy; k++)
        ;
    if (k == STATEMENTS)
        quit(NO_FILE, "too many statements at once");
    sqlite3_finalize(all->rows[k].statement);
    all->rows[k].statement = NULL;
    return &all->rows[k];
}

static void lend(sqlite3_stmt *statement, unsigned k, const struct value *value)
{
    char name[16];
    int at;

    snprintf(name, sizeof name, "$%u", k + 1);
    at = sqlite3_bind_parameter_index(statement, name);
    if (at == 0)
        return;
    if (value->type == 'i')
        sqlite3_bind_int64(statement, at, value->integer);
    else if (value->type == 'd' && isnan(value->real))
        sqlite3_bind_null(statement, at);
    else if (value->type == 'd')
        sqlite3_bind_double(statement, at, value->real);
    else if (value->type == 't' && value->bytes == NULL)
        sqlite3_bind_null(statement, at);
    else if (value->type == 't')
        sqlite3_bind_text(statement, at, value->bytes, (int)value->length, SQLITE_TRANSIENT);
    else
        sqlite3_bind_blob(statement, at, value->bytes, (int)value->length, SQLITE_TRANSIENT);
}

static struct rows *ask(struct store *store, const char *sql, const struct value *values, unsigned count)
{
    struct rows *rows = room_of(store, sql);
    unsigned k;

    if (rows->statement == NULL) {
        int code = sqlite3_prepare_v3(store->handle, sql, -1, SQLITE_PREPARE_PERSISTENT, &rows->statement, NULL);

        rows->store = store;
        rows->sql = code == SQLITE_OK ? sql : NULL;
        if (code != SQLITE_OK) {
            failed(store, code);
            return NULL;
        }
    }
    sqlite3_clear_bindings(rows->statement);
    for (k = 0; k < count; k++)
        lend(rows->statement, k, &values[k]);
    rows->busy = 1;
    return rows;
}

static void end(struct rows *rows)
{
    sqlite3_reset(rows->statement);
    rows->busy = 0;
}

static int next(struct rows *rows)
{
    int code = sqlite3_step(rows->statement);

    if (code == SQLITE_ROW)
        return 1;
    if (code != SQLITE_DONE)
        failed(rows->store, code);
    end(rows);
    return 0;
}

static unsigned columns(struct rows *rows)
{
    return (unsigned)sqlite3_column_count(rows->statement);
}

static const char *column(struct rows *rows, unsigned k)
{
    return sqlite3_column_name(rows->statement, (int)k);
}

static int64_t integer(struct rows *rows, unsigned k)
{
    return sqlite3_column_int64(rows->statement, (int)k);
}

static double real(struct rows *rows, unsigned k)
{
    return sqlite3_column_double(rows->statement, (int)k);
}

static const char *word(struct rows *rows, unsigned k)
{
    return (const char *)sqlite3_column_text(rows->statement, (int)k);
}

static const void *bytes(struct rows *rows, unsigned k, size_t *length)
{
    const void *at = sqlite3_column_blob(rows->statement, (int)k);

    *length = (size_t)sqlite3_column_bytes(rows->statement, (int)k);
    return at;
}

static void wait_for(struct store *store, double seconds)
{
    (void)store;
    sqlite3_sleep((int)(seconds * 1000));
}

const struct store_kind sqlite_store = {
    open_database, close_database, run, ask, next, end, columns, column, integer, real, word, bytes, wait_for,
    "BEGIN IMMEDIATE", SQLITE_TABLES, "", SQLITE_TRIGGERS, SQLITE_CATALOGUE, SQLITE_TAKE_LINE,
    "DELETE FROM catalogue WHERE id = json_extract($1, '$.id')", SQLITE_TEST_LINE, SQLITE_ANSWER_LINE,
    "INSERT INTO ri_doc(rowid, title, body, folded) VALUES($1, $2, $3, $4)", "DELETE FROM ri_doc WHERE rowid = $1", SQLITE_SEARCH,
    "SELECT title, body, folded FROM ri_doc WHERE rowid = $1", SQLITE_STRAYS,
    "SELECT version, gone, at FROM ri_record WHERE record = $1", NULL, NULL,
    "SELECT seq, record, version, name, word, text, at FROM ri_item ORDER BY seq LIMIT $1", SQLITE_SECOND,
    "INSERT INTO ri_doc_new(rowid, title, body, folded) VALUES($1, $2, $3, $4)", "DELETE FROM ri_doc_new WHERE rowid = $1",
    "INSERT INTO ri_doc_new(rowid, title, body, folded) SELECT rowid, title, body, folded FROM ri_doc WHERE rowid = $1", SQLITE_SWAP,
    "PRAGMA quick_check", 0
};
