/* The store over PostgreSQL, for a catalogue that lives there and for several workers. */
#define _POSIX_C_SOURCE 200809L
#include "store.h"

#include "conf.h"
#include "postgres_sql.h"
#include "say.h"

#include <libpq-fe.h>
#include <math.h>
#include <poll.h>
#include <stdio.h>
#include <stdlib.h>
#include <string.h>

enum { STATEMENTS = 512, NUMBER_ROOM = 40 };

/* Numbers that PostgreSQL has for its types. */
enum { TYPE_BYTES = 17, TYPE_INTEGER = 20, TYPE_TEXT = 25, TYPE_REAL = 701 };

/* A worker waits no longer than this for what an editor holds; then its batch is undone and tried again, so that editors never give way. */
#define LOCK_TIMEOUT "SET lock_timeout = '200ms'; SET client_min_messages = warning"

/* The shortest wait for a notice. */
#define WAIT_LEAST 0.2

struct rows {
    PGresult *result;
    int at;
    unsigned char *bytes;
};

struct session {
    const char *prepared[STATEMENTS]; /* by the place of their texts; number k is called sk */
    unsigned count;
    int listens, readonly;
};

/* ---- errors ---- */

static int starts(const char *word, const char *with)
{
    return strncmp(word, with, strlen(with)) == 0;
}

static void failed(struct store *store, const PGresult *result)
{
    const char *code = result != NULL ? PQresultErrorField(result, PG_DIAG_SQLSTATE) : NULL;
    const char *words = result != NULL ? PQresultErrorField(result, PG_DIAG_MESSAGE_PRIMARY) : NULL;
    int busy = code != NULL && (strcmp(code, "55P03") == 0 || starts(code, "40"));
    int lost = code == NULL || busy || starts(code, "08") || starts(code, "53") || starts(code, "57") || starts(code, "58") ||
               starts(code, "25") || starts(code, "XX");

    store->busy = busy;
    store_fail(store, lost ? DATABASE_LOST : STATEMENT_WRONG, words != NULL ? words : PQerrorMessage(store->handle));
}

static int is_well(const PGresult *result)
{
    ExecStatusType status = PQresultStatus(result);

    return status == PGRES_COMMAND_OK || status == PGRES_TUPLES_OK;
}

/* ---- connections ---- */

static int run(struct store *store, const char *sql)
{
    PGresult *result = PQexec(store->handle, sql);
    int well = is_well(result);

    if (!well)
        failed(store, result);
    PQclear(result);
    return well;
}

static int set_up(struct store *store)
{
    struct session *session = store->cache;

    session->count = 0;
    session->listens = 0;
    return run(store, LOCK_TIMEOUT) && (!session->readonly || run(store, "SET default_transaction_read_only = on"));
}

static int open_database(struct store *store, const struct conf *conf, int readonly)
{
    struct session *session = room_for(sizeof *session);

    session->readonly = readonly;
    store->cache = session;
    store->handle = PQconnectdb(conf->database);
    if (PQstatus(store->handle) != CONNECTION_OK) {
        store_fail(store, DATABASE_LOST, PQerrorMessage(store->handle));
        return 0;
    }
    return set_up(store);
}

static void close_database(struct store *store)
{
    PQfinish(store->handle);
    free(store->cache);
}

/* A statement outside the cache, with the server looked for again if it went away. */
static int run_or_return(struct store *store, const char *sql)
{
    if (PQstatus(store->handle) == CONNECTION_BAD) {
        PQreset(store->handle);
        if (PQstatus(store->handle) == CONNECTION_BAD) {
            store_fail(store, DATABASE_LOST, PQerrorMessage(store->handle));
            return 0;
        }
        set_up(store);
    }
    return run(store, sql);
}

/* ---- statements ---- */

struct lent {
    Oid types[VALUES_MOST];
    const char *at[VALUES_MOST];
    int lengths[VALUES_MOST], formats[VALUES_MOST];
    char numbers[VALUES_MOST][NUMBER_ROOM];
};

static void lend(struct lent *lent, unsigned k, const struct value *value)
{
    lent->at[k] = lent->numbers[k];
    lent->formats[k] = value->type == 'b';
    lent->lengths[k] = (int)value->length;
    if (value->type == 'i') {
        lent->types[k] = TYPE_INTEGER;
        snprintf(lent->numbers[k], NUMBER_ROOM, "%lld", (long long)value->integer);
    } else if (value->type == 'd') {
        lent->types[k] = TYPE_REAL;
        snprintf(lent->numbers[k], NUMBER_ROOM, "%.17g", value->real);
        if (isnan(value->real))
            lent->at[k] = NULL;
    } else {
        lent->types[k] = value->type == 't' ? TYPE_TEXT : TYPE_BYTES;
        lent->at[k] = value->bytes;
    }
}

/* The number of a statement, which is prepared if it is new; -1 after an error. */
static int number_of(struct store *store, const char *sql, const struct lent *lent, unsigned count, char *name)
{
    struct session *session = store->cache;
    PGresult *result;
    unsigned k;
    int well;

    for (k = 0; k < session->count && session->prepared[k] != sql; k++)
        ;
    snprintf(name, NUMBER_ROOM, "s%u", k);
    if (k < session->count)
        return (int)k;
    if (k == STATEMENTS)
        quit(NO_FILE, "too many statements");
    result = PQprepare(store->handle, name, sql, (int)count, lent->types);
    well = is_well(result);
    if (well)
        session->prepared[session->count++] = sql;
    else
        failed(store, result);
    PQclear(result);
    return well ? (int)k : -1;
}

static struct rows *ask(struct store *store, const char *sql, const struct value *values, unsigned count)
{
    struct lent lent = { 0 };
    char name[NUMBER_ROOM];
    struct rows *rows;
    PGresult *result;
    unsigned k;

    for (k = 0; k < count; k++)
        lend(&lent, k, &values[k]);
    if (number_of(store, sql, &lent, count, name) < 0)
        return NULL;
    result = PQexecPrepared(store->handle, name, (int)count, lent.at, lent.lengths, lent.formats, 0);
    if (!is_well(result)) {
        failed(store, result);
        PQclear(result);
        return NULL;
    }
    rows = room_for(sizeof *rows);
    rows->result = result;
    rows->at = -1;
    return rows;
}

static void end(struct rows *rows)
{
    PQclear(rows->result);
    PQfreemem(rows->bytes);
    free(rows);
}

static int next(struct rows *rows)
{
    if (++rows->at < PQntuples(rows->result))
        return 1;
    end(rows);
    return 0;
}

static unsigned columns(struct rows *rows)
{
    return (unsigned)PQnfields(rows->result);
}

static const char *column(struct rows *rows, unsigned k)
{
    return PQfname(rows->result, (int)k);
}

static const char *word(struct rows *rows, unsigned k)
{
    return PQgetisnull(rows->result, rows->at, (int)k) ? NULL : PQgetvalue(rows->result, rows->at, (int)k);
}

static int64_t integer(struct rows *rows, unsigned k)
{
    return strtoll(PQgetvalue(rows->result, rows->at, (int)k), NULL, 10);
}

static double real(struct rows *rows, unsigned k)
{
    return strtod(PQgetvalue(rows->result, rows->at, (int)k), NULL);
}

static const void *bytes(struct rows *rows, unsigned k, size_t *length)
{
    PQfreemem(rows->bytes);
    rows->bytes = PQunescapeBytea((const unsigned char *)PQgetvalue(rows->result, rows->at, (int)k), length);
    return rows->bytes;
}

/* ---- waiting: a notice comes with each item that is queued ---- */

static void wait_for(struct store *store, double seconds)
{
    struct session *session = store->cache;
    struct pollfd look = { PQsocket(store->handle), POLLIN, 0 };
    PGnotify *notice;

    if (!session->listens && PQstatus(store->handle) == CONNECTION_OK)
        session->listens = run(store, "LISTEN ri_item");
    store->failed = 0;
    poll(&look, 1, (int)(1000 * (seconds > WAIT_LEAST ? seconds : WAIT_LEAST)));
    PQconsumeInput(store->handle);
    while ((notice = PQnotifies(store->handle)) != NULL)
        PQfreemem(notice);
}

const struct store_kind postgres_store = {
    open_database, close_database, run_or_return, ask, next, end, columns, column, integer, real, word, bytes, wait_for,
    "BEGIN", POSTGRES_TABLES, POSTGRES_MORE_TABLES, POSTGRES_TRIGGERS, POSTGRES_CATALOGUE, POSTGRES_TAKE_LINE, POSTGRES_DROP_LINE,
    POSTGRES_TEST_LINE, POSTGRES_ANSWER_LINE, "INSERT INTO ri_doc(record, title, body, folded) VALUES($1, $2, $3, $4)",
    "DELETE FROM ri_doc WHERE record = $1", POSTGRES_SEARCH, "SELECT title, body, folded FROM ri_doc WHERE record = $1", POSTGRES_STRAYS,
    "SELECT version, gone, at FROM ri_record WHERE record = $1 FOR SHARE",
    "SET LOCAL lock_timeout = 0; LOCK TABLE ri_lane IN EXCLUSIVE MODE", POSTGRES_LANE,
    "SELECT seq, record, version, name, word, text, at FROM ri_item WHERE lane = $2 ORDER BY seq LIMIT $1", POSTGRES_SECOND,
    "INSERT INTO ri_doc_new(record, title, body, folded) VALUES($1, $2, $3, $4)", "DELETE FROM ri_doc_new WHERE record = $1",
    "INSERT INTO ri_doc_new(record, title, body, folded) SELECT record, title, body, folded FROM ri_doc WHERE record = $1", POSTGRES_SWAP,
    "SELECT 'ok'", 1
};
