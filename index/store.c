/* What both stores have in common. */
#include "store.h"

#include "conf.h"
#include "say.h"

#include <stdarg.h>
#include <stdio.h>
#include <stdlib.h>
#include <string.h>

struct store *store_try(const struct conf *conf, int readonly, char *why)
{
    struct store *store = room_for(sizeof *store);

    store->kind = conf->postgres ? &postgres_store : &sqlite_store;
    if (store->kind->open(store, conf, readonly))
        return store;
    snprintf(why, WHY_ROOM, "%s", store->why);
    store_close(store);
    return NULL;
}

struct store *store_open(const struct conf *conf, int readonly)
{
    char why[WHY_ROOM];
    struct store *store = store_try(conf, readonly, why);

    if (store == NULL)
        quit(NO_FILE, "%s: %s", conf->store, why);
    return store;
}

void store_close(struct store *store)
{
    if (store == NULL)
        return;
    store->kind->close(store);
    free(store);
}

void store_fail(struct store *store, int severity, const char *why)
{
    if (store->failed)
        return;
    store->failed = severity;
    snprintf(store->why, sizeof store->why, "%s", why);
}

/* ---- transactions ---- */

int store_begin(struct store *store)
{
    store->failed = 0;
    store->busy = 0;
    return store->kind->run(store, store->kind->begin);
}

int store_begin_alone(struct store *store)
{
    return store_begin(store) && (store->kind->lock == NULL || store->kind->run(store, store->kind->lock));
}

void store_undo(struct store *store)
{
    char why[WHY_ROOM];

    snprintf(why, sizeof why, "%s", store->why);
    store->failed = 0;
    store->kind->run(store, "ROLLBACK");
    snprintf(store->why, sizeof store->why, "%s", why);
    store->failed = 0;
}

int store_commit(struct store *store)
{
    if (!store->failed && store->kind->run(store, "COMMIT"))
        return 1;
    store_undo(store);
    return 0;
}

void store_mark(struct store *store, const char *name)
{
    char sql[64];

    snprintf(sql, sizeof sql, "SAVEPOINT %s", name);
    if (!store->failed)
        store->kind->run(store, sql);
}

int store_unmark(struct store *store, const char *name, char *why)
{
    int well = !store->failed;
    char sql[64];

    if (!well) {
        snprintf(why, WHY_ROOM, "%s", store->why);
        store->failed = 0;
        snprintf(sql, sizeof sql, "ROLLBACK TO SAVEPOINT %s", name);
        store->kind->run(store, sql);
    }
    snprintf(sql, sizeof sql, "RELEASE SAVEPOINT %s", name);
    store->kind->run(store, sql);
    return well;
}

/* ---- statements ---- */

static unsigned take_values(struct value *values, const char *types, va_list given)
{
    unsigned k;

    for (k = 0; types[k] != 0 && k < VALUES_MOST; k++) {
        values[k].type = types[k];
        switch (types[k]) {
        case 'i':
            values[k].integer = va_arg(given, int64_t);
            break;
        case 'd':
            values[k].real = va_arg(given, double);
            break;
        case 't':
            values[k].bytes = va_arg(given, const char *);
            values[k].length = values[k].bytes != NULL ? strlen(values[k].bytes) : 0;
            break;
        default:
            values[k].bytes = va_arg(given, const char *);
            values[k].length = va_arg(given, size_t);
        }
    }
    return k;
}

static struct rows *ask_with(struct store *store, const char *sql, const char *types, va_list given)
{
    struct value values[VALUES_MOST];
    unsigned count;

    memset(values, 0, sizeof values);
    count = take_values(values, types, given);
    return store->failed ? NULL : store->kind->ask(store, sql, values, count);
}

struct rows *store_ask(struct store *store, const char *sql, const char *types, ...)
{
    struct rows *rows;
    va_list given;

    va_start(given, types);
    rows = ask_with(store, sql, types, given);
    va_end(given);
    return rows;
}

void store_do(struct store *store, const char *sql, const char *types, ...)
{
    struct rows *rows;
    va_list given;

    va_start(given, types);
    rows = ask_with(store, sql, types, given);
    va_end(given);
    while (rows_next(store, rows))
        ;
}

int64_t store_integer(struct store *store, int64_t none, const char *sql, const char *types, ...)
{
    struct rows *rows;
    va_list given;

    va_start(given, types);
    rows = ask_with(store, sql, types, given);
    va_end(given);
    if (!rows_next(store, rows))
        return none;
    none = store->kind->integer(rows, 0);
    rows_end(store, rows);
    return none;
}

char *store_word(struct store *store, const char *sql, const char *types, ...)
{
    struct rows *rows;
    const char *word;
    char *copy;
    va_list given;

    va_start(given, types);
    rows = ask_with(store, sql, types, given);
    va_end(given);
    if (!rows_next(store, rows))
        return NULL;
    word = store->kind->word(rows, 0);
    copy = word != NULL ? copy_of(word) : NULL;
    rows_end(store, rows);
    return copy;
}

int rows_next(struct store *store, struct rows *rows)
{
    return rows != NULL && store->kind->next(rows);
}

void rows_end(struct store *store, struct rows *rows)
{
    if (rows != NULL)
        store->kind->end(rows);
}
