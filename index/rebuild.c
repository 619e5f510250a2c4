/* rebuild: every record's form written anew, in place or into a second table. */
#include "commands.h"

#include "place.h"
#include "service.h"
#include "work.h"

#include <stdlib.h>
#include <string.h>

enum { BATCH = 200 };

/* Seconds: how long it rests after each batch, so that editors come in, and how far clocks of several machines may be apart. */
#define REST 0.01
#define APART 60.0

struct rebuilding {
    struct service service;
    int beside;
    double since; /* only what was placed since then */
    int64_t last, count;
};

static void begin(struct rebuilding *r)
{
    if (!store_begin_alone(r->service.store))
        quit(NO_FILE, "%s: %s", r->service.conf->store, r->service.store->why);
}

static void commit(struct rebuilding *r)
{
    if (!store_commit(r->service.store))
        quit(NO_FILE, "%s: %s", r->service.conf->store, r->service.store->why);
}

/* ---- one record ---- */

/* Its form out of the catalogue, which has the version that is shown. */
static void write_anew(struct rebuilding *r, int64_t record, int64_t version, const char *word)
{
    struct store *store = r->service.store;
    const struct form *form = conf_form(r->service.conf, word);
    struct document document;

    store_do(store, r->beside ? store->kind->drop_second : store->kind->drop, "i", record);
    if (form == NULL || form->part_count == 0)
        return;
    document_make(&r->service, form, record, version, &document);
    store_do(store, r->beside ? store->kind->put_second : store->kind->put, "ittt", record, text_of(&document.title),
             text_of(&document.body), text_of(&document.folded));
    document_free(&document);
    r->count++;
}

/* A record that shows an older version than it has stays as it is, until its run places something. */
static void keep(struct rebuilding *r, int64_t record)
{
    struct store *store = r->service.store;

    if (!r->beside)
        return;
    store_do(store, store->kind->drop_second, "i", record);
    store_do(store, store->kind->copy_second, "i", record);
}

/* The next record that shows something; 0 if there is none. */
static int write_next(struct rebuilding *r)
{
    struct store *store = r->service.store;
    struct rows *rows = store_ask(store,
                                  "SELECT s.record, s.version, s.form, r.version FROM ri_shown s JOIN ri_record r ON r.record = s.record"
                                  " WHERE s.record > $1 AND s.since >= $2 ORDER BY s.record LIMIT 1",
                                  "id", r->last, r->since);
    int64_t version, newest;
    char *form;

    if (!rows_next(store, rows))
        return 0;
    r->last = store->kind->integer(rows, 0);
    version = store->kind->integer(rows, 1);
    newest = store->kind->integer(rows, 3);
    form = copy_of(store->kind->word(rows, 2));
    rows_end(store, rows);
    if (version == newest)
        write_anew(r, r->last, version, form);
    else
        keep(r, r->last);
    free(form);
    return 1;
}

/* ---- all of them ---- */

/* A batch in a transaction of its own; whether there are more. */
static int write_some(struct rebuilding *r)
{
    int more = 1, k;

    begin(r);
    for (k = 0; k < BATCH && more && r->service.store->failed == 0; k++)
        more = write_next(r);
    commit(r);
    progress("%lld records", (long long)r->count);
    r->service.store->kind->wait(r->service.store, REST);
    return more;
}

/* In place: batch by batch, each after what is in the queue. */
static void rebuild_in_place(struct rebuilding *r)
{
    do
        if (!work_once(&r->service))
            quit(NO_FILE, "%s: %s", r->service.conf->store, r->service.store->why);
    while (!work_stopped && write_some(r));
}

/* Beside: the second table is filled batch by batch while edits go on in the first; then what was placed meanwhile is written again and the tables are swapped, in one transaction. */
static void rebuild_beside(struct rebuilding *r)
{
    struct store *store = r->service.store;
    double began = now() - APART;

    begin(r);
    store->kind->run(store, store->kind->second);
    commit(r);
    while (write_some(r))
        if (work_stopped)
            return;
    begin(r);
    r->last = 0;
    r->since = began;
    while (store->failed == 0 && write_next(r))
        ;
    if (store->failed == 0)
        store->kind->run(store, store->kind->swap);
    commit(r);
}

enum status command_rebuild(const struct options *options)
{
    struct rebuilding r;
    struct text text = { 0 };

    memset(&r, 0, sizeof r);
    r.beside = options->beside;
    service_open(&r.service, options->conf, 0);
    work_take_stops();
    if (r.beside)
        rebuild_beside(&r);
    else
        rebuild_in_place(&r);
    progress("");
    if (options->json) {
        json_open(&text, NULL, '{');
        json_number(&text, "written", r.count);
        json_close(&text, '}');
    } else
        text_form(&text, "%lld written anew", (long long)r.count);
    answer(&text);
    service_close(&r.service);
    return work_stopped ? WORK_LEFT : DONE;
}
