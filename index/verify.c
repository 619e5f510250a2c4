/* verify: what is missing, stale, torn or left over, and its repair. */
#include "commands.h"

#include "again.h"
#include "place.h"
#include "service.h"

#include <stdlib.h>
#include <string.h>

enum { FAULTS = 6, SAID_MOST = 20, BATCH = 500 };

/* Seconds that it rests after each batch, so that editors come in. */
#define REST 0.01

enum fault { MISSING, STALE, TORN, LEFT_OVER, UNKNOWN, VANISHED };

static const char *const fault_names[FAULTS] = { "missing", "stale", "torn", "left over", "unknown", "vanished" };

struct verifying {
    struct service service;
    int repair;
    int64_t counts[FAULTS], looked;
};

static void found(struct verifying *v, enum fault fault, int64_t record)
{
    if (v->counts[fault]++ < SAID_MOST)
        warn("record %lld is %s", (long long)record, fault_names[fault]);
}

/* What is only looked at needs no lock; what is mended does. */
static void begin(struct verifying *v)
{
    struct store *store = v->service.store;

    if (!(v->repair ? store_begin_alone(store) : store->kind->run(store, "BEGIN")))
        quit(NO_FILE, "%s: %s", v->service.conf->store, store->why);
}

static void commit(struct verifying *v)
{
    if (!store_commit(v->service.store))
        quit(NO_FILE, "%s: %s", v->service.conf->store, v->service.store->why);
}

/* ---- records that the job knows ---- */

/* Whether something is under way for the record's version: an item, a run, trouble. */
static int is_under_way(struct store *store, int64_t record, int64_t version)
{
    return store_integer(store, 0, "SELECT record FROM ri_item WHERE record = $1 AND version = $2 LIMIT 1", "ii", record, version) != 0 ||
           store_integer(store, 0, "SELECT record FROM ri_run WHERE record = $1 AND version = $2", "ii", record, version) != 0 ||
           store_integer(store, 0, "SELECT record FROM ri_trouble WHERE record = $1 AND version = $2 LIMIT 1", "ii", record, version) != 0;
}

static int same(const char *word, const struct text *text)
{
    return strcmp(word != NULL ? word : "", text_of(text)) == 0;
}

/* Whether the index has just what the form of the version gives. */
static int is_as_shown(struct verifying *v, int64_t record, int64_t version, const char *word)
{
    struct store *store = v->service.store;
    const struct form *form = conf_form(v->service.conf, word);
    struct document document;
    struct rows *rows;
    int there, well;

    if (form == NULL)
        return 0;
    memset(&document, 0, sizeof document);
    if (form->part_count > 0)
        document_make(&v->service, form, record, version, &document);
    rows = store_ask(store, store->kind->document, "i", record);
    there = rows_next(store, rows);
    well = there == (form->part_count > 0);
    if (there) {
        well = well && same(store->kind->word(rows, 0), &document.title) && same(store->kind->word(rows, 1), &document.body) &&
               same(store->kind->word(rows, 2), &document.folded);
        rows_end(store, rows);
    }
    document_free(&document);
    return well;
}

/* The fault of a record, or -1. */
static int fault_of(struct verifying *v, int64_t record)
{
    struct store *store = v->service.store;
    int64_t version = store_integer(store, 0, store->kind->newest, "i", record), shown_version;
    struct rows *rows = store_ask(store, "SELECT version, form FROM ri_shown WHERE record = $1", "i", record);
    int shown = rows_next(store, rows), well;
    char *form;

    if (!shown)
        return is_under_way(store, record, version) ? -1 : MISSING;
    shown_version = store->kind->integer(rows, 0);
    form = copy_of(store->kind->word(rows, 1));
    rows_end(store, rows);
    well = shown_version != version || is_as_shown(v, record, version, form);
    free(form);
    if (shown_version != version && !is_under_way(store, record, version))
        return STALE;
    return well ? -1 : TORN;
}

static void look_at(struct verifying *v, int64_t record)
{
    int fault = fault_of(v, record);

    if (fault >= 0) {
        found(v, (enum fault)fault, record);
        if (v->repair)
            edit_again(v->service.store, record);
    }
    v->looked++;
}

/* Batch by batch, each a transaction. */
static void look_at_records(struct verifying *v)
{
    struct store *store = v->service.store;
    int64_t record = 0;

    begin(v);
    while ((record = store_integer(store, 0, "SELECT record FROM ri_record WHERE record > $1 ORDER BY record LIMIT 1", "i", record)) != 0) {
        look_at(v, record);
        if (v->looked % BATCH == 0) {
            commit(v);
            progress("%lld records", (long long)v->looked);
            store->kind->wait(store, REST);
            begin(v);
        }
    }
    commit(v);
}

/* ---- rows that the job does not know, or that are left over ---- */

/* Each record that a statement finds after $1, one by one, so that it may be mended meanwhile. */
static void each(struct verifying *v, enum fault fault, const char *sql, void (*mend)(struct store *store, int64_t record))
{
    struct store *store = v->service.store;
    int64_t record, last = 0;

    while ((record = store_integer(store, 0, sql, "i", last)) != 0) {
        found(v, fault, record);
        if (v->repair)
            mend(store, record);
        last = record;
    }
}

static void take_out(struct store *store, int64_t record)
{
    store_do(store, store->kind->drop, "i", record);
}

static void make_known(struct store *store, int64_t record)
{
    store_do(store, "INSERT INTO ri_record(record, version, gone, at) VALUES($1, 0, 0, 0)", "i", record);
    edit_again(store, record);
}

static void make_gone(struct store *store, int64_t record)
{
    store_do(store, "UPDATE ri_record SET gone = 1 WHERE record = $1", "i", record);
    edit_again(store, record);
}

static void make_there(struct store *store, int64_t record)
{
    store_do(store, "UPDATE ri_record SET gone = 0 WHERE record = $1", "i", record);
    edit_again(store, record);
}

static char *house_sql_of(const struct conf *conf, const char *form)
{
    struct text text = { 0 };

    for (; *form != 0; form++)
        if (*form == 'T' || *form == 'K')
            text_word(&text, *form == 'T' ? conf->table : conf->key);
        else
            text_bytes(&text, form, 1);
    return text.at;
}

static void look_at_rows(struct verifying *v)
{
    const struct conf *conf = v->service.conf;
    /* T is the house's table and K its key; so everything else is in small letters */
    char *unknown = house_sql_of(conf, "select K from T where K > $1 and K not in (select record from ri_record) order by 1 limit 1");
    char *back = house_sql_of(conf, "select K from T where K > $1 and K in (select record from ri_record where gone <> 0) order by 1 limit 1");
    char *vanished = house_sql_of(conf, "select record from ri_record where record > $1 and gone = 0 and record not in (select K from T)"
                                        " order by 1 limit 1");

    begin(v);
    each(v, LEFT_OVER, v->service.store->kind->strays, take_out);
    each(v, UNKNOWN, unknown, make_known);
    each(v, UNKNOWN, back, make_there);
    each(v, VANISHED, vanished, make_gone);
    commit(v);
    /* the store may know statements by the place of their text, so they are not freed */
}

static void look_at_database(struct verifying *v)
{
    char *word = store_word(v->service.store, v->service.store->kind->probes, "");

    if (word != NULL && strcmp(word, "ok") != 0)
        quit(FOUND_WRONG, "%s: the database itself is not well: %s", v->service.conf->store, word);
    free(word);
}

static int64_t say_verified(const struct verifying *v)
{
    struct text text = { 0 };
    int64_t all = 0;
    unsigned k;

    for (k = 0; k < FAULTS; k++)
        all += v->counts[k];
    if (say_json) {
        json_open(&text, NULL, '{');
        json_number(&text, "records", v->looked);
        for (k = 0; k < FAULTS; k++)
            json_number(&text, fault_names[k], v->counts[k]);
        json_number(&text, "repaired", v->repair ? all : 0);
        json_close(&text, '}');
    } else {
        text_form(&text, "%lld records, %lld not as they must be", (long long)v->looked, (long long)all);
        for (k = 0; k < FAULTS; k++)
            if (v->counts[k] > 0)
                text_form(&text, ", %lld %s", (long long)v->counts[k], fault_names[k]);
        if (v->repair && all > 0)
            text_word(&text, "; their edits are queued");
    }
    answer(&text);
    text_free(&text);
    return all;
}

enum status command_verify(const struct options *options)
{
    struct verifying *v = room_for(sizeof *v);
    int64_t all;

    v->repair = options->repair;
    service_open(&v->service, options->conf, 0);
    look_at_database(v);
    look_at_records(v);
    look_at_rows(v);
    progress("");
    all = say_verified(v);
    service_close(&v->service);
    free(v);
    return all > 0 && !options->repair ? FOUND_WRONG : DONE;
}
