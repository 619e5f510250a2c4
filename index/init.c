/* init: the tables, the triggers, the plan. */
#include "commands.h"

#include "check.h"
#include "service.h"

#include <stdlib.h>
#include <string.h>

/* The triggers for the house's table: %1 is the table, %2 its key. */
static char *triggers_of(const struct conf *conf, const char *form)
{
    struct text text = { 0 };

    for (; *form != 0; form++)
        if (form[0] == '%' && (form[1] == '1' || form[1] == '2'))
            text_word(&text, *++form == '1' ? conf->table : conf->key);
        else
            text_bytes(&text, form, 1);
    return text.at;
}

/* Rows that were there before: each is an edit. */
static void take_rows(struct store *store, const struct conf *conf)
{
    struct text sql = { 0 };

    text_form(&sql, "INSERT INTO ri_record(record, version, gone, at) SELECT %s, 1, 0, $1 FROM %s WHERE %s NOT IN (SELECT record FROM ri_record)",
              conf->key, conf->table, conf->key);
    store_do(store, text_of(&sql), "d", now());
    store_do(store,
             "INSERT INTO ri_item(record, version, at) SELECT record, version, at FROM ri_record WHERE version = 1 AND gone = 0"
             " AND record NOT IN (SELECT record FROM ri_item) AND record NOT IN (SELECT record FROM ri_shown)"
             " AND record NOT IN (SELECT record FROM ri_run) AND record NOT IN (SELECT record FROM ri_trouble) ORDER BY record",
             "");
}

static void make_tables(struct store *store, const struct conf *conf)
{
    char *triggers = triggers_of(conf, store->kind->triggers);

    store->kind->run(store, store->kind->schema);
    if (!store->failed)
        store->kind->run(store, store->kind->more_schema);
    if (strcmp(conf->table, "catalogue") == 0 && !store->failed)
        store->kind->run(store, store->kind->catalogue);
    if (!store->failed)
        store->kind->run(store, triggers);
    free(triggers);
}

static void note_plan(struct store *store, const struct plan *plan)
{
    if (store_integer(store, 0, "SELECT id FROM ri_plan LIMIT 1", "") == 0)
        store_do(store, "INSERT INTO ri_plan(id, text, at) VALUES(1, $1, $2)", "td", plan->text, now());
}

enum status command_init(const struct options *options)
{
    struct conf *conf = conf_read(options->conf);
    struct plan *plan = plan_of_file(conf->plan);
    struct store *store = store_open(conf, 0);
    struct text text = { 0 };

    if (!store_begin(store))
        quit(NO_FILE, "%s: %s", conf->store, store->why);
    make_tables(store, conf);
    if (!store->failed)
        check_or_quit(conf, plan, store);
    note_plan(store, plan);
    take_rows(store, conf);
    if (!store_commit(store))
        quit(NO_FILE, "%s: %s", conf->store, store->why);
    if (options->json) {
        json_open(&text, NULL, '{');
        json_text(&text, "store", conf->store);
        json_text(&text, "plan", conf->plan);
        json_close(&text, '}');
    } else
        text_form(&text, "%s is ready, with the plan %s", conf->store, conf->plan);
    answer(&text);
    store_close(store);
    return DONE;
}
