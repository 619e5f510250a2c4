/* retry and replan: runs begun again. */
#include "again.h"

#include "check.h"
#include "commands.h"
#include "run.h"
#include "service.h"

#include <stdlib.h>
#include <string.h>

void edit_again(struct store *store, int64_t record)
{
    store_do(store, "UPDATE ri_record SET version = version + 1, at = $2 WHERE record = $1", "id", record, now());
    store_do(store, "INSERT INTO ri_item(record, version, at) SELECT record, version, at FROM ri_record WHERE record = $1", "i", record);
}

static void begin(struct service *service)
{
    if (!store_begin_alone(service->store))
        quit(NO_FILE, "%s: %s", service->conf->store, service->store->why);
}

static void commit(struct service *service)
{
    if (!store_commit(service->store))
        quit(NO_FILE, "%s: %s", service->conf->store, service->store->why);
}

static void say_count(const char *key, const char *words, int64_t count)
{
    struct text text = { 0 };

    if (say_json) {
        json_open(&text, NULL, '{');
        json_number(&text, key, count);
        json_close(&text, '}');
    } else
        text_form(&text, "%lld %s", (long long)count, words);
    answer(&text);
    text_free(&text);
}

/* ---- retry ---- */

/* The records on the trouble list, each once. */
static int64_t retry_all(struct store *store)
{
    int64_t record, count = 0, last = 0;

    while ((record = store_integer(store, 0, "SELECT record FROM ri_trouble WHERE record > $1 ORDER BY record LIMIT 1", "i", last)) != 0) {
        edit_again(store, record);
        last = record;
        count++;
    }
    return count;
}

enum status command_retry(const struct options *options)
{
    struct service service;
    int64_t count = 0;
    unsigned k;

    if ((options->word_count > 0) == (options->all != 0))
        quit(USAGE, "usage: rissobarm-index retry RECORD.. | --all");
    service_open(&service, options->conf, 0);
    begin(&service);
    for (k = 0; k < options->word_count; k++, count++) {
        int64_t record = number_from("RECORD", options->words[k]);

        if (store_integer(service.store, 0, "SELECT record FROM ri_record WHERE record = $1", "i", record) == 0)
            quit(NO_RECORD, "%lld: there is no such record", (long long)record);
        edit_again(service.store, record);
    }
    if (options->all)
        count = retry_all(service.store);
    commit(&service);
    say_count("queued", "queued", count);
    service_close(&service);
    return DONE;
}

/* ---- replan ---- */

/* The log of a run, with blanks alone between its supplies. */
static char *flat_log(struct service *service, struct moves *moves, int64_t id)
{
    struct text log = { 0 };
    char *at;

    move_log(service->store, moves, moves_find(service->store, moves, id), &log);
    text_word(&log, "");
    for (at = log.at; *at != 0; at++)
        if (*at == ';')
            memmove(at, at + 1, strlen(at));
    return log.at;
}

/* Begins every waiting run anew; how many. The old moves are read with the old plan. */
static int64_t run_all_anew(struct service *service, struct moves *old)
{
    struct store *store = service->store;
    int64_t count = 0, last = 0;

    while (store->failed == 0) {
        struct rows *rows = store_ask(store, "SELECT record, version, move FROM ri_run WHERE record > $1 ORDER BY record LIMIT 1", "i", last);
        int64_t version, move;
        char *log;

        if (!rows_next(store, rows))
            break;
        last = store->kind->integer(rows, 0);
        version = store->kind->integer(rows, 1);
        move = store->kind->integer(rows, 2);
        rows_end(store, rows);
        log = flat_log(service, old, move);
        run_anew(service, last, version, log);
        free(log);
        if (++count % 1000 == 0)
            progress("%lld runs", (long long)count);
    }
    progress("");
    return count;
}

/* Every record that does not wait gets an edit. */
static void edit_all(struct store *store)
{
    double time = now();

    store_do(store, "UPDATE ri_record SET version = version + 1, at = $1 WHERE record NOT IN (SELECT record FROM ri_run)", "d", time);
    store_do(store,
             "INSERT INTO ri_item(record, version, at) SELECT record, version, at FROM ri_record WHERE at = $1"
             " AND record NOT IN (SELECT record FROM ri_run) ORDER BY record",
             "d", time);
}

/* Puts the plan into use, inside a transaction; how many waiting runs begin anew. */
static int64_t take_plan(struct service *service, struct plan *plan)
{
    struct moves *old = service->moves;
    struct plan *before = service->plan;
    int64_t count;

    plan->id = before->id + 1;
    store_do(service->store, "INSERT INTO ri_plan(id, text, at) VALUES($1, $2, $3)", "itd", plan->id, plan->text, now());
    service->moves = NULL;
    service->plan = NULL;
    service_use(service, plan);
    count = run_all_anew(service, old);
    moves_free(old);
    plan_free(before);
    return count;
}

enum status command_replan(const struct options *options)
{
    struct service service;
    struct plan *plan = plan_of_file(options->words[0]);
    int64_t count = 0;

    service_open(&service, options->conf, 0);
    check_or_quit(service.conf, plan, service.store);
    begin(&service);
    if (strcmp(plan->text, service.plan->text) != 0)
        count = take_plan(&service, plan);
    if (options->all)
        edit_all(service.store);
    commit(&service);
    say_count("runs", "waiting runs begun anew", count);
    service_close(&service);
    return DONE;
}
