/* why and trouble: how a record came to be where it is, from its log. */
#include "commands.h"

#include "service.h"

#include <stdlib.h>
#include <string.h>

/* The plan that a move belongs to may be an older one: then its moves are read with that. */
static struct moves *moves_for(struct service *service, int64_t move, struct plan **plan)
{
    int64_t id = store_integer(service->store, 0, "SELECT plan FROM ri_move WHERE id = $1", "i", move);
    char why[WHY_ROOM], *text;

    *plan = NULL;
    if (id == 0 || id == service->plan->id)
        return service->moves;
    text = store_word(service->store, "SELECT text FROM ri_plan WHERE id = $1", "i", id);
    *plan = text != NULL ? plan_make(text, why, sizeof why) : NULL;
    free(text);
    if (*plan == NULL)
        return service->moves;
    (*plan)->id = id;
    return moves_of(*plan);
}

static void values_json(const struct plan *plan, const struct move *move, struct text *text)
{
    unsigned k;

    json_open(text, "values", '{');
    for (k = 0; k < plan->variable_count; k++)
        json_text(text, plan->variables[k], move_word(plan, move, k));
    json_close(text, '}');
}

/* The log and the values after a move, into an object that is open. */
static void log_json(struct service *service, int64_t id, struct text *text)
{
    struct plan *plan;
    struct moves *moves = moves_for(service, id, &plan);
    const struct move *move = moves_find(service->store, moves, id);
    struct text log = { 0 };

    if (move != NULL) {
        move_log(service->store, moves, move, &log);
        json_text(text, "log", text_of(&log));
        json_text(text, "end", move->id != 0 ? rissobarm_end_text(move->ended) : "not begun");
        values_json(moves->plan, move, text);
        text_free(&log);
    }
    if (plan != NULL) {
        moves_free(moves);
        plan_free(plan);
    }
}

static void log_words(struct service *service, int64_t id, struct text *text)
{
    struct plan *plan;
    struct moves *moves = moves_for(service, id, &plan);
    const struct move *move = moves_find(service->store, moves, id);
    unsigned k;

    if (move != NULL && move->id != 0) {
        text_word(text, "\n  supplied: ");
        move_log(service->store, moves, move, text);
        text_word(text, "\n  values:");
        for (k = 0; k < moves->plan->variable_count; k++) {
            const char *word = move_word(moves->plan, move, k);

            text_form(text, " %s%s%s", moves->plan->variables[k], word != NULL ? "=" : " open", word != NULL ? word : "");
        }
    }
    if (plan != NULL) {
        moves_free(moves);
        plan_free(plan);
    }
}

/* ---- why ---- */

/* One row of where a record is: what it is called, and the columns version, move, and a word. */
struct place_row {
    const char *key, *words, *sql;
};

static const struct place_row places[] = {
    { "waiting", "waits", "SELECT version, move, 'run', at FROM ri_run WHERE record = $1" },
    { "shown", "is shown", "SELECT version, move, form, since FROM ri_shown WHERE record = $1" },
    { "trouble", "is in trouble", "SELECT version, move, why, at FROM ri_trouble WHERE record = $1 ORDER BY id DESC LIMIT 1" },
};

static void place_json(struct service *service, const struct place_row *row, int64_t record, struct text *text)
{
    struct store *store = service->store;
    struct rows *rows = store_ask(store, row->sql, "i", record);
    int64_t move;

    if (!rows_next(store, rows))
        return;
    json_open(text, row->key, '{');
    json_number(text, "version", store->kind->integer(rows, 0));
    json_text(text, "word", store->kind->word(rows, 2));
    json_real(text, "at", store->kind->real(rows, 3));
    move = store->kind->integer(rows, 1);
    rows_end(store, rows);
    log_json(service, move, text);
    json_close(text, '}');
}

static void place_words(struct service *service, const struct place_row *row, int64_t record, struct text *text)
{
    struct store *store = service->store;
    struct rows *rows = store_ask(store, row->sql, "i", record);
    int64_t move;

    if (!rows_next(store, rows))
        return;
    text_form(text, "\nversion %lld %s: ", (long long)store->kind->integer(rows, 0), row->words);
    text_word(text, store->kind->word(rows, 2));
    move = store->kind->integer(rows, 1);
    rows_end(store, rows);
    log_words(service, move, text);
}

static void jobs_of(struct service *service, int64_t record, struct text *text)
{
    struct store *store = service->store;
    struct rows *rows = store_ask(store, "SELECT what, word FROM ri_job WHERE record = $1 ORDER BY what", "i", record);

    if (say_json)
        json_open(text, "asked", '[');
    while (rows_next(store, rows))
        if (say_json) {
            json_open(text, NULL, '{');
            json_text(text, "what", store->kind->word(rows, 0));
            json_text(text, "word", store->kind->word(rows, 1));
            json_close(text, '}');
        } else {
            text_word(text, "\n  asked: ");
            text_form(text, "%s, %s", store->kind->word(rows, 0), store->kind->word(rows, 1));
        }
    if (say_json)
        json_close(text, ']');
}

static void tell_record(struct service *service, int64_t record, int64_t version, int gone, struct text *text)
{
    int64_t queued = store_integer(service->store, 0, "SELECT count(*) FROM ri_item WHERE record = $1", "i", record);
    unsigned k;

    if (say_json) {
        json_open(text, NULL, '{');
        json_number(text, "record", record);
        json_number(text, "version", version);
        json_number(text, "gone", gone);
        json_number(text, "queued", queued);
    } else
        text_form(text, "record %lld, version %lld%s, %lld queued", (long long)record, (long long)version, gone ? ", gone" : "",
                  (long long)queued);
    for (k = 0; k < sizeof places / sizeof places[0]; k++)
        if (say_json)
            place_json(service, &places[k], record, text);
        else
            place_words(service, &places[k], record, text);
    jobs_of(service, record, text);
    if (say_json)
        json_close(text, '}');
}

enum status command_why(const struct options *options)
{
    int64_t record = number_from("RECORD", options->words[0]), version;
    struct service service;
    struct text text = { 0 };
    struct rows *rows;
    int gone;

    service_open(&service, options->conf, 1);
    rows = store_ask(service.store, "SELECT version, gone FROM ri_record WHERE record = $1", "i", record);
    if (!rows_next(service.store, rows))
        quit(NO_RECORD, "%lld: there is no such record", (long long)record);
    version = service.store->kind->integer(rows, 0);
    gone = service.store->kind->integer(rows, 1) != 0;
    rows_end(service.store, rows);
    tell_record(&service, record, version, gone, &text);
    answer(&text);
    text_free(&text);
    service_close(&service);
    return DONE;
}

/* ---- trouble ---- */

static void trouble_line(struct service *service, struct rows *rows, struct text *text)
{
    const struct store_kind *kind = service->store->kind;
    int64_t record = kind->integer(rows, 0), version = kind->integer(rows, 1), move = kind->integer(rows, 2);

    if (say_json) {
        json_open(text, NULL, '{');
        json_number(text, "record", record);
        json_number(text, "version", version);
        json_text(text, "why", kind->word(rows, 3));
        json_real(text, "at", kind->real(rows, 4));
        log_json(service, move, text);
        json_close(text, '}');
    } else {
        text_form(text, "record %lld, version %lld: ", (long long)record, (long long)version);
        text_word(text, kind->word(rows, 3));
        log_words(service, move, text);
    }
}

enum status command_trouble(const struct options *options)
{
    struct service service;
    struct rows *rows;

    service_open(&service, options->conf, 1);
    rows = store_ask(service.store, "SELECT record, version, move, why, at FROM ri_trouble ORDER BY id LIMIT $1", "i", options->limit);
    while (rows_next(service.store, rows)) {
        struct text text = { 0 };

        trouble_line(&service, rows, &text);
        answer(&text);
        text_free(&text);
    }
    if (service.store->failed)
        quit(NO_FILE, "%s: %s", service.conf->store, service.store->why);
    service_close(&service);
    return DONE;
}
