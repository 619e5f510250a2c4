/* How the whole job is. */
#include "overview.h"

#include "say.h"

#include <stdio.h>
#include <string.h>

#define HOUR 3600.0

static void read_reasons(struct store *store, struct overview *overview)
{
    struct rows *rows = store_ask(store, "SELECT what, word, count(*), min(at) FROM ri_job GROUP BY what, word ORDER BY 3 DESC, 1, 2", "");

    while (rows_next(store, rows)) {
        struct reason *reason = &overview->reasons[overview->reason_count];

        if (overview->reason_count == REASONS_MOST)
            continue;
        overview->reason_count++;
        snprintf(reason->what, sizeof reason->what, "%s", store->kind->word(rows, 0));
        snprintf(reason->word, sizeof reason->word, "%s", store->kind->word(rows, 1));
        reason->count = store->kind->integer(rows, 2);
        reason->oldest = store->kind->real(rows, 3);
    }
}

static void read_counts(struct store *store, struct overview *overview)
{
    struct rows *rows = store_ask(store, "SELECT name, n FROM ri_count ORDER BY name", "");

    while (rows_next(store, rows)) {
        unsigned k = overview->count_count;

        if (k == COUNTS_MOST)
            continue;
        snprintf(overview->count_names[k], sizeof overview->count_names[k], "%s", store->kind->word(rows, 0));
        overview->counts[k] = store->kind->integer(rows, 1);
        overview->count_count++;
    }
}

static double oldest_item(struct store *store)
{
    struct rows *rows = store_ask(store, "SELECT at FROM ri_item ORDER BY seq LIMIT 1", "");
    double age = 0;

    if (rows_next(store, rows)) {
        age = now() - store->kind->real(rows, 0);
        rows_end(store, rows);
    }
    return age > 0 ? age : 0;
}

void overview_read(struct store *store, struct overview *overview)
{
    memset(overview, 0, sizeof *overview);
    overview->records = store_integer(store, 0, "SELECT count(*) FROM ri_record WHERE gone = 0", "");
    overview->shown = store_integer(store, 0, "SELECT count(*) FROM ri_shown", "");
    overview->queued = store_integer(store, 0, "SELECT count(*) FROM ri_item", "");
    overview->waiting = store_integer(store, 0, "SELECT count(*) FROM ri_run", "");
    overview->trouble = store_integer(store, 0, "SELECT count(*) FROM ri_trouble", "");
    overview->states = store_integer(store, 0, "SELECT count(*) FROM ri_state", "");
    overview->moves = store_integer(store, 0, "SELECT count(*) FROM ri_move", "");
    overview->oldest = oldest_item(store);
    read_reasons(store, overview);
    read_counts(store, overview);
    ages_read(store, HOUR, &overview->ages);
}

void overview_free(struct overview *overview)
{
    ages_free(&overview->ages);
}

void overview_json(const struct overview *overview, struct text *text)
{
    unsigned k;

    json_open(text, NULL, '{');
    json_number(text, "records", overview->records);
    json_number(text, "shown", overview->shown);
    json_number(text, "queued", overview->queued);
    json_real(text, "oldest", overview->oldest);
    json_number(text, "waiting", overview->waiting);
    json_open(text, "waits", '[');
    for (k = 0; k < overview->reason_count; k++) {
        json_open(text, NULL, '{');
        json_text(text, "what", overview->reasons[k].what);
        json_text(text, "word", overview->reasons[k].word);
        json_number(text, "count", overview->reasons[k].count);
        json_real(text, "since", overview->reasons[k].oldest);
        json_close(text, '}');
    }
    json_close(text, ']');
    json_number(text, "trouble", overview->trouble);
    json_number(text, "states", overview->states);
    json_number(text, "moves", overview->moves);
    json_open(text, "done", '{');
    for (k = 0; k < overview->count_count; k++)
        json_number(text, overview->count_names[k], overview->counts[k]);
    json_close(text, '}');
    json_open(text, "last_hour", '{');
    ages_json(&overview->ages, text);
    json_close(text, '}');
    json_close(text, '}');
}
