/* Commands that tell: status, jobs, trouble, search, age. */
#include "commands.h"

#include "ages.h"
#include "overview.h"
#include "query.h"
#include "service.h"

#include <stdio.h>
#include <string.h>

/* ---- status ---- */

static void status_words(const struct overview *overview, struct text *text)
{
    unsigned k;

    text_form(text, "%lld records, %lld shown, %lld queued", (long long)overview->records, (long long)overview->shown,
              (long long)overview->queued);
    if (overview->queued > 0) {
        text_word(text, ", the oldest for ");
        add_seconds(text, overview->oldest);
    }
    text_form(text, "\n%lld waiting, %lld in trouble, in %lld states by %lld moves\n", (long long)overview->waiting,
              (long long)overview->trouble, (long long)overview->states, (long long)overview->moves);
    for (k = 0; k < overview->reason_count; k++)
        text_form(text, "  %lld for %s, %s\n", (long long)overview->reasons[k].count, overview->reasons[k].what, overview->reasons[k].word);
    text_form(text, "%u placed in the last hour, from edit to shown: half within ", overview->ages.count);
    add_seconds(text, percentile(overview->ages.edits, overview->ages.count, 50));
    text_word(text, ", 99 % within ");
    add_seconds(text, percentile(overview->ages.edits, overview->ages.count, 99));
}

enum status command_status(const struct options *options)
{
    struct service service;
    struct overview overview;
    struct text text = { 0 };

    service_open(&service, options->conf, 1);
    overview_read(service.store, &overview);
    if (service.store->failed)
        quit(NO_FILE, "%s: %s", service.conf->store, service.store->why);
    if (options->json)
        overview_json(&overview, &text);
    else
        status_words(&overview, &text);
    answer(&text);
    overview_free(&overview);
    service_close(&service);
    return DONE;
}

/* ---- rows as lines, or as lines of JSON ---- */

struct column {
    const char *name;
    char type; /* i, d, t */
};

static void row_json(struct store *store, struct rows *rows, const struct column *columns, struct text *text)
{
    unsigned k;

    json_open(text, NULL, '{');
    for (k = 0; columns[k].name != NULL; k++)
        if (store->kind->word(rows, k) == NULL)
            json_text(text, columns[k].name, NULL);
        else if (columns[k].type == 'i')
            json_number(text, columns[k].name, store->kind->integer(rows, k));
        else if (columns[k].type == 'd')
            json_real(text, columns[k].name, store->kind->real(rows, k));
        else
            json_text(text, columns[k].name, store->kind->word(rows, k));
    json_close(text, '}');
}

static void row_words(struct store *store, struct rows *rows, const struct column *columns, struct text *text)
{
    unsigned k;

    for (k = 0; columns[k].name != NULL; k++) {
        const char *word = store->kind->word(rows, k);

        text_form(text, "%s%s ", k > 0 ? ", " : "", columns[k].name);
        if (columns[k].type == 'd' && word != NULL)
            text_form(text, "%.3f", store->kind->real(rows, k));
        else
            text_word(text, word != NULL ? word : "-");
    }
}

static enum status say_rows(struct service *service, struct rows *rows, const struct column *columns)
{
    while (rows_next(service->store, rows)) {
        struct text text = { 0 };

        if (say_json)
            row_json(service->store, rows, columns, &text);
        else
            row_words(service->store, rows, columns, &text);
        answer(&text);
        text_free(&text);
    }
    if (service->store->failed)
        quit(NO_FILE, "%s: %s", service->conf->store, service->store->why);
    service_close(service);
    return DONE;
}

enum status command_jobs(const struct options *options)
{
    static const struct column columns[] = { { "record", 'i' }, { "version", 'i' }, { "what", 't' }, { "word", 't' }, { "at", 'd' },
                                             { "due", 'd' },    { "tries", 'i' },   { NULL, 0 } };
    struct service service;
    struct rows *rows;

    service_open(&service, options->conf, 1);
    if (options->word_count > 0)
        rows = store_ask(service.store,
                         "SELECT record, version, what, word, at, due, tries FROM ri_job WHERE what = $1 ORDER BY at, record LIMIT $2", "ti",
                         options->words[0], options->limit);
    else
        rows = store_ask(service.store, "SELECT record, version, what, word, at, due, tries FROM ri_job ORDER BY at, record LIMIT $1", "i",
                         options->limit);
    return say_rows(&service, rows, columns);
}

enum status command_search(const struct options *options)
{
    static const struct column columns[] = { { "record", 'i' }, { "title", 't' }, { "text", 't' }, { "version", 'i' }, { "form", 't' },
                                             { "first", 'd' },  { "since", 'd' }, { NULL, 0 } };
    struct service service;
    struct text words = { 0 }, query = { 0 };
    unsigned k;

    for (k = 0; k < options->word_count; k++)
        text_form(&words, "%s ", options->words[k]);
    query_of(&query, text_of(&words));
    service_open(&service, options->conf, 1);
    if (query.length == 0)
        return DONE;
    return say_rows(&service, store_ask(service.store, service.store->kind->search, "ti", text_of(&query), options->limit), columns);
}

/* ---- age ---- */

static void age_words(const struct ages *ages, struct text *text)
{
    static const char *const names[] = { "from edit to shown", "from its cause to shown", "a build at night" };
    const double *rows[] = { ages->edits, ages->causes, ages->nightly };
    unsigned k, row;

    text_form(text, "%u placed", ages->count);
    for (row = 0; row < 3; row++) {
        text_form(text, "\n%-24s", names[row]);
        for (k = 0; k < PERCENTILES; k++) {
            text_form(text, "  %g %%: ", percents[k]);
            add_seconds(text, percentile(rows[row], ages->count, percents[k]));
        }
    }
}

static void write_file(const char *path, const struct text *text)
{
    FILE *file = fopen(path, "wb");

    if (file == NULL || fwrite(text_of(text), 1, text->length, file) != text->length || fclose(file) != 0)
        quit(NO_FILE, "%s: cannot be written", path);
}

enum status command_age(const struct options *options)
{
    struct service service;
    struct ages ages;
    struct text text = { 0 }, picture = { 0 };

    service_open(&service, options->conf, 1);
    ages_read(service.store, options->since, &ages);
    if (service.store->failed)
        quit(NO_FILE, "%s: %s", service.conf->store, service.store->why);
    if (options->svg != NULL) {
        ages_svg(&ages, &picture);
        write_file(options->svg, &picture);
        text_free(&picture);
    }
    if (options->json) {
        json_open(&text, NULL, '{');
        ages_json(&ages, &text);
        json_close(&text, '}');
    } else
        age_words(&ages, &text);
    answer(&text);
    ages_free(&ages);
    service_close(&service);
    return DONE;
}
