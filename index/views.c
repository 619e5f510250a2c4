/* What the page shows. */
#include "views.h"

#include "ages.h"
#include "overview.h"
#include "query.h"
#include "say.h"
#include "tree.h"

#include <stdlib.h>
#include <string.h>
#include <time.h>

enum { FOUND_MOST = 20, TROUBLE_MOST = 20, WAITING_MOST = 20 };

const char view_style[] = "body{font:16px/1.4 sans-serif;max-width:54em;margin:1.5em auto;padding:0 1em;color:#222}"
                          "table{border-collapse:collapse}th,td{text-align:left;padding:.2em .8em .2em 0;vertical-align:top}"
                          "th{font-weight:normal;color:#555}small{color:#555}li{margin:.7em 0}mark{background:#ff9}"
                          "nav a{margin-right:1em}.bad{color:#a00}svg{max-width:100%;height:auto}";

static void head(struct text *page, const char *title, int refresh)
{
    text_word(page, "<!doctype html><html lang=\"en\"><head><meta charset=\"utf-8\"><meta name=\"viewport\" content=\"width=device-width\">");
    if (refresh)
        text_word(page, "<meta http-equiv=\"refresh\" content=\"10\">");
    text_form(page, "<title>%s</title><link rel=\"stylesheet\" href=\"/style.css\"></head><body>", title);
    text_word(page, "<nav><a href=\"/\">Status</a><a href=\"/search\">Search</a><a href=\"/status.json\">status.json</a></nav>");
    text_form(page, "<h1>%s</h1>", title);
}

static void foot(struct text *page)
{
    text_word(page, "</body></html>");
}

static void number_row(struct text *page, const char *name, int64_t number)
{
    text_form(page, "<tr><th>%s<td>%lld", name, (long long)number);
}

static void age_row(struct text *page, const char *name, double seconds)
{
    text_form(page, "<tr><th>%s<td>", name);
    add_seconds(page, seconds);
}

/* ---- status ---- */

static void percentiles(struct text *page, const struct ages *ages)
{
    unsigned k;

    text_form(page, "<h2>From edit to searchable, last hour</h2><p>%u placed</p><table><tr>", ages->count);
    for (k = 0; k < PERCENTILES; k++)
        text_form(page, "<th>%g %%", percents[k]);
    text_word(page, "<tr>");
    for (k = 0; k < PERCENTILES; k++) {
        text_word(page, "<td>");
        add_seconds(page, percentile(ages->edits, ages->count, percents[k]));
    }
    text_word(page, "</table>");
    if (ages->count > 0)
        ages_svg(ages, page);
}

static void reasons(struct text *page, const struct overview *overview)
{
    unsigned k;

    text_word(page, "<h2>Waiting</h2><table>");
    for (k = 0; k < overview->reason_count; k++) {
        text_word(page, "<tr><th>");
        text_html(page, overview->reasons[k].what);
        text_word(page, ", ");
        text_html(page, overview->reasons[k].word);
        text_form(page, "<td>%lld<td>the oldest for ", (long long)overview->reasons[k].count);
        add_seconds(page, now() - overview->reasons[k].oldest);
    }
    text_word(page, "</table>");
}

static void waiting_records(struct store *store, struct text *page)
{
    struct rows *rows = store_ask(store, "SELECT record FROM ri_run ORDER BY at LIMIT $1", "i", (int64_t)WAITING_MOST);

    text_word(page, "<p>");
    while (rows_next(store, rows))
        text_form(page, "<a href=\"/record?number=%lld\">%lld</a> ", (long long)store->kind->integer(rows, 0),
                  (long long)store->kind->integer(rows, 0));
    text_word(page, "</p>");
}

static void troubles(struct store *store, struct text *page)
{
    struct rows *rows = store_ask(store, "SELECT record, version, why FROM ri_trouble ORDER BY id DESC LIMIT $1", "i", (int64_t)TROUBLE_MOST);

    text_word(page, "<h2>Trouble</h2><table>");
    while (rows_next(store, rows)) {
        int64_t record = store->kind->integer(rows, 0);

        text_form(page, "<tr><th><a href=\"/record?number=%lld\">%lld</a>, version %lld<td class=\"bad\">", (long long)record,
                  (long long)record, (long long)store->kind->integer(rows, 1));
        text_html(page, store->kind->word(rows, 2));
    }
    text_word(page, "</table>");
}

void view_status(struct store *store, struct text *page)
{
    struct overview overview;

    overview_read(store, &overview);
    head(page, "Index", 1);
    text_word(page, "<table>");
    number_row(page, "records", overview.records);
    number_row(page, "shown", overview.shown);
    number_row(page, "queued", overview.queued);
    age_row(page, "the oldest of these for", overview.oldest);
    number_row(page, "waiting", overview.waiting);
    number_row(page, "in trouble", overview.trouble);
    number_row(page, "states of runs", overview.states);
    text_word(page, "</table>");
    percentiles(page, &overview.ages);
    reasons(page, &overview);
    waiting_records(store, page);
    troubles(store, page);
    foot(page);
    overview_free(&overview);
}

/* ---- search ---- */

/* A snippet, whose hits stand between the bytes 1 and 2. */
static void marked(struct text *page, const char *words)
{
    for (; *words != 0; words++) {
        char byte[2] = { *words, 0 };

        if (*words == 1)
            text_word(page, "<mark>");
        else if (*words == 2)
            text_word(page, "</mark>");
        else
            text_html(page, byte);
    }
}

static void found_line(struct store *store, struct rows *rows, struct text *page)
{
    const char *title = store->kind->word(rows, 1), *snippet = store->kind->word(rows, 2);

    text_word(page, "<li><b>");
    text_html(page, title != NULL ? title : "");
    text_word(page, "</b><br>");
    marked(page, snippet != NULL ? snippet : "");
    text_form(page, "<br><small>record <a href=\"/record?number=%lld\">%lld</a>, version %lld, ", (long long)store->kind->integer(rows, 0),
              (long long)store->kind->integer(rows, 0), (long long)store->kind->integer(rows, 3));
    text_html(page, store->kind->word(rows, 4));
    text_word(page, ", shown for ");
    add_seconds(page, now() - store->kind->real(rows, 6));
    text_word(page, "</small></li>");
}

void view_search(struct store *store, const char *words, struct text *page)
{
    struct text query = { 0 };
    struct rows *rows = NULL;
    unsigned count = 0;

    head(page, "Search", 0);
    text_word(page, "<form action=\"/search\"><label>Words <input name=\"q\" value=\"");
    text_html(page, words != NULL ? words : "");
    text_word(page, "\" autofocus></label> <button>Search</button></form><ol>");
    query_of(&query, words != NULL ? words : "");
    if (query.length > 0)
        rows = store_ask(store, store->kind->search, "ti", text_of(&query), (int64_t)FOUND_MOST);
    for (; rows_next(store, rows); count++)
        found_line(store, rows, page);
    text_form(page, "</ol><p id=\"count\">%u found</p>", count);
    foot(page);
    text_free(&query);
}

/* ---- one record ---- */

/* The log of a move, from the chain in the database. */
static void log_of(struct store *store, int64_t move, struct text *page)
{
    struct rows *rows = store_ask(store, "SELECT before, supplied FROM ri_move WHERE id = $1", "i", move);
    int64_t before;
    char *supplied;

    if (!rows_next(store, rows))
        return;
    before = store->kind->integer(rows, 0);
    supplied = copy_of(store->kind->word(rows, 1));
    rows_end(store, rows);
    log_of(store, before, page);
    text_word(page, "<li>");
    text_html(page, supplied);
    free(supplied);
}

static void tree_of(struct store *store, int64_t move, struct text *page)
{
    char why[WHY_ROOM];
    struct plan *plan = plan_in_use(store, why);
    struct rows *rows = store_ask(store, "SELECT saved FROM ri_state WHERE id = (SELECT state FROM ri_move WHERE id = $1)", "i", move);

    if (plan != NULL && rows_next(store, rows)) {
        size_t size;
        const void *saved = store->kind->bytes(rows, 0, &size);

        if (!tree_svg(plan, saved, size, page))
            text_word(page, "<p>The state is one of another plan, and is made again when the next answer comes.</p>");
        rows_end(store, rows);
    }
    if (plan != NULL)
        plan_free(plan);
}

int view_record(struct store *store, int64_t record, struct text *page)
{
    int64_t version = store_integer(store, 0, "SELECT version FROM ri_record WHERE record = $1", "i", record);
    int64_t waits = store_integer(store, 0, "SELECT move FROM ri_run WHERE record = $1", "i", record);
    int64_t shown = store_integer(store, 0, "SELECT move FROM ri_shown WHERE record = $1", "i", record);

    if (version == 0)
        return 0;
    head(page, "Record", 0);
    text_form(page, "<p>record %lld, version %lld</p>", (long long)record, (long long)version);
    if (waits != 0) {
        text_word(page, "<h2>Waiting, after these supplies</h2><ol>");
        log_of(store, waits, page);
        text_word(page, "</ol>");
        tree_of(store, waits, page);
    }
    if (shown != 0) {
        text_word(page, "<h2>Shown, after these supplies</h2><ol>");
        log_of(store, shown, page);
        text_word(page, "</ol>");
    }
    foot(page);
    return 1;
}
