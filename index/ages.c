/* Ages, their percentiles and their picture. */
#define _POSIX_C_SOURCE 200809L
#include "ages.h"

#include "say.h"

#include <math.h>
#include <stdlib.h>
#include <string.h>
#include <time.h>

const double percents[PERCENTILES] = { 50, 90, 99, 99.9, 100 };

/* A build at night begins at 02:00, local time, and takes an hour. */
enum { NIGHT_BEGINS = 2 * 3600, NIGHT_TAKES = 3600, DAY = 24 * 3600 };

static int by_size(const void *one, const void *two)
{
    double a = *(const double *)one, b = *(const double *)two;

    return (a > b) - (a < b);
}

/* How old an edit is when the next build at night has ended. */
static double nightly_age(double edited)
{
    time_t whole = (time_t)edited;
    struct tm local;
    double of_day, wait;

    localtime_r(&whole, &local);
    of_day = local.tm_hour * 3600.0 + local.tm_min * 60.0 + local.tm_sec + (edited - (double)whole);
    wait = NIGHT_BEGINS - of_day;
    return (wait < 0 ? wait + DAY : wait) + NIGHT_TAKES;
}

void ages_read(struct store *store, double since, struct ages *ages)
{
    double from = now() - since;
    int64_t most = store_integer(store, 0, "SELECT count(*) FROM ri_shown WHERE since >= $1", "d", from);
    struct rows *rows = store_ask(store, "SELECT edited, first, cause, since FROM ri_shown WHERE since >= $1", "d", from);

    memset(ages, 0, sizeof *ages);
    ages->edits = room_for((size_t)most * sizeof(double));
    ages->causes = room_for((size_t)most * sizeof(double));
    ages->nightly = room_for((size_t)most * sizeof(double));
    while (rows_next(store, rows)) {
        if (ages->count == (unsigned)most)
            continue;
        ages->edits[ages->count] = store->kind->real(rows, 1) - store->kind->real(rows, 0);
        ages->causes[ages->count] = store->kind->real(rows, 3) - store->kind->real(rows, 2);
        ages->nightly[ages->count++] = nightly_age(store->kind->real(rows, 0));
    }
    qsort(ages->edits, ages->count, sizeof(double), by_size);
    qsort(ages->causes, ages->count, sizeof(double), by_size);
    qsort(ages->nightly, ages->count, sizeof(double), by_size);
}

void ages_free(struct ages *ages)
{
    free(ages->edits);
    free(ages->causes);
    free(ages->nightly);
}

double percentile(const double *sorted, unsigned count, double percent)
{
    unsigned at = (unsigned)(count * percent / 100);

    if (count == 0)
        return 0;
    return sorted[at < count ? at : count - 1];
}

void add_seconds(struct text *text, double seconds)
{
    if (seconds < 1)
        text_form(text, "%.1f ms", seconds * 1000);
    else if (seconds < 120)
        text_form(text, "%.1f s", seconds);
    else if (seconds < 7200)
        text_form(text, "%.1f min", seconds / 60);
    else
        text_form(text, "%.1f h", seconds / 3600);
}

static void row_json(struct text *text, const char *key, const double *sorted, unsigned count)
{
    char name[16];
    unsigned k;

    json_open(text, key, '{');
    for (k = 0; k < PERCENTILES; k++) {
        struct text number = { 0 };

        text_form(&number, "%g", percents[k]);
        memcpy(name, number.at, number.length + 1);
        text_free(&number);
        json_real(text, name, percentile(sorted, count, percents[k]));
    }
    json_close(text, '}');
}

void ages_json(const struct ages *ages, struct text *text)
{
    json_number(text, "placed", ages->count);
    row_json(text, "edit_to_shown", ages->edits, ages->count);
    row_json(text, "cause_to_shown", ages->causes, ages->count);
    row_json(text, "nightly", ages->nightly, ages->count);
}

/* ---- the picture: how many of the edits are searchable after a time, the time by powers of ten ---- */

enum { WIDTH = 640, HEIGHT = 300, LEFT = 60, TOP = 30, POINTS = 60, POWERS = 9 };
#define SHORTEST -3.0 /* the power of ten at the left: a millisecond */

static double x_of(double seconds)
{
    double power = log10(seconds > 0.001 ? seconds : 0.001) - SHORTEST;

    return LEFT + power * (WIDTH - LEFT - 20) / POWERS;
}

static double y_of(double share)
{
    return TOP + (1 - share) * (HEIGHT - TOP - 50);
}

static void line_svg(struct text *text, const double *sorted, unsigned count, const char *colour, const char *name, int row)
{
    unsigned k;

    text_form(text, "<polyline fill=\"none\" stroke=\"%s\" stroke-width=\"2\" points=\"", colour);
    for (k = 0; k <= POINTS && count > 0; k++)
        text_form(text, "%.1f,%.1f ", x_of(percentile(sorted, count, 100.0 * k / POINTS)), y_of((double)k / POINTS));
    text_form(text, "\"/><text x=\"%d\" y=\"%d\" fill=\"%s\">%s: half after ", LEFT + 10, TOP + 16 + 18 * row, colour, name);
    add_seconds(text, percentile(sorted, count, 50));
    text_word(text, ", all after ");
    add_seconds(text, percentile(sorted, count, 100));
    text_word(text, "</text>");
}

static void grid_svg(struct text *text)
{
    static const char *const names[] = { "1 ms", "10 ms", "0.1 s", "1 s", "10 s", "100 s", "17 min", "2.8 h", "28 h", "" };
    unsigned k;

    for (k = 0; k < POWERS; k++)
        text_form(text,
                  "<line x1=\"%.1f\" y1=\"%d\" x2=\"%.1f\" y2=\"%d\" stroke=\"#ddd\"/><text x=\"%.1f\" y=\"%d\" text-anchor=\"middle\">%s</text>",
                  x_of(pow(10, SHORTEST + k)), TOP, x_of(pow(10, SHORTEST + k)), HEIGHT - 50, x_of(pow(10, SHORTEST + k)), HEIGHT - 32,
                  names[k]);
    for (k = 0; k <= 4; k++)
        text_form(text,
                  "<line x1=\"%d\" y1=\"%.1f\" x2=\"%d\" y2=\"%.1f\" stroke=\"#ddd\"/><text x=\"%d\" y=\"%.1f\" text-anchor=\"end\">%u %%</text>",
                  LEFT, y_of(k / 4.0), WIDTH - 20, y_of(k / 4.0), LEFT - 6, y_of(k / 4.0) + 4, 25 * k);
}

void ages_svg(const struct ages *ages, struct text *text)
{
    text_form(text,
              "<svg xmlns=\"http://www.w3.org/2000/svg\" width=\"%d\" height=\"%d\" viewBox=\"0 0 %d %d\" font-family=\"sans-serif\""
              " font-size=\"12\" role=\"img\" aria-label=\"Share of %u texts that were searchable after a time\">"
              "<rect width=\"100%%\" height=\"100%%\" fill=\"#fff\"/>",
              WIDTH, HEIGHT, WIDTH, HEIGHT, ages->count);
    grid_svg(text);
    line_svg(text, ages->causes, ages->count, "#080", "from the edit or answer that it comes from", 0);
    line_svg(text, ages->edits, ages->count, "#06c", "from the edit, waits for people counted", 1);
    line_svg(text, ages->nightly, ages->count, "#a40", "a build at night, 02:00 to 03:00", 2);
    text_form(text, "<text x=\"%d\" y=\"%d\">share of the last %u texts that were searchable after a time</text></svg>", LEFT, HEIGHT - 10,
              ages->count);
}
