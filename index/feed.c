/* edit and answer: lines and words into the queue. */
#define _XOPEN_SOURCE 700
#include "commands.h"

#include "service.h"

#include <stdio.h>
#include <stdlib.h>
#include <string.h>

/* Lines in one transaction. */
enum { LINES = 500 };

struct feed {
    struct service service;
    FILE *file;
    const char *cursor; /* NULL for none */
    int64_t at;         /* bytes taken */
    int64_t line, taken;
    char *room;
    size_t size;
};

/* ---- cursors ---- */

static int64_t cursor_of(struct store *store, const char *name)
{
    return name != NULL ? store_integer(store, 0, "SELECT at FROM ri_cursor WHERE name = $1", "t", name) : 0;
}

static void move_cursor(struct feed *feed)
{
    if (feed->cursor != NULL)
        store_do(feed->service.store, "INSERT INTO ri_cursor(name, at) VALUES($1, $2) ON CONFLICT(name) DO UPDATE SET at = excluded.at",
                 "ti", feed->cursor, feed->at);
}

/* Passes over what has been taken, line by line so that lines keep their numbers. */
static void pass_over(struct feed *feed, int64_t until)
{
    while (feed->at < until) {
        ssize_t count = getline(&feed->room, &feed->size, feed->file);

        if (count < 0)
            quit(VALUE_REFUSED, "%s: the cursor stands at byte %lld, after its end", feed->cursor, (long long)until);
        feed->at += count;
        feed->line++;
    }
}

/* ---- lines ---- */

/* A line into the catalogue; 0 if it is none. */
static int take_record(struct store *store, const char *line)
{
    struct rows *rows = store_ask(store, store->kind->test_line, "t", line);
    int gone;

    if (!rows_next(store, rows))
        return 0;
    gone = store->kind->integer(rows, 1) != 0;
    rows_end(store, rows);
    store_do(store, gone ? store->kind->drop_line : store->kind->take_line, "t", line);
    return !store->failed;
}

/* The answer of a line of JSON, {"record", "version", "name", "word", "text"}; 0 if it is none. */
static int take_answer(struct store *store, const char *line)
{
    return store_integer(store, 0, store->kind->answer_line, "td", line, now()) != 0 && !store->failed;
}

/* Takes the next line: 1, 0 at the end, -1 if it is no good. */
static int take_line(struct feed *feed, int (*take)(struct store *store, const char *line))
{
    ssize_t count = getline(&feed->room, &feed->size, feed->file);

    if (count < 0 || feed->room[count - 1] != '\n')
        return 0;
    feed->room[count - 1] = 0;
    if (strlen(feed->room) != (size_t)count - 1)
        return -1;
    if (feed->room[strspn(feed->room, " \t\r")] != 0) {
        store_mark(feed->service.store, "line");
        if (!take(feed->service.store, feed->room))
            return -1;
        store_unmark(feed->service.store, "line", feed->service.store->why);
        feed->taken++;
    }
    feed->at += count;
    feed->line++;
    return 1;
}

/* A transaction of lines; answers as the last of them. The lines before one that is no good are taken. */
static int take_some(struct feed *feed, int (*take)(struct store *store, const char *line))
{
    struct store *store = feed->service.store;
    char why[WHY_ROOM];
    int lines, more = 1;

    if (!store_begin(store))
        quit(NO_FILE, "%s: %s", feed->service.conf->store, store->why);
    for (lines = 0; lines < LINES && more > 0; lines++)
        more = take_line(feed, take);
    if (store->failed == DATABASE_LOST)
        quit(NO_FILE, "%s: %s", feed->service.conf->store, store->why);
    if (more < 0)
        store_unmark(store, "line", why);
    move_cursor(feed);
    if (!store_commit(store))
        quit(NO_FILE, "%s: %s", feed->service.conf->store, store->why);
    progress("%lld lines", (long long)feed->line);
    return more;
}

static enum status take_all(struct feed *feed, const struct options *options, const char *name,
                            int (*take)(struct store *store, const char *line))
{
    struct text text = { 0 };
    int more;

    while ((more = take_some(feed, take)) > 0)
        ;
    progress("");
    if (more < 0)
        quit(VALUE_REFUSED, "%s: line %lld is no good: %.200s", name, (long long)feed->line + 1, feed->room);
    if (options->json) {
        json_open(&text, NULL, '{');
        json_number(&text, "taken", feed->taken);
        json_number(&text, "cursor", feed->at);
        json_close(&text, '}');
    } else
        text_form(&text, "%lld taken", (long long)feed->taken);
    answer(&text);
    service_close(&feed->service);
    return DONE;
}

static void open_feed(struct feed *feed, const struct options *options, const char *name)
{
    memset(feed, 0, sizeof *feed);
    service_open(&feed->service, options->conf, 0);
    feed->file = strcmp(name, "-") == 0 ? stdin : fopen(name, "rb");
    if (feed->file == NULL)
        quit(NO_FILE, "%s: cannot be read", name);
}

enum status command_edit(const struct options *options)
{
    const char *name = options->words[0];
    struct feed feed;

    open_feed(&feed, options, name);
    if (strcmp(feed.service.conf->table, "catalogue") != 0)
        quit(USAGE, "edit fills the table catalogue; here the catalogue is %s, whose edits are made there", feed.service.conf->table);
    feed.cursor = options->cursor != NULL ? options->cursor : feed.file == stdin ? NULL : realpath(name, NULL);
    pass_over(&feed, cursor_of(feed.service.store, feed.cursor));
    return take_all(&feed, options, name, take_record);
}

/* ---- answers ---- */

static void queue_answer(struct store *store, const struct options *options)
{
    int64_t record = number_from("RECORD", options->words[0]), version = number_from("VERSION", options->words[1]);
    char *text = options->text != NULL ? file_text(options->text, NULL) : NULL;

    store_do(store, "INSERT INTO ri_item(record, version, name, word, text, at) VALUES($1, $2, $3, $4, $5, $6)", "iitttd", record,
             version, options->words[2], options->words[3], text, now());
    free(text);
}

enum status command_answer(const struct options *options)
{
    struct feed feed;
    struct text text = { 0 };
    struct store *store;

    if (options->lines) {
        open_feed(&feed, options, options->words[0]);
        return take_all(&feed, options, options->words[0], take_answer);
    }
    if (options->word_count != 4)
        quit(USAGE, "usage: rissobarm-index answer RECORD VERSION NAME WORD [--text FILE]");
    service_open(&feed.service, options->conf, 0);
    store = feed.service.store;
    if (plan_variable(feed.service.plan, options->words[2]) < 0)
        quit(VALUE_REFUSED, "%s: the goal has no such variable", options->words[2]);
    if (!store_begin(store))
        quit(NO_FILE, "%s: %s", feed.service.conf->store, store->why);
    queue_answer(store, options);
    if (!store_commit(store))
        quit(NO_FILE, "%s: %s", feed.service.conf->store, store->why);
    text_word(&text, options->json ? "{\"queued\":1}" : "queued");
    answer(&text);
    service_close(&feed.service);
    return DONE;
}
