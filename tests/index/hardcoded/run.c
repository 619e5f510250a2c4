/*
 * For bench.py alone: in the place of index/run.c, the decisions of portal.plan written in C. The writes are those of the job with
 * the plan; what a run has come to is a number of five bits, in the place of its last move.
 */
#include "run.h"

#include "place.h"
#include "say.h"

#include <math.h>
#include <stdlib.h>
#include <string.h>

enum { PAPER = 1, NOTICE = 2, READ = 4, READ_GOOD = 8, SAID = 16, SAID_YES = 32, BEGUN = 64 };

struct turn {
    struct service *service;
    int64_t record, version;
    double edited, cause;
    int64_t state;
    int fresh;
};

void run_anew(struct service *service, int64_t record, int64_t version, const char *log)
{
    (void)service;
    (void)record;
    (void)version;
    (void)log;
}

static void show(struct turn *turn, const char *word)
{
    struct placing placing = { turn->record, turn->version, word, turn->edited, turn->cause, turn->state };

    place(turn->service, &placing);
}

static void ask(struct turn *turn, const char *what, const char *word)
{
    store_do(turn->service->store,
             "INSERT INTO ri_job(record, version, what, word, at, due, next, tries) VALUES($1, $2, $3, $4, $5, $6, $7, 0)"
             " ON CONFLICT(record, what) DO UPDATE SET version = excluded.version, word = excluded.word, at = excluded.at,"
             " due = excluded.due, next = excluded.next, tries = 0"
             " WHERE ri_job.version <> excluded.version OR ri_job.word <> excluded.word",
             "iittddd", turn->record, turn->version, what, word, now(), NAN, NAN);
}

static void drop_run(struct turn *turn)
{
    if (turn->fresh)
        return;
    store_do(turn->service->store, "DELETE FROM ri_run WHERE record = $1", "i", turn->record);
    store_do(turn->service->store, "DELETE FROM ri_job WHERE record = $1", "i", turn->record);
}

static void settle(struct turn *turn)
{
    int64_t s = turn->state;

    if ((s & PAPER && !(s & READ)) || (s & NOTICE && !(s & SAID))) {
        store_do(turn->service->store,
                 "INSERT INTO ri_run(record, version, move, at) VALUES($1, $2, $3, $4) ON CONFLICT(record) DO UPDATE SET"
                 " version = excluded.version, move = excluded.move, at = excluded.at",
                 "iiid", turn->record, turn->version, s, now());
        return;
    }
    if (s & NOTICE && !(s & SAID_YES))
        show(turn, "title");
    else
        show(turn, s & PAPER && s & READ_GOOD ? "with_ocr" : "full");
    drop_run(turn);
}

static int is_word(const char *word, const char *other)
{
    return word != NULL && strcmp(word, other) == 0;
}

static void fetch(struct turn *turn)
{
    struct store *store = turn->service->store;
    struct rows *rows;
    char why[WHY_ROOM];
    int paper = 0, free_of = 0, notice = 0;

    store_mark(store, "house");
    rows = house_ask(store, &turn->service->conf->actions[0].read, turn->record, turn->version);
    if (rows_next(store, rows)) {
        paper = is_word(store->kind->word(rows, 0), "paper");
        free_of = is_word(store->kind->word(rows, 1), "free");
        notice = is_word(store->kind->word(rows, 1), "notice");
        rows_end(store, rows);
    }
    store_unmark(store, "house", why);
    turn->state = BEGUN | (paper ? PAPER : 0) | (free_of ? 0 : NOTICE);
    if (paper)
        ask(turn, "Ocr", "page");
    if (!free_of)
        ask(turn, "Approval", "curator");
    if ((paper && free_of) || notice)
        show(turn, "title");
}

static void do_edit(struct turn *turn, int gone)
{
    struct store *store = turn->service->store;

    drop_run(turn);
    store_do(store, "DELETE FROM ri_text WHERE record = $1", "i", turn->record);
    store_do(store, "DELETE FROM ri_trouble WHERE record = $1", "i", turn->record);
    turn->fresh = 1;
    turn->service->counts.edits++;
    if (gone) {
        show(turn, "nothing");
        return;
    }
    fetch(turn);
    settle(turn);
}

static void do_answer(struct turn *turn, const struct item *item)
{
    struct store *store = turn->service->store;
    int ocr = strcmp(item->name, "Ocr") == 0;

    turn->state = store_integer(store, 0, "SELECT move FROM ri_run WHERE record = $1 AND version = $2", "ii", item->record, item->version);
    if (turn->state == 0 || turn->state & (ocr ? READ : SAID)) {
        turn->service->counts.dropped++;
        return;
    }
    if (item->text != NULL)
        store_do(store,
                 "INSERT INTO ri_text(record, version, name, body) VALUES($1, $2, $3, $4) ON CONFLICT(record, version, name)"
                 " DO UPDATE SET body = excluded.body",
                 "iitt", item->record, item->version, item->name, item->text);
    turn->service->counts.answers++;
    turn->state |= ocr ? READ : SAID;
    turn->state |= is_word(item->word, "ready") ? READ_GOOD : is_word(item->word, "granted") ? SAID_YES : 0;
    store_do(store, "DELETE FROM ri_job WHERE record = $1 AND what = $2", "it", item->record, item->name);
    settle(turn);
}

void run_item(struct service *service, const struct item *item)
{
    struct turn turn = { service, item->record, item->version, 0, item->at, 0, 0 };
    struct store *store = service->store;
    struct rows *rows;
    char why[WHY_ROOM];
    int64_t newest = 0;
    int gone = 0;

    store_mark(store, "item");
    rows = store_ask(store, store->kind->newest, "i", item->record);
    if (rows_next(store, rows)) {
        newest = store->kind->integer(rows, 0);
        gone = store->kind->integer(rows, 1) != 0;
        turn.edited = store->kind->real(rows, 2);
        rows_end(store, rows);
    }
    if (newest != item->version)
        service->counts.late++;
    else if (item->name == NULL)
        do_edit(&turn, gone);
    else
        do_answer(&turn, item);
    store_unmark(store, "item", why);
}
