/* One record's run. docs/INDEX.md has the protocol, whose sentences are named here by their numbers. */
#include "run.h"

#include "asked.h"
#include "place.h"
#include "say.h"

#include <math.h>
#include <stdio.h>
#include <stdlib.h>
#include <string.h>

/* What goes on while an item is done. */
struct turn {
    struct service *service;
    int64_t record, version;
    double edited;    /* when the version was made */
    double cause;     /* when the item was made */
    int fresh;        /* whether the record's run and jobs are dropped already */
    const struct move *move;
    const char *log; /* answers in hand, or NULL */
    char trouble[WHY_ROOM];
};

/* ---- actions ---- */

/* Adds a supply to a group, unless its variable is bound or in the group. */
static void add_supply(const struct turn *turn, struct text *group, unsigned variable, const char *word)
{
    const struct plan *plan = turn->service->plan;
    const char *at = text_of(group);
    char name[NAME_ROOM], other[NAME_ROOM];

    if (move_word(plan, turn->move, variable) != NULL)
        return;
    while (next_supply(&at, name, other))
        if (strcmp(name, plan->variables[variable]) == 0)
            return;
    text_form(group, "%s%s=%s", group->length > 0 ? " " : "", plan->variables[variable], plan_word(plan, word));
}

static void do_read(struct turn *turn, const struct action *action, struct text *group)
{
    struct store *store = turn->service->store;
    struct rows *rows;
    char why[WHY_ROOM];
    unsigned k;
    int found;

    store_mark(store, "house");
    rows = house_ask(store, &action->read, turn->record, turn->version);
    found = rows_next(store, rows);
    for (k = 0; k < action->answer_count && store->failed == 0; k++) {
        int variable = plan_variable_alike(turn->service->plan, action->answers[k]);

        if (variable >= 0)
            add_supply(turn, group, (unsigned)variable, found ? store->kind->word(rows, k) : NULL);
    }
    if (found)
        rows_end(store, rows);
    if (store->failed != DATABASE_LOST && !store_unmark(store, "house", why))
        snprintf(turn->trouble, sizeof turn->trouble, "%s: %.300s", action->name, why);
}

static void do_write(struct turn *turn, const char *word)
{
    struct placing placing = { turn->record, turn->version, word, turn->edited, turn->cause, turn->move->id };

    if (!place(turn->service, &placing))
        snprintf(turn->trouble, sizeof turn->trouble, "there is no form for %.200s", word);
}

/* A job for people or for a program; the one that stands there with the same word stays as it is. */
static void do_ask(struct turn *turn, const struct action *action, const char *word)
{
    double time = now();

    store_do(turn->service->store,
             "INSERT INTO ri_job(record, version, what, word, at, due, next, tries) VALUES($1, $2, $3, $4, $5, $6, $7, 0)"
             " ON CONFLICT(record, what) DO UPDATE SET version = excluded.version, word = excluded.word, at = excluded.at,"
             " due = excluded.due, next = excluded.next, tries = 0"
             " WHERE ri_job.version <> excluded.version OR ri_job.word <> excluded.word",
             "iittddd", turn->record, turn->version, action->name, word, time, action->after > 0 ? time + action->after : NAN,
             action->kind == ACTION_CALL ? time : NAN);
}

static void do_request(struct turn *turn, const char *name, const char *word, struct text *group)
{
    const struct action *action = conf_action(turn->service->conf, name);

    if (action == NULL)
        snprintf(turn->trouble, sizeof turn->trouble, "there is no action for Do%.200s", name);
    else if (action->kind == ACTION_READ)
        do_read(turn, action, group);
    else if (action->kind == ACTION_WRITE)
        do_write(turn, word);
    else
        do_ask(turn, action, word);
}

/* 3.2: the requests that have come up with the last move, in the order of the goal's variables. */
static void do_requests(struct turn *turn, const struct move *before, struct text *group)
{
    const struct plan *plan = turn->service->plan;
    unsigned k;

    for (k = 0; k < plan->variable_count && turn->trouble[0] == 0; k++) {
        const char *name = request_of(plan->variables[k]), *word = move_word(plan, turn->move, k);

        if (name != NULL && word != NULL && strcmp(word, "no") != 0 && move_word(plan, before, k) == NULL)
            do_request(turn, name, word, group);
    }
}

/* 5.4: the first answer in hand that is asked for and open. */
static void answer_in_hand(struct turn *turn, struct text *group)
{
    const char *at = turn->log;
    char name[NAME_ROOM], word[NAME_ROOM];

    while (at != NULL && group->length == 0 && next_supply(&at, name, word))
        if (may_answer(turn->service, turn->move, name))
            text_form(group, "%s=%s", name, plan_word(turn->service->plan, word));
}

/* ---- ends ---- */

static void drop_run(struct turn *turn)
{
    if (turn->fresh)
        return;
    store_do(turn->service->store, "DELETE FROM ri_run WHERE record = $1", "i", turn->record);
    store_do(turn->service->store, "DELETE FROM ri_job WHERE record = $1", "i", turn->record);
}

/* 6.1 */
static void give_up(struct turn *turn)
{
    turn->fresh = 0;
    drop_run(turn);
    store_do(turn->service->store, "INSERT INTO ri_trouble(record, version, move, why, at) VALUES($1, $2, $3, $4, $5)", "iiitd",
             turn->record, turn->version, turn->move->id, turn->trouble, now());
}

/* Keeps the run, and drops the jobs that wait for nothing any more. */
static void keep_waiting(struct turn *turn, const struct move *began)
{
    const struct service *service = turn->service;
    unsigned k, awaited = 0;

    for (k = 0; k < service->conf->action_count; k++) {
        const struct action *action = &service->conf->actions[k];

        if (is_awaited(service->plan, turn->move, action))
            awaited++;
        else if (turn->log != NULL || is_awaited(service->plan, began, action))
            store_do(service->store, "DELETE FROM ri_job WHERE record = $1 AND what = $2", "it", turn->record, action->name);
    }
    if (awaited == 0) {
        snprintf(turn->trouble, sizeof turn->trouble, "it waits for ever: nothing that is open is asked for");
        give_up(turn);
        return;
    }
    store_do(service->store,
             "INSERT INTO ri_run(record, version, move, at) VALUES($1, $2, $3, $4) ON CONFLICT(record) DO UPDATE SET"
             " version = excluded.version, move = excluded.move, at = excluded.at",
             "iiid", turn->record, turn->version, turn->move->id, now());
}

/* 3.4 */
static void succeed(struct turn *turn)
{
    int variable = plan_variable(turn->service->plan, "Place");
    const char *word = variable >= 0 ? move_word(turn->service->plan, turn->move, (unsigned)variable) : NULL;

    if (word == NULL)
        snprintf(turn->trouble, sizeof turn->trouble, "the goal has succeeded without a Place");
    else
        do_write(turn, word);
    if (turn->trouble[0] == 0)
        drop_run(turn);
    else
        give_up(turn);
}

static void settle(struct turn *turn, const struct move *began)
{
    if (turn->trouble[0] != 0)
        give_up(turn);
    else if (turn->move->ended == RISSOBARM_END_WAITING)
        keep_waiting(turn, began);
    else if (turn->move->ended == RISSOBARM_END_SUCCESS)
        succeed(turn);
    else {
        snprintf(turn->trouble, sizeof turn->trouble, "the run has ended: %s", rissobarm_end_text(turn->move->ended));
        give_up(turn);
    }
}

/* 3.1 to 3.4, from a first group of supplies on. */
static void go_on(struct turn *turn, const char *supplied)
{
    const struct move *began = turn->move, *before;
    struct text group = { 0 };

    text_word(&group, supplied);
    while (group.length > 0 && turn->trouble[0] == 0 && turn->service->store->failed == 0) {
        before = turn->move;
        turn->move = moves_next(turn->service->store, turn->service->moves, before, text_of(&group));
        if (turn->move == NULL) {
            turn->move = before;
            break;
        }
        text_clear(&group);
        do_requests(turn, before, &group);
        if (group.length == 0 && turn->trouble[0] == 0)
            answer_in_hand(turn, &group);
    }
    if (turn->service->store->failed == 0)
        settle(turn, began);
    text_free(&group);
}

/* ---- items ---- */

/* 1.4 */
static void do_edit(struct turn *turn, int gone)
{
    struct store *store = turn->service->store;
    struct text group = { 0 };

    drop_run(turn);
    store_do(store, "DELETE FROM ri_text WHERE record = $1", "i", turn->record);
    store_do(store, "DELETE FROM ri_trouble WHERE record = $1", "i", turn->record);
    turn->fresh = 1;
    turn->service->counts.edits++;
    text_form(&group, "Edit=%s", plan_word(turn->service->plan, gone ? "gone" : "changed"));
    go_on(turn, text_of(&group));
    text_free(&group);
}

/* The last move of the record's waiting run of this version; 0 for none. */
static int64_t waiting_move(struct store *store, int64_t record, int64_t version)
{
    return store_integer(store, 0, "SELECT move FROM ri_run WHERE record = $1 AND version = $2", "ii", record, version);
}

/* 1.5, 1.6 and 3.3 */
static void do_answer(struct turn *turn, const struct item *item)
{
    struct service *service = turn->service;
    int64_t id = waiting_move(service->store, item->record, item->version);
    struct text group = { 0 };

    if (id == 0) {
        service->counts.dropped++;
        return;
    }
    turn->move = moves_find(service->store, service->moves, id);
    if (turn->move == NULL) {
        turn->move = service->moves->start;
        snprintf(turn->trouble, sizeof turn->trouble, "its log is lost, or of another plan: retry");
        give_up(turn);
        return;
    }
    if (!may_answer(service, turn->move, item->name)) {
        service->counts.dropped++;
        return;
    }
    if (item->text != NULL)
        store_do(service->store,
                 "INSERT INTO ri_text(record, version, name, body) VALUES($1, $2, $3, $4) ON CONFLICT(record, version, name)"
                 " DO UPDATE SET body = excluded.body",
                 "iitt", item->record, item->version, item->name, item->text);
    service->counts.answers++;
    text_form(&group, "%s=%s", item->name, plan_word(service->plan, item->word));
    go_on(turn, text_of(&group));
    text_free(&group);
}

/* 1.3, then what the item is */
static void do_item(struct turn *turn, const struct item *item)
{
    struct store *store = turn->service->store;
    struct rows *rows = store_ask(store, store->kind->newest, "i", item->record);
    int found = rows_next(store, rows), gone;
    int64_t newest = found ? store->kind->integer(rows, 0) : 0;

    gone = found && store->kind->integer(rows, 1) != 0;
    turn->edited = found ? store->kind->real(rows, 2) : 0;
    if (found)
        rows_end(store, rows);
    if (newest != item->version)
        turn->service->counts.late++;
    else if (item->name == NULL)
        do_edit(turn, gone);
    else
        do_answer(turn, item);
}

void run_item(struct service *service, const struct item *item)
{
    struct turn turn = { service, item->record, item->version, 0, item->at, 0, service->moves->start, NULL, { 0 } };
    struct store *store = service->store;

    store_mark(store, "item");
    do_item(&turn, item);
    if (store->failed == DATABASE_LOST)
        return;
    if (!store_unmark(store, "item", turn.trouble)) {
        /* a statement was refused: of the item nothing is kept but that, nor of the moves that it made */
        moves_forget(service->moves);
        turn.move = service->moves->start;
        give_up(&turn);
    }
}

void run_anew(struct service *service, int64_t record, int64_t version, const char *log)
{
    struct store *store = service->store;
    struct turn turn = { service, record, version, 0, now(), 0, service->moves->start, log, { 0 } };
    struct rows *rows = store_ask(store, store->kind->newest, "i", record);
    int gone = 0;

    if (rows_next(store, rows)) {
        gone = store->kind->integer(rows, 1) != 0;
        turn.edited = store->kind->real(rows, 2);
        rows_end(store, rows);
    }
    go_on(&turn, gone ? "Edit=gone" : "Edit=changed");
}
