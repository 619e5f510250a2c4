/* Batches of the queue, and clocks. */
#define _POSIX_C_SOURCE 200809L
#include "work.h"

#include "calls.h"
#include "run.h"
#include "say.h"

#include <math.h>
#include <signal.h>
#include <stdio.h>
#include <stdlib.h>
#include <string.h>

/* Seconds: between two looks at an empty queue, at the clocks, and after an error, first and at most. */
#define LOOK 0.01
#define CLOCKS 1.0
#define PAUSE 0.5
#define PAUSE_MOST 30.0

/* SQLite has one writer and no queue of those who wait: after a batch the job rests for this share of its time, so that editors come in. */
#define WAY_SHARE 0.2
#define WAY_LEAST 0.001

enum { CLOCKS_MOST = 1000 };

volatile int work_stopped;

static void stop(int signal_number)
{
    (void)signal_number;
    work_stopped = 1;
}

void work_take_stops(void)
{
    struct sigaction action;

    memset(&action, 0, sizeof action);
    action.sa_handler = stop;
    sigaction(SIGTERM, &action, NULL);
    sigaction(SIGINT, &action, NULL);
}

/* ---- a batch ---- */

static char *copy_or_null(const char *word)
{
    return word != NULL ? copy_of(word) : NULL;
}

static void take_item(struct store *store, struct rows *rows, struct item *item)
{
    const struct store_kind *kind = store->kind;

    item->seq = kind->integer(rows, 0);
    item->record = kind->integer(rows, 1);
    item->version = kind->integer(rows, 2);
    item->name = copy_or_null(kind->word(rows, 3));
    item->word = copy_or_null(kind->word(rows, 4));
    item->text = copy_or_null(kind->word(rows, 5));
    item->at = kind->real(rows, 6);
}

static void free_items(struct item *items, unsigned count)
{
    unsigned k;

    for (k = 0; k < count; k++) {
        free(items[k].name);
        free(items[k].word);
        free(items[k].text);
    }
    free(items);
}

/* The next items of the queue; of a lane, if the store has several workers. */
static unsigned take_items(struct service *service, struct item *items)
{
    struct store *store = service->store;
    struct rows *rows;
    unsigned count = 0;
    int64_t lane = 0;

    if (store->kind->lane != NULL)
        lane = store_integer(store, -1, store->kind->lane, "");
    if (lane < 0)
        return 0;
    rows = store->kind->lane != NULL ? store_ask(store, store->kind->items, "ii", (int64_t)service->conf->batch, lane)
                                     : store_ask(store, store->kind->items, "i", (int64_t)service->conf->batch);
    while (rows_next(store, rows))
        take_item(store, rows, &items[count++]);
    return count;
}

static void add_count(struct store *store, const char *name, int64_t number)
{
    if (number > 0)
        store_do(store, "INSERT INTO ri_count(name, n) VALUES($1, $2) ON CONFLICT(name) DO UPDATE SET n = ri_count.n + excluded.n", "ti",
                 name, number);
}

static void keep_counts(struct service *service)
{
    add_count(service->store, "edits", service->counts.edits);
    add_count(service->store, "answers", service->counts.answers);
    add_count(service->store, "late", service->counts.late);
    add_count(service->store, "dropped", service->counts.dropped);
    add_count(service->store, "placed", service->counts.placed);
    memset(&service->counts, 0, sizeof service->counts);
}

/* Ends the transaction of a batch: answers how many items are done, none if others hold what is wanted, or -1. What was remembered of one that is undone is forgotten. */
static int end_batch(struct service *service, unsigned count)
{
    if (store_commit(service->store))
        return (int)count;
    moves_forget(service->moves);
    memset(&service->counts, 0, sizeof service->counts);
    return service->store->busy ? 0 : -1;
}

static void do_items(struct service *service, const struct item *items, unsigned count)
{
    unsigned k;

    for (k = 0; k < count && service->store->failed == 0; k++) {
        run_item(service, &items[k]);
        store_do(service->store, "DELETE FROM ri_item WHERE seq = $1", "i", items[k].seq);
    }
    keep_counts(service);
}

int work_batch(struct service *service)
{
    struct store *store = service->store;
    struct item *items;
    unsigned count;

    if (store_integer(store, 0, "SELECT seq FROM ri_item LIMIT 1", "") == 0 && store->failed == 0)
        return 0;
    if (moves_many(service->moves))
        moves_forget(service->moves);
    if (!store_begin(store)) {
        store_undo(store);
        return -1;
    }
    items = room_for(service->conf->batch * sizeof *items);
    count = take_items(service, items);
    /* the plan is looked at after the lane is held, so that a plan which was put into use before that is seen */
    if (count > 0 && service_refresh(service))
        do_items(service, items, count);
    free_items(items, count);
    return end_batch(service, count);
}

/* ---- clocks ---- */

/* Whether the clock of a job gives an answer: the word is queued, and the clock is stopped. */
static void ring(struct service *service, int64_t record, int64_t version, const char *what)
{
    const struct action *action = conf_action(service->conf, what);
    struct store *store = service->store;

    if (action != NULL && action->after > 0)
        store_do(store, "INSERT INTO ri_item(record, version, name, word, at) VALUES($1, $2, $3, $4, $5)", "iittd", record, version,
                 action->late_name, action->late_word, now());
    store_do(store, "UPDATE ri_job SET due = NULL WHERE record = $1 AND what = $2", "it", record, what);
}

int work_clocks(struct service *service)
{
    struct store *store = service->store;
    double time = now();
    int count = 0;

    if (store_integer(store, 0, "SELECT record FROM ri_job WHERE due <= $1 LIMIT 1", "d", time) == 0)
        return store->failed ? -1 : 0;
    if (!store_begin(store)) {
        store_undo(store);
        return -1;
    }
    for (; count < CLOCKS_MOST && store->failed == 0; count++) {
        struct rows *rows = store_ask(store, "SELECT record, version, what FROM ri_job WHERE due <= $1 ORDER BY due LIMIT 1", "d", time);
        int64_t record, version;
        char *what;

        if (!rows_next(store, rows))
            break;
        record = store->kind->integer(rows, 0);
        version = store->kind->integer(rows, 1);
        what = copy_of(store->kind->word(rows, 2));
        rows_end(store, rows);
        ring(service, record, version, what);
        free(what);
    }
    return store_commit(store) ? count : -1;
}

/* ---- until nothing is left, or for good ---- */

/* A batch, and then a rest for editors, if the store has one writer alone. */
static int work_and_give_way(struct service *service)
{
    double began = now(), took;
    int done = work_batch(service);

    took = (now() - began) * WAY_SHARE;
    if (done > 0 && service->store->kind->lane == NULL)
        service->store->kind->wait(service->store, took > WAY_LEAST ? took : WAY_LEAST);
    return done;
}

int work_once(struct service *service)
{
    for (;;) {
        int done = work_and_give_way(service), rung, running;

        if (done > 0) {
            if (progress_shown())
                progress("%lld queued", (long long)store_integer(service->store, 0, "SELECT count(*) FROM ri_item", ""));
            continue;
        }
        progress("");
        rung = done < 0 ? -1 : work_clocks(service);
        running = rung < 0 ? -1 : calls_tend(service);
        if (running < 0)
            return 0;
        if (done == 0 && rung == 0 && running == 0 && store_integer(service->store, 0, "SELECT seq FROM ri_item LIMIT 1", "") == 0)
            return service->store->failed == 0;
        if (work_stopped)
            return 1;
        if (rung == 0)
            service->store->kind->wait(service->store, LOOK);
    }
}

/* After an error: says it, once for each new one, and waits, longer each time. */
static double rest(struct service *service, double pause)
{
    static char said[WHY_ROOM];

    if (strcmp(said, service->store->why) != 0)
        warn("%s: %s; it goes on when that is over", service->conf->store, service->store->why);
    snprintf(said, sizeof said, "%s", service->store->why);
    service->store->failed = 0;
    service->store->kind->wait(service->store, pause);
    return pause * 2 < PAUSE_MOST ? pause * 2 : PAUSE_MOST;
}

void work_on(struct service *service)
{
    double pause = PAUSE, clocks = 0;

    while (!work_stopped) {
        int done = work_and_give_way(service);

        if (done >= 0 && now() - clocks > CLOCKS) {
            done = work_clocks(service) < 0 ? -1 : done;
            clocks = now();
        }
        if (done >= 0 && calls_tend(service) < 0)
            done = -1;
        if (done < 0)
            pause = rest(service, pause);
        else
            pause = PAUSE;
        if (done == 0)
            service->store->kind->wait(service->store, LOOK);
    }
}
