/* What every command works with. */
#include "service.h"

#include "say.h"

#include <stdio.h>
#include <stdlib.h>
#include <string.h>

struct plan *plan_of_file(const char *path)
{
    char why[WHY_ROOM], *text = file_text(path, NULL);
    struct plan *plan = plan_make(text, why, sizeof why);

    if (plan == NULL)
        quit(PLAN_REFUSED, "%s: %s", path, why);
    free(text);
    return plan;
}

struct rows *house_ask(struct store *store, const struct house_sql *house, int64_t record, int64_t version)
{
    return store_ask(store, house->sql, house->types, house->version_first ? version : record, version);
}

/* ---- the columns of reads ---- */

static void learn_columns(struct action *action, struct store *store, struct rows *rows)
{
    unsigned count = store->kind->columns(rows), k;

    for (k = 0; k < action->answer_count; k++)
        free(action->answers[k]);
    action->answer_count = count < ANSWERS_MOST ? count : ANSWERS_MOST;
    for (k = 0; k < action->answer_count; k++)
        action->answers[k] = copy_of(store->kind->column(rows, k));
}

int service_learn(struct conf *conf, struct store *store, char *why)
{
    unsigned k;

    for (k = 0; k < conf->action_count; k++) {
        struct action *action = &conf->actions[k];
        struct rows *rows;

        if (action->kind != ACTION_READ)
            continue;
        rows = house_ask(store, &action->read, 0, 0);
        if (rows == NULL || store->failed) {
            snprintf(why, WHY_ROOM, "%s: line %u: %.300s", conf->path, action->line, store->why);
            store->failed = 0;
            return 0;
        }
        learn_columns(action, store, rows);
        rows_end(store, rows);
    }
    return 1;
}

/* ---- the plan in use ---- */

void service_use(struct service *service, struct plan *plan)
{
    if (service->moves != NULL)
        moves_free(service->moves);
    if (service->plan != NULL)
        plan_free(service->plan);
    service->plan = plan;
    service->moves = moves_of(plan);
}

struct plan *plan_in_use(struct store *store, char *why)
{
    int64_t id = store_integer(store, 0, "SELECT id FROM ri_plan ORDER BY id DESC LIMIT 1", "");
    char *text = store_word(store, "SELECT text FROM ri_plan ORDER BY id DESC LIMIT 1", "");
    struct plan *plan;

    if (text == NULL) {
        snprintf(why, WHY_ROOM, "%s", store->failed ? store->why : "there is no plan in it: rissobarm-index init");
        return NULL;
    }
    plan = plan_make(text, why, WHY_ROOM);
    free(text);
    if (plan != NULL)
        plan->id = id;
    return plan;
}

static void take_plan(struct service *service)
{
    char why[WHY_ROOM];
    struct plan *plan = plan_in_use(service->store, why);

    if (plan == NULL)
        quit(NO_FILE, "%s: %s", service->conf->store, why);
    service_use(service, plan);
}

int service_refresh(struct service *service)
{
    struct store *store = service->store;
    int64_t id = store_integer(store, 0, "SELECT id FROM ri_plan ORDER BY id DESC LIMIT 1", "");
    struct conf *conf;
    char why[WHY_ROOM];

    if (store->failed || id == service->plan->id)
        return !store->failed;
    conf = conf_read(service->conf->path);
    if (!service_learn(conf, store, why))
        quit(PLAN_REFUSED, "%s", why);
    /* statements are known by the place of their text: the old ones stay, since they are few */
    service->conf = conf;
    take_plan(service);
    return !store->failed;
}

void service_open(struct service *service, const char *conf_path, int readonly)
{
    char why[WHY_ROOM];

    memset(service, 0, sizeof *service);
    service->conf = conf_read(conf_path);
    service->store = store_open(service->conf, readonly);
    take_plan(service);
    if (!service_learn(service->conf, service->store, why))
        quit(PLAN_REFUSED, "%s", why);
}

void service_close(struct service *service)
{
    store_close(service->store);
    moves_free(service->moves);
    plan_free(service->plan);
    conf_free(service->conf);
}
