/* serve and work: the job itself. */
#include "commands.h"

#include "page.h"
#include "service.h"
#include "work.h"

#include <stdio.h>
#include <string.h>

/* Says so if the plan's file is not the plan in use. */
static void compare_plans(const struct service *service)
{
    struct plan *plan = plan_of_file(service->conf->plan);

    if (strcmp(plan->text, service->plan->text) != 0)
        warn("%s is not the plan in use; `rissobarm-index replan %s` takes it", service->conf->plan, service->conf->plan);
    plan_free(plan);
}

enum status command_serve(const struct options *options)
{
    struct service service;
    void *page;

    service_open(&service, options->conf, 0);
    compare_plans(&service);
    work_take_stops();
    page = page_start(options->conf, options->http);
    printf("rissobarm-index: serving %s\n", service.conf->store);
    fflush(stdout);
    work_on(&service);
    page_stop(page);
    service_close(&service);
    return DONE;
}

enum status command_work(const struct options *options)
{
    struct service service;
    struct text text = { 0 };
    int64_t left;

    if (!options->once)
        quit(USAGE, "usage: rissobarm-index work --once; `serve` goes on");
    service_open(&service, options->conf, 0);
    work_take_stops();
    if (!work_once(&service))
        quit(NO_FILE, "%s: %s", service.conf->store, service.store->why);
    left = store_integer(service.store, 0, "SELECT count(*) FROM ri_item", "");
    if (options->json) {
        json_open(&text, NULL, '{');
        json_number(&text, "left", left);
        json_number(&text, "moves_made", (int64_t)service.moves->made);
        json_number(&text, "moves_remembered", (int64_t)service.moves->remembered);
        json_real(&text, "machine_seconds", service.moves->machine);
        json_real(&text, "processor_seconds", processor_time());
        json_close(&text, '}');
        answer(&text);
    }
    service_close(&service);
    return left > 0 ? WORK_LEFT : DONE;
}
