/* Several threads at once: each runs a plan of its own over the image that all share, then all look at one run together. */
#include "rissobarm_plan.h"

#include <pthread.h>
#include <stdio.h>
#include <string.h>

enum { THREADS = 4, ROUNDS = 200, TILL_WAITING = 9, TILL_SUCCESS = 18 };

/* mode q(?), fact q(1), goal q(A) */
static const uint8_t image[] = {
    6,  0, RISSOBARM_RECORD_RELATION, 0, 1, 0,
    12, 0, RISSOBARM_RECORD_CLAUSE,   0, 0, 1, 0, 0, 1, 0, 0, 0,
    11, 0, RISSOBARM_RECORD_GOAL,     0, 1, 1, 1, 0, 1, 0, RISSOBARM_TERM_VARIABLE / 256,
};

static struct rissobarm_plan shared;

/* A thread, its own run, and how often something was not as it has to be. */
struct worker {
    pthread_t thread;
    struct rissobarm_plan run;
    uint8_t saved[RISSOBARM_SAVED_SIZE];
    uint8_t trace[TILL_SUCCESS * RISSOBARM_TRACE_RECORD_SIZE];
    unsigned wrong;
};

/* Looks at the run that all share, and takes up a copy of it, saved by each for itself, to its end. */
static void share(struct worker *worker)
{
    uint8_t values[RISSOBARM_VALUES_SIZE];
    uint64_t saved = rissobarm_plan_save(&shared, worker->saved, sizeof worker->saved), ran;

    worker->wrong += !rissobarm_watch_found(rissobarm_plan_watch(&shared, 0));
    worker->wrong += rissobarm_value_sort(rissobarm_plan_value(&shared, 0)) != RISSOBARM_SORT_VARIABLE;
    worker->wrong += rissobarm_values_count(rissobarm_plan_values(&shared, values, sizeof values)) != 1;
    worker->wrong += rissobarm_sort_at(values, 0) != RISSOBARM_SORT_VARIABLE;
    worker->wrong += rissobarm_plan_resume(&worker->run, image, sizeof image, worker->saved, rissobarm_saved(saved)) != 0;
    worker->wrong += rissobarm_plan_supply(&worker->run, 0, 1) != RISSOBARM_ACCEPTED;
    ran = rissobarm_plan_run_traced(&worker->run, worker->trace, sizeof worker->trace, TILL_SUCCESS, 0);
    worker->wrong += rissobarm_steps(ran) != TILL_SUCCESS - TILL_WAITING;
}

/* A run to its end with a supply in between, then the run that all share. */
static void round_of(struct worker *worker)
{
    struct rissobarm_plan *run = &worker->run;

    worker->wrong += rissobarm_plan_start(run, image, sizeof image) != RISSOBARM_ACCEPTED;
    worker->wrong += rissobarm_steps(rissobarm_plan_run(run, TILL_SUCCESS)) != TILL_WAITING;
    worker->wrong += rissobarm_plan_supply(run, 0, 1) != RISSOBARM_ACCEPTED;
    worker->wrong += rissobarm_end(rissobarm_plan_run(run, TILL_SUCCESS)) != RISSOBARM_END_SUCCESS;
    worker->wrong += rissobarm_plan_steps(run) != TILL_SUCCESS;
    share(worker);
}

static void *work(void *given)
{
    struct worker *worker = (struct worker *)given;
    unsigned k;

    for (k = 0; k < ROUNDS; k++)
        round_of(worker);
    return NULL;
}

int main(void)
{
    static struct worker workers[THREADS];
    unsigned k, wrong = 0;

    rissobarm_plan_start(&shared, image, sizeof image);
    rissobarm_plan_run(&shared, TILL_SUCCESS);
    for (k = 0; k < THREADS; k++)
        if (pthread_create(&workers[k].thread, NULL, work, &workers[k]) != 0)
            return 2;
    for (k = 0; k < THREADS; k++) {
        pthread_join(workers[k].thread, NULL);
        wrong += workers[k].wrong;
        wrong += memcmp(workers[k].run.procs, workers[0].run.procs, sizeof workers[0].run.procs) != 0;
    }
    printf("threads: %d at once, %d runs each, %u wrong\n", THREADS, ROUNDS, wrong);
    return wrong != 0;
}
