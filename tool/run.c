/* run, resume: a run with its arrivals, in slices, until it ends. isatty and sigaction are POSIX, not C99. */
#define _POSIX_C_SOURCE 200809L
#include "arrivals.h"
#include "commands.h"
#include "outputs.h"
#include "run.h"
#include "session.h"
#include "stops.h"
#include "tell.h"

#include <stdio.h>
#include <stdlib.h>
#include <time.h>
#include <unistd.h>

static volatile sig_atomic_t stopped;

static void stop(int number)
{
    (void)number;
    stopped = 1;
}

/* A stop ends the run behind its slice, so that it can still be saved; a second one of its sort ends the tool. */
static void hear_stop(void)
{
    struct sigaction before[STOPS];

    stops_hear(stop, (int)SA_RESETHAND, before);
}

/* ---- the line that shows how far a long run is ---- */

struct progress {
    int on;
    time_t told;
    int stands; /* there is a line to be wiped */
};

static void show_progress(struct progress *progress, const struct session *session, int forced)
{
    time_t now = time(NULL);

    if (!progress->on || (now == progress->told && !forced))
        return;
    progress->told = now;
    progress->stands = 1;
    fprintf(stderr, "\r%s, %s, %s ", counted(rissobarm_plan_steps(&session->run), "step", "steps"),
            counted(rissobarm_plan_processes(&session->run), "process", "processes"),
            counted(rissobarm_plan_variables(&session->run), "variable", "variables"));
    fflush(stderr);
}

static void wipe_progress(struct progress *progress)
{
    if (progress->stands)
        fprintf(stderr, "\r%60s\r", "");
    progress->stands = 0;
}

/* ---- slices ---- */

static enum status status_of(unsigned end)
{
    static const enum status by_end[] = { USAGE, DONE, FAILED, WAITS, NO_ROOM, STEPS_USED };

    return by_end[end];
}

/* One slice; the end, or RISSOBARM_END_BUDGET where the run can go on. */
static unsigned run_slice(struct session *session, const struct options *options, uint32_t made)
{
    uint32_t left = options->steps - made;
    uint64_t answer = session_run(session, left < options->slice ? (unsigned)left : options->slice);

    if (rissobarm_refusal(answer) != RISSOBARM_ACCEPTED)
        quit(RUN_REFUSED, "the run is refused %u (%s)", rissobarm_refusal(answer),
             rissobarm_refusal_text(rissobarm_refusal(answer)));
    return rissobarm_end(answer);
}

unsigned run_to_end(struct session *session, const struct options *options)
{
    struct progress progress = { isatty(2) || options->progress, time(NULL), 0 };
    uint32_t first = rissobarm_plan_steps(&session->run), made = 0;
    struct arrivals arrivals;
    unsigned end, k;

    hear_stop();
    for (k = 0; k < options->supply_count; k++)
        supply_given(session, options->supplies[k]);
    arrivals_open(&arrivals, options);
    for (;;) {
        arrivals_due(&arrivals, session);
        end = run_slice(session, options, made);
        made = rissobarm_plan_steps(&session->run) - first;
        show_progress(&progress, session, options->progress);
        if (end == RISSOBARM_END_WAITING && !stopped && arrivals_next(&arrivals, session))
            continue;
        if (end != RISSOBARM_END_BUDGET || made >= options->steps || stopped)
            break;
    }
    wipe_progress(&progress);
    return end;
}

void run_to_show(struct session *session, const struct options *options)
{
    if (!session->run_is_saved || options->supply_count > 0 || options->arrivals != NULL || options->has_steps)
        run_to_end(session, options);
}

/* ---- commands ---- */

/*
 * The trace is renamed before the run: killed between the two, the tool leaves a run that has not moved and a trace that begins
 * there. The other way round the moves between two saved runs would be lost.
 */
static void write_run(const struct session *session, const struct options *options)
{
    struct bytes saved = { NULL, 0, 0 };
    struct output outputs[2] = { { options->trace, &session->trace }, { options->save, &saved } };

    if (options->save != NULL)
        saved = session_bytes(session);
    outputs_write(outputs, 2);
    free(saved.at);
}

static enum status run_and_tell(struct session *session, const struct options *options)
{
    unsigned end;

    session->traced = options->trace != NULL;
    end = run_to_end(session, options);
    write_run(session, options);
    tell_run(session, end);
    return status_of(end);
}

enum status command_run(const struct options *options)
{
    static struct session session;

    output_test(options->trace);
    output_test(options->save);
    plan_need(&session.plan, options->words[0], options->names);
    session_start(&session);
    return run_and_tell(&session, options);
}

enum status command_resume(const struct options *options)
{
    static struct session session;

    if (options->names != NULL && options->plan == NULL)
        quit(USAGE, "--names: a saved run has names of its own; they are those of --plan");
    output_test(options->trace);
    output_test(options->save);
    session_load(&session, options->words[0]);
    if (options->plan != NULL)
        session_same_plan(&session, options->words[0], options->plan, options->names);
    return run_and_tell(&session, options);
}
