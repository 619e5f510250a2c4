/*
 * The archive's run and supply beside those in C, as ratios: whole plans, then calls by rows in use and by image size. And its
 * traced run beside its plain one.
 */
#include "plans.h"
#include "tables.h"
#include "times.h"

#include <stdio.h>
#include <string.h>

/* Steps of a call that is timed, and calls between two looks at the clock. */
enum { STRIDE = 64, BLOCK = 16 };

/* Records that a trace has room for: more than a plan makes steps. */
enum { TRACED = 4000 };

static struct image image;
static struct arrivals arrivals;
static struct tables from, ours; /* what each call starts from, what it is lent */
static volatile uint64_t sink;

/* ---- whole plans ---- */

static unsigned player; /* the side that plays */
static double spent;

/* The run calls of the side are timed, what is supplied between them is not. */
static uint64_t timed_run(unsigned limit)
{
    double start = now();
    uint64_t answer = run_of[player](IMAGE, TABLES(&ours), (uint16_t)limit);

    spent += now() - start;
    return answer;
}

static uint64_t supply(uint32_t variable, uint32_t value)
{
    return rissobarm_supply(IMAGE, TABLES(&ours), variable, value);
}

static double plays(unsigned side, unsigned times)
{
    unsigned k;

    player = side;
    spent = 0;
    for (k = 0; k < times; k++) {
        sink = rissobarm_start(IMAGE, TABLES(&ours));
        sink = play(&arrivals, timed_run, supply);
    }
    return spent / times;
}

/* The archive's run: with a trace in the place of the archive, without one in that of the plain C. */
static uint64_t timed_trace(unsigned limit)
{
    static uint8_t trace[TRACED * RISSOBARM_TRACE_RECORD_SIZE];
    double start = now();
    uint64_t answer = player == ARCHIVE
                          ? rissobarm_run_traced(IMAGE, TABLES(&ours), trace, sizeof trace, (uint16_t)limit, 0)
                          : rissobarm_run(IMAGE, TABLES(&ours), (uint16_t)limit);

    spent += now() - start;
    return answer;
}

static double traced_plays(unsigned side, unsigned times)
{
    unsigned k;

    player = side;
    spent = 0;
    for (k = 0; k < times; k++) {
        sink = rissobarm_start(IMAGE, TABLES(&ours));
        sink = play(&arrivals, timed_trace, supply);
    }
    return spent / times;
}

/* The plan at hand, under a name. */
static void tell_plan(const char *name, int length)
{
    char shown[40];
    struct ratio here = in_turns(plays, ALL_SIDES);

    snprintf(shown, sizeof shown, "%.*s", length, name);
    tell("run", shown, processes(&ours), image.length, &here, &here);
    here = in_turns(traced_plays, TWO_SIDES);
    tell("traced run", shown, processes(&ours), image.length, &here, &here);
}

/* A plan is named by its image's file, as FOLDER/NAME.image. */
static int tell_file(const char *path)
{
    const char *name = strrchr(path, '/') == NULL ? path : strrchr(path, '/') + 1;

    if (!read_plan(&image, &arrivals, path))
        return 0;
    tell_plan(name, (int)strcspn(name, "."));
    return 1;
}

/* ---- a call without a step: image and tables tested, one search for whose turn it is ---- */

static double calls(unsigned side, unsigned times)
{
    double start = now();
    unsigned k;

    for (k = 0; k < times; k++)
        sink = run_of[side](IMAGE, TABLES(&from), 0);
    return (now() - start) / times;
}

/* ---- a step: a call of some steps less one of none, both from the same tables; a report is one step ---- */

/* A block of calls. */
static double block(unsigned side, unsigned limit)
{
    double start = now();
    unsigned k;

    for (k = 0; k < BLOCK; k++) {
        ours = from;
        sink = run_of[side](IMAGE, TABLES(&ours), (uint16_t)limit);
    }
    return now() - start;
}

/* Blocks with steps and blocks without take turns, so that a change of the processor's pace meets both. */
static double blocks(unsigned side, unsigned stride, unsigned times)
{
    unsigned count = times / BLOCK + 1, k;

    spent = 0;
    for (k = 0; k < count; k++)
        spent += block(side, stride) - block(side, 0);
    return spent / count / BLOCK / stride;
}

static double steps(unsigned side, unsigned times)
{
    return blocks(side, STRIDE, times);
}

static double reports(unsigned side, unsigned times)
{
    return blocks(side, 1, times);
}

/* ---- a supply: image and tables tested, one variable bound, and unbound again for the next ---- */

static double supplies(unsigned side, unsigned times)
{
    double start = now();
    unsigned k;

    for (k = 0; k < times; k++) {
        sink = supply_of[side](IMAGE, TABLES(&from), 0, 1);
        memset(from.vars, 0, RISSOBARM_VARIABLE_ROW);
    }
    return (now() - start) / times;
}

/* ---- by rows in use and by image size ---- */

/* Steps until so many rows are in use; 0 where it ends before, or leaves no room for the steps that are timed. */
static int fill(unsigned rows)
{
    sink = rissobarm_start(IMAGE, TABLES(&from));
    while (processes(&from) < rows)
        if (rissobarm_steps(rissobarm_run(IMAGE, TABLES(&from), 1)) != 1)
            return 0;
    ours = from;
    return rissobarm_steps(rissobarm_run(IMAGE, TABLES(&ours), STRIDE)) == STRIDE;
}

/* What is measured of a call, and of how many sides. */
static const struct sort {
    const char *name;
    work *work;
    unsigned sides;
} sorts[] = {
    { "step", steps, ALL_SIDES },
    { "call without a step", calls, TWO_SIDES },
    { "supply", supplies, TWO_SIDES }
};

/* Times are told beside those at the fewest rows of the same image. */
static int tell_calls(unsigned part)
{
    struct ratio first[3], here;
    unsigned rows, k;

    make_calls(&image, part);
    for (rows = 16; rows <= 480; rows = rows < 256 ? rows * 2 : rows + 112) {
        if (!fill(rows))
            return 0;
        for (k = 0; k < 3; k++) {
            here = in_turns(sorts[k].work, sorts[k].sides);
            if (rows == 16)
                first[k] = here;
            tell(sorts[k].name, "calls", rows, image.length, &here, &first[k]);
        }
    }
    return 1;
}

/* Reports with all rows but two below, each below the one before. */
static int tell_chains(void)
{
    struct ratio first, here;
    unsigned rows;

    make_calls(&image, ALONE);
    for (rows = 128; rows <= RISSOBARM_PROCESS_LIMIT; rows *= 2) {
        make_chain(&image, &from, rows);
        ours = from;
        if (rissobarm_steps(rissobarm_run(IMAGE, TABLES(&ours), 1)) != 1)
            return 0;
        here = in_turns(reports, ALL_SIDES);
        if (rows == 128)
            first = here;
        tell("report", "chain", rows, image.length, &here, &first);
    }
    return 1;
}

/* The plans by their images' files. */
int main(int count, char **words)
{
    int k;

    for (k = 1; k < count; k++)
        if (!tell_file(words[k]))
            return 1;
    make_calls(&image, 1);
    make_arrivals(&arrivals);
    tell_plan("calls in a large image", LIMIT);
    return !(tell_chains() && tell_calls(ALONE) && tell_calls(16) && tell_calls(4) && tell_calls(1));
}
