/*
 * Whether a call grows with its image: a run call without a step less a load, in the plan of calls alone and as the last of the
 * largest image, at the same rows in use.
 */
#include "checker.h"
#include "plans.h"
#include "tables.h"
#include "times.h"

/* Calls between two looks at the clock. */
enum { BLOCK = 64 };

static struct image image;
static struct tables from;
static volatile uint64_t sink;

/* A block of calls. */
static double calls(unsigned side)
{
    double start = now();
    unsigned k;

    for (k = 0; k < BLOCK; k++)
        sink = run_of[side](IMAGE, TABLES(&from), 0);
    return now() - start;
}

/* A block of loads. */
static double loads(unsigned side)
{
    static uint64_t (*const load_of[TWO_SIDES])(const uint8_t *, size_t) = { rissobarm_load, checker_load };
    double start = now();
    unsigned k;

    for (k = 0; k < BLOCK; k++)
        sink = load_of[side](image.bytes, image.length);
    return now() - start;
}

/* Blocks of both take turns, so that a change of the processor's pace meets both. */
static double beyond(unsigned side, unsigned times)
{
    unsigned count = times / BLOCK + 1, k;
    double spent = 0;

    for (k = 0; k < count; k++)
        spent += calls(side) - loads(side);
    return spent / count / BLOCK;
}

/* Steps until so many rows are in use; 0 where it ends before. */
static int fill(unsigned rows)
{
    sink = rissobarm_start(IMAGE, TABLES(&from));
    while (processes(&from) < rows)
        if (rissobarm_steps(rissobarm_run(IMAGE, TABLES(&from), 1)) != 1)
            return 0;
    return 1;
}

/* Times are told beside those in the shortest image at the same rows. */
int main(void)
{
    static const unsigned rows[] = { 16, 64, 128, 256, 480 }, parts[] = { ALONE, 1 };
    struct ratio first = { 0, 0, 0, { 0, 0, 0 } }, here;
    unsigned k, j;

    for (k = 0; k < sizeof rows / sizeof rows[0]; k++)
        for (j = 0; j < 2; j++) {
            make_calls(&image, parts[j]);
            if (!fill(rows[k]))
                return 1;
            here = in_turns(beyond, TWO_SIDES);
            if (j == 0)
                first = here;
            tell("call less a load", "calls", rows[k], image.length, &here, &first);
        }
    return 0;
}
