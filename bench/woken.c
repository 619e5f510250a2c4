/*
 * What a woken call costs in a plan of records, archive beside both Cs: nanoseconds and their ratio, supplies and run calls taken
 * together, from the first arrival on, when every call of the plan waits, and from the start.
 */
#include "plans.h"
#include "tables.h"
#include "times.h"

#include <stdio.h>

/* The calls of a record that wait: fetch, normalise and place. */
enum { CALLS = 3 };

static struct image image;
static struct arrivals arrivals;
static struct tables ours;
static unsigned player; /* the side that plays */
static double arrived;  /* when the first value did, 0 before */

static uint64_t run(unsigned limit)
{
    return run_of[player](IMAGE, TABLES(&ours), (uint16_t)limit);
}

static uint64_t supply(uint32_t variable, uint32_t value)
{
    arrived = arrived > 0 ? arrived : now();
    return supply_of[player](IMAGE, TABLES(&ours), variable, value);
}

/* ---- the plan, so many times: from the first arrival, or from the start, which all sides have from the archive ---- */

static double from_arrival(unsigned side, unsigned times)
{
    double spent = 0;
    unsigned k;

    player = side;
    for (k = 0; k < times; k++) {
        rissobarm_start(IMAGE, TABLES(&ours));
        arrived = 0;
        play(&arrivals, run, supply);
        spent += now() - arrived;
    }
    return spent / times / (CALLS * arrivals.count);
}

static double from_start(unsigned side, unsigned times)
{
    double start = now();
    unsigned k;

    player = side;
    for (k = 0; k < times; k++) {
        rissobarm_start(IMAGE, TABLES(&ours));
        play(&arrivals, run, supply);
    }
    return (now() - start) / times / (CALLS * arrivals.count);
}

/* The plan by its image's file. */
int main(int count, char **words)
{
    const struct ratio nanosecond = { 1, 1, 1, { 1, 1, 1 } };
    struct ratio here;

    if (count != 2 || !read_plan(&image, &arrivals, words[1]) || arrivals.count == 0) {
        fprintf(stderr, "woken IMAGE\n");
        return 1;
    }
    here = in_turns(from_arrival, ALL_SIDES);
    tell("woken call", "from the first arrival", processes(&ours), image.length, &here, &nanosecond);
    here = in_turns(from_start, ALL_SIDES);
    tell("woken call", "from the start", processes(&ours), image.length, &here, &nanosecond);
    return 0;
}
