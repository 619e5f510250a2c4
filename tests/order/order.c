/*
 * Request 6 through the archive: goals of random equations, in several orders and twice over. All orders must end alike, and
 * where they succeed every goal variable must have the value that its class gives it: a constant or the lowest variable.
 */
#include "random.h"
#include "rissobarm.h"

#include <stdio.h>

enum {
    GOALS = 100000,   /* goals in all */
    EQUATIONS = 8,    /* most equations of a goal: its literals */
    VARIABLES = 16,   /* most variables of a goal */
    CONSTANTS = 4,    /* different constants, few so that some agree */
    ORDERS = 4,       /* orders of each goal */
    STRAYED = 4,      /* in one goal of so many the last order is stepped at random first */
    STRAYS = 24,      /* random steps then */
    LEAST = 10000,    /* how often each end, an open value, a doubled list and a random step must come at least */
    SHOWN = 10,       /* differences that are told one by one */
    LIMIT = 60000,    /* steps of a run */
    IMAGE_ROOM = 128  /* over the longest image: 6 + 8 * 7 bytes */
};

/* Two terms as the image has them. */
struct equation {
    unsigned left, right;
};

/* Equations in an order, cut into stages: bit i says that a stage ends behind equation i. */
struct plan {
    struct equation equations[EQUATIONS];
    unsigned count, variables, cuts;
};

/* The tables of a run. */
struct tables {
    uint8_t head[RISSOBARM_HEAD_SIZE], procs[RISSOBARM_PROCS_SIZE], vars[RISSOBARM_VARS_SIZE];
};

#define TABLES(t) (t)->head, sizeof (t)->head, (t)->procs, sizeof (t)->procs, (t)->vars, sizeof (t)->vars

/* What the equations come to: an end, and on success the value of each variable. */
struct wanted {
    unsigned end;
    unsigned values[VARIABLES];
};

static const uint64_t seed = 60021;
static unsigned successes, failures, open_values, doubled, moves, differences;

/* ---- the answer by classes ---- */

/* A term's value so far. */
static unsigned known(const struct wanted *wanted, unsigned term)
{
    return term & RISSOBARM_TERM_VARIABLE ? wanted->values[term - RISSOBARM_TERM_VARIABLE] : term;
}

/* One class of two: a constant is kept, else the lower variable; every member takes the value that is kept. */
static void join(struct wanted *wanted, unsigned a, unsigned b, unsigned variables)
{
    unsigned keep = a < b ? a : b, give = a < b ? b : a, v;

    for (v = 0; v < variables; v++)
        if (wanted->values[v] == give)
            wanted->values[v] = keep;
}

/* Classes by taking equation after equation; two constants in one are a failure. */
static void solve(struct wanted *wanted, const struct plan *plan)
{
    unsigned v, k;

    wanted->end = RISSOBARM_END_SUCCESS;
    for (v = 0; v < plan->variables; v++)
        wanted->values[v] = RISSOBARM_TERM_VARIABLE + v;
    for (k = 0; k < plan->count; k++) {
        unsigned a = known(wanted, plan->equations[k].left), b = known(wanted, plan->equations[k].right);

        if (a != b && !((a | b) & RISSOBARM_TERM_VARIABLE))
            wanted->end = RISSOBARM_END_FAILURE;
        join(wanted, a, b, plan->variables);
    }
}

/* ---- images ---- */

static size_t put_term(uint8_t *image, size_t at, unsigned term)
{
    image[at] = (uint8_t)(term & 255);
    image[at + 1] = (uint8_t)(term >> 8);
    return at + 2;
}

/* The equations from k on that are one stage. */
static unsigned stage_size(const struct plan *plan, unsigned k)
{
    unsigned n = 1;

    while (k + n < plan->count && !(plan->cuts >> (k + n - 1) & 1))
        n++;
    return n;
}

/* An image of one goal. */
static size_t image_of(uint8_t *image, const struct plan *plan)
{
    size_t at = 6;
    unsigned k, stages = 0, next = 0;

    for (k = 0; k < plan->count; k++) {
        if (k == next) {
            unsigned size = stage_size(plan, k);

            image[at++] = (uint8_t)size;
            next += size;
            stages++;
        }
        image[at++] = RISSOBARM_EQUALITY;
        image[at++] = 2;
        at = put_term(image, at, plan->equations[k].left);
        at = put_term(image, at, plan->equations[k].right);
    }
    put_term(image, 0, (unsigned)at);
    put_term(image, 2, RISSOBARM_RECORD_GOAL);
    image[4] = (uint8_t)plan->variables;
    image[5] = (uint8_t)stages;
    return at;
}

/* ---- runs ---- */

/* Steps of processes taken at random, each made or refused as STILL. */
static int stray(const uint8_t *image, size_t length, struct tables *tables, struct random *random)
{
    unsigned k;

    for (k = 0; k < STRAYS; k++) {
        uint32_t process = random_below(random, tables->head[0] + 256u * tables->head[1]);
        unsigned refusal = rissobarm_refusal(rissobarm_step(image, length, TABLES(tables), process));

        if (refusal != RISSOBARM_ACCEPTED && refusal != RISSOBARM_STILL)
            return 0;
        moves += refusal == RISSOBARM_ACCEPTED;
    }
    return 1;
}

/* Whether each goal variable has the value that is wanted. */
static int values_right(const uint8_t *image, size_t length, struct tables *tables, const struct wanted *wanted, unsigned variables)
{
    unsigned v;

    for (v = 0; v < variables; v++) {
        uint64_t value = rissobarm_value(image, length, TABLES(tables), v);
        unsigned sort = wanted->values[v] & RISSOBARM_TERM_VARIABLE ? RISSOBARM_SORT_VARIABLE : RISSOBARM_SORT_CONSTANT;

        if (rissobarm_refusal(value) || rissobarm_value_sort(value) != sort
            || rissobarm_value_number(value) != (wanted->values[v] & (RISSOBARM_TERM_VARIABLE - 1)))
            return 0;
    }
    return 1;
}

/* Whether the plan ends as it is wanted to, run in turn order, where told after random steps. */
static int ends_right(const struct plan *plan, const struct wanted *wanted, struct random *random, int strays)
{
    static struct tables tables;
    uint8_t image[IMAGE_ROOM];
    size_t length = image_of(image, plan);
    uint64_t run;

    if (rissobarm_start(image, length, TABLES(&tables)))
        return 0;
    if (strays && !stray(image, length, &tables, random))
        return 0;
    run = rissobarm_run(image, length, TABLES(&tables), LIMIT);
    if (rissobarm_refusal(run) || rissobarm_end(run) != wanted->end)
        return 0;
    return wanted->end != RISSOBARM_END_SUCCESS || values_right(image, length, &tables, wanted, plan->variables);
}

/* ---- goals ---- */

static unsigned any_term(struct random *random, unsigned variables)
{
    if (random_once(random, 3))
        return random_once(random, 8) ? RISSOBARM_CONSTANT_LIMIT : random_below(random, CONSTANTS);
    return RISSOBARM_TERM_VARIABLE + random_below(random, variables);
}

static void any_plan(struct plan *plan, struct random *random)
{
    unsigned k;

    plan->variables = 1 + random_below(random, VARIABLES);
    plan->count = 1 + random_below(random, EQUATIONS);
    plan->cuts = 0;
    for (k = 0; k < plan->count; k++) {
        plan->equations[k].left = any_term(random, plan->variables);
        plan->equations[k].right = any_term(random, plan->variables);
    }
}

/* Another order of the same equations, in one stage or in several. */
static void shuffle(struct plan *plan, struct random *random)
{
    unsigned k;

    for (k = plan->count; k > 1; k--) {
        unsigned other = random_below(random, k);
        struct equation e = plan->equations[other];

        plan->equations[other] = plan->equations[k - 1];
        plan->equations[k - 1] = e;
    }
    plan->cuts = random_once(random, 2) ? 0 : random_bits(random);
}

/* The list behind itself, where that is no longer than a goal. */
static int twice(struct plan *plan)
{
    unsigned k;

    if (2 * plan->count > EQUATIONS)
        return 0;
    for (k = 0; k < plan->count; k++)
        plan->equations[plan->count + k] = plan->equations[k];
    plan->count *= 2;
    return 1;
}

static void differs(unsigned goal, const char *order, const struct plan *plan)
{
    unsigned k;

    if (differences++ >= SHOWN)
        return;
    printf("goal %u, %s, %u variables:", goal, order, plan->variables);
    for (k = 0; k < plan->count; k++)
        printf(" %x=%x", plan->equations[k].left, plan->equations[k].right);
    printf("\n");
}

static void count(const struct wanted *wanted, unsigned variables)
{
    unsigned v;

    successes += wanted->end == RISSOBARM_END_SUCCESS;
    failures += wanted->end == RISSOBARM_END_FAILURE;
    if (wanted->end == RISSOBARM_END_SUCCESS)
        for (v = 0; v < variables; v++)
            open_values += (wanted->values[v] & RISSOBARM_TERM_VARIABLE) && wanted->values[v] != RISSOBARM_TERM_VARIABLE + v;
}

/* One goal in all its orders and, where it fits, twice. */
static void try_goal(unsigned goal, struct random *random)
{
    struct plan plan;
    struct wanted wanted;
    unsigned k;

    any_plan(&plan, random);
    solve(&wanted, &plan);
    count(&wanted, plan.variables);
    for (k = 0; k < ORDERS; k++) {
        if (!ends_right(&plan, &wanted, random, k == ORDERS - 1 && random_once(random, STRAYED)))
            differs(goal, "an order", &plan);
        shuffle(&plan, random);
    }
    if (twice(&plan)) {
        doubled++;
        if (!ends_right(&plan, &wanted, random, 0))
            differs(goal, "twice", &plan);
    }
}

int main(void)
{
    struct random random = { seed };
    unsigned goal;

    for (goal = 0; goal < GOALS; goal++)
        try_goal(goal, &random);
    printf("%d goals in %d orders, %u of them twice too: %u successes, %u failures\n", GOALS, ORDERS, doubled, successes, failures);
    printf("%u variables with a lower one for value, %u random steps, %u differences\n", open_values, moves, differences);
    return differences == 0 && successes >= LEAST && failures >= LEAST && open_values >= LEAST && doubled >= LEAST && moves >= LEAST ? 0 : 1;
}
