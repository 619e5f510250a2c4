/* Times of the sides in turns, told as ratios. */
#define _POSIX_C_SOURCE 199309L
#include "times.h"

#include <stdio.h>
#include <stdlib.h>
#include <time.h>

enum { ROUNDS = 21, ROUND_NS = 2000000 };

double now(void)
{
    struct timespec t;

    clock_gettime(CLOCK_PROCESS_CPUTIME_ID, &t);
    return (double)t.tv_sec * 1e9 + (double)t.tv_nsec;
}

static int by_size(const void *a, const void *b)
{
    double x = *(const double *)a, y = *(const double *)b;

    return (x > y) - (x < y);
}

static double median(double *times)
{
    qsort(times, ROUNDS, sizeof *times, by_size);
    return times[ROUNDS / 2];
}

/* How many times make a round; the first ones also warm the caches. */
static unsigned enough(work *thing, unsigned side)
{
    double start = now(), once;

    thing(side, 8);
    once = (now() - start) / 8;
    return once > ROUND_NS ? 1 : (unsigned)(ROUND_NS / once) + 1;
}

struct ratio in_turns(work *thing, unsigned sides)
{
    struct ratio r = { 0, 1e300, 0, { 0, 0, 0 } };
    double spent[ALL_SIDES][ROUNDS], ratio;
    unsigned times[ALL_SIDES], side, k;

    for (side = 0; side < sides; side++)
        times[side] = enough(thing, side);
    for (k = 0; k < ROUNDS; k++) {
        for (side = 0; side < sides; side++)
            spent[side][k] = thing(side, times[side]);
        ratio = spent[ARCHIVE][k] / spent[PLAIN][k];
        r.least = ratio < r.least ? ratio : r.least;
        r.most = ratio > r.most ? ratio : r.most;
    }
    for (side = 0; side < sides; side++)
        r.median[side] = median(spent[side]);
    r.ratio = r.median[ARCHIVE] / r.median[PLAIN];
    return r;
}

void tell(const char *what, const char *which, unsigned rows, size_t bytes, const struct ratio *here,
          const struct ratio *beside)
{
    const double *of = here->median, *first = beside->median;

    printf("%s,%s,%u,%zu,%.3f,%.3f,%.3f,%.3f,%.3f,", what, which, rows, bytes, here->ratio, here->least, here->most,
           of[ARCHIVE] / first[ARCHIVE], of[PLAIN] / first[PLAIN]);
    if (of[QUICK] > 0)
        printf("%.3f,%.3f\n", of[ARCHIVE] / of[QUICK], of[QUICK] / first[QUICK]);
    else
        printf(",\n");
}
