/* Times of the sides in turns, told as ratios. */
#ifndef TIMES_H
#define TIMES_H

#include "sides.h"

/* A side does one thing so many times; answers the nanoseconds of one. */
typedef double work(unsigned side, unsigned times);

/* Archive over plain C, by the medians, and the least and the greatest of a round; the median of each side, 0 where there is none. */
struct ratio {
    double ratio, least, most, median[ALL_SIDES];
};

/* Processor time of this program, in nanoseconds. */
double now(void);

/* The first so many sides in turns, round for round. */
struct ratio in_turns(work *thing, unsigned sides);

/*
 * A line of results; each side's time stands as a multiple of its own in another ratio. The quick C stands behind the others with
 * the archive's time over its own; both places are empty where it was not timed.
 */
void tell(const char *what, const char *which, unsigned rows, size_t bytes, const struct ratio *here,
          const struct ratio *beside);

#endif
