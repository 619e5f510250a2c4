/* Plan and index.conf held together: every run that the words of the plan allow is gone through. */
#ifndef INDEX_CHECK_H
#define INDEX_CHECK_H

#include "service.h"

/* What is wrong, and what is odd, a line each. */
struct findings {
    struct text wrong, odd;
    unsigned wrong_count, odd_count;
    unsigned moves, states, successes;
};

/* Looks for all that docs/INDEX.md names. */
void check_plan(struct conf *conf, struct plan *plan, struct store *store, struct findings *findings);

/* Ends the program if something is wrong. */
void check_or_quit(struct conf *conf, struct plan *plan, struct store *store);

#endif
