/* What must hold of every call, told from the tables before and after it. */
#ifndef PROPERTIES_H
#define PROPERTIES_H

#include "bed.h"

/* What the tests at a call's entry must come to. */
struct entry {
    bool tested;       /* whether the call is one that takes an image */
    uint64_t refused;  /* the whole answer where they refuse, else 0 */
    unsigned broken;   /* how many table rules are broken, sizes too */
    unsigned first;    /* the lowest of them */
};

struct entry entry_of(struct bed *bed, const struct event *event);

/* Whether the answer agrees with that. */
bool entry_right(struct bed *bed, const struct event *event, const struct entry *entry);

/* Whether the tables after an accepted call keep the rules, a run is its turns, and what demand 3 says holds. */
bool properties_hold(struct bed *bed, const struct event *event);

/* Forgets who waits for a turn. */
void fair_begin(void);

/* Whether everyone who could move has kept that and was served in time; event was played and accepted. */
bool fair_holds(struct bed *bed, const struct event *event);

/* Whether a run that nothing can move any more stands as demand 3 says. */
bool stuck_holds(struct bed *bed);

#endif
