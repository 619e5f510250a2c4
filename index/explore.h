/* Every run that the words of a plan allow. */
#ifndef INDEX_EXPLORE_H
#define INDEX_EXPLORE_H

#include "check.h"

/* Goes through them, up to a number of moves, and notes what is wrong. */
void explore(const struct conf *conf, const struct plan *plan, struct findings *findings);

/* Notes a finding, once. */
void note_wrong(struct findings *findings, const char *form, ...);
void note_odd(struct findings *findings, const char *form, ...);

#endif
