/* Tables of a run that makes more steps than one run call can: no start leads to them, but they keep the table rules. */
#ifndef LONGRUN_H
#define LONGRUN_H

#include "rissobarm_plan.h"

/* How many variables get bound, each to the one below it, and how many equations in a guard look at the top one. */
enum { LINKS = 254, WATCHERS = 253 };

/* Starts the plan and fills its rows so. Each link wakes every watcher, which suspends on the next variable down. */
void longrun_fill(struct rissobarm_plan *plan);

#endif
