/* Which words of a plan a goal variable can meet: those that stand where its value may come. */
#ifndef INDEX_FLOW_H
#define INDEX_FLOW_H

#include "plan.h"

struct flow;

struct flow *flow_of(const struct plan *plan);
void flow_free(struct flow *flow);

/* Whether a word, by its number, may meet a goal variable. */
int flow_meets(const struct flow *flow, unsigned variable, unsigned word);

/* Whether the plan passes a word on by itself, as an argument of a call. */
int flow_passes(const struct flow *flow, unsigned word);

#endif
