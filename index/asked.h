/* What a run has asked for, and may be answered. */
#ifndef INDEX_ASKED_H
#define INDEX_ASKED_H

#include "service.h"

/* The word with which an action is requested after a move, or NULL. */
const char *requested(const struct plan *plan, const struct move *move, const struct action *action);

/* Whether an action waits for one of its answers. */
int is_awaited(const struct plan *plan, const struct move *move, const struct action *action);

/* Whether a goal variable is asked for and open after a move, so that it may be answered. */
int may_answer(const struct service *service, const struct move *move, const char *name);

#endif
