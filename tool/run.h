/* A run with its values, in slices. */
#ifndef TOOL_RUN_H
#define TOOL_RUN_H

#include "options.h"
#include "session.h"

/*
 * Supplies what the command gives, then runs with arrivals until the goal ends, nothing is left to come, or the steps are
 * made; the end.
 */
unsigned run_to_end(struct session *session, const struct options *options);

/* The same before a run is shown; a saved one that is given nothing is shown as it stands. */
void run_to_show(struct session *session, const struct options *options);

#endif
