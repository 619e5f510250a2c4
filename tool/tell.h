/* What a run has come to. */
#ifndef TOOL_TELL_H
#define TOOL_TELL_H

#include "session.h"

/* The end, the counts, the values of the goal's variables, and for a run that waits the variables that it waits for. */
void tell_run(const struct session *session, unsigned end);

#endif
