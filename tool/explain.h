/* One process explained. */
#ifndef TOOL_EXPLAIN_H
#define TOOL_EXPLAIN_H

#include "session.h"

/* A line for a variable that a suspended process waits for: who could bind it. */
void explain_note(const struct session *session, unsigned process, unsigned variable);

/* A process as JSON, its waits with it. */
void explain_json(const struct session *session, const char *key, unsigned process);

#endif
