/* Stops from outside: from the keyboard, by the system, and by a terminal that goes away. */
#ifndef TOOL_STOPS_H
#define TOOL_STOPS_H

#include <signal.h>

enum { STOPS = 3 };

extern const int stop_signals[STOPS];

/* Has each stop call a function, by these flags of sigaction; one that is ignored, as by nohup or behind a shell, stays so. */
void stops_hear(void (*call)(int), int flags, struct sigaction *before);

/* As it was before, by what stops_hear has told. */
void stops_restore(const struct sigaction *before);

#endif
