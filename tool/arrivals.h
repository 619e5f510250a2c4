/* Values from outside: given with the command, or read line by line while a run goes on. */
#ifndef TOOL_ARRIVALS_H
#define TOOL_ARRIVALS_H

#include "options.h"
#include "session.h"

#include <stdio.h>

enum { ARRIVAL_ROOM = 512 };

/* Lines `NAME = VALUE` or `NAME = VALUE @ STEPS`, one read ahead; `#` begins a comment. */
struct arrivals {
    FILE *file; /* NULL where there is none, or no more */
    const char *path;
    unsigned long line;
    int strict;  /* a line that is no good ends the tool */
    int is_terminal; /* which may go away while the run goes on */
    int pending; /* an arrival has been read and has not come in */
    char name[ARRIVAL_ROOM], value[ARRIVAL_ROOM];
    uint32_t steps; /* not before so many */
};

void arrivals_open(struct arrivals *arrivals, const struct options *options);

/* Brings in every arrival whose steps are made. */
void arrivals_due(struct arrivals *arrivals, struct session *session);

/* The run waits: brings in the next arrival, whatever its steps; 0 where there is none. */
int arrivals_next(struct arrivals *arrivals, struct session *session);

/* A value given with the command as NAME=VALUE. */
void supply_given(struct session *session, const char *pair);

#endif
