/* For whom a suspended process waits. */
#ifndef TOOL_WAITS_H
#define TOOL_WAITS_H

#include "session.h"

/* How a process, or a stage that has not begun, could come to bind a variable. */
enum binding { NOT_AT_ALL, BY_OUTPUT, BY_INPUT };

/* Who could bind a variable. A binder that is an and-seq does so in a later stage. */
struct binders {
    int supply;                                     /* it is a variable of the goal */
    unsigned outputs[RISSOBARM_PROCESS_LIMIT];      /* calls that have it as an output, and equations */
    unsigned output_count;
    unsigned inputs[RISSOBARM_PROCESS_LIMIT];       /* calls that have it as an input alone */
    unsigned input_count;
};

/* Whether a process is suspended, and the variables that it waits for. */
int is_suspended(const struct session *session, unsigned process);
unsigned note_count(const struct session *session, unsigned process);
unsigned note_at(const struct session *session, unsigned process, unsigned k);

/* Who could bind a variable that this process waits for; the calls that the process itself works for are left out. */
void find_binders(const struct session *session, unsigned process, unsigned variable, struct binders *binders);

#endif
