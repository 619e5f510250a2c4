/* A run in the tool: the plan, its tables, and the trace since the tool has it. */
#ifndef TOOL_SESSION_H
#define TOOL_SESSION_H

#include "plan.h"
#include "program.h"

enum { TRACE_RECORD = RISSOBARM_TRACE_RECORD_SIZE };

struct session {
    struct plan plan;
    struct program program;
    struct rissobarm_plan run;
    struct bytes trace; /* records since the session began */
    int traced;         /* whether they are kept */
    int run_is_saved;   /* it came from the file of a saved run */
    uint16_t stamp;     /* of the next record */
};

/* Begins a run of a plan. */
void session_start(struct session *session);

/* Up to so many steps, fewer than 65,536; answers the word of a run. */
uint64_t session_run(struct session *session, unsigned steps);

/* A value comes in. */
uint64_t session_supply(struct session *session, unsigned variable, unsigned value);

/* ---- the file of a saved run ---- */

/*
 * The run with its plan as one file, so that the two cannot be parted: a line that says what it is, then parts, each a line
 * with its name and length and then so many bytes. The part `run` is what rissobarm_save gives.
 */
struct bytes session_bytes(const struct session *session);

/* Reads such a file and takes the run up; ends the tool where it is refused. */
void session_load(struct session *session, const char *path);

/* A saved run, or a plan that is then begun. */
void session_open(struct session *session, const char *path, const char *names_path);

/* Ends the tool where the plan at this path is not the one of the saved run. */
void session_same_plan(const struct session *session, const char *saved, const char *path, const char *names_path);

/* ---- what a run tells ---- */

/* The value of a variable of the run: 1 and a constant, or 0 and an unbound variable. */
int value_of(const struct session *session, unsigned variable, unsigned *number);

/* The field of a process row. */
unsigned row_byte(const struct session *session, unsigned process, unsigned field);
unsigned row_word(const struct session *session, unsigned process, unsigned field);

#endif
