/*
 * What the tool tells: words on standard output and standard error, JSON where it is asked for, and the status that it ends
 * with.
 */
#ifndef TOOL_SAY_H
#define TOOL_SAY_H

#include <stddef.h>
#include <stdint.h>

/* With what the tool ends. The manual and the help have this table. */
enum status {
    DONE = 0,          /* done; of a run: the goal has succeeded */
    FAILED = 1,        /* the goal has failed */
    WAITS = 2,         /* the run waits, and no arrival is left or a stop came */
    NO_ROOM = 3,       /* a move needs more rows than a run has */
    STEPS_USED = 4,    /* the steps that were allowed are made, or a stop came before */
    PLAN_REFUSED = 5,  /* the plan or its list of names is refused */
    RUN_REFUSED = 6,   /* the saved run is refused, or is of another plan */
    TRACE_REFUSED = 7, /* the trace is refused, or disagrees */
    VALUE_REFUSED = 8, /* a value or a variable is refused */
    NO_PROCESS = 9,    /* there is no such process */
    NO_FILE = 10,      /* a file cannot be read or written */
    USAGE = 11         /* the words of the command are wrong */
};

/* Whether JSON is asked for; set once. */
extern int say_json;

/* Says what is wrong on standard error, as JSON on standard output too where that is asked for, and ends the tool. */
void quit(enum status status, const char *form, ...);

/* As quit, but goes on. */
void warn(const char *form, ...);

/* Ends the tool by what the run came to; standard output must have taken everything. */
int finish(enum status status);

/* ---- JSON: one value behind the other; keys are NULL inside a list ---- */

void json_open(const char *key, char bracket);
void json_close(char bracket);
void json_text(const char *key, const char *text);
void json_number(const char *key, uint64_t number);
void json_truth(const char *key, int truth);
void json_null(const char *key);

/* ---- numbers with commas, and words in the plural where they are ---- */

/* The number as `12,345`, in one of a few rooms that are used in turn. */
const char *grouped(uint64_t number);

/* "1 step", "2 steps". */
const char *counted(uint64_t number, const char *one, const char *many);

#endif
