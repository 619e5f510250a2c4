/* What the program says: words, and the status that it ends with. */
#ifndef INDEX_SAY_H
#define INDEX_SAY_H

#include "text.h"

/* With what it ends: those of `rissobarm` that it needs. The manual and the help have this table. */
enum status {
    DONE = 0,          /* done */
    FOUND_WRONG = 1,   /* verify has found something that is not as it must be */
    WORK_LEFT = 2,     /* there is work left, or a run waits */
    PLAN_REFUSED = 5,  /* the plan or index.conf is refused, or they do not fit together */
    VALUE_REFUSED = 8, /* a line, a value or a variable is refused */
    NO_RECORD = 9,     /* there is no such record */
    NO_FILE = 10,      /* a file or the database cannot be read or written */
    USAGE = 11         /* the words of the command are wrong */
};

/* Whether JSON is asked for; set once, before anything is said. */
extern int say_json;

/* Says what is wrong on standard error, as JSON on standard output too if that is asked for, and ends the program. */
void quit(enum status status, const char *form, ...);

/* As quit, but goes on. */
void warn(const char *form, ...);

/* Says how far a long command is, on a terminal alone; "" takes that away. */
int progress_shown(void);
void progress(const char *form, ...);

/* Prints an answer and a line end. */
void answer(const struct text *text);

/* Ends the program's work: standard output must have taken everything. */
int finish(enum status status);

/* Seconds since 1970, and seconds that this process has had of the processor. */
double now(void);
double processor_time(void);

#endif
