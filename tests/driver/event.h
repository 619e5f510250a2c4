/* What is done to a run, one event after the other, and a story: an image with its events. */
#ifndef EVENT_H
#define EVENT_H

#include "images.h"
#include "lend.h"

#include <stdbool.h>
#include <stdint.h>

/* The calls, then what changes the tables on both sides alike without a call. */
enum event_kind {
    LOADS,
    STARTS,
    STEPS,    /* a the process; b whether, in another form than the plain one, that is made beside it */
    TURNS,    /* b as for a step */
    RUNS,     /* a the limit, b whether turns are made beside it */
    SUPPLIES, /* a the variable, b the value */
    VALUES,   /* a the variable */
    WATCHES,  /* a the length of the row: the process table or, with b, rows by chance from the seed b */
    ALL_VALUES, /* b whether each is asked for alone too */
    SAVES,
    REPLAYS,  /* the tape, damaged by the seed a, whole for 0; b whether it is made beside it by single calls */
    RESUMES,  /* the run saved last or, with b, the tables at hand as records; damaged by the seed a, whole for 0 */
    CALLS,
    SIZES = CALLS, /* the next call is lent a row with the length a */
    POKES,    /* the byte at a of a row becomes b */
    LEGALS,   /* tables that keep the rules, from the seed a in the style b */
    SCATTERS, /* tables by chance, from the seed a in the style b */
    STAMPS,   /* the next record has the stamp a, and begins a tape */
    REWINDS,  /* the tables become those that the tape begins with */
    EVENT_KINDS
};

/* Forms of a step, a turn, a run or a supply. */
enum event_form {
    PLAIN,
    LISTED, /* with a list of the variables bound: not a run */
    TRACED, /* with a record, or one for each step: not a turn */
    FORMS
};

struct event {
    uint8_t kind;
    uint8_t form;
    uint8_t row;
    uint32_t a;
    uint32_t b;
};

enum { STORY_ROOM = 4096, WIDEST = 60000 };

struct story {
    struct image image;
    unsigned standing; /* of the lent rows */
    bool fair;         /* whether every process is watched for its turn */
    unsigned count;
    struct event events[STORY_ROOM];
};

/* An event as a line of text. */
void event_print(const struct event *event);

/* The name of a kind of event, and of a form. */
const char *event_name(unsigned kind);
const char *form_name(unsigned form);

#endif
