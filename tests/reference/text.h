/* PARLOG text taken apart: a row of parts, each with the place of its name in the text. */
#ifndef REFERENCE_TEXT_H
#define REFERENCE_TEXT_H

#include <stdbool.h>
#include <stddef.h>
#include <stdint.h>

/*
 * A mode line is MODE, then INPUT or OUTPUT for each argument, then STOP. A clause is HEAD, its terms, literals, and STOP
 * or NEXT for `.` or `;`; the goal line is GOAL, literals, STOP. A literal is CALL and its terms, or EQUALS and two terms.
 * Behind the literals of a stage stands STAGE where another stage follows, and behind those of a guard COLON.
 */
enum part_kind { MODE, INPUT, OUTPUT, HEAD, GOAL, CALL, EQUALS, CONSTANT_TERM, VARIABLE_TERM, STAGE, COLON, STOP, NEXT };

/* A name in the text. */
struct spelt {
    const uint8_t *at;
    size_t length;
};

struct part {
    enum part_kind kind;
    struct spelt name; /* of MODE, HEAD, CALL and the terms */
};

/* The parts of a text, in its order. */
struct parts {
    struct part *all;
    size_t count;
    size_t room;
};

/*
 * Takes a text apart. False where it is no text: then stuck is the first byte that none could continue with, or the text's
 * length.
 */
bool ref_take_apart(const uint8_t *text, size_t length, struct parts *parts, size_t *stuck);

/* Whether these bytes are a lower-case name. */
bool ref_is_lower_name(const uint8_t *bytes, size_t length);

#endif
