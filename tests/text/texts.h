/* Random PARLOG texts: spelt from images, damaged, and made of any bytes. */
#ifndef TEXTS_H
#define TEXTS_H

#include "images.h"
#include "random.h"

#include <stddef.h>
#include <stdint.h>

enum { TEXT_ROOM = 65536, NAMES_ROOM = 524288 };

/*
 * What is called in a text of which a mode line is refused: nothing, only what has one before it, also what has one from it on,
 * also what has none. The last two once more with names of one class, of which one is called that a parse has no place for.
 */
enum { OTHER_TEXT, MODES_UNCALLED, MODES_BEFORE, MODES_BEHIND, MODES_UNDECLARED, CLASS_BEHIND, CLASS_UNDECLARED, MODES_KINDS };

struct text {
    uint8_t bytes[TEXT_ROOM];
    size_t length;
    int full;       /* something did not fit */
    unsigned modes; /* what is called in a text of text_modes */
};

/* Names of relations and constants, each with a byte 10. */
struct list {
    uint8_t bytes[NAMES_ROOM];
    size_t length;
};

/* How names are chosen: every number of a sort gets its own. */
struct naming {
    uint32_t salt;
    int mode_relation; /* relation 0 is called `mode` */
};

/* An image that keeps every rule but, at times, one limit. */
void image_for_text(struct image *image, struct random *random);

/* Gives a clause another relation: mostly one of another arity, or out of order. */
void image_misname(struct image *image, struct random *random);

/*
 * Numbers constants and variables by first appearance, as a text does, and answers how many constants there are; only the
 * fields are looked at, so counts may pass limits.
 */
unsigned image_renumber(struct image *image);

/* The image's records as text, with blanks by chance and clauses that end in any right way. */
void text_spell(struct text *text, const struct image *image, const struct naming *naming, struct random *random);

/* The names of so many relations and constants. */
void list_names(struct list *list, const struct naming *naming, unsigned relations, unsigned constants);

/* How many relations, and one more than the highest constant. */
unsigned image_relations(const struct image *image);
unsigned image_constants(const struct image *image);

/* One or several bytes or lines are changed. */
void text_damage(struct text *text, struct random *random);

/* Pieces of texts one behind the other, or any bytes. */
void text_garbage(struct text *text, struct random *random);

/* A mode line is refused, and the calls are of what has one before it, from it on, or nowhere. */
void text_modes(struct text *text, struct random *random);

/* A text of any of these sorts. */
void text_any(struct text *text, struct random *random);

#endif
