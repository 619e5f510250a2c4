/* Draws places of a program by chance: goals, stages, literals and clauses that exist, with variables that exist. */
#ifndef PLACES_H
#define PLACES_H

#include "machine.h"
#include "random.h"

struct draw {
    const struct program *program;
    struct random *random;
    unsigned variables; /* the variable count that blocks of variables must fit into */
    bool goal_only;     /* whether only the image's goal may be named */
};

enum { ANY_RELATION = 256 };

/* A place whose stage exists; with behind 1 the stage may be the one behind the last. */
bool draw_stage(struct draw *draw, unsigned behind, struct place *place);

/* A place of a literal that is an equality, or that is none. */
bool draw_literal(struct draw *draw, bool equality, struct place *place);

/* Whether a place is among equations beside a body, where no and-seq may be. */
bool beside_body_at(const struct program *program, const struct place *place);

/* A clause of a relation, or any clause. */
bool draw_clause(struct draw *draw, unsigned relation, struct found *found);

/* The relation called at a place. */
unsigned called_at(const struct program *program, const struct place *place);

#endif
