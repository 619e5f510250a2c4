/* An accepted image taken apart: relations, clauses and goals by number. */
#ifndef TOOL_PROGRAM_H
#define TOOL_PROGRAM_H

#include "rissobarm_plan.h"
#include "files.h"

enum { LITERALS = RISSOBARM_LITERAL_LIMIT + RISSOBARM_ARITY_LIMIT };

struct literal {
    unsigned relation;
    unsigned arity;
    unsigned terms[RISSOBARM_ARITY_LIMIT]; /* as the image has them, variables from RISSOBARM_TERM_VARIABLE on */
};

/* Stage s has the literals from first[s] to before first[s + 1]. */
struct goal {
    unsigned stages;
    unsigned first[RISSOBARM_STAGE_LIMIT + 1];
    struct literal literals[LITERALS];
};

struct clause {
    struct literal head;
    unsigned own;     /* variables that it writes itself */
    unsigned outputs; /* and one more for each output argument, behind them */
    unsigned block;   /* from 0 within its relation */
    unsigned order;   /* among the clauses of its relation, from 0 */
    struct goal guard;
    struct goal body;    /* as committed: equations for the outputs in front, alone where the body has several stages */
    struct goal written; /* the body as the image has it */
};

struct program {
    unsigned relations;
    unsigned arity[RISSOBARM_RELATION_LIMIT];
    unsigned char output[RISSOBARM_RELATION_LIMIT][RISSOBARM_ARITY_LIMIT];
    unsigned clauses;
    struct clause clause[RISSOBARM_CLAUSE_LIMIT];
    unsigned variables; /* of the goal */
    struct goal goal;
};

/* Takes apart an image that a load has accepted. */
void program_read(struct program *program, const struct bytes *image);

#endif
