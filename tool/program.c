/* An accepted image taken apart. */
#include "program.h"

#include <string.h>

/* Where the fields are read. */
struct reader {
    const uint8_t *at;
};

static unsigned take_byte(struct reader *r)
{
    return *r->at++;
}

static unsigned take_word(struct reader *r)
{
    r->at += 2;
    return rissobarm_word_at(r->at - 2);
}

static void take_terms(struct reader *r, struct literal *literal)
{
    unsigned k;

    for (k = 0; k < literal->arity; k++)
        literal->terms[k] = take_word(r);
}

static void take_goal(struct reader *r, struct goal *goal)
{
    unsigned s, k;

    goal->stages = take_byte(r);
    for (s = 0; s < goal->stages; s++) {
        goal->first[s + 1] = goal->first[s] + take_byte(r);
        for (k = goal->first[s]; k < goal->first[s + 1]; k++) {
            goal->literals[k].relation = take_byte(r);
            goal->literals[k].arity = take_byte(r);
            take_terms(r, &goal->literals[k]);
        }
    }
}

static void take_relation(struct reader *r, struct program *p)
{
    unsigned number = p->relations++, k;

    p->arity[number] = take_byte(r);
    for (k = 0; k < p->arity[number]; k++)
        p->output[number][k] = (unsigned char)take_byte(r);
}

/* One equation for each output argument, head term on the left, before the literals; a body of several stages makes room. */
static void commit(const struct program *p, struct clause *clause)
{
    struct goal *body = &clause->body;
    struct literal made[RISSOBARM_ARITY_LIMIT];
    unsigned k, s;

    for (k = 0; k < clause->head.arity; k++)
        if (p->output[clause->head.relation][k]) {
            struct literal *equation = &made[clause->outputs];

            equation->relation = RISSOBARM_EQUALITY;
            equation->arity = 2;
            equation->terms[0] = clause->head.terms[k];
            equation->terms[1] = RISSOBARM_TERM_VARIABLE + clause->own + clause->outputs++;
        }
    clause->written = *body;
    if (clause->outputs == 0)
        return;
    if (body->stages > 1)
        memset(body, 0, sizeof *body);
    memmove(body->literals + clause->outputs, body->literals, RISSOBARM_LITERAL_LIMIT * sizeof body->literals[0]);
    memcpy(body->literals, made, clause->outputs * sizeof made[0]);
    if (body->stages == 0)
        body->stages = 1;
    for (s = 1; s <= body->stages; s++)
        body->first[s] += clause->outputs;
}

static void take_clause(struct reader *r, struct program *p)
{
    struct clause *clause = &p->clause[p->clauses], *before = p->clauses > 0 ? clause - 1 : NULL;
    unsigned mark;

    clause->head.relation = take_byte(r);
    clause->head.arity = take_byte(r);
    mark = take_byte(r);
    clause->own = take_byte(r);
    take_terms(r, &clause->head);
    take_goal(r, &clause->guard);
    take_goal(r, &clause->body);
    if (before != NULL && before->head.relation == clause->head.relation) {
        clause->block = before->block + mark;
        clause->order = before->order + 1;
    }
    commit(p, clause);
    p->clauses++;
}

void program_read(struct program *program, const struct bytes *image)
{
    struct reader r;
    size_t at;

    memset(program, 0, sizeof *program);
    for (at = 0; at < image->length; at += rissobarm_word_at(image->at + at)) {
        r.at = image->at + at + RISSOBARM_RECORD_HEAD;
        switch (rissobarm_word_at(image->at + at + 2)) {
        case RISSOBARM_RECORD_RELATION:
            take_relation(&r, program);
            break;
        case RISSOBARM_RECORD_CLAUSE:
            take_clause(&r, program);
            break;
        default:
            program->variables = take_byte(&r);
            take_goal(&r, &program->goal);
        }
    }
}
