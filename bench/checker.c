/* Tests an image in one pass: each byte is read once, and a refusal ends the pass. */
#include "checker.h"

#include "rissobarm.h"

/* What is known between two records, and whether the record in hand names all things rightly. */
struct checker {
    const uint8_t *at;
    const uint8_t *end; /* of the record */
    unsigned relations, clauses, kind, relation, block;
    unsigned variables;
    int named;
    uint8_t arity[RISSOBARM_RELATION_LIMIT];
};

static unsigned word(const uint8_t *at)
{
    return at[0] | (unsigned)at[1] << 8;
}

/* All the terms must lie in the record. */
static int check_terms(struct checker *c, unsigned arity)
{
    const uint8_t *at = c->at;

    if ((size_t)(c->end - at) < 2 * arity)
        return 0;
    c->at = at + 2 * arity;
    for (; arity > 0; arity--, at += 2) {
        unsigned term = word(at);

        if (term >= RISSOBARM_TERM_VARIABLE + c->variables)
            c->named = 0;
    }
    return 1;
}

static int check_literal(struct checker *c)
{
    unsigned relation, arity;

    if (c->end - c->at < 2)
        return 0;
    relation = c->at[0];
    arity = c->at[1];
    c->at += 2;
    if (arity > RISSOBARM_ARITY_LIMIT)
        return 0;
    if (relation == RISSOBARM_EQUALITY ? arity != 2 : relation >= c->relations || arity != c->arity[relation])
        c->named = 0;
    return check_terms(c, arity);
}

static int check_goal(struct checker *c)
{
    unsigned stages, count, left = RISSOBARM_LITERAL_LIMIT;

    if (c->at == c->end || *c->at > RISSOBARM_STAGE_LIMIT)
        return 0;
    for (stages = *c->at++; stages > 0; stages--) {
        if (c->at == c->end)
            return 0;
        count = *c->at++;
        if (count == 0 || count > left)
            return 0;
        left -= count;
        for (; count > 0; count--)
            if (!check_literal(c))
                return 0;
    }
    return 1;
}

static unsigned check_relation(struct checker *c)
{
    unsigned arity, k;

    if (c->relations == RISSOBARM_RELATION_LIMIT)
        return RISSOBARM_MANY;
    if (c->at == c->end || *c->at > RISSOBARM_ARITY_LIMIT || c->end - c->at != 1 + *c->at)
        return RISSOBARM_BODY;
    arity = *c->at++;
    for (k = 0; k < arity; k++)
        if (c->at[k] > 1)
            return RISSOBARM_BODY;
    c->arity[c->relations++] = (uint8_t)arity;
    return RISSOBARM_ACCEPTED;
}

static unsigned check_clause(struct checker *c)
{
    const uint8_t *at = c->at;
    int follows;

    if (c->clauses == RISSOBARM_CLAUSE_LIMIT)
        return RISSOBARM_MANY;
    if (c->end - at < 4 || at[1] > RISSOBARM_ARITY_LIMIT || at[2] > 1 || at[3] > RISSOBARM_OWN_LIMIT)
        return RISSOBARM_BODY;
    follows = c->clauses > 0 && at[0] == c->relation;
    c->variables = at[3];
    c->named = at[0] < c->relations && at[1] == c->arity[at[0]] && at[0] >= c->relation && (follows || at[2] == 0);
    c->at = at + 4;
    if (!check_terms(c, at[1]) || !check_goal(c) || !check_goal(c) || c->at != c->end)
        return RISSOBARM_BODY;
    if (!c->named)
        return RISSOBARM_NAME;
    c->block = follows && at[2] == 0 ? c->block + 1 : 1;
    c->relation = at[0];
    c->clauses++;
    return c->block > RISSOBARM_BLOCK_LIMIT ? RISSOBARM_MANY : RISSOBARM_ACCEPTED;
}

static unsigned check_ask(struct checker *c)
{
    if (c->at == c->end || *c->at > RISSOBARM_OWN_LIMIT)
        return RISSOBARM_BODY;
    c->variables = *c->at++;
    c->named = 1;
    if (!check_goal(c) || c->at != c->end)
        return RISSOBARM_BODY;
    return c->named ? RISSOBARM_ACCEPTED : RISSOBARM_NAME;
}

static unsigned check_record(struct checker *c, const uint8_t *record, size_t left)
{
    unsigned before = c->kind;

    if (left < RISSOBARM_RECORD_HEAD || word(record) < RISSOBARM_RECORD_HEAD || word(record) > left)
        return RISSOBARM_CUT;
    c->kind = word(record + 2);
    if (c->kind < RISSOBARM_RECORD_RELATION || c->kind > RISSOBARM_RECORD_GOAL || c->kind < before ||
        before == RISSOBARM_RECORD_GOAL)
        return RISSOBARM_KIND;
    c->at = record + RISSOBARM_RECORD_HEAD;
    c->end = record + word(record);
    return c->kind == RISSOBARM_RECORD_RELATION ? check_relation(c)
           : c->kind == RISSOBARM_RECORD_CLAUSE ? check_clause(c)
                                                : check_ask(c);
}

static uint64_t refused(unsigned number, size_t offset)
{
    return number | (uint64_t)offset << 32;
}

uint64_t checker_load(const uint8_t *image, size_t image_len)
{
    struct checker c = { 0 };
    size_t at = 0;
    unsigned number;

    if (image_len > RISSOBARM_IMAGE_LIMIT)
        return refused(RISSOBARM_LONG, 0);
    while (at < image_len) {
        number = check_record(&c, image + at, image_len - at);
        if (number != RISSOBARM_ACCEPTED)
            return refused(number, at);
        at += word(image + at);
    }
    if (c.kind != RISSOBARM_RECORD_GOAL)
        return refused(RISSOBARM_NOGOAL, image_len);
    return c.relations << 8 | c.clauses << 16;
}
