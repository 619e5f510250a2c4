/*
 * Which words a goal variable can meet. Variables and arguments that may have one value are put into one class: a variable with
 * each argument place where it stands, in calls and in heads, and both sides of an equation. A class has the words that stand at
 * its places. That may be more than a run can meet, and is never less.
 */
#include "flow.h"

#include "text.h"

#include <stdlib.h>
#include <string.h>

enum {
    GOAL = RISSOBARM_CLAUSE_LIMIT, /* the goal counts as one clause more */
    VARIABLES = (GOAL + 1) * RISSOBARM_OWN_LIMIT,
    NODES = VARIABLES + RISSOBARM_RELATION_LIMIT * RISSOBARM_ARITY_LIMIT
};

struct flow {
    unsigned words;
    unsigned class_of[NODES];
    unsigned char *meets; /* NODES rows of words */
    unsigned char *passes;
};

/* ---- classes ---- */

static unsigned class_at(const struct flow *flow, unsigned node)
{
    while (flow->class_of[node] != node)
        node = flow->class_of[node];
    return node;
}

static void put_word(struct flow *flow, unsigned node, unsigned word)
{
    if (word < flow->words)
        flow->meets[class_at(flow, node) * flow->words + word] = 1;
}

static void join(struct flow *flow, unsigned one, unsigned two)
{
    unsigned k;

    one = class_at(flow, one);
    two = class_at(flow, two);
    if (one == two)
        return;
    flow->class_of[two] = one;
    for (k = 0; k < flow->words; k++)
        flow->meets[one * flow->words + k] |= flow->meets[two * flow->words + k];
}

static unsigned variable_node(unsigned clause, unsigned variable)
{
    return clause * RISSOBARM_OWN_LIMIT + variable;
}

static unsigned place_node(unsigned relation, unsigned argument)
{
    return VARIABLES + relation * RISSOBARM_ARITY_LIMIT + argument;
}

/* ---- reading the image, which a load has accepted ---- */

struct reader {
    const uint8_t *at;
    struct flow *flow;
    unsigned clause;
};

static unsigned take_byte(struct reader *reader)
{
    return *reader->at++;
}

static unsigned take_word(struct reader *reader)
{
    reader->at += 2;
    return rissobarm_word_at(reader->at - 2);
}

/* A term at an argument place. */
static void take_term(struct reader *reader, unsigned node, int is_call)
{
    unsigned term = take_word(reader);

    if (term >= RISSOBARM_TERM_VARIABLE) {
        join(reader->flow, node, variable_node(reader->clause, term - RISSOBARM_TERM_VARIABLE));
        return;
    }
    put_word(reader->flow, node, term);
    if (is_call && term < reader->flow->words)
        reader->flow->passes[term] = 1;
}

static void take_equation(struct reader *reader)
{
    unsigned left = take_word(reader), right = take_word(reader);
    int variables[2] = { left >= RISSOBARM_TERM_VARIABLE, right >= RISSOBARM_TERM_VARIABLE };
    unsigned one = variable_node(reader->clause, left - RISSOBARM_TERM_VARIABLE);
    unsigned two = variable_node(reader->clause, right - RISSOBARM_TERM_VARIABLE);

    if (variables[0] && variables[1])
        join(reader->flow, one, two);
    else if (variables[0])
        put_word(reader->flow, one, right);
    else if (variables[1])
        put_word(reader->flow, two, left);
}

static void take_goal(struct reader *reader)
{
    unsigned stages = take_byte(reader), literals, relation, arity, k;

    while (stages-- > 0)
        for (literals = take_byte(reader); literals > 0; literals--) {
            relation = take_byte(reader);
            arity = take_byte(reader);
            if (relation == RISSOBARM_EQUALITY)
                take_equation(reader);
            else
                for (k = 0; k < arity; k++)
                    take_term(reader, place_node(relation, k), 1);
        }
}

static void take_clause(struct reader *reader)
{
    unsigned relation = take_byte(reader), arity = take_byte(reader), k;

    reader->at += 2; /* the mark of its block, and how many variables it has */
    for (k = 0; k < arity; k++)
        take_term(reader, place_node(relation, k), 0);
    take_goal(reader);
    take_goal(reader);
    reader->clause++;
}

static void take_record(struct reader *reader, unsigned kind)
{
    if (kind == RISSOBARM_RECORD_CLAUSE)
        take_clause(reader);
    else if (kind == RISSOBARM_RECORD_GOAL) {
        reader->clause = GOAL;
        reader->at++;
        take_goal(reader);
    }
}

struct flow *flow_of(const struct plan *plan)
{
    struct flow *flow = room_for(sizeof *flow);
    struct reader reader = { NULL, flow, 0 };
    size_t at;
    unsigned k;

    flow->words = plan->word_count;
    flow->meets = room_for((size_t)NODES * (flow->words + 1));
    flow->passes = room_for(flow->words + 1);
    for (k = 0; k < NODES; k++)
        flow->class_of[k] = k;
    for (at = 0; at < plan->image_length; at += rissobarm_word_at(plan->image + at)) {
        reader.at = plan->image + at + RISSOBARM_RECORD_HEAD;
        take_record(&reader, rissobarm_word_at(plan->image + at + 2));
    }
    return flow;
}

void flow_free(struct flow *flow)
{
    free(flow->meets);
    free(flow->passes);
    free(flow);
}

int flow_meets(const struct flow *flow, unsigned variable, unsigned word)
{
    return flow->meets[class_at(flow, variable_node(GOAL, variable)) * flow->words + word];
}

int flow_passes(const struct flow *flow, unsigned word)
{
    return flow->passes[word];
}
