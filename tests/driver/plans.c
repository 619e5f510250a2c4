/* Images in a style. */
#include "plans.h"

/* The fields in their order: relations, arity, output, clauses, opens, variables, constants, variable, guard, .. */
const struct style styles[STYLES] = {
    { "small", 4, 3, 6, 3, 5, 4, 2, 9, 1, 3, 3, 4, 4, 2, 0 },
    { "terminating", 6, 3, 7, 4, 5, 5, 3, 9, 2, 3, 4, 4, 4, 2, 1 },
    { "facts", 3, 4, 4, 6, 5, 4, 2, 8, 0, 0, 4, 4, 2, 6, 1 },
    { "guards", 6, 3, 5, 3, 4, 4, 2, 11, 3, 2, 2, 4, 8, 4, 1 },
    { "aliases", 4, 4, 6, 2, 4, 6, 1, 14, 1, 3, 6, 3, 9, 6, 1 },
    { "outputs", 3, 4, 15, 2, 4, 6, 2, 10, 1, 8, 3, 1, 3, 10, 1 },
    { "variables", 2, 4, 8, 8, 1, 16, 2, 10, 1, 3, 4, 2, 2, 14, 0 },
    { "blocks", 3, 2, 4, 8, 8, 3, 3, 6, 1, 1, 3, 4, 2, 8, 1 },
    { "broad", 6, 4, 6, 4, 4, 8, 3, 9, 3, 5, 8, 5, 4, 6, 0 },
    { "equations", 1, 2, 8, 2, 8, 16, 2, 12, 2, 4, 8, 6, 13, 4, 1 },
    { "large", 32, 3, 6, 4, 5, 6, 3, 9, 2, 3, 6, 4, 4, 8, 1 },
};

static bool often(struct random *random, unsigned sixteenths)
{
    return random_below(random, 16) < sixteenths;
}

/* A number up to the most, which itself comes as often as the style says. */
static unsigned up_to(struct random *random, const struct style *style, unsigned most)
{
    return often(random, style->top) ? most : random_below(random, most + 1);
}

void put_number(struct image *image, unsigned number)
{
    put_byte(image, number % 256);
    put_byte(image, number / 256);
}

void put_styled_term(struct image *image, struct random *random, const struct style *style, unsigned variables)
{
    if (variables > 0 && often(random, style->variable))
        put_number(image, variable_term(random_below(random, variables)));
    else
        put_number(image, random_once(random, 64) ? RISSOBARM_CONSTANT_LIMIT : random_below(random, style->constants));
}

void put_modes(struct image *image, unsigned arity, unsigned outputs)
{
    unsigned k;

    record_begin(image, RISSOBARM_RECORD_RELATION);
    put_byte(image, arity);
    for (k = 0; k < arity; k++)
        put_byte(image, outputs >> k & 1);
    record_end(image);
}

unsigned declared_arity(const struct image *image, unsigned relation)
{
    return image->bytes[image->starts[relation] + RISSOBARM_RECORD_HEAD];
}

static void put_literal(struct image *image, struct random *random, const struct goal_style *goal)
{
    unsigned relation = RISSOBARM_EQUALITY, arity = 2;

    if (goal->from < goal->relations && !often(random, goal->style->equality)) {
        relation = goal->from + random_below(random, goal->relations - goal->from);
        arity = declared_arity(image, relation);
    }
    put_byte(image, relation);
    put_byte(image, arity);
    while (arity-- > 0)
        put_styled_term(image, random, goal->style, goal->variables);
}

/* The literals of a shape, from the highest bit on. */
static unsigned shape_size(unsigned shape)
{
    unsigned size = 0;

    while (shape >> size != 0)
        size++;
    return size;
}

void put_shaped_goal(struct image *image, struct random *random, const struct goal_style *goal, unsigned shape)
{
    unsigned size = shape_size(shape), stages = 0, at, next;

    for (at = 0; at < size; at++)
        stages += shape >> at & 1;
    put_byte(image, stages);
    for (at = size; at > 0; at = next) {
        for (next = at - 1; next > 0 && (shape >> (next - 1) & 1) == 0;)
            next--;
        put_byte(image, at - next);
        for (stages = at; stages > next; stages--)
            put_literal(image, random, goal);
    }
}

unsigned draw_shape(struct random *random, const struct style *style, unsigned literals)
{
    unsigned shape = literals > 0;

    while (literals-- > 1)
        shape = shape * 2 + often(random, style->breaks);
    return shape;
}

static void put_clause(struct image *image, struct random *random, const struct style *style, unsigned relation,
                       unsigned relations, unsigned mark)
{
    struct goal_style goal = { up_to(random, style, style->variables), style->down ? relation + 1 : 0, relations, style };
    unsigned arity = declared_arity(image, relation), k;

    record_begin(image, RISSOBARM_RECORD_CLAUSE);
    put_byte(image, relation);
    put_byte(image, arity);
    put_byte(image, mark);
    put_byte(image, goal.variables);
    for (k = 0; k < arity; k++)
        put_styled_term(image, random, style, goal.variables);
    put_shaped_goal(image, random, &goal, draw_shape(random, style, up_to(random, style, style->guard)));
    put_shaped_goal(image, random, &goal, draw_shape(random, style, up_to(random, style, style->body)));
    record_end(image);
}

void plan_in_style(struct image *image, struct random *random, const struct style *style)
{
    unsigned relations = 1 + up_to(random, style, style->relations - 1), left = RISSOBARM_CLAUSE_LIMIT, r, c, clauses;
    struct goal_style goal = { 0, 0, relations, style };

    image->length = 0;
    image->records = 0;
    for (r = 0; r < relations; r++) {
        unsigned outputs = 0, k;

        for (k = 0; k < RISSOBARM_ARITY_LIMIT; k++)
            outputs += (unsigned)often(random, style->output) << k;
        put_modes(image, up_to(random, style, style->arity), outputs);
    }
    for (r = 0; r < relations; r++) {
        clauses = up_to(random, style, style->clauses);
        clauses = clauses < left ? clauses : left;
        left -= clauses;
        for (c = 0; c < clauses; c++)
            put_clause(image, random, style, r, relations, c > 0 && often(random, style->opens));
    }
    goal.variables = up_to(random, style, style->variables);
    record_begin(image, RISSOBARM_RECORD_GOAL);
    put_byte(image, goal.variables);
    put_shaped_goal(image, random, &goal, draw_shape(random, style, up_to(random, style, style->goal)));
    record_end(image);
}
