/* Makes images after a recipe, and draws recipes. */
#include "images.h"

#include "rissobarm.h"

const struct recipe full_recipe = {
    .relations = RISSOBARM_RELATION_LIMIT,
    .clauses = RISSOBARM_CLAUSE_LIMIT,
    .arity = RISSOBARM_ARITY_LIMIT,
    .block = RISSOBARM_BLOCK_LIMIT,
    .variables = RISSOBARM_OWN_LIMIT,
    .literals = RISSOBARM_LITERAL_LIMIT,
    .stages = RISSOBARM_STAGE_LIMIT,
    .tight = 16,
    .equality = 0,
    .last = 0
};

void put_byte(struct image *image, unsigned byte)
{
    if (image->length < IMAGE_ROOM)
        image->bytes[image->length++] = (uint8_t)byte;
}

static void put_word(struct image *image, unsigned word)
{
    put_byte(image, word % 256);
    put_byte(image, word / 256);
}

void record_begin(struct image *image, unsigned kind)
{
    if (image->records < RECORD_ROOM)
        image->starts[image->records++] = image->length;
    put_word(image, 0);
    put_word(image, kind);
}

void record_end(struct image *image)
{
    size_t start = image->starts[image->records - 1];
    size_t size = image->length - start;

    image->bytes[start] = (uint8_t)(size % 256);
    image->bytes[start + 1] = (uint8_t)(size / 256);
}

/* The top itself as often as the recipe says, else any number up to it. */
static unsigned up_to(struct random *random, const struct recipe *recipe, unsigned top)
{
    return random_below(random, 16) < recipe->tight ? top : random_below(random, top + 1);
}

/* A variable below the count where there is one, or a constant; the ends of both ranges come often. */
static void put_term(struct image *image, struct random *random, unsigned variables)
{
    enum { MOST = RISSOBARM_CONSTANT_LIMIT, FIRST = RISSOBARM_TERM_VARIABLE };

    if (variables > 0 && !random_once(random, 3))
        put_word(image, FIRST + (random_once(random, 4) ? variables - 1 : random_below(random, variables)));
    else
        put_word(image, random_once(random, 4) ? MOST : random_below(random, MOST + 1));
}

static void put_terms(struct image *image, struct random *random, unsigned arity, unsigned variables)
{
    while (arity-- > 0)
        put_term(image, random, variables);
}

/* The relations stand first in the image, so an arity is read where its record has it. */
static unsigned arity_of(const struct image *image, unsigned relation)
{
    return image->bytes[image->starts[relation] + RISSOBARM_RECORD_HEAD];
}

static void put_literal(struct image *image, struct random *random, const struct recipe *recipe, unsigned variables)
{
    unsigned relation = RISSOBARM_EQUALITY, arity = 2;

    if (recipe->relations > 0 && random_below(random, 16) >= recipe->equality) {
        relation = recipe->last ? recipe->relations - 1 : random_below(random, recipe->relations);
        arity = arity_of(image, relation);
    }
    put_byte(image, relation);
    put_byte(image, arity);
    put_terms(image, random, arity, variables);
}

static void put_goal(struct image *image, struct random *random, const struct recipe *recipe, unsigned variables)
{
    unsigned literals = up_to(random, recipe, recipe->literals);
    unsigned most = literals < recipe->stages ? literals : recipe->stages;
    unsigned stages = literals == 0 ? 0 : 1 + up_to(random, recipe, most - 1);

    put_byte(image, stages);
    for (; stages > 0; stages--) {
        unsigned count = stages == 1 ? literals : 1 + random_below(random, literals - stages + 1);

        put_byte(image, count);
        literals -= count;
        while (count-- > 0)
            put_literal(image, random, recipe, variables);
    }
}

static void put_relation(struct image *image, struct random *random, const struct recipe *recipe)
{
    unsigned arity = up_to(random, recipe, recipe->arity);

    record_begin(image, RISSOBARM_RECORD_RELATION);
    put_byte(image, arity);
    while (arity-- > 0)
        put_byte(image, random_below(random, 2));
    record_end(image);
}

static void put_clause(struct image *image, struct random *random, const struct recipe *recipe, unsigned relation,
                       unsigned mark)
{
    unsigned variables = up_to(random, recipe, recipe->variables);
    unsigned arity = arity_of(image, relation);

    record_begin(image, RISSOBARM_RECORD_CLAUSE);
    put_byte(image, relation);
    put_byte(image, arity);
    put_byte(image, mark);
    put_byte(image, variables);
    put_terms(image, random, arity, variables);
    put_goal(image, random, recipe, variables);
    put_goal(image, random, recipe, variables);
    record_end(image);
}

/* Clauses in order of relation, as even as the counts allow or by chance; blocks end at the recipe's top or before. */
static void put_clauses(struct image *image, struct random *random, const struct recipe *recipe)
{
    unsigned relation = 0, before = recipe->relations, block = 0, mark, c;

    for (c = 0; c < recipe->clauses && recipe->relations > 0; c++) {
        if (recipe->tight == 16)
            relation = c * recipe->relations / recipe->clauses;
        else if (random_once(random, 3))
            relation += random_below(random, recipe->relations - relation);
        mark = relation == before && (block >= recipe->block || random_below(random, 16) >= recipe->tight + 8);
        block = relation == before && mark == 0 ? block + 1 : 1;
        put_clause(image, random, recipe, relation, mark);
        before = relation;
    }
}

void image_by_recipe(struct image *image, struct random *random, const struct recipe *recipe)
{
    unsigned variables, k;

    image->length = 0;
    image->records = 0;
    for (k = 0; k < recipe->relations; k++)
        put_relation(image, random, recipe);
    put_clauses(image, random, recipe);
    variables = up_to(random, recipe, recipe->variables);
    record_begin(image, RISSOBARM_RECORD_GOAL);
    put_byte(image, variables);
    put_goal(image, random, recipe, variables);
    record_end(image);
}

/* Mostly small, sometimes anything up to the limits. */
static void draw_recipe(struct random *random, struct recipe *recipe)
{
    int large = random_once(random, 16);

    *recipe = full_recipe;
    recipe->relations = random_below(random, large ? RISSOBARM_RELATION_LIMIT + 1 : 6);
    recipe->clauses = random_below(random, large ? RISSOBARM_CLAUSE_LIMIT + 1 : 10);
    recipe->literals = random_below(random, large ? RISSOBARM_LITERAL_LIMIT + 1 : 5);
    recipe->tight = random_below(random, 9);
    recipe->equality = random_below(random, 9);
}

void image_whole(struct image *image, struct random *random)
{
    struct recipe recipe;

    draw_recipe(random, &recipe);
    image_by_recipe(image, random, &recipe);
}

/* One of the limits, or one more. */
void image_crowded(struct image *image, struct random *random)
{
    unsigned over = random_below(random, 2), sort = random_below(random, 9);
    struct recipe recipe;

    draw_recipe(random, &recipe);
    recipe.tight = sort == 2 ? 8 : 4;
    if (sort == 0)
        recipe.relations = RISSOBARM_RELATION_LIMIT + over;
    else if (sort == 1)
        recipe.clauses = RISSOBARM_CLAUSE_LIMIT + over;
    else if (sort == 2)
        recipe.block = RISSOBARM_BLOCK_LIMIT + over;
    else if (sort == 3)
        recipe.variables = RISSOBARM_OWN_LIMIT + over;
    else if (sort == 4)
        recipe.literals = RISSOBARM_LITERAL_LIMIT + over;
    else if (sort == 5)
        recipe.stages = recipe.literals = RISSOBARM_STAGE_LIMIT + over;
    else if (sort == 6)
        recipe.arity = RISSOBARM_ARITY_LIMIT + over;
    if (recipe.relations == 0)
        recipe.relations = 1;
    if (sort == 2)
        recipe.clauses = 16 + random_below(random, 49);
    image_by_recipe(image, random, &recipe);
    if (sort >= 7)
        image_stretch(image, random, RISSOBARM_IMAGE_LIMIT + over);
}
