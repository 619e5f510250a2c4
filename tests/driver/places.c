/* Each draw tries a few times and answers whether it found something. */
#include "places.h"

#include "rissobarm.h"

enum { TRIES = 24 };

static uint16_t draw_first(struct draw *draw, unsigned size)
{
    unsigned room = draw->variables - size;

    /* the ends of the room come often */
    switch (random_below(draw->random, 4)) {
    case 0:
        return (uint16_t)room;
    case 1:
        return 0;
    default:
        return (uint16_t)random_below(draw->random, room + 1);
    }
}

bool draw_clause(struct draw *draw, unsigned relation, struct found *found)
{
    const struct program *program = draw->program;
    unsigned tries;

    for (tries = 0; tries < TRIES && program->clause_count > 0; tries++) {
        unsigned c = random_below(draw->random, program->clause_count);

        if (relation != ANY_RELATION && program->clauses[c].relation != relation)
            continue;
        if (program->clauses[c].size > draw->variables)
            continue;
        found->clause = (uint8_t)c;
        found->first = draw_first(draw, program->clauses[c].size);
        return true;
    }
    return false;
}

static bool draw_goal(struct draw *draw, struct place *place)
{
    struct found found = { 0, 0 };

    place->kind = RISSOBARM_GOAL_IMAGE;
    place->clause = 0;
    place->first = 0;
    if (draw->goal_only || random_once(draw->random, 4))
        return true;
    if (!draw_clause(draw, ANY_RELATION, &found))
        return false;
    place->kind = (uint8_t)(RISSOBARM_GOAL_GUARD + random_below(draw->random, RISSOBARM_GOAL_COUNT - RISSOBARM_GOAL_GUARD));
    place->clause = found.clause;
    place->first = found.first;
    return true;
}

bool draw_stage(struct draw *draw, unsigned behind, struct place *place)
{
    unsigned tries, stages;

    place->literal = 0;
    for (tries = 0; tries < TRIES; tries++) {
        if (!draw_goal(draw, place))
            continue;
        stages = ref_goal_at(draw->program, place)->stage_count + behind;
        if (stages == 0)
            continue;
        place->stage = (uint8_t)random_below(draw->random, stages);
        return true;
    }
    return false;
}

bool beside_body_at(const struct program *program, const struct place *place)
{
    return place->kind == RISSOBARM_GOAL_BODY && program->clauses[place->clause].split;
}

unsigned called_at(const struct program *program, const struct place *place)
{
    return ref_literal_at(program, place)->relation;
}

bool draw_literal(struct draw *draw, bool equality, struct place *place)
{
    unsigned tries, count;

    for (tries = 0; tries < TRIES; tries++) {
        if (!draw_stage(draw, 0, place))
            return false;
        count = ref_goal_at(draw->program, place)->stages[place->stage].count;
        place->literal = (uint8_t)random_below(draw->random, count);
        if ((called_at(draw->program, place) == RISSOBARM_EQUALITY) == equality)
            return true;
    }
    return false;
}
