/* The shapes of goals and relations: how literals fall into stages, and clauses into blocks. */
#include "seen.h"

#include "counts.h"

/*
 * The shape of up to eight things in a row is a number below 256: 0 for none, else a bit for each, 1 for the first one,
 * then 1 for each that begins a stage or block.
 */

static unsigned shape_add(unsigned shape, bool begins)
{
    return shape * 2 + (shape == 0 || begins);
}

static unsigned goal_shape(const struct goal *goal)
{
    unsigned shape = 0, s, k;

    for (s = 0; s < goal->stage_count; s++)
        for (k = 0; k < goal->stages[s].count; k++)
            shape = shape_add(shape, k == 0);
    return shape;
}

static void seen_goal(const struct bed *bed, const uint8_t *row)
{
    const struct program *program = &bed->program;
    const struct clause *clause = &program->clauses[row[RISSOBARM_ROW_CLAUSE]];
    unsigned shape;

    if (row[RISSOBARM_ROW_KIND] == RISSOBARM_GOAL_IMAGE)
        shape = goal_shape(&program->goal);
    else if (row[RISSOBARM_ROW_KIND] == RISSOBARM_GOAL_GUARD)
        shape = goal_shape(&clause->guard);
    else /* of a committed body too, as the image writes it: without the equations */
        shape = goal_shape(&clause->written);
    counts.goals[row[RISSOBARM_ROW_KIND]][shape]++;
}

static void seen_relation(const struct bed *bed, const uint8_t *row)
{
    const struct program *program = &bed->program;
    struct place place = { row[RISSOBARM_ROW_KIND], row[RISSOBARM_ROW_CLAUSE],
                           (uint16_t)word_at(row + RISSOBARM_ROW_BASE), row[RISSOBARM_ROW_STAGE],
                           row[RISSOBARM_ROW_LITERAL] };
    unsigned relation = ref_literal_at(program, &place)->relation, shape = 0, clauses = 0, c;

    for (c = 0; c < program->clause_count; c++)
        if (program->clauses[c].relation == relation && ++clauses <= 8)
            shape = shape_add(shape, program->clauses[c].mark == 1);
    if (clauses <= 8)
        counts.blocks[shape]++;
}

void seen_shapes(const struct bed *bed)
{
    unsigned count = process_count(&bed->ours), p;

    for (p = 0; p < count; p++) {
        const uint8_t *row = process_row(&bed->ours, p);

        if (row[RISSOBARM_ROW_TAG] == RISSOBARM_TAG_SEQ_SEARCH)
            seen_relation(bed, row);
        else if (row[RISSOBARM_ROW_TAG] <= RISSOBARM_TAG_OR_PAR || row[RISSOBARM_ROW_TAG] == RISSOBARM_TAG_EQUATE)
            seen_goal(bed, row);
    }
}
