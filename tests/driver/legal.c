/* Builds tables row by row, each row with a parent that makes its tag and with places that exist. */
#include "legal.h"

#include "places.h"
#include "tablerules.h"

#include <string.h>

/* ---- the parts of a row that are free */

static unsigned draw_mode(struct random *random)
{
    static const uint8_t modes[] = {
        RISSOBARM_MODE_DORMANT,   RISSOBARM_MODE_DORMANT,   RISSOBARM_MODE_READY,     RISSOBARM_MODE_READY,
        RISSOBARM_MODE_STARTING,  RISSOBARM_MODE_STARTING,  RISSOBARM_MODE_STARTING,  RISSOBARM_MODE_STARTING,
        RISSOBARM_MODE_STARTING,  RISSOBARM_MODE_WAITING,   RISSOBARM_MODE_WAITING,   RISSOBARM_MODE_WAITING,
        RISSOBARM_MODE_WAITING,   RISSOBARM_MODE_WAITING,   RISSOBARM_MODE_REPORTING, RISSOBARM_MODE_REPORTING,
        RISSOBARM_MODE_REPORTING, RISSOBARM_MODE_SUSPENDED, RISSOBARM_MODE_SUSPENDED,
    };

    return modes[random_below(random, sizeof modes)];
}

/* What no rule reads may be anything: the fields that a tag does not name, and the notes of who is not suspended. */
static void fill_free(struct random *random, uint8_t *row)
{
    unsigned k;

    memset(row, 0, RISSOBARM_PROCESS_ROW);
    if (!random_once(random, 3))
        return;
    for (k = 0; k < RISSOBARM_PROCESS_ROW; k++)
        row[k] = (uint8_t)random_bits(random);
    row[RISSOBARM_ROW_KIND] %= RISSOBARM_GOAL_COUNT;
}

static void fill_notes(struct draw *draw, uint8_t *row)
{
    unsigned k;

    if (row[RISSOBARM_ROW_MODE] != RISSOBARM_MODE_SUSPENDED)
        return;
    row[RISSOBARM_ROW_NOTE_COUNT] =
        draw->variables == 0 ? 0 : (uint8_t)random_below(draw->random, RISSOBARM_NOTE_LIMIT + 1);
    for (k = 0; k < row[RISSOBARM_ROW_NOTE_COUNT]; k++)
        put_word_at(row + RISSOBARM_ROW_NOTES + 2 * k, random_below(draw->random, draw->variables));
}

/* ---- places */

static void put_place(uint8_t *row, const struct place *place)
{
    row[RISSOBARM_ROW_KIND] = place->kind;
    row[RISSOBARM_ROW_CLAUSE] = place->clause;
    put_word_at(row + RISSOBARM_ROW_BASE, place->first);
    row[RISSOBARM_ROW_STAGE] = place->stage;
    row[RISSOBARM_ROW_LITERAL] = place->literal;
}

static void put_found(uint8_t *row, const struct found *found)
{
    row[RISSOBARM_ROW_FOUND] = found->clause;
    put_word_at(row + RISSOBARM_ROW_FIRST, found->first);
}

static bool fill_search(struct draw *draw, uint8_t *row)
{
    struct place place;
    struct found found;
    unsigned blocks;

    if (!draw_literal(draw, false, &place))
        return false;
    put_place(row, &place);
    blocks = ref_block_count(draw->program, called_at(draw->program, &place));
    if (row[RISSOBARM_ROW_TAG] == RISSOBARM_TAG_OR_SEARCH || row[RISSOBARM_ROW_MODE] == RISSOBARM_MODE_WAITING) {
        if (blocks == 0)
            return false;
        row[RISSOBARM_ROW_BLOCK] = (uint8_t)random_below(draw->random, blocks);
    }
    if (row[RISSOBARM_ROW_MODE] != RISSOBARM_MODE_REPORTING || row[RISSOBARM_ROW_RESULT] != RISSOBARM_RESULT_SUCCESS)
        return true;
    if (!draw_clause(draw, ANY_RELATION, &found))
        return false;
    put_found(row, &found);
    return true;
}

static bool fill_trial(struct draw *draw, uint8_t *row)
{
    struct place place;
    struct found found;
    unsigned relation = ANY_RELATION;

    if (row[RISSOBARM_ROW_TAG] != RISSOBARM_TAG_GUARD_EVAL) {
        if (!draw_literal(draw, false, &place))
            return false;
        put_place(row, &place);
        relation = called_at(draw->program, &place);
    }
    if (!draw_clause(draw, relation, &found))
        return false;
    put_found(row, &found);
    return true;
}

static bool fill_places(struct draw *draw, uint8_t *row)
{
    struct place place;
    unsigned tag = row[RISSOBARM_ROW_TAG], behind;

    if (tag == RISSOBARM_TAG_SEQ_SEARCH || tag == RISSOBARM_TAG_OR_SEARCH)
        return fill_search(draw, row);
    if (tag == RISSOBARM_TAG_TRY_CLAUSE || tag == RISSOBARM_TAG_INPUT_MATCH || tag == RISSOBARM_TAG_GUARD_EVAL)
        return fill_trial(draw, row);
    if (tag == RISSOBARM_TAG_AND_PAR || tag == RISSOBARM_TAG_AND_SEQ) {
        behind = tag == RISSOBARM_TAG_AND_SEQ && row[RISSOBARM_ROW_MODE] != RISSOBARM_MODE_WAITING;
        if (!draw_stage(draw, behind, &place))
            return false;
        if (tag == RISSOBARM_TAG_AND_SEQ && beside_body_at(draw->program, &place))
            place.kind = RISSOBARM_GOAL_WRITTEN; /* its stages are more */
    } else if (!draw_literal(draw, tag == RISSOBARM_TAG_EQUATE, &place)) {
        return false;
    }
    put_place(row, &place);
    return true;
}

/* ---- rows */

static bool fill_row(struct draw *draw, unsigned tag, unsigned parent, uint8_t *row)
{
    fill_free(draw->random, row);
    row[RISSOBARM_ROW_TAG] = (uint8_t)tag;
    row[RISSOBARM_ROW_MODE] = (uint8_t)draw_mode(draw->random);
    row[RISSOBARM_ROW_RESULT] = (uint8_t)random_below(draw->random, RISSOBARM_RESULT_COUNT);
    if (row[RISSOBARM_ROW_MODE] == RISSOBARM_MODE_REPORTING && row[RISSOBARM_ROW_RESULT] == RISSOBARM_RESULT_NONE)
        row[RISSOBARM_ROW_RESULT] = RISSOBARM_RESULT_SUCCESS;
    put_word_at(row + RISSOBARM_ROW_PARENT, parent);
    fill_notes(draw, row);
    return fill_places(draw, row);
}

/* The goal's process; a goal of no stage cannot wait for one. */
static void fill_root(struct draw *draw, uint8_t *row)
{
    bool only = draw->goal_only;

    draw->goal_only = true;
    while (!fill_row(draw, ref_goal_tag(&draw->program->goal), 0, row))
        continue;
    draw->goal_only = only;
    if (row[RISSOBARM_ROW_MODE] == RISSOBARM_MODE_DORMANT && row[RISSOBARM_ROW_RESULT] == RISSOBARM_RESULT_NONE)
        row[RISSOBARM_ROW_RESULT] = RISSOBARM_RESULT_FAILURE;
}

/* A tag that no row has yet, half of the time; else any. */
static unsigned draw_tag(struct draw *draw, const struct rows *rows, unsigned processes)
{
    unsigned tag = random_below(draw->random, RISSOBARM_TAG_COUNT), present = 0, k;

    if (random_once(draw->random, 2))
        return tag;
    for (k = 0; k < processes; k++)
        present |= 1u << process_row(rows, k)[RISSOBARM_ROW_TAG];
    for (k = 0; k < RISSOBARM_TAG_COUNT && (present >> tag & 1) != 0; k++)
        tag = (tag + 1) % RISSOBARM_TAG_COUNT;
    return tag;
}

/* A row that makes the tag, from the row before or from a random one on; processes where there is none. */
static unsigned draw_parent(struct draw *draw, const struct rows *rows, unsigned processes, unsigned tag)
{
    unsigned from = random_once(draw->random, 2) ? processes - 1 : random_below(draw->random, processes), k;

    for (k = 0; k < processes; k++) {
        unsigned parent = (from + k) % processes;

        if (tag_makes(process_row(rows, parent)[RISSOBARM_ROW_TAG], tag))
            return parent;
    }
    return processes;
}

/* A child of some row before it; false where nothing was found that fits. */
static bool fill_child(struct draw *draw, struct rows *rows, unsigned process)
{
    unsigned tries, parent, tag;

    for (tries = 0; tries < 40; tries++) {
        tag = draw_tag(draw, rows, process);
        parent = draw_parent(draw, rows, process, tag);
        if (parent < process && fill_row(draw, tag, parent, rows->procs + process * RISSOBARM_PROCESS_ROW))
            return true;
    }
    return false;
}

static void fill_variable(struct random *random, unsigned variable, uint8_t *row)
{
    unsigned sort = random_below(random, 4);

    memset(row, 0, RISSOBARM_VARIABLE_ROW);
    if (sort == RISSOBARM_SORT_CONSTANT) {
        row[RISSOBARM_CELL_SORT] = RISSOBARM_SORT_CONSTANT;
        put_word_at(row + RISSOBARM_CELL_NUMBER,
                    random_below(random, random_once(random, 8) ? RISSOBARM_CONSTANT_LIMIT + 1 : 4));
    } else if (sort == RISSOBARM_SORT_VARIABLE && variable > 0) {
        row[RISSOBARM_CELL_SORT] = RISSOBARM_SORT_VARIABLE;
        put_word_at(row + RISSOBARM_CELL_NUMBER,
                    random_once(random, 2) ? variable - 1 : random_below(random, variable));
    }
}

/* ---- tables */

static unsigned draw_variables(struct random *random, unsigned style, unsigned goal)
{
    if (style == LEGAL_LEAN)
        return goal;
    if (style == LEGAL_FULL)
        return random_once(random, 2) ? RISSOBARM_VARIABLE_LIMIT : RISSOBARM_VARIABLE_LIMIT - random_below(random, 40);
    return goal + (style == LEGAL_RICH ? 20 : 0) + random_below(random, 1 + random_below(random, 128));
}

static unsigned draw_processes(struct random *random, unsigned style)
{
    switch (style) {
    case LEGAL_FULL:
        return random_once(random, 2) ? RISSOBARM_PROCESS_LIMIT : RISSOBARM_PROCESS_LIMIT - random_below(random, 14);
    case LEGAL_LEAN:
        return 1 + random_below(random, 6);
    case LEGAL_LONELY:
        return 1;
    case LEGAL_RICH:
        return 24 + random_below(random, 48);
    default:
        return 1 + random_below(random, 1 + random_below(random, 96));
    }
}

static void fill_head(struct random *random, struct rows *rows, unsigned processes, unsigned variables)
{
    uint32_t steps = random_once(random, 4) ? UINT32_MAX - random_below(random, 4) : random_below(random, 100000);

    put_word_at(rows->head + RISSOBARM_HEAD_PROCS, processes);
    put_word_at(rows->head + RISSOBARM_HEAD_VARS, variables);
    put_word_at(rows->head + RISSOBARM_HEAD_LAST, random_below(random, processes));
    put_word_at(rows->head + RISSOBARM_HEAD_STEPS, steps % 65536);
    put_word_at(rows->head + RISSOBARM_HEAD_STEPS + 2, steps / 65536);
}

/* Unused rows hold one byte throughout, 0 or another. */
static void fill_unused(struct random *random, struct rows *rows)
{
    int byte = random_once(random, 2) ? 0 : (int)random_below(random, 256);

    memset(rows->procs, byte, RISSOBARM_PROCS_SIZE);
    memset(rows->vars, byte, RISSOBARM_VARS_SIZE);
}

void legal_tables(const struct program *program, uint64_t seed, unsigned style, struct rows *rows)
{
    struct random random = { seed | 1 };
    struct draw draw = { program, &random, 0, style == LEGAL_LEAN };
    unsigned most = draw_processes(&random, style), processes = 1, k;

    draw.variables = draw_variables(&random, style, program->goal_variables);
    fill_unused(&random, rows);
    for (k = 0; k < draw.variables; k++)
        fill_variable(&random, k, rows->vars + k * RISSOBARM_VARIABLE_ROW);
    fill_root(&draw, rows->procs);
    while (processes < most && fill_child(&draw, rows, processes))
        processes++;
    fill_head(&random, rows, processes, draw.variables);
}
