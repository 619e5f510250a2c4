/* The rules on places, in a row of a tag. */
#include "breaks.h"

static unsigned below(struct breaking *b, unsigned n)
{
    return random_below(b->draw.random, n);
}

/* A byte from low to 255. */
static unsigned high_byte(struct breaking *b, unsigned low)
{
    return below(b, 2) == 0 ? low : low + below(b, 256 - low);
}

/* A first variable from which a block of this size passes the count. */
static unsigned high_first(struct breaking *b, unsigned size)
{
    unsigned low = b->draw.variables + 1 - size;

    switch (below(b, 4)) {
    case 0:
        return 65535;
    case 1:
        return low + below(b, 65536 - low);
    default:
        return low;
    }
}

static const struct goal *goal_of(struct breaking *b, unsigned process)
{
    const uint8_t *row = process_row(&b->rows, process);
    struct place place = { row[RISSOBARM_ROW_KIND], row[RISSOBARM_ROW_CLAUSE], 0, 0, 0 };

    return ref_goal_at(b->draw.program, &place);
}

static bool in_clause(struct breaking *b, unsigned process)
{
    return process_row(&b->rows, process)[RISSOBARM_ROW_KIND] != RISSOBARM_GOAL_IMAGE;
}

/* ---- the goal */

static bool goal_first(struct breaking *b, unsigned process)
{
    if (in_clause(b, process))
        return false;
    poke_word(b, THE_PROCS, field(process, RISSOBARM_ROW_BASE),
              below(b, 2) == 0 ? 1u << below(b, 16) : 1 + below(b, 65535));
    return true;
}

static bool goal_clause(struct breaking *b, unsigned process)
{
    if (!in_clause(b, process))
        return false;
    poke_byte(b, THE_PROCS, field(process, RISSOBARM_ROW_CLAUSE), high_byte(b, b->draw.program->clause_count));
    return true;
}

static bool goal_block(struct breaking *b, unsigned process)
{
    unsigned clause = process_row(&b->rows, process)[RISSOBARM_ROW_CLAUSE];

    if (!in_clause(b, process))
        return false;
    poke_word(b, THE_PROCS, field(process, RISSOBARM_ROW_BASE), high_first(b, b->draw.program->clauses[clause].size));
    return true;
}

/* ---- stage and literal */

static bool no_stage(struct breaking *b, unsigned process)
{
    unsigned behind = process_row(&b->rows, process)[RISSOBARM_ROW_TAG] == RISSOBARM_TAG_AND_SEQ;

    poke_byte(b, THE_PROCS, field(process, RISSOBARM_ROW_STAGE),
              high_byte(b, goal_of(b, process)->stage_count + behind));
    return true;
}

static bool no_literal(struct breaking *b, unsigned process)
{
    unsigned stage = process_row(&b->rows, process)[RISSOBARM_ROW_STAGE];

    poke_byte(b, THE_PROCS, field(process, RISSOBARM_ROW_LITERAL),
              high_byte(b, goal_of(b, process)->stages[stage].count));
    return true;
}

static bool wrong_literal(struct breaking *b, unsigned process)
{
    bool equality = process_row(&b->rows, process)[RISSOBARM_ROW_TAG] != RISSOBARM_TAG_EQUATE;
    struct place place;

    if (!draw_literal(&b->draw, equality, &place))
        return false;
    poke_byte(b, THE_PROCS, field(process, RISSOBARM_ROW_KIND), place.kind);
    poke_byte(b, THE_PROCS, field(process, RISSOBARM_ROW_CLAUSE), place.clause);
    poke_word(b, THE_PROCS, field(process, RISSOBARM_ROW_BASE), place.first);
    poke_byte(b, THE_PROCS, field(process, RISSOBARM_ROW_STAGE), place.stage);
    poke_byte(b, THE_PROCS, field(process, RISSOBARM_ROW_LITERAL), place.literal);
    return true;
}

/* ---- block and clause */

static bool no_block(struct breaking *b, unsigned process)
{
    const uint8_t *row = process_row(&b->rows, process);
    struct place place = { row[RISSOBARM_ROW_KIND], row[RISSOBARM_ROW_CLAUSE], 0, row[RISSOBARM_ROW_STAGE],
                           row[RISSOBARM_ROW_LITERAL] };
    unsigned blocks = ref_block_count(b->draw.program, called_at(b->draw.program, &place));

    if (row[RISSOBARM_ROW_TAG] == RISSOBARM_TAG_SEQ_SEARCH)
        poke_byte(b, THE_PROCS, field(process, RISSOBARM_ROW_MODE), RISSOBARM_MODE_WAITING);
    poke_byte(b, THE_PROCS, field(process, RISSOBARM_ROW_BLOCK), high_byte(b, blocks));
    return true;
}

static bool is_search(struct breaking *b, unsigned process)
{
    unsigned tag = process_row(&b->rows, process)[RISSOBARM_ROW_TAG];

    return tag == RISSOBARM_TAG_SEQ_SEARCH || tag == RISSOBARM_TAG_OR_SEARCH;
}

/* A search names a clause when it reports success. */
static void tell_success(struct breaking *b, unsigned process)
{
    if (!is_search(b, process))
        return;
    poke_byte(b, THE_PROCS, field(process, RISSOBARM_ROW_MODE), RISSOBARM_MODE_REPORTING);
    poke_byte(b, THE_PROCS, field(process, RISSOBARM_ROW_RESULT), RISSOBARM_RESULT_SUCCESS);
}

static bool no_clause(struct breaking *b, unsigned process)
{
    tell_success(b, process);
    poke_byte(b, THE_PROCS, field(process, RISSOBARM_ROW_FOUND), high_byte(b, b->draw.program->clause_count));
    if (below(b, 2) == 0)
        poke_word(b, THE_PROCS, field(process, RISSOBARM_ROW_FIRST), 0);
    return true;
}

static bool clause_block(struct breaking *b, unsigned process)
{
    struct found found = { process_row(&b->rows, process)[RISSOBARM_ROW_FOUND], 0 };

    if (is_search(b, process) && !draw_clause(&b->draw, ANY_RELATION, &found))
        return false;
    tell_success(b, process);
    poke_byte(b, THE_PROCS, field(process, RISSOBARM_ROW_FOUND), found.clause);
    poke_word(b, THE_PROCS, field(process, RISSOBARM_ROW_FIRST),
              high_first(b, b->draw.program->clauses[found.clause].size));
    return true;
}

static bool clause_of_other(struct breaking *b, unsigned process)
{
    struct found found;

    if (!draw_clause(&b->draw, ANY_RELATION, &found))
        return false;
    poke_byte(b, THE_PROCS, field(process, RISSOBARM_ROW_FOUND), found.clause);
    poke_word(b, THE_PROCS, field(process, RISSOBARM_ROW_FIRST), found.first);
    return true;
}

bool break_place(struct breaking *b, unsigned aspect, unsigned tag)
{
    static bool (*const places[ASPECTS])(struct breaking *, unsigned) = {
        [GOAL_FIRST] = goal_first,   [GOAL_CLAUSE] = goal_clause, [GOAL_BLOCK] = goal_block,
        [ITS_STAGE] = no_stage,      [ITS_LITERAL] = no_literal,  [LITERAL_KIND] = wrong_literal,
        [ITS_BLOCK] = no_block,      [ITS_CLAUSE] = no_clause,    [CLAUSE_BLOCK] = clause_block,
        [CLAUSE_RELATION] = clause_of_other,
    };
    unsigned process;

    return row_with_tag(b, tag, &process) && places[aspect](b, process);
}
