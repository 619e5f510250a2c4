/* Processes, calls and variables of a run in words. */
#include "words.h"

#include <stdio.h>
#include <string.h>

/* ---- variables ---- */

/* The try-clause whose block a variable is in; 0 where there is none, for process 0 is no try-clause. */
static unsigned owner_of(const struct session *session, unsigned variable)
{
    const struct clause *clause;
    unsigned p, first;

    for (p = 1; p < rissobarm_plan_processes(&session->run); p++) {
        /* other tags may have anything in these fields */
        if (row_byte(session, p, RISSOBARM_ROW_TAG) != RISSOBARM_TAG_TRY_CLAUSE)
            continue;
        clause = &session->program.clause[row_byte(session, p, RISSOBARM_ROW_FOUND)];
        first = row_word(session, p, RISSOBARM_ROW_FIRST);
        if (variable >= first && variable < first + clause->own + clause->outputs)
            return p;
    }
    return 0;
}

/* Which argument, from 1 on, output k of a clause is. */
static unsigned output_argument(const struct program *program, const struct clause *clause, unsigned k)
{
    unsigned a = 0;

    for (;; a++)
        if (program->output[clause->head.relation][a] && k-- == 0)
            return a + 1;
}

void variable_words(const struct session *session, unsigned variable, char *words)
{
    unsigned owner, clause, v;
    char name[NAME_ROOM];

    if (variable < session->program.variables) {
        name_goal_variable(&session->plan, variable, words);
        return;
    }
    owner = owner_of(session, variable);
    if (owner == 0) {
        sprintf(words, "#%u", variable);
        return;
    }
    clause = row_byte(session, owner, RISSOBARM_ROW_FOUND);
    v = variable - row_word(session, owner, RISSOBARM_ROW_FIRST);
    if (v >= session->program.clause[clause].own) {
        sprintf(words, "^%u#%u",
                output_argument(&session->program, &session->program.clause[clause], v - session->program.clause[clause].own),
                variable);
        return;
    }
    name_clause_variable(&session->plan, clause, v, name);
    sprintf(words, "%s#%u", name, variable);
}

void value_words(const struct session *session, unsigned variable, char *words)
{
    unsigned number;

    if (value_of(session, variable, &number))
        name_constant(&session->plan, number, words);
    else
        variable_words(session, number, words);
}

/* ---- literals ---- */

static void add_term(const struct session *session, unsigned term, unsigned base, char *words)
{
    words += strlen(words);
    if (term < RISSOBARM_TERM_VARIABLE)
        name_constant(&session->plan, term, words);
    else
        value_words(session, base + term - RISSOBARM_TERM_VARIABLE, words);
}

void literal_words(const struct session *session, const struct literal *literal, unsigned base, char *words)
{
    unsigned k;

    words[0] = '\0';
    if (literal->relation == RISSOBARM_EQUALITY) {
        add_term(session, literal->terms[0], base, words);
        strcat(words, " = ");
        add_term(session, literal->terms[1], base, words);
        return;
    }
    name_relation(&session->plan, literal->relation, words);
    for (k = 0; k < literal->arity; k++) {
        strcat(words, k == 0 ? "(" : ",");
        add_term(session, literal->terms[k], base, words);
    }
    strcat(words, literal->arity > 0 ? ")" : "");
}

int names_literal(unsigned tag)
{
    return tag == RISSOBARM_TAG_EQUATE || (tag >= RISSOBARM_TAG_OR_PAR && tag <= RISSOBARM_TAG_INPUT_MATCH);
}

/* The clause whose guard or body a process names; NULL where that is the goal of the image, and the field may have anything. */
static const struct clause *clause_of(const struct session *session, unsigned process)
{
    if (row_byte(session, process, RISSOBARM_ROW_KIND) == RISSOBARM_GOAL_IMAGE)
        return NULL;
    return &session->program.clause[row_byte(session, process, RISSOBARM_ROW_CLAUSE)];
}

const struct goal *goal_of(const struct session *session, unsigned process)
{
    const struct clause *clause = clause_of(session, process);

    if (clause == NULL)
        return &session->program.goal;
    switch (row_byte(session, process, RISSOBARM_ROW_KIND)) {
    case RISSOBARM_GOAL_GUARD:
        return &clause->guard;
    case RISSOBARM_GOAL_WRITTEN:
        return &clause->written;
    default:
        return &clause->body;
    }
}

const struct literal *literal_of(const struct session *session, unsigned process)
{
    const struct goal *goal = goal_of(session, process);

    if (!names_literal(row_byte(session, process, RISSOBARM_ROW_TAG)))
        return NULL;
    return &goal->literals[goal->first[row_byte(session, process, RISSOBARM_ROW_STAGE)] +
                           row_byte(session, process, RISSOBARM_ROW_LITERAL)];
}

/* ---- processes ---- */

/* "clause 2 of q", counted within the relation. */
static void clause_words(const struct session *session, unsigned clause, char *words)
{
    char name[NAME_ROOM];

    name_relation(&session->plan, session->program.clause[clause].head.relation, name);
    sprintf(words, "clause %u of %s", session->program.clause[clause].order + 1, name);
}

/* Whether a process has the output equations of a clause, and beside them its whole body. */
static int has_both(const struct session *session, unsigned process)
{
    const struct clause *clause = clause_of(session, process);

    return row_byte(session, process, RISSOBARM_ROW_KIND) == RISSOBARM_GOAL_BODY && clause->outputs > 0 &&
           clause->written.stages > 1;
}

/* Which goal an and-par, and-seq or guard-eval has. */
static void goal_words(const struct session *session, unsigned process, char *words)
{
    static const char *const kinds[] = { "the goal", "the guard of ", "the body of ", "the body of " };
    unsigned kind = row_byte(session, process, RISSOBARM_ROW_KIND), stage = row_byte(session, process, RISSOBARM_ROW_STAGE);
    unsigned stages = goal_of(session, process)->stages;

    strcpy(words, has_both(session, process) ? "the outputs and the body of " : kinds[kind]);
    if (kind != RISSOBARM_GOAL_IMAGE)
        clause_words(session, row_byte(session, process, RISSOBARM_ROW_CLAUSE), words + strlen(words));
    if (stages > 1 && stage < stages)
        sprintf(words + strlen(words), ", stage %u of %u", stage + 1, stages);
    else if (stages > 1)
        sprintf(words + strlen(words), ", all %u stages done", stages);
}

void work_words(const struct session *session, unsigned process, char *words)
{
    unsigned tag = row_byte(session, process, RISSOBARM_ROW_TAG), found = row_byte(session, process, RISSOBARM_ROW_FOUND);

    switch (tag) {
    case RISSOBARM_TAG_AND_PAR:
    case RISSOBARM_TAG_AND_SEQ:
        goal_words(session, process, words);
        return;
    case RISSOBARM_TAG_GUARD_EVAL:
        strcpy(words, "the guard of ");
        clause_words(session, found, words + strlen(words));
        return;
    default:
        literal_words(session, literal_of(session, process), row_word(session, process, RISSOBARM_ROW_BASE), words);
    }
    if (tag == RISSOBARM_TAG_OR_SEARCH)
        sprintf(words + strlen(words), ", block %u", row_byte(session, process, RISSOBARM_ROW_BLOCK) + 1);
    if (tag == RISSOBARM_TAG_TRY_CLAUSE || tag == RISSOBARM_TAG_INPUT_MATCH) {
        strcat(words, ", ");
        clause_words(session, found, words + strlen(words));
    }
}

void mode_words(const struct session *session, unsigned process, char *words)
{
    static const char *const results[] = { "", " success", " failure" };
    unsigned mode = row_byte(session, process, RISSOBARM_ROW_MODE), result = row_byte(session, process, RISSOBARM_ROW_RESULT);

    sprintf(words, "%s%s", rissobarm_mode_text(mode),
            mode == RISSOBARM_MODE_REPORTING || mode == RISSOBARM_MODE_DORMANT ? results[result] : "");
}
