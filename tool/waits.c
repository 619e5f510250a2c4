/* For whom a suspended process waits: the notes of its row, and the live calls that have such a variable. */
#include "waits.h"

#include "words.h"

#include <string.h>

int is_suspended(const struct session *session, unsigned process)
{
    return row_byte(session, process, RISSOBARM_ROW_MODE) == RISSOBARM_MODE_SUSPENDED;
}

unsigned note_count(const struct session *session, unsigned process)
{
    return row_byte(session, process, RISSOBARM_ROW_NOTE_COUNT);
}

unsigned note_at(const struct session *session, unsigned process, unsigned k)
{
    return row_word(session, process, RISSOBARM_ROW_NOTES + 2 * k);
}

static int is_above(const struct session *session, unsigned above, unsigned process)
{
    while (process != 0 && process != above)
        process = row_word(session, process, RISSOBARM_ROW_PARENT);
    return process == above;
}

/* How a literal has a variable: as an output or a side of an equation, as an input, or not. */
static enum binding has_variable(const struct session *session, const struct literal *literal, unsigned base, unsigned variable)
{
    enum binding how = NOT_AT_ALL;
    unsigned k, number;

    for (k = 0; k < literal->arity; k++) {
        if (literal->terms[k] < RISSOBARM_TERM_VARIABLE ||
            value_of(session, base + literal->terms[k] - RISSOBARM_TERM_VARIABLE, &number) || number != variable)
            continue;
        if (literal->relation == RISSOBARM_EQUALITY || session->program.output[literal->relation][k])
            return BY_OUTPUT;
        how = BY_INPUT;
    }
    return how;
}

/* The best of the stages of an and-seq that have not begun. */
static enum binding later_stages(const struct session *session, unsigned process, unsigned variable)
{
    const struct goal *goal = goal_of(session, process);
    unsigned stage = row_byte(session, process, RISSOBARM_ROW_STAGE), k;
    unsigned base = row_word(session, process, RISSOBARM_ROW_BASE);
    enum binding how = NOT_AT_ALL, one;

    stage += row_byte(session, process, RISSOBARM_ROW_MODE) == RISSOBARM_MODE_WAITING;
    if (stage >= goal->stages)
        return NOT_AT_ALL;
    for (k = goal->first[stage]; k < goal->first[goal->stages]; k++) {
        one = has_variable(session, &goal->literals[k], base, variable);
        if (one == BY_OUTPUT || how == NOT_AT_ALL)
            how = one;
    }
    return how;
}

/* What a live process could do: an and-seq in later stages, a call or an equation that has not reported by itself. */
static enum binding could_bind(const struct session *session, unsigned process, unsigned variable)
{
    unsigned tag = row_byte(session, process, RISSOBARM_ROW_TAG), mode = row_byte(session, process, RISSOBARM_ROW_MODE);

    if (mode == RISSOBARM_MODE_DORMANT || mode == RISSOBARM_MODE_REPORTING)
        return NOT_AT_ALL;
    if (tag == RISSOBARM_TAG_AND_SEQ)
        return later_stages(session, process, variable);
    if (tag != RISSOBARM_TAG_OR_PAR && tag != RISSOBARM_TAG_EQUATE)
        return NOT_AT_ALL;
    return has_variable(session, literal_of(session, process), row_word(session, process, RISSOBARM_ROW_BASE), variable);
}

void find_binders(const struct session *session, unsigned process, unsigned variable, struct binders *binders)
{
    unsigned p;

    memset(binders, 0, sizeof *binders);
    binders->supply = variable < session->program.variables;
    for (p = 0; p < rissobarm_plan_processes(&session->run); p++) {
        int later = row_byte(session, p, RISSOBARM_ROW_TAG) == RISSOBARM_TAG_AND_SEQ;
        enum binding how = !later && is_above(session, p, process) ? NOT_AT_ALL : could_bind(session, p, variable);

        if (how == BY_OUTPUT)
            binders->outputs[binders->output_count++] = p;
        else if (how == BY_INPUT)
            binders->inputs[binders->input_count++] = p;
    }
}
