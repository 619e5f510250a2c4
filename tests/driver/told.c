/* What the further row of a call tells, held to the tables before and after it and to the plain calls. */
#include "further.h"

#include "call.h"
#include "counts.h"

#include <string.h>

/* Each value is what the call for one variable tells. */
static bool values_hold(struct bed *bed)
{
    uint32_t count = rissobarm_values_count(bed->answer), v;

    if (count != bed->program.goal_variables)
        return bed_fault(bed, "%u values of %u variables", count, bed->program.goal_variables);
    for (v = 0; v < count; v++) {
        const uint8_t *row = bed->further.bytes + v * RISSOBARM_VARIABLE_ROW;
        uint64_t value = call_value(bed, v);

        if (row[RISSOBARM_CELL_SORT] != rissobarm_value_sort(value) || variable_number(row) != rissobarm_value_number(value))
            return bed_fault(bed, "the value of variable %u is another one alone", v);
    }
    return true;
}

/* Whether a variable was not bound before, or not made, and is bound now. */
static bool newly_bound(const struct rows *before, const struct rows *after, unsigned variable)
{
    bool made = variable < variable_count(before);

    return variable_row(after, variable)[RISSOBARM_CELL_SORT] != RISSOBARM_SORT_UNBOUND &&
           !(made && variable_row(before, variable)[RISSOBARM_CELL_SORT] != RISSOBARM_SORT_UNBOUND);
}

static unsigned count_bound(const struct rows *before, const struct rows *after)
{
    unsigned count = variable_count(after), bound = 0, v;

    for (v = 0; v < count; v++)
        bound += newly_bound(before, after, v);
    return bound;
}

/* The variables listed are those that were bound, each once. */
static bool list_holds(struct bed *bed)
{
    const uint8_t *list = bed->further.bytes;
    unsigned count = word_at(list), bound = count_bound(&bed->before, &bed->ours), k, j;

    if (count != bound)
        return bed_fault(bed, "%u variables are listed and %u bound", count, bound);
    for (k = 0; k < count; k++) {
        unsigned variable = word_at(list + 2 + 2 * k);

        if (variable >= variable_count(&bed->ours) || !newly_bound(&bed->before, &bed->ours, variable))
            return bed_fault(bed, "variable %u is listed and was not bound", variable);
        for (j = 0; j < k; j++)
            if (word_at(list + 2 + 2 * j) == variable)
                return bed_fault(bed, "variable %u is listed twice", variable);
    }
    return true;
}

/* The first one listed is what the move touched. */
static bool touched_first(struct bed *bed, const struct event *event)
{
    unsigned rule = rissobarm_rule(bed->answer);

    if (event->kind == SUPPLIES || word_at(bed->further.bytes) == 0)
        return true;
    if (rule != RISSOBARM_RULE_INPUT_MATCH_SUCCESS && rule != RISSOBARM_RULE_EQUATE_SUCCESS)
        return bed_fault(bed, "rule %u binds a variable", rule);
    return word_at(bed->further.bytes + 2) == rissobarm_touched(bed->answer) ||
           bed_fault(bed, "the first variable listed is not the one touched");
}

/* The plain call answers and leaves the same, unless the row alone was too short for what it binds. */
static bool plain_agrees(struct bed *bed, const struct event *event)
{
    static struct rows rows;
    uint64_t answer;
    unsigned k;

    rows = bed->before;
    answer = call_plain(bed, event, &rows);
    if (rissobarm_refusal(answer) == RISSOBARM_ACCEPTED && bed->answer == RISSOBARM_ROOM) {
        if (bed->further.length >= (event->form == TRACED ? (size_t)RISSOBARM_TRACE_RECORD_SIZE
                                                          : 2 + 2 * (size_t)count_bound(&bed->before, &rows)))
            return bed_fault(bed, "refused, though there is room in the further row");
        if (counting)
            counts.features[SHORT_ROW]++;
        return true;
    }
    if (answer != bed->answer)
        return bed_fault(bed, "the plain call answers otherwise");
    for (k = 0; k < LENT_ROWS; k++)
        if (memcmp(row_bytes(&rows, k), row_bytes(&bed->ours, k), row_sizes[k]) != 0)
            return bed_fault(bed, "the plain call leaves other tables");
    return true;
}

/* Whether the plain call is made beside this one, which was let in with rows of full size. */
static bool made_beside(const struct event *event)
{
    return event->kind == SUPPLIES ? event->a % 2 == event->b % 2 : event->b != 0;
}

/* A list or a record tells what was done, and the plain call does the same. */
static bool form_holds(struct bed *bed, const struct event *event)
{
    bool accepted = rissobarm_refusal(bed->answer) == RISSOBARM_ACCEPTED;

    if (accepted && event->form == LISTED && !(list_holds(bed) && touched_first(bed, event)))
        return false;
    if (accepted && event->form == TRACED && !trace_holds(bed, event))
        return false;
    if (event->kind == RUNS || !made_beside(event) || rissobarm_refusal(bed->answer) == RISSOBARM_STATE)
        return true;
    return plain_agrees(bed, event);
}

bool further_holds(struct bed *bed, const struct event *event)
{
    if (event->form != PLAIN)
        return form_holds(bed, event);
    if (event->kind == REPLAYS)
        return replay_holds(bed, event);
    if (event->kind == SAVES || event->kind == RESUMES)
        return rissobarm_refusal(bed->answer) != RISSOBARM_ACCEPTED ? whole_let_in(bed, event) : saved_holds(bed, event);
    if (event->kind != ALL_VALUES)
        return true;
    if (counting)
        counts.features[SHORT_ROW] += bed->answer == RISSOBARM_ROOM;
    return event->b == 0 || rissobarm_refusal(bed->answer) != RISSOBARM_ACCEPTED || values_hold(bed);
}
