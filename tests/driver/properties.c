/* The tests at the entry, the rules kept, and runs as repeated turns. */
#include "properties.h"

#include "call.h"
#include "counts.h"

#include <string.h>

/* ---- the entry */

static void breaks(struct entry *entry, unsigned rule)
{
    entry->broken++;
    if (rule < entry->first)
        entry->first = rule;
}

struct entry entry_of(struct bed *bed, const struct event *event)
{
    struct entry entry = { event->kind != WATCHES, 0, 0, TABLE_RULES };
    unsigned k;

    if (!entry.tested)
        return entry;
    if (!bed_accepts(bed) || event->kind == LOADS || (event->kind == RESUMES && (event->a != 0 || event->b == 0))) {
        entry.refused = bed_accepts(bed) ? 0 : bed->loaded;
        return entry;
    }
    for (k = 0; k < LENT_ROWS; k++)
        if (bed->sizes[k] != row_sizes[k])
            breaks(&entry, FULL_HEAD + k);
    if (event->kind != STARTS && bed_broken(bed)->count > 0) {
        entry.broken += bed->broken.count;
        if (bed->broken.first < entry.first)
            entry.first = bed->broken.first;
    }
    entry.refused = entry.broken > 0 ? RISSOBARM_STATE : RISSOBARM_ACCEPTED;
    return entry;
}

/* The bytes of a saved run. */
static size_t saved_size(const struct rows *rows)
{
    return RISSOBARM_RUN_RECORD_SIZE + process_count(rows) * (size_t)RISSOBARM_PROCESS_RECORD_SIZE +
           variable_count(rows) * (size_t)RISSOBARM_VARIABLE_RECORD_SIZE;
}

/* The refusal that the event's own numbers and lengths come to, before anything else of the call is looked at. */
static unsigned numbers_refused(const struct bed *bed, const struct event *event)
{
    switch (event->kind) {
    case STEPS:
        return event->a >= process_count(&bed->before) ? RISSOBARM_NODE : RISSOBARM_ACCEPTED;
    case SUPPLIES:
        if (event->a >= bed->program.goal_variables)
            return RISSOBARM_NOVAR;
        return event->b > RISSOBARM_CONSTANT_LIMIT ? RISSOBARM_CONST : RISSOBARM_ACCEPTED;
    case VALUES:
        return event->a >= bed->program.goal_variables ? RISSOBARM_NOVAR : RISSOBARM_ACCEPTED;
    case SAVES:
        return bed->further.length < saved_size(&bed->before) ? RISSOBARM_ROOM : RISSOBARM_ACCEPTED;
    case ALL_VALUES:
        return bed->further.length < bed->program.goal_variables * (size_t)RISSOBARM_VARIABLE_ROW ? RISSOBARM_ROOM
                                                                                                  : RISSOBARM_ACCEPTED;
    default:
        return RISSOBARM_ACCEPTED;
    }
}

/* Whether a refusal is one of a row of records, with the offset of the record. */
static bool in_records(unsigned refusal)
{
    return refusal == RISSOBARM_CUT || refusal == RISSOBARM_KIND || refusal == RISSOBARM_BODY;
}

/* Whether a call that is let in can have this refusal. */
static bool refusal_possible(const struct event *event, unsigned refusal)
{
    if (event->form != PLAIN && event->kind != RUNS && refusal == RISSOBARM_ROOM)
        return true;
    switch (event->kind) {
    case STEPS:
    case TURNS:
        return refusal == RISSOBARM_ACCEPTED || refusal == RISSOBARM_STILL || refusal == RISSOBARM_ROOM;
    case SUPPLIES:
        return refusal == RISSOBARM_ACCEPTED || refusal == RISSOBARM_BOUND;
    case REPLAYS:
        return refusal == RISSOBARM_ACCEPTED || refusal == RISSOBARM_GAP || refusal == RISSOBARM_DISAGREES ||
               in_records(refusal);
    case RESUMES:
        return refusal == RISSOBARM_ACCEPTED || refusal == RISSOBARM_STATE || refusal == RISSOBARM_FOREIGN ||
               refusal == RISSOBARM_OLDRULE || in_records(refusal);
    default:
        return refusal == RISSOBARM_ACCEPTED;
    }
}

bool entry_right(struct bed *bed, const struct event *event, const struct entry *entry)
{
    unsigned refusal = rissobarm_refusal(bed->answer), numbers;
    uint32_t offset = rissobarm_offset(bed->answer);

    if (event->kind == LOADS)
        return bed->answer == bed->loaded || bed_fault(bed, "the load differs from what the other calls tested");
    if (entry->refused != 0)
        return bed->answer == entry->refused ||
               bed_fault(bed, "refusal %u where the entry comes to %u (%s %s)", refusal,
                         rissobarm_refusal(entry->refused), table_rule_name(entry->first % TABLE_RULES),
                         table_rule_tag(entry->first % TABLE_RULES));
    if (!entry->tested)
        return refusal == RISSOBARM_ACCEPTED || bed_fault(bed, "a watch was refused");
    numbers = numbers_refused(bed, event);
    if (numbers != RISSOBARM_ACCEPTED)
        return bed->answer == numbers || bed_fault(bed, "refusal %u where the numbers come to %u", refusal, numbers);
    if (!refusal_possible(event, refusal))
        return bed_fault(bed, "refusal %u of a call that is let in", refusal);
    if (event->kind == REPLAYS && refusal != RISSOBARM_ACCEPTED)
        return (offset < bed->further.length && offset % RISSOBARM_TRACE_RECORD_SIZE == 0) ||
               bed_fault(bed, "an offset where no record of the trace begins");
    if (event->kind == RESUMES && in_records(refusal))
        return offset <= bed->further.length || bed_fault(bed, "an offset behind the saved run");
    return refusal == RISSOBARM_ACCEPTED || bed->answer == refusal || bed_fault(bed, "more than a number in a refusal");
}

/* ---- a run is its turns */

static bool ended(const struct rows *rows)
{
    return rows->procs[RISSOBARM_ROW_MODE] == RISSOBARM_MODE_DORMANT;
}

/* The end that the result of an ended goal means. */
static unsigned end_of(const struct rows *rows)
{
    bool success = rows->procs[RISSOBARM_ROW_RESULT] == RISSOBARM_RESULT_SUCCESS;

    return success ? RISSOBARM_END_SUCCESS : RISSOBARM_END_FAILURE;
}

/* Why the run stops where it does. */
static bool stops_right(const struct bed *bed, struct rows *rows, unsigned end, bool used_up)
{
    unsigned refusal;

    if (ended(rows))
        return end == end_of(rows);
    refusal = rissobarm_refusal(call_turn(bed, rows));
    switch (end) {
    case RISSOBARM_END_WAITING:
        return refusal == RISSOBARM_STILL;
    case RISSOBARM_END_ROOM:
        return refusal == RISSOBARM_ROOM && !used_up;
    case RISSOBARM_END_BUDGET:
        return used_up && refusal != RISSOBARM_STILL;
    default:
        return false;
    }
}

/* The limit of a run; a trace has one of its own. */
static uint32_t limit_of(const struct bed *bed, const struct event *event)
{
    size_t records = bed->further.length / RISSOBARM_TRACE_RECORD_SIZE;

    return event->form == TRACED && records < event->a ? (uint32_t)records : event->a;
}

static bool run_is_turns(struct bed *bed, const struct event *event)
{
    static struct rows rows;
    uint32_t steps = rissobarm_steps(bed->answer), limit = limit_of(bed, event), k;

    rows = bed->before;
    for (k = 0; k < steps; k++)
        if (ended(&rows) || rissobarm_refusal(call_turn(bed, &rows)) != RISSOBARM_ACCEPTED)
            return bed_fault(bed, "turn %u of the run's %u cannot be made", k, steps);
    for (k = 0; k < LENT_ROWS; k++)
        if (memcmp(row_bytes(&rows, k), row_bytes(&bed->ours, k), row_sizes[k]) != 0)
            return bed_fault(bed, "%u turns give other tables than the run", steps);
    if (steps > limit || !stops_right(bed, &rows, rissobarm_end(bed->answer), steps == limit))
        return bed_fault(bed, "end %u of the run does not fit its turns", rissobarm_end(bed->answer));
    if (counting)
        counts.features[RUN_AS_TURNS]++;
    return true;
}

/* ---- all together */

static bool changes_tables(const struct event *event)
{
    return event->kind == STARTS || event->kind == STEPS || event->kind == TURNS || event->kind == RUNS ||
           event->kind == SUPPLIES || event->kind == RESUMES || event->kind == REPLAYS;
}

/* Whether the answer says that nothing can move. */
static bool says_still(const struct bed *bed, const struct event *event)
{
    if (event->kind == TURNS)
        return rissobarm_refusal(bed->answer) == RISSOBARM_STILL;
    return event->kind == RUNS && bed->answer % 65536 == RISSOBARM_END_WAITING << 8;
}

/* What is known of the tables is what was known when they were saved, of damaged ones nothing; turns count on in the same ones. */
static void taken_up(struct bed *bed, const struct event *event)
{
    bool going_on = bed->straight && event->a == 0 && memcmp(&bed->before, &bed->ours, sizeof bed->ours) == 0;

    if (event->b == 0) {
        bed->straight = event->a == 0 && bed->kept.straight;
        bed->changed = event->a != 0 || bed->kept.changed;
        bed->scattered = event->a == 0 && bed->kept.scattered;
    } else {
        bed->straight = bed->straight && event->a == 0;
        bed->changed = bed->changed || event->a != 0;
    }
    if (!going_on || !bed->straight)
        fair_begin();
}

bool properties_hold(struct bed *bed, const struct event *event)
{
    unsigned refusal = rissobarm_refusal(bed->answer);
    bool accepted = refusal == RISSOBARM_ACCEPTED || refusal == RISSOBARM_DISAGREES;

    if (says_still(bed, event) && bed->straight && !stuck_holds(bed))
        return false;
    if (!accepted || !changes_tables(event))
        return true;
    bed->known = false;
    if (event->kind == STARTS) {
        bed->straight = true;
        bed->changed = false;
        bed->scattered = false;
        fair_begin();
    }
    if (event->kind == RESUMES)
        taken_up(bed, event);
    if (event->kind == REPLAYS)
        fair_begin();
    if (bed_broken(bed)->count > 0)
        return bed_fault(bed, "the tables left break a rule: %s %s", table_rule_name(bed->broken.first),
                         table_rule_tag(bed->broken.first));
    if (event->kind == RUNS && event->b != 0 && !run_is_turns(bed, event))
        return false;
    return fair_holds(bed, event);
}
