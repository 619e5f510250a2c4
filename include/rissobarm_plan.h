/*
 * A shorter way to call the library from C: a plan and the rows of its run in one struct, and a text for each number.
 * All of it stands here, inline, over the calls of rissobarm.h; nothing more is linked.
 *
 *   static struct rissobarm_plan run;
 *
 *   rissobarm_plan_start(&run, image, image_len);
 *   while (rissobarm_end(rissobarm_plan_run(&run, 50)) == RISSOBARM_END_BUDGET)
 *       look_around();
 *
 * From rissobarm_plan_start to rissobarm_plan_watch each answers the word of the call that it is named after, to be taken
 * apart as rissobarm.h says.
 */
#ifndef RISSOBARM_PLAN_H
#define RISSOBARM_PLAN_H

#include "rissobarm.h"

#include <string.h>

#ifdef __cplusplus
extern "C" {
#endif

/* ---- texts ---- */

/* The text of a number, or "unknown" for one that has none. */
static inline const char *rissobarm_text_of(const char *const *texts, size_t count, unsigned number)
{
    return number < count ? texts[number] : "unknown";
}

/* A refusal by its name and when it is given; "accepted" for none. */
static inline const char *rissobarm_refusal_text(unsigned refusal)
{
    static const char *const texts[] = {
        "accepted",
        "LONG: the image has more than 32,768 bytes",
        "CUT: a record's length is under 4 or passes the end, or 1 to 3 bytes are left",
        "KIND: a kind is unknown, out of order, or stands after the goal",
        "BODY: a field of a record is out of range, or the fields do not end with it",
        "NAME: a relation, arity or variable is unknown, a clause out of place, or a relation has two mode lines",
        "MANY: too many relations, clauses, or clauses in a block",
        "NOGOAL: there is no goal",
        "STATE: the tables break a table rule, or a lent row has another size",
        "NODE: there is no such process",
        "STILL: no rule applies",
        "ROOM: the move needs more rows than are left, or a further row is too short",
        "NOVAR: the goal has no such variable",
        "BOUND: its value is a constant already",
        "CONST: the value supplied is over 32,767",
        "FOREIGN: the saved run is one of an image with another length",
        "TEXT: no text could go on so",
        "UNDECLARED: a relation has no mode line, or the list lacks a name in use",
        "OLDRULE: the saved run is one of another rule",
        "GAP: a record's stamp does not follow that of the record before",
        "DISAGREES: what a record of a trace tells cannot be done, or is another rule"
    };

    return rissobarm_text_of(texts, sizeof texts / sizeof texts[0], refusal);
}

/* A rule by its tag and what it did. */
static inline const char *rissobarm_rule_text(unsigned rule)
{
    static const char *const texts[] = {
        "unknown",
        "ready", "wake", "stop",
        "and-par start", "and-par success", "and-par failure",
        "and-seq start", "and-seq next stage", "and-seq success", "and-seq failure",
        "or-par start", "or-par spawn", "or-par success", "or-par failure",
        "seq-search, no clause", "seq-search start", "seq-search next block", "seq-search success",
        "seq-search failure",
        "or-search start", "or-search commits", "or-search failure",
        "try-clause start", "try-clause success", "try-clause failure",
        "input-match success", "input-match failure", "input-match suspends",
        "guard-eval, empty guard", "guard-eval start", "guard-eval success", "guard-eval failure",
        "equate success", "equate failure", "equate suspends"
    };

    return rissobarm_text_of(texts, sizeof texts / sizeof texts[0], rule);
}

/* The tag of a process, from byte RISSOBARM_ROW_TAG of its row. */
static inline const char *rissobarm_tag_text(unsigned tag)
{
    static const char *const texts[] = {
        "and-par", "and-seq", "or-par", "seq-search", "or-search", "try-clause", "input-match", "guard-eval", "equate"
    };

    return rissobarm_text_of(texts, sizeof texts / sizeof texts[0], tag);
}

/* The mode of a process, from byte RISSOBARM_ROW_MODE of its row. */
static inline const char *rissobarm_mode_text(unsigned mode)
{
    static const char *const texts[] = { "dormant", "ready", "starting", "waiting", "reporting", "suspended" };

    return rissobarm_text_of(texts, sizeof texts / sizeof texts[0], mode);
}

/* The end of a run. */
static inline const char *rissobarm_end_text(unsigned end)
{
    static const char *const texts[] = { "unknown", "success", "failure", "waiting", "room", "budget" };

    return rissobarm_text_of(texts, sizeof texts / sizeof texts[0], end);
}

/* ---- a plan and its run ---- */

/*
 * The image, which stays the caller's and as it is, and the three rows. Some 16 KiB, to be had anywhere; nothing has to be
 * freed. A copy of the struct is a copy of the run, over the same image.
 */
struct rissobarm_plan {
    const uint8_t *image;
    size_t image_len;
    uint8_t head[RISSOBARM_HEAD_SIZE];
    uint8_t procs[RISSOBARM_PROCS_SIZE];
    uint8_t vars[RISSOBARM_VARS_SIZE];
};

/* What every call but load and watch is lent first: rissobarm_turn(RISSOBARM_PLAN_LENT(&run)). */
#define RISSOBARM_PLAN_LENT(plan)                                                                                \
    (plan)->image, (plan)->image_len, (plan)->head, sizeof (plan)->head, (plan)->procs, sizeof (plan)->procs,    \
        (plan)->vars, sizeof (plan)->vars

/* Begins a run of an image, whatever the struct held. If it is refused, so is every later call but the watch, by the same word. */
static inline uint64_t rissobarm_plan_start(struct rissobarm_plan *plan, const uint8_t *image, size_t image_len)
{
    plan->image = image;
    plan->image_len = image_len;
    return rissobarm_start(RISSOBARM_PLAN_LENT(plan));
}

/* Takes up a saved run of an image, whatever the struct held; if it is refused, the struct is as it was. */
static inline uint64_t rissobarm_plan_resume(struct rissobarm_plan *plan, const uint8_t *image, size_t image_len,
                                             const uint8_t *saved, size_t saved_len)
{
    uint64_t answer = rissobarm_resume(image, image_len, plan->head, sizeof plan->head, plan->procs, sizeof plan->procs, plan->vars,
                                       sizeof plan->vars, saved, saved_len);

    if (rissobarm_refusal(answer) == RISSOBARM_ACCEPTED) {
        plan->image = image;
        plan->image_len = image_len;
    }
    return answer;
}

/* Makes the move of one process. */
static inline uint64_t rissobarm_plan_step(struct rissobarm_plan *plan, uint32_t process)
{
    return rissobarm_step(RISSOBARM_PLAN_LENT(plan), process);
}

/* Makes the move of the process whose turn it is. */
static inline uint64_t rissobarm_plan_turn(struct rissobarm_plan *plan)
{
    return rissobarm_turn(RISSOBARM_PLAN_LENT(plan));
}

/* Makes the move of one process and lists the variables bound; RISSOBARM_BOUND_SIZE bytes are always enough. */
static inline uint64_t rissobarm_plan_step_bound(struct rissobarm_plan *plan, uint8_t *bound, size_t bound_len,
                                                 uint32_t process)
{
    return rissobarm_step_bound(RISSOBARM_PLAN_LENT(plan), bound, bound_len, process);
}

/* Makes the move of the process whose turn it is and lists the variables bound. */
static inline uint64_t rissobarm_plan_turn_bound(struct rissobarm_plan *plan, uint8_t *bound, size_t bound_len)
{
    return rissobarm_turn_bound(RISSOBARM_PLAN_LENT(plan), bound, bound_len);
}

/*
 * Makes turns as rissobarm_run does, with a limit of 32 bits: calls it with up to RISSOBARM_RUN_LIMIT steps at a time until
 * the limit is used up or the run ends otherwise, at least once. Answers the word that a single call with such a limit would:
 * the end of the last call in bits 8-15, the steps of all calls in bits 32-63. A refusal is the first call's, before any step.
 */
static inline uint64_t rissobarm_plan_run(struct rissobarm_plan *plan, uint32_t limit)
{
    uint32_t made = 0;
    uint64_t answer;

    do {
        uint32_t slice = limit - made;

        if (slice > RISSOBARM_RUN_LIMIT)
            slice = RISSOBARM_RUN_LIMIT;
        answer = rissobarm_run(RISSOBARM_PLAN_LENT(plan), (uint16_t)slice);
        if (rissobarm_refusal(answer) != RISSOBARM_ACCEPTED)
            return answer;
        made += rissobarm_steps(answer);
    } while (rissobarm_end(answer) == RISSOBARM_END_BUDGET && made < limit);
    return (answer & UINT32_MAX) | (uint64_t)made << 32;
}

/* Makes the move of one process and writes its record. */
static inline uint64_t rissobarm_plan_step_traced(struct rissobarm_plan *plan, uint8_t *trace, size_t trace_len,
                                                  uint32_t process, uint16_t stamp)
{
    return rissobarm_step_traced(RISSOBARM_PLAN_LENT(plan), trace, trace_len, process, stamp);
}

/* Makes turns as rissobarm_plan_run does, as many as trace has room for at most, and writes the record of each. */
static inline uint64_t rissobarm_plan_run_traced(struct rissobarm_plan *plan, uint8_t *trace, size_t trace_len,
                                                 uint32_t limit, uint16_t stamp)
{
    uint32_t made = 0;
    uint64_t answer;

    if (trace_len / RISSOBARM_TRACE_RECORD_SIZE < limit)
        limit = (uint32_t)(trace_len / RISSOBARM_TRACE_RECORD_SIZE);
    do {
        uint32_t slice = limit - made;
        size_t written = (size_t)made * RISSOBARM_TRACE_RECORD_SIZE;

        if (slice > RISSOBARM_RUN_LIMIT)
            slice = RISSOBARM_RUN_LIMIT;
        answer = rissobarm_run_traced(RISSOBARM_PLAN_LENT(plan), trace + written, trace_len - written, (uint16_t)slice,
                                      (uint16_t)(stamp + made));
        if (rissobarm_refusal(answer) != RISSOBARM_ACCEPTED)
            return answer;
        made += rissobarm_steps(answer);
    } while (rissobarm_end(answer) == RISSOBARM_END_BUDGET && made < limit);
    return (answer & UINT32_MAX) | (uint64_t)made << 32;
}

/* Plays a trace again. */
static inline uint64_t rissobarm_plan_replay(struct rissobarm_plan *plan, const uint8_t *trace, size_t trace_len)
{
    return rissobarm_replay(RISSOBARM_PLAN_LENT(plan), trace, trace_len);
}

/* Binds the value of a goal variable to a constant. */
static inline uint64_t rissobarm_plan_supply(struct rissobarm_plan *plan, uint32_t variable, uint32_t value)
{
    return rissobarm_supply(RISSOBARM_PLAN_LENT(plan), variable, value);
}

/* Binds the value of a goal variable to a constant and lists the variable that took it. */
static inline uint64_t rissobarm_plan_supply_bound(struct rissobarm_plan *plan, uint8_t *bound, size_t bound_len,
                                                   uint32_t variable, uint32_t value)
{
    return rissobarm_supply_bound(RISSOBARM_PLAN_LENT(plan), bound, bound_len, variable, value);
}

/* Binds the value of a goal variable to a constant and writes the record of that. */
static inline uint64_t rissobarm_plan_supply_traced(struct rissobarm_plan *plan, uint8_t *trace, size_t trace_len,
                                                    uint32_t variable, uint32_t value, uint16_t stamp)
{
    return rissobarm_supply_traced(RISSOBARM_PLAN_LENT(plan), trace, trace_len, variable, value, stamp);
}

/* Gives the value of a goal variable. */
static inline uint64_t rissobarm_plan_value(const struct rissobarm_plan *plan, uint32_t variable)
{
    return rissobarm_value(RISSOBARM_PLAN_LENT(plan), variable);
}

/* Writes the values of all goal variables; RISSOBARM_VALUES_SIZE bytes are always enough. */
static inline uint64_t rissobarm_plan_values(const struct rissobarm_plan *plan, uint8_t *values, size_t values_len)
{
    return rissobarm_values(RISSOBARM_PLAN_LENT(plan), values, values_len);
}

/* Saves the run; RISSOBARM_SAVED_SIZE bytes are always enough. */
static inline uint64_t rissobarm_plan_save(const struct rissobarm_plan *plan, uint8_t *saved, size_t saved_len)
{
    return rissobarm_save(RISSOBARM_PLAN_LENT(plan), saved, saved_len);
}

/* The lowest suspended process from a number on, by its own number. */
static inline uint64_t rissobarm_plan_watch(const struct rissobarm_plan *plan, uint32_t from)
{
    uint64_t answer;

    if (from > RISSOBARM_PROCESS_LIMIT)
        from = RISSOBARM_PROCESS_LIMIT;
    answer = rissobarm_watch(plan->procs + from * RISSOBARM_PROCESS_ROW,
                             sizeof plan->procs - from * RISSOBARM_PROCESS_ROW);
    return rissobarm_watch_found(answer) ? answer + ((uint64_t)from << 32) : answer;
}

/* ---- what rows hold; these answer the number itself ---- */

/* A number of two bytes, the low one in front. */
static inline unsigned rissobarm_word_at(const uint8_t *bytes)
{
    return bytes[0] + 256u * bytes[1];
}

/* How many variables a list of those bound has. */
static inline unsigned rissobarm_bound_count(const uint8_t *bound)
{
    return rissobarm_word_at(bound);
}

/* One of them, counted from 0 in the order in which they were bound. */
static inline unsigned rissobarm_bound_at(const uint8_t *bound, unsigned k)
{
    return rissobarm_word_at(bound + 2 + 2 * k);
}

/* The sort of one of the values that were written. */
static inline unsigned rissobarm_sort_at(const uint8_t *values, uint32_t variable)
{
    return values[variable * RISSOBARM_VARIABLE_ROW + RISSOBARM_CELL_SORT];
}

/* The constant or variable that it is. */
static inline uint32_t rissobarm_number_at(const uint8_t *values, uint32_t variable)
{
    const uint8_t *number = values + variable * RISSOBARM_VARIABLE_ROW + RISSOBARM_CELL_NUMBER;

    return rissobarm_word_at(number) + 65536u * number[2];
}

/* The processes made so far. */
static inline unsigned rissobarm_plan_processes(const struct rissobarm_plan *plan)
{
    return rissobarm_word_at(plan->head + RISSOBARM_HEAD_PROCS);
}

/* The variables made so far. */
static inline unsigned rissobarm_plan_variables(const struct rissobarm_plan *plan)
{
    return rissobarm_word_at(plan->head + RISSOBARM_HEAD_VARS);
}

/* The steps made since the start, by whatever call; the count stays at its highest number once there. */
static inline uint32_t rissobarm_plan_steps(const struct rissobarm_plan *plan)
{
    return rissobarm_word_at(plan->head + RISSOBARM_HEAD_STEPS) +
           65536u * rissobarm_word_at(plan->head + RISSOBARM_HEAD_STEPS + 2);
}

/* The row of a process, RISSOBARM_PROCESS_ROW bytes. The number is below RISSOBARM_PROCESS_LIMIT. */
static inline const uint8_t *rissobarm_plan_row(const struct rissobarm_plan *plan, uint32_t process)
{
    return plan->procs + process * RISSOBARM_PROCESS_ROW;
}

/* ---- names, for a host that has its plan as text; lengths are those of the text and list that a parse was lent or gave ---- */

/* What the calls by name answer where there is no such name. */
enum { RISSOBARM_NO_NAME = -1 };

/* How many bytes the name has that begins here: letters, digits and _. */
static inline size_t rissobarm_name_length(const uint8_t *bytes, size_t bytes_len)
{
    size_t k = 0;

    while (k < bytes_len && ((bytes[k] >= 'a' && bytes[k] <= 'z') || (bytes[k] >= 'A' && bytes[k] <= 'Z') ||
                             (bytes[k] >= '0' && bytes[k] <= '9') || bytes[k] == '_'))
        k++;
    return k;
}

/* Whether so many bytes are those of a text that ends with a byte 0. */
static inline int rissobarm_name_is(const uint8_t *bytes, size_t count, const char *name)
{
    size_t k = 0;

    while (k < count && name[k] != '\0' && bytes[k] == (uint8_t)name[k])
        k++;
    return k == count && name[k] == '\0';
}

/* The place of the goal in a text that a parse has accepted: the last `<-` begins it. */
static inline size_t rissobarm_text_goal(const uint8_t *text, size_t text_len)
{
    size_t at = text_len;

    while (at > 0 && !(at + 1 < text_len && text[at] == '<' && text[at + 1] == '-'))
        at--;
    return at;
}

/*
 * The name of a variable of the goal by its number, in a text that a parse has accepted: where it begins, and as the answer how many
 * bytes it has; 0 where the goal has no such variable. They count from 0 by first appearance.
 */
static inline size_t rissobarm_text_variable_name(const uint8_t *text, size_t text_len, uint32_t variable, const uint8_t **name)
{
    size_t goal = rissobarm_text_goal(text, text_len), at, length, before, k;

    for (at = goal; at < text_len; at += length > 0 ? length : 1) {
        length = rissobarm_name_length(text + at, text_len - at);
        if (length == 0 || text[at] < 'A' || text[at] > 'Z')
            continue;
        for (before = goal; before < at; before += k > 0 ? k : 1) {
            k = rissobarm_name_length(text + before, text_len - before);
            if (k == length && memcmp(text + before, text + at, k) == 0)
                break;
        }
        if (before < at || variable-- > 0)
            continue;
        *name = text + at;
        return length;
    }
    return 0;
}

/* The number of a variable of the goal by its name; RISSOBARM_NO_NAME where the goal has none by that name. */
static inline int rissobarm_text_variable(const uint8_t *text, size_t text_len, const char *name)
{
    const uint8_t *found = text;
    size_t length;
    int variable;

    for (variable = 0; (length = rissobarm_text_variable_name(text, text_len, (uint32_t)variable, &found)) > 0; variable++)
        if (rissobarm_name_is(found, length, name))
            return variable;
    return RISSOBARM_NO_NAME;
}

/*
 * The name of a constant by its number, in a list of names: where it begins, and as the answer how many bytes it has; 0 where the list
 * has none. The relations come first: their count is that of rissobarm_relations of the image.
 */
static inline size_t rissobarm_names_constant_name(const uint8_t *names, size_t names_len, unsigned relations, uint32_t constant,
                                                   const uint8_t **name)
{
    size_t left = (size_t)relations + constant, at, length;

    for (at = 0; at < names_len; at += length + 1) {
        length = rissobarm_name_length(names + at, names_len - at);
        if (left-- > 0)
            continue;
        *name = names + at;
        return length;
    }
    return 0;
}

/* The number of a constant by its name; RISSOBARM_NO_NAME where the list has none by that name. */
static inline int rissobarm_names_constant(const uint8_t *names, size_t names_len, unsigned relations, const char *name)
{
    size_t at, length, entry = 0;

    for (at = 0; at < names_len; at += length + 1, entry++) {
        length = rissobarm_name_length(names + at, names_len - at);
        if (entry >= relations && length > 0 && rissobarm_name_is(names + at, length, name))
            return (int)(entry - relations);
    }
    return RISSOBARM_NO_NAME;
}

#ifdef __cplusplus
}
#endif

#endif
