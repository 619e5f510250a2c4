/* Traces: what must hold of records and of a replay, and stories of traces that are played again. */
#include "further.h"

#include "call.h"
#include "counts.h"

#include <string.h>

enum { RECORD = RISSOBARM_TRACE_RECORD_SIZE, STAMP_TOP = 65535 };

/* ---- records */

/* Whether a record has these numbers and the stamp that is k behind the next one. */
static bool record_is(const struct bed *bed, unsigned k, unsigned kind, unsigned first, unsigned second)
{
    const uint8_t *record = bed->further.bytes + k * (size_t)RECORD;

    return word_at(record) == RECORD && word_at(record + 2) == kind && word_at(record + RISSOBARM_TRACE_PROCESS) == first &&
           word_at(record + RISSOBARM_TRACE_RULE) == second &&
           word_at(record + RISSOBARM_TRACE_STAMP) == (uint16_t)(bed->tape.stamp + k);
}

/* The records of a run are steps with following stamps, the last of them that of the process last stepped. */
static bool run_recorded(const struct bed *bed)
{
    uint32_t steps = rissobarm_steps(bed->answer), k;

    for (k = 0; k < steps; k++) {
        const uint8_t *record = bed->further.bytes + k * (size_t)RECORD;
        unsigned process = word_at(record + RISSOBARM_TRACE_PROCESS);

        if (!record_is(bed, k, RISSOBARM_RECORD_STEP, process, word_at(record + RISSOBARM_TRACE_RULE)))
            return false;
        if (k + 1 == steps && process != last_stepped(&bed->ours))
            return false;
    }
    return true;
}

static bool recorded(const struct bed *bed, const struct event *event)
{
    if (event->kind == RUNS)
        return run_recorded(bed);
    if (event->kind == SUPPLIES)
        return record_is(bed, 0, RISSOBARM_RECORD_SUPPLY, event->a, event->b);
    return record_is(bed, 0, RISSOBARM_RECORD_STEP, event->a, rissobarm_rule(bed->answer));
}

/* Puts what was written on the tape, or begins one where something else came between or the tape is full. */
static void put_on_tape(struct bed *bed, const struct event *event)
{
    struct tape *tape = &bed->tape;
    size_t written = further_written(bed, event);

    if (memcmp(&bed->before, &tape->to, sizeof bed->before) != 0 || tape->length + written > TAPE_ROOM)
        tape->length = 0;
    if (tape->length == 0) {
        tape->from = bed->before;
        tape->straight = bed->straight;
    }
    memcpy(tape->bytes + tape->length, bed->further.bytes, written);
    tape->length += written;
    tape->to = bed->ours;
    if (counting)
        counts.features[STAMPS_AGAIN] += tape->stamp + written / RECORD > STAMP_TOP;
    tape->stamp = (uint16_t)(tape->stamp + written / RECORD);
}

bool trace_holds(struct bed *bed, const struct event *event)
{
    if (!recorded(bed, event))
        return bed_fault(bed, "a record does not tell what was done");
    put_on_tape(bed, event);
    return true;
}

/* ---- replays */

static bool same_tables(struct rows *left, struct rows *right)
{
    unsigned k;

    for (k = 0; k < LENT_ROWS; k++)
        if (memcmp(row_bytes(left, k), row_bytes(right, k), row_sizes[k]) != 0)
            return false;
    return true;
}

/* Makes what a record tells by the plain call; whether it is done, by the rule that the record has. */
static bool play_plain(const struct bed *bed, const uint8_t *record, struct rows *rows)
{
    bool steps = word_at(record + 2) == RISSOBARM_RECORD_STEP;
    struct event event = { steps ? STEPS : SUPPLIES, PLAIN, THE_HEAD, word_at(record + 4), word_at(record + 6) };
    static struct rows tried;
    uint64_t answer;

    tried = *rows;
    answer = call_plain(bed, &event, &tried);
    if (rissobarm_refusal(answer) != RISSOBARM_ACCEPTED || (steps && rissobarm_rule(answer) != event.b))
        return false;
    *rows = tried;
    return true;
}

/* The plain calls come as far and leave the same. */
static bool played_plain(struct bed *bed)
{
    static struct rows rows;
    size_t all = bed->further.length / RECORD, k;
    bool agrees = rissobarm_refusal(bed->answer) == RISSOBARM_ACCEPTED;

    rows = bed->before;
    for (k = 0; k < all; k++)
        if (!play_plain(bed, bed->further.bytes + k * RECORD, &rows))
            break;
    if (agrees ? k != all || rissobarm_played(bed->answer) != all : k == all || rissobarm_offset(bed->answer) != k * RECORD)
        return bed_fault(bed, "single calls come to another record");
    return same_tables(&rows, &bed->ours) || bed_fault(bed, "single calls leave other tables");
}

/* The whole tape from where it began gives the tables where it ended. */
static bool whole_played(struct bed *bed)
{
    if (rissobarm_refusal(bed->answer) != RISSOBARM_ACCEPTED || rissobarm_played(bed->answer) != bed->tape.length / RECORD)
        return bed_fault(bed, "a whole trace is not played to its end");
    if (counting)
        counts.features[TAPES_PLAYED]++;
    return same_tables(&bed->ours, &bed->tape.to) || bed_fault(bed, "a whole trace gives other tables");
}

bool replay_holds(struct bed *bed, const struct event *event)
{
    unsigned refusal = rissobarm_refusal(bed->answer);

    if (refusal != RISSOBARM_ACCEPTED && refusal != RISSOBARM_DISAGREES && event->a != 0)
        return true;
    if (event->a == 0 && bed->tape.length > 0 && bed_accepts(bed) && refusal != RISSOBARM_STATE &&
        same_tables(&bed->before, &bed->tape.from) && !whole_played(bed))
        return false;
    if (refusal != RISSOBARM_ACCEPTED && refusal != RISSOBARM_DISAGREES)
        return true;
    return event->b == 0 || played_plain(bed);
}
