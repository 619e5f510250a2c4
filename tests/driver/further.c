/* What a call writes into its further row, or reads there. */
#include "further.h"

#include "damages.h"

#include <string.h>

enum { MOST_RECORDS = 3000 };

bool further_lent(const struct event *event)
{
    return event->kind == ALL_VALUES || event->kind == SAVES || event->kind == RESUMES || event->kind == REPLAYS ||
           event->form != PLAIN;
}

/* Whether it is one that the call reads. */
static bool further_read(const struct event *event)
{
    return event->kind == RESUMES || event->kind == REPLAYS;
}

/* ---- before the call */

/* A length that is enough whatever the call writes. */
static size_t enough(const struct event *event)
{
    size_t records = event->kind == RUNS ? event->a : 1;

    if (event->kind == SAVES)
        return RISSOBARM_SAVED_SIZE;
    if (event->form == TRACED)
        return records < MOST_RECORDS ? records * RISSOBARM_TRACE_RECORD_SIZE : MOST_RECORDS * RISSOBARM_TRACE_RECORD_SIZE;
    return event->form == LISTED ? RISSOBARM_BOUND_SIZE : RISSOBARM_VALUES_SIZE;
}

/* A byte of a row that nothing was written into: other ones in each call. */
static uint8_t filling(const struct bed *bed, size_t at)
{
    return (uint8_t)(29 * bed->calls + 7 * at + 1);
}

/* A run of the former rule: the first record without its last two bytes; how long it is then. */
static size_t make_former(uint8_t *bytes, size_t length)
{
    enum { FORMER_SIZE = RISSOBARM_RUN_RECORD_SIZE - 2 };

    put_word_at(bytes, FORMER_SIZE);
    memmove(bytes + FORMER_SIZE, bytes + RISSOBARM_RUN_RECORD_SIZE, length - RISSOBARM_RUN_RECORD_SIZE);
    return length - 2;
}

/* Some seeds make it a run of another rule; true where it is to be damaged further. */
static bool change_rule(uint8_t *bytes, size_t *length, uint32_t seed)
{
    static const uint16_t numbers[] = { 0, 1, 3, 4, 258, 512, 513, 65535 };
    unsigned sort = seed % 32;

    if (*length < RISSOBARM_RUN_RECORD_SIZE || sort > 3)
        return true;
    if (sort < 2)
        *length = make_former(bytes, *length);
    else
        put_word_at(bytes + RISSOBARM_RUN_RECORD_SIZE - 2, numbers[seed / 32 % 8]);
    return sort % 2 == 1;
}

/* A run to be taken up, damaged or whole; how long it is. */
static size_t fill_saved(struct bed *bed, const struct event *event)
{
    static const struct record_kinds kinds = {
        3,
        { RISSOBARM_RECORD_RUN, RISSOBARM_RECORD_PROCESS, RISSOBARM_RECORD_VARIABLE },
        { RISSOBARM_RUN_RECORD_SIZE, RISSOBARM_PROCESS_RECORD_SIZE, RISSOBARM_VARIABLE_RECORD_SIZE }
    };
    size_t length = bed->kept.length;

    if (event->b != 0)
        length = records_of(&bed->ours, (unsigned)bed->source->length, bed->beside);
    else
        memcpy(bed->beside, bed->kept.bytes, length);
    if (event->a == 0 || !change_rule(bed->beside, &length, event->a))
        return length;
    return damage_records(bed->beside, length, TAPE_ROOM, event->a, &kinds);
}

/* A trace to be played, damaged or whole; every other damaged one is stamped anew, so that no gap hides what else is wrong. */
static size_t fill_tape(struct bed *bed, const struct event *event)
{
    static const struct record_kinds kinds = {
        2, { RISSOBARM_RECORD_STEP, RISSOBARM_RECORD_SUPPLY }, { RISSOBARM_TRACE_RECORD_SIZE, RISSOBARM_TRACE_RECORD_SIZE }
    };
    size_t length = bed->tape.length, at;

    memcpy(bed->beside, bed->tape.bytes, length);
    if (event->a == 0)
        return length;
    length = damage_records(bed->beside, length, TAPE_ROOM, event->a, &kinds);
    for (at = RISSOBARM_TRACE_RECORD_SIZE; event->a % 2 == 0 && at + RISSOBARM_TRACE_RECORD_SIZE <= length;
         at += RISSOBARM_TRACE_RECORD_SIZE)
        put_word_at(bed->beside + at + RISSOBARM_TRACE_STAMP, word_at(bed->beside + at - 2) + 1);
    return length;
}

/* Bytes that mean nothing, as many as were told, or enough. */
static size_t fill_by_chance(struct bed *bed, const struct event *event)
{
    size_t length = bed->further_length == UNTOLD ? enough(event) : bed->further_length, k;

    for (k = 0; k < length; k++)
        bed->beside[k] = filling(bed, k);
    bed->was_short = length < enough(event) && event->kind != RUNS;
    return length;
}

void further_place(struct bed *bed, const struct event *event)
{
    bed->calls++;
    bed->was_short = false;
    if (further_lent(event)) {
        size_t length = event->kind == RESUMES   ? fill_saved(bed, event)
                        : event->kind == REPLAYS ? fill_tape(bed, event)
                                                 : fill_by_chance(bed, event);

        row_place(&bed->further, length, bed->further.standing);
        memcpy(bed->further.bytes, bed->beside, length);
    }
    bed->further_length = UNTOLD;
}

/* ---- after it */

size_t further_written(const struct bed *bed, const struct event *event)
{
    if (!further_lent(event) || further_read(event) || rissobarm_refusal(bed->answer) != RISSOBARM_ACCEPTED)
        return 0;
    if (event->form == LISTED)
        return 2 + 2 * (size_t)word_at(bed->beside);
    if (event->form == TRACED)
        return RISSOBARM_TRACE_RECORD_SIZE * (size_t)(event->kind == RUNS ? rissobarm_steps(bed->answer) : 1);
    if (event->kind == SAVES)
        return rissobarm_saved(bed->answer);
    return rissobarm_values_count(bed->answer) * (size_t)RISSOBARM_VARIABLE_ROW;
}

bool further_right(struct bed *bed, const struct event *event)
{
    size_t k;

    if (!further_lent(event))
        return true;
    if (!row_guarded(&bed->further))
        return bed_fault(bed, "bytes beside the further row were written");
    if (memcmp(bed->further.bytes, bed->beside, bed->further.length) != 0)
        return bed_fault(bed, "the further row differs");
    if (further_written(bed, event) > bed->further.length)
        return bed_fault(bed, "the further row says more than it has room for");
    for (k = further_written(bed, event); k < bed->further.length && !further_read(event); k++)
        if (bed->further.bytes[k] != filling(bed, k))
            return bed_fault(bed, "byte %u of the further row was changed", (unsigned)k);
    return true;
}
