/* The two sides take the same numbers; they differ in where their rows stand. */
#include "call.h"

#include "random.h"
#include "reference.h"

#include <string.h>

#define OURS(bed) \
    (bed)->source->bytes, (bed)->source->length, (bed)->ours.head, (bed)->sizes[THE_HEAD], (bed)->ours.procs, \
        (bed)->sizes[THE_PROCS], (bed)->ours.vars, (bed)->sizes[THE_VARS]

#define OUR_FURTHER(bed) (bed)->beside, (bed)->further.length
#define THEIR_FURTHER(bed) (bed)->further.bytes, (bed)->further.length

#define ROW(bed, row) row_of_length(&(bed)->lent[row], (bed)->sizes[row]), (bed)->sizes[row]

#define THEIRS(bed) \
    (bed)->image.bytes, (bed)->image.length, ROW(bed, THE_HEAD), ROW(bed, THE_PROCS), ROW(bed, THE_VARS)

/* Rows by chance, few of them suspended, so that the first one can stand far behind. */
static const uint8_t *wide_rows(const struct event *event)
{
    static uint8_t rows[WIDEST];
    struct random random = { event->b };
    unsigned seldom = random_below(&random, 2000);
    uint32_t k;

    for (k = 0; k < event->a; k++)
        rows[k] = (uint8_t)random_bits(&random);
    for (k = RISSOBARM_ROW_MODE; k < event->a; k += RISSOBARM_PROCESS_ROW)
        if (rows[k] < 64 || rows[k] == RISSOBARM_MODE_SUSPENDED)
            rows[k] = random_below(&random, seldom + 1) == 0 ? RISSOBARM_MODE_SUSPENDED : RISSOBARM_MODE_SUSPENDED + 1;
    return rows;
}

static uint64_t watch_archive(struct bed *bed, const struct event *event)
{
    uint64_t answer;

    if (event->b == 0)
        return rissobarm_watch(bed->lent[THE_PROCS].bytes, event->a);
    row_place(&bed->wide, event->a, bed->wide.standing);
    memcpy(bed->wide.bytes, wide_rows(event), event->a);
    answer = rissobarm_watch(bed->wide.bytes, event->a);
    return memcmp(bed->wide.bytes, wide_rows(event), event->a) == 0 ? answer : UINT64_MAX;
}

/* The calls with a list of the variables bound. */
static uint64_t list_reference(struct bed *bed, const struct event *event)
{
    if (event->kind == STEPS)
        return reference_step_bound(OURS(bed), OUR_FURTHER(bed), event->a);
    if (event->kind == TURNS)
        return reference_turn_bound(OURS(bed), OUR_FURTHER(bed));
    return reference_supply_bound(OURS(bed), OUR_FURTHER(bed), event->a, event->b);
}

static uint64_t list_archive(struct bed *bed, const struct event *event)
{
    if (event->kind == STEPS)
        return rissobarm_step_bound(THEIRS(bed), THEIR_FURTHER(bed), event->a);
    if (event->kind == TURNS)
        return rissobarm_turn_bound(THEIRS(bed), THEIR_FURTHER(bed));
    return rissobarm_supply_bound(THEIRS(bed), THEIR_FURTHER(bed), event->a, event->b);
}

/* The calls with a record. */
static uint64_t trace_reference(struct bed *bed, const struct event *event)
{
    if (event->kind == STEPS)
        return reference_step_traced(OURS(bed), OUR_FURTHER(bed), event->a, bed->tape.stamp);
    if (event->kind == RUNS)
        return reference_run_traced(OURS(bed), OUR_FURTHER(bed), (uint16_t)event->a, bed->tape.stamp);
    return reference_supply_traced(OURS(bed), OUR_FURTHER(bed), event->a, event->b, bed->tape.stamp);
}

static uint64_t trace_archive(struct bed *bed, const struct event *event)
{
    if (event->kind == STEPS)
        return rissobarm_step_traced(THEIRS(bed), THEIR_FURTHER(bed), event->a, bed->tape.stamp);
    if (event->kind == RUNS)
        return rissobarm_run_traced(THEIRS(bed), THEIR_FURTHER(bed), (uint16_t)event->a, bed->tape.stamp);
    return rissobarm_supply_traced(THEIRS(bed), THEIR_FURTHER(bed), event->a, event->b, bed->tape.stamp);
}

uint64_t call_reference(struct bed *bed, const struct event *event)
{
    if (event->form != PLAIN)
        return event->form == LISTED ? list_reference(bed, event) : trace_reference(bed, event);
    switch (event->kind) {
    case LOADS:
        return reference_load(bed->source->bytes, bed->source->length);
    case STARTS:
        return reference_start(OURS(bed));
    case STEPS:
        return reference_step(OURS(bed), event->a);
    case TURNS:
        return reference_turn(OURS(bed));
    case RUNS:
        return reference_run(OURS(bed), (uint16_t)event->a);
    case SUPPLIES:
        return reference_supply(OURS(bed), event->a, event->b);
    case VALUES:
        return reference_value(OURS(bed), event->a);
    case ALL_VALUES:
        return reference_values(OURS(bed), OUR_FURTHER(bed));
    case SAVES:
        return reference_save(OURS(bed), OUR_FURTHER(bed));
    case RESUMES:
        return reference_resume(OURS(bed), OUR_FURTHER(bed));
    case REPLAYS:
        return reference_replay(OURS(bed), OUR_FURTHER(bed));
    default: /* WATCHES */
        return reference_watch(event->b == 0 ? bed->ours.procs : wide_rows(event), event->a);
    }
}

uint64_t call_archive(struct bed *bed, const struct event *event)
{
    if (event->form != PLAIN)
        return event->form == LISTED ? list_archive(bed, event) : trace_archive(bed, event);
    switch (event->kind) {
    case LOADS:
        return rissobarm_load(bed->image.bytes, bed->image.length);
    case STARTS:
        return rissobarm_start(THEIRS(bed));
    case STEPS:
        return rissobarm_step(THEIRS(bed), event->a);
    case TURNS:
        return rissobarm_turn(THEIRS(bed));
    case RUNS:
        return rissobarm_run(THEIRS(bed), (uint16_t)event->a);
    case SUPPLIES:
        return rissobarm_supply(THEIRS(bed), event->a, event->b);
    case VALUES:
        return rissobarm_value(THEIRS(bed), event->a);
    case ALL_VALUES:
        return rissobarm_values(THEIRS(bed), THEIR_FURTHER(bed));
    case SAVES:
        return rissobarm_save(THEIRS(bed), THEIR_FURTHER(bed));
    case RESUMES:
        return rissobarm_resume(THEIRS(bed), THEIR_FURTHER(bed));
    case REPLAYS:
        return rissobarm_replay(THEIRS(bed), THEIR_FURTHER(bed));
    default: /* WATCHES */
        return watch_archive(bed, event);
    }
}

#define BESIDE(bed, rows) \
    (bed)->image.bytes, (bed)->image.length, (rows)->head, RISSOBARM_HEAD_SIZE, (rows)->procs, RISSOBARM_PROCS_SIZE, \
        (rows)->vars, RISSOBARM_VARS_SIZE

uint64_t call_turn(const struct bed *bed, struct rows *rows)
{
    return rissobarm_turn(BESIDE(bed, rows));
}

uint64_t call_plain(const struct bed *bed, const struct event *event, struct rows *rows)
{
    if (event->kind == STEPS)
        return rissobarm_step(BESIDE(bed, rows), event->a);
    if (event->kind == TURNS)
        return call_turn(bed, rows);
    return rissobarm_supply(BESIDE(bed, rows), event->a, event->b);
}

uint64_t call_value(const struct bed *bed, uint32_t variable)
{
    return rissobarm_value(THEIRS(bed), variable);
}

uint64_t call_save(const struct bed *bed, struct rows *rows, uint8_t *saved, size_t length)
{
    return rissobarm_save(BESIDE(bed, rows), saved, length);
}
