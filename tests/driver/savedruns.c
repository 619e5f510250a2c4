/* Saved runs: the records of tables, and what must hold of a save and a resume. */
#include "further.h"

#include "call.h"

#include <string.h>

/* ---- the records of tables */

static uint8_t *put_row_record(uint8_t *at, unsigned kind, const uint8_t *row, size_t size)
{
    put_word_at(at, (unsigned)size + RISSOBARM_RECORD_HEAD);
    put_word_at(at + 2, kind);
    memcpy(at + RISSOBARM_RECORD_HEAD, row, size);
    return at + RISSOBARM_RECORD_HEAD + size;
}

/* The rows behind the last one are read as zeros. */
static const uint8_t *row_or_zeros(const uint8_t *rows, unsigned number, unsigned limit, size_t size)
{
    static const uint8_t zeros[RISSOBARM_PROCESS_ROW];

    return number < limit ? rows + number * size : zeros;
}

size_t records_of(const struct rows *rows, unsigned image_length, uint8_t *bytes)
{
    uint8_t *at = put_row_record(bytes, RISSOBARM_RECORD_RUN, rows->head, RISSOBARM_HEAD_SIZE);
    unsigned k;

    put_word_at(bytes, RISSOBARM_RUN_RECORD_SIZE);
    put_word_at(at, image_length);
    put_word_at(at + 2, RISSOBARM_SAVED_RULE);
    at += 4;
    for (k = 0; k < process_count(rows) && k <= RISSOBARM_PROCESS_LIMIT; k++)
        at = put_row_record(at, RISSOBARM_RECORD_PROCESS,
                            row_or_zeros(rows->procs, k, RISSOBARM_PROCESS_LIMIT, RISSOBARM_PROCESS_ROW),
                            RISSOBARM_PROCESS_ROW);
    for (k = 0; k < variable_count(rows) && k <= RISSOBARM_VARIABLE_LIMIT; k++)
        at = put_row_record(at, RISSOBARM_RECORD_VARIABLE,
                            row_or_zeros(rows->vars, k, RISSOBARM_VARIABLE_LIMIT, RISSOBARM_VARIABLE_ROW),
                            RISSOBARM_VARIABLE_ROW);
    return (size_t)(at - bytes);
}

/* ---- what holds */

/* A whole saved run is refused for the rows that it is to be taken up in, or because nothing was saved. */
bool whole_let_in(struct bed *bed, const struct event *event)
{
    if (event->kind != RESUMES || event->a != 0 || event->b != 0 || bed->kept.length == 0 || !bed_accepts(bed))
        return true;
    return bed->answer == RISSOBARM_STATE || bed_fault(bed, "a whole saved run is refused %u", rissobarm_refusal(bed->answer));
}

static void keep(struct bed *bed)
{
    bed->kept.length = bed->further.length < sizeof bed->kept.bytes ? bed->further.length : sizeof bed->kept.bytes;
    if (rissobarm_saved(bed->answer) < bed->kept.length)
        bed->kept.length = rissobarm_saved(bed->answer);
    memcpy(bed->kept.bytes, bed->further.bytes, bed->kept.length);
    bed->kept.rows = bed->ours;
    bed->kept.straight = bed->straight;
    bed->kept.changed = bed->changed;
    bed->kept.scattered = bed->scattered;
}

/* Whether rows that are not in use hold zeros. */
static bool zeros_behind(const struct rows *rows)
{
    size_t k;

    for (k = process_count(rows) * RISSOBARM_PROCESS_ROW; k < RISSOBARM_PROCS_SIZE; k++)
        if (rows->procs[k] != 0)
            return false;
    for (k = variable_count(rows) * RISSOBARM_VARIABLE_ROW; k < RISSOBARM_VARS_SIZE; k++)
        if (rows->vars[k] != 0)
            return false;
    return true;
}

/* Whether two runs are the same in their rows in use. */
static bool same_run(const struct rows *left, const struct rows *right)
{
    return memcmp(left->head, right->head, RISSOBARM_HEAD_SIZE) == 0 &&
           memcmp(left->procs, right->procs, process_count(left) * RISSOBARM_PROCESS_ROW) == 0 &&
           memcmp(left->vars, right->vars, variable_count(left) * RISSOBARM_VARIABLE_ROW) == 0;
}

/* What was taken up is saved again as the very records that it came from. */
static bool canonical(struct bed *bed)
{
    static uint8_t again[RISSOBARM_SAVED_SIZE];
    uint64_t answer = call_save(bed, &bed->ours, again, sizeof again);

    if (rissobarm_refusal(answer) != RISSOBARM_ACCEPTED || rissobarm_saved(answer) != bed->further.length)
        return bed_fault(bed, "what was taken up is not saved again");
    return memcmp(again, bed->further.bytes, bed->further.length) == 0 || bed_fault(bed, "saved again, it has other bytes");
}

static bool resume_holds(struct bed *bed, const struct event *event)
{
    const struct rows *from = event->b != 0 ? &bed->before : &bed->kept.rows;

    if (!zeros_behind(&bed->ours))
        return bed_fault(bed, "there are no zeros in a row that is not in use");
    if (event->a == 0 && !same_run(&bed->ours, from))
        return bed_fault(bed, "another run than the one saved");
    if (event->a == 0 && bed->straight && !zeros_behind(from))
        return bed_fault(bed, "a run left something behind its rows");
    return canonical(bed);
}

/* A save has the records of the tables; a resume the run that was saved. */
bool saved_holds(struct bed *bed, const struct event *event)
{
    static uint8_t records[ROW_ROOM];
    size_t length;

    if (event->kind == RESUMES)
        return resume_holds(bed, event);
    length = records_of(&bed->ours, (unsigned)bed->source->length, records);
    if (rissobarm_saved(bed->answer) != length || memcmp(bed->further.bytes, records, length) != 0)
        return bed_fault(bed, "the records saved are not those of the tables");
    keep(bed);
    return true;
}
