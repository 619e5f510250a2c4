/* Traces: a record of ten bytes for each step or supply, and playing them again. */
#include "machine.h"
#include "reference.h"

enum { KIND_STEP = 32, KIND_SUPPLY = 33, RECORD_HEAD = 4, RECORD_SIZE = 10 };

/* ---- recording */

/* A process and its rule, or a goal variable and its value, and the stamp. */
static void put_record(uint8_t *at, unsigned kind, unsigned first, unsigned second, unsigned stamp)
{
    ref_put16(at, RECORD_SIZE);
    ref_put16(at + 2, kind);
    ref_put16(at + 4, first);
    ref_put16(at + 6, second);
    ref_put16(at + 8, stamp);
}

uint64_t reference_step_traced(const uint8_t *image, size_t image_len, uint8_t *head, size_t head_len,
                               uint8_t *procs, size_t procs_len, uint8_t *vars, size_t vars_len,
                               uint8_t *trace, size_t trace_len, uint32_t process, uint16_t stamp)
{
    struct lent lent = { head, head_len, procs, procs_len, vars, vars_len };
    struct tables tables;
    struct move move;
    struct verdict verdict = ref_open_step(image, image_len, &lent, &tables, process, &move);

    if (verdict.refusal == ACCEPTED && trace_len < RECORD_SIZE)
        verdict.refusal = REFUSED_ROOM;
    if (verdict.refusal != ACCEPTED)
        return ref_refused(verdict.refusal, verdict.offset);
    ref_encode(&tables, &lent);
    put_record(trace, KIND_STEP, process, move.rule, stamp);
    return ref_move_answer(move);
}

/* The variable is told as it was asked for, whichever takes the binding. */
uint64_t reference_supply_traced(const uint8_t *image, size_t image_len, uint8_t *head, size_t head_len,
                                 uint8_t *procs, size_t procs_len, uint8_t *vars, size_t vars_len,
                                 uint8_t *trace, size_t trace_len, uint32_t variable, uint32_t value, uint16_t stamp)
{
    struct lent lent = { head, head_len, procs, procs_len, vars, vars_len };
    struct program program;
    struct tables tables;
    struct verdict verdict = ref_open(image, image_len, &lent, &program, &tables);
    uint32_t taken;

    if (verdict.refusal == ACCEPTED)
        verdict.refusal = ref_supply(&program, &tables, variable, value, &taken);
    if (verdict.refusal == ACCEPTED && trace_len < RECORD_SIZE)
        verdict.refusal = REFUSED_ROOM;
    if (verdict.refusal != ACCEPTED)
        return ref_refused(verdict.refusal, verdict.offset);
    ref_encode(&tables, &lent);
    put_record(trace, KIND_SUPPLY, variable, value, stamp);
    return ref_accepted(0, 0, 0);
}

/* The row bounds the moves as the limit does. */
uint64_t reference_run_traced(const uint8_t *image, size_t image_len, uint8_t *head, size_t head_len,
                              uint8_t *procs, size_t procs_len, uint8_t *vars, size_t vars_len,
                              uint8_t *trace, size_t trace_len, uint16_t limit, uint16_t stamp)
{
    struct lent lent = { head, head_len, procs, procs_len, vars, vars_len };
    struct program program;
    struct tables tables;
    struct verdict verdict = ref_open(image, image_len, &lent, &program, &tables);
    unsigned most = trace_len / RECORD_SIZE < limit ? (unsigned)(trace_len / RECORD_SIZE) : limit;
    unsigned end, number, made;

    if (verdict.refusal != ACCEPTED)
        return ref_refused(verdict.refusal, verdict.offset);
    for (made = 0; (end = ref_end(&program, &tables, made == most, &number)) == END_NONE; made++) {
        struct move move = ref_step(&program, &tables, number);

        if (move.refusal != ACCEPTED) {
            end = END_ROOM;
            break;
        }
        put_record(trace + made * RECORD_SIZE, KIND_STEP, number, move.rule, stamp + made);
    }
    ref_encode(&tables, &lent);
    return ref_accepted(end, 0, made);
}

/* ---- playing again */

static struct verdict verdict_at(unsigned refusal, size_t offset)
{
    struct verdict verdict = { refusal, offset };

    return verdict;
}

static unsigned test_record(const uint8_t *left, size_t left_len)
{
    unsigned length, kind;

    if (left_len < RECORD_HEAD)
        return REFUSED_CUT;
    length = ref_get16(left);
    if (length < RECORD_HEAD || length > left_len)
        return REFUSED_CUT;
    kind = ref_get16(left + 2);
    if (kind != KIND_STEP && kind != KIND_SUPPLY)
        return REFUSED_KIND;
    return length == RECORD_SIZE ? ACCEPTED : REFUSED_BODY;
}

/* All records first, then all stamps: a cut at the end counts before a gap in front of it. */
static struct verdict test_trace(const uint8_t *trace, size_t trace_len)
{
    unsigned refusal;
    size_t at;

    for (at = 0; at < trace_len; at += RECORD_SIZE) {
        refusal = test_record(trace + at, trace_len - at);
        if (refusal != ACCEPTED)
            return verdict_at(refusal, at);
    }
    for (at = RECORD_SIZE; at < trace_len; at += RECORD_SIZE) {
        uint16_t before = ref_get16(trace + at - 2), now = ref_get16(trace + at + RECORD_SIZE - 2);

        if (now != (uint16_t)(before + 1))
            return verdict_at(REFUSED_GAP, at);
    }
    return verdict_at(ACCEPTED, 0);
}

/* Does what a record tells; false, with nothing done, where that is refused or is another rule. */
static bool play(const struct program *p, struct tables *t, const uint8_t *record)
{
    unsigned first = ref_get16(record + 4), second = ref_get16(record + 6);
    uint32_t taken;

    if (ref_get16(record + 2) == KIND_SUPPLY)
        return ref_supply(p, t, first, second, &taken) == ACCEPTED;
    return first < t->process_count && ref_rule(p, t, first) == second && ref_step(p, t, first).refusal == ACCEPTED;
}

/* Offsets and counts have 32 bits; a higher one is told as the highest. */
static uint32_t told(size_t number)
{
    return number < UINT32_MAX ? (uint32_t)number : UINT32_MAX;
}

uint64_t reference_replay(const uint8_t *image, size_t image_len, uint8_t *head, size_t head_len,
                          uint8_t *procs, size_t procs_len, uint8_t *vars, size_t vars_len,
                          const uint8_t *trace, size_t trace_len)
{
    struct lent lent = { head, head_len, procs, procs_len, vars, vars_len };
    struct program program;
    struct tables tables;
    struct verdict verdict = ref_open(image, image_len, &lent, &program, &tables);
    size_t at;

    if (verdict.refusal == ACCEPTED)
        verdict = test_trace(trace, trace_len);
    if (verdict.refusal != ACCEPTED)
        return ref_refused(verdict.refusal, told(verdict.offset));
    for (at = 0; at < trace_len; at += RECORD_SIZE)
        if (!play(&program, &tables, trace + at))
            break;
    ref_encode(&tables, &lent); /* also as far as it came before a record that disagrees */
    if (at < trace_len)
        return ref_refused(REFUSED_DISAGREES, told(at));
    return ref_accepted(0, 0, told(trace_len / RECORD_SIZE));
}
