/* Step, turn and supply with a list of the variables bound: a count and a number each, of two bytes. */
#include "machine.h"
#include "reference.h"

/* Writes the tables and the list, unless the row is too short: then nothing. */
static bool put_bound(const struct tables *tables, const struct lent *lent, const uint32_t *variables, unsigned count,
                      uint8_t *bound, size_t bound_len)
{
    unsigned k;

    if (bound_len < 2 + 2 * (size_t)count)
        return false;
    ref_encode(tables, lent);
    ref_put16(bound, count);
    for (k = 0; k < count; k++)
        ref_put16(bound + 2 + 2 * k, variables[k]);
    return true;
}

/* The answer of the plain call, or a refusal for want of room in the row. */
static uint64_t move_bound(const struct program *p, struct tables *t, const struct lent *lent, unsigned number,
                           uint8_t *bound, size_t bound_len)
{
    struct move move = ref_step(p, t, number);

    if (move.refusal == ACCEPTED && !put_bound(t, lent, move.bound, move.bound_count, bound, bound_len))
        move.refusal = REFUSED_ROOM;
    return ref_move_answer(move);
}

uint64_t reference_step_bound(const uint8_t *image, size_t image_len, uint8_t *head, size_t head_len,
                              uint8_t *procs, size_t procs_len, uint8_t *vars, size_t vars_len,
                              uint8_t *bound, size_t bound_len, uint32_t process)
{
    struct lent lent = { head, head_len, procs, procs_len, vars, vars_len };
    struct program program;
    struct tables tables;
    struct verdict verdict = ref_open(image, image_len, &lent, &program, &tables);

    if (verdict.refusal != ACCEPTED)
        return ref_refused(verdict.refusal, verdict.offset);
    if (process >= tables.process_count)
        return ref_refused(REFUSED_NODE, 0);
    return move_bound(&program, &tables, &lent, process, bound, bound_len);
}

uint64_t reference_turn_bound(const uint8_t *image, size_t image_len, uint8_t *head, size_t head_len,
                              uint8_t *procs, size_t procs_len, uint8_t *vars, size_t vars_len,
                              uint8_t *bound, size_t bound_len)
{
    struct lent lent = { head, head_len, procs, procs_len, vars, vars_len };
    struct program program;
    struct tables tables;
    struct verdict verdict = ref_open(image, image_len, &lent, &program, &tables);
    unsigned number;

    if (verdict.refusal != ACCEPTED)
        return ref_refused(verdict.refusal, verdict.offset);
    if (!ref_next_in_turn(&program, &tables, &number))
        return ref_refused(REFUSED_STILL, 0);
    return move_bound(&program, &tables, &lent, number, bound, bound_len);
}

/* The list names the variable that takes the binding, not the one that was asked for. */
uint64_t reference_supply_bound(const uint8_t *image, size_t image_len, uint8_t *head, size_t head_len,
                                uint8_t *procs, size_t procs_len, uint8_t *vars, size_t vars_len,
                                uint8_t *bound, size_t bound_len, uint32_t variable, uint32_t value)
{
    struct lent lent = { head, head_len, procs, procs_len, vars, vars_len };
    struct program program;
    struct tables tables;
    struct verdict verdict = ref_open(image, image_len, &lent, &program, &tables);
    uint32_t taken;

    if (verdict.refusal == ACCEPTED)
        verdict.refusal = ref_supply(&program, &tables, variable, value, &taken);
    if (verdict.refusal != ACCEPTED)
        return ref_refused(verdict.refusal, verdict.offset);
    if (!put_bound(&tables, &lent, &taken, 1, bound, bound_len))
        return ref_refused(REFUSED_ROOM, 0);
    return ref_accepted(0, 0, 0);
}
