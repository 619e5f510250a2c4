/* The calls on a run: step, turn, run, supply, value, values, watch. */
#include "machine.h"
#include "reference.h"

/* Tests image and tables and decodes both; offset 0 goes with a refusal for the tables. */
struct verdict ref_open(const uint8_t *image, size_t image_len, const struct lent *lent, struct program *program,
                        struct tables *tables)
{
    struct verdict verdict = ref_load(image, image_len, program);

    if (verdict.refusal != ACCEPTED)
        return verdict;
    verdict.offset = 0;
    verdict.refusal = REFUSED_STATE;
    if (!ref_full_size(lent))
        return verdict;
    ref_decode(lent, tables);
    if (ref_keeps_rules(program, tables))
        verdict.refusal = ACCEPTED;
    return verdict;
}

/* Moves a process and, where that is not refused, sets the turn marker. */
struct move ref_step(const struct program *p, struct tables *t, unsigned number)
{
    struct move move = ref_move(p, t, number);

    if (move.refusal == ACCEPTED) {
        t->last = number;
        if (t->steps < UINT32_MAX)
            t->steps++;
    }
    return move;
}

/* The first process that can move after the one last stepped, that one being tried last; false if there is none. */
bool ref_next_in_turn(const struct program *p, const struct tables *t, unsigned *number)
{
    unsigned k;

    for (k = 1; k <= t->process_count; k++) {
        *number = (t->last + k) % t->process_count;
        if (ref_rule(p, t, *number) != NO_RULE)
            return true;
    }
    return false;
}

uint64_t ref_move_answer(struct move move)
{
    if (move.refusal != ACCEPTED)
        return ref_refused(move.refusal, 0);
    return ref_accepted(move.rule, move.touches_variable ? 1 : 0, move.touched);
}

struct verdict ref_open_step(const uint8_t *image, size_t image_len, const struct lent *lent, struct tables *tables,
                             uint32_t process, struct move *move)
{
    struct program program;
    struct verdict verdict = ref_open(image, image_len, lent, &program, tables);

    if (verdict.refusal == ACCEPTED && process >= tables->process_count)
        verdict.refusal = REFUSED_NODE;
    if (verdict.refusal == ACCEPTED) {
        *move = ref_step(&program, tables, process);
        verdict.refusal = move->refusal;
    }
    return verdict;
}

uint64_t reference_step(const uint8_t *image, size_t image_len, uint8_t *head, size_t head_len,
                        uint8_t *procs, size_t procs_len, uint8_t *vars, size_t vars_len,
                        uint32_t process)
{
    struct lent lent = { head, head_len, procs, procs_len, vars, vars_len };
    struct tables tables;
    struct move move;
    struct verdict verdict = ref_open_step(image, image_len, &lent, &tables, process, &move);

    if (verdict.refusal != ACCEPTED)
        return ref_refused(verdict.refusal, verdict.offset);
    ref_encode(&tables, &lent);
    return ref_move_answer(move);
}

uint64_t reference_turn(const uint8_t *image, size_t image_len, uint8_t *head, size_t head_len,
                        uint8_t *procs, size_t procs_len, uint8_t *vars, size_t vars_len)
{
    struct lent lent = { head, head_len, procs, procs_len, vars, vars_len };
    struct program program;
    struct tables tables;
    struct verdict verdict = ref_open(image, image_len, &lent, &program, &tables);
    struct move move;
    unsigned number;

    if (verdict.refusal != ACCEPTED)
        return ref_refused(verdict.refusal, verdict.offset);
    if (!ref_next_in_turn(&program, &tables, &number))
        return ref_refused(REFUSED_STILL, 0);
    move = ref_step(&program, &tables, number);
    if (move.refusal == ACCEPTED)
        ref_encode(&tables, &lent);
    return ref_move_answer(move);
}

/* The end that a run has come to before its next step; END_NONE where it goes on, and number is whose turn it is. */
unsigned ref_end(const struct program *p, const struct tables *t, bool used_up, unsigned *number)
{
    const struct process *root = &t->processes[0];

    if (root->mode == DORMANT)
        return root->result == SUCCESS ? END_SUCCESS : END_FAILURE;
    if (!ref_next_in_turn(p, t, number))
        return END_WAITING;
    return used_up ? END_BUDGET : END_NONE;
}

/* Turns until an end; made counts the moves. */
static unsigned run_to_end(const struct program *p, struct tables *t, unsigned limit, unsigned *made)
{
    unsigned number, end;

    for (*made = 0;; ++*made) {
        end = ref_end(p, t, *made == limit, &number);
        if (end != END_NONE)
            return end;
        if (ref_step(p, t, number).refusal != ACCEPTED)
            return END_ROOM;
    }
}

uint64_t reference_run(const uint8_t *image, size_t image_len, uint8_t *head, size_t head_len,
                       uint8_t *procs, size_t procs_len, uint8_t *vars, size_t vars_len,
                       uint16_t limit)
{
    struct lent lent = { head, head_len, procs, procs_len, vars, vars_len };
    struct program program;
    struct tables tables;
    struct verdict verdict = ref_open(image, image_len, &lent, &program, &tables);
    unsigned end, made;

    if (verdict.refusal != ACCEPTED)
        return ref_refused(verdict.refusal, verdict.offset);
    end = run_to_end(&program, &tables, limit, &made);
    ref_encode(&tables, &lent);
    return ref_accepted(end, 0, made);
}

static struct term variable_value(const struct tables *t, uint32_t variable)
{
    struct term term = { VARIABLE, variable };

    return ref_value(t, term);
}

/* Binds the value of a goal variable to a constant; the refusal, and which variable took the binding. */
unsigned ref_supply(const struct program *p, struct tables *t, uint32_t variable, uint32_t value, uint32_t *bound)
{
    struct term constant = { CONSTANT, value };
    struct term open;

    if (variable >= p->goal_variables)
        return REFUSED_NOVAR;
    if (value > CONSTANT_LIMIT)
        return REFUSED_CONST;
    open = variable_value(t, variable);
    if (open.sort == CONSTANT)
        return REFUSED_BOUND;
    *bound = open.number;
    t->variables[open.number] = constant;
    return ACCEPTED;
}

uint64_t reference_supply(const uint8_t *image, size_t image_len, uint8_t *head, size_t head_len,
                          uint8_t *procs, size_t procs_len, uint8_t *vars, size_t vars_len,
                          uint32_t variable, uint32_t value)
{
    struct lent lent = { head, head_len, procs, procs_len, vars, vars_len };
    struct program program;
    struct tables tables;
    struct verdict verdict = ref_open(image, image_len, &lent, &program, &tables);
    uint32_t bound;

    if (verdict.refusal == ACCEPTED)
        verdict.refusal = ref_supply(&program, &tables, variable, value, &bound);
    if (verdict.refusal != ACCEPTED)
        return ref_refused(verdict.refusal, verdict.offset);
    ref_encode(&tables, &lent);
    return ref_accepted(0, 0, 0);
}

uint64_t reference_value(const uint8_t *image, size_t image_len, uint8_t *head, size_t head_len,
                         uint8_t *procs, size_t procs_len, uint8_t *vars, size_t vars_len,
                         uint32_t variable)
{
    struct lent lent = { head, head_len, procs, procs_len, vars, vars_len };
    struct program program;
    struct tables tables;
    struct verdict verdict = ref_open(image, image_len, &lent, &program, &tables);
    struct term value;

    if (verdict.refusal != ACCEPTED)
        return ref_refused(verdict.refusal, verdict.offset);
    if (variable >= program.goal_variables)
        return ref_refused(REFUSED_NOVAR, 0);
    value = variable_value(&tables, variable);
    return ref_accepted(value.sort, 0, value.number);
}

uint64_t reference_values(const uint8_t *image, size_t image_len, uint8_t *head, size_t head_len,
                          uint8_t *procs, size_t procs_len, uint8_t *vars, size_t vars_len,
                          uint8_t *values, size_t values_len)
{
    struct lent lent = { head, head_len, procs, procs_len, vars, vars_len };
    struct program program;
    struct tables tables;
    struct verdict verdict = ref_open(image, image_len, &lent, &program, &tables);
    unsigned k;

    if (verdict.refusal != ACCEPTED)
        return ref_refused(verdict.refusal, verdict.offset);
    if (values_len < program.goal_variables * (size_t)REFERENCE_VARIABLE_ROW)
        return ref_refused(REFUSED_ROOM, 0);
    for (k = 0; k < program.goal_variables; k++)
        ref_encode_variable(variable_value(&tables, k), values + k * REFERENCE_VARIABLE_ROW);
    return ref_accepted(0, 0, program.goal_variables);
}

/* Looks at the mode byte alone, since any row will do. */
uint64_t reference_watch(const uint8_t *procs, size_t procs_len)
{
    size_t rows = procs_len / REFERENCE_PROCESS_ROW, k;

    for (k = 0; k < rows; k++)
        if (procs[k * REFERENCE_PROCESS_ROW + 1] == SUSPENDED)
            return ref_accepted(1, 0, (uint32_t)k);
    return ref_accepted(0, 0, 0);
}
