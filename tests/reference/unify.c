/* Values, and unifying two terms with the changes kept in order. */
#include "machine.h"

/* A program's term in a run: variables count on from the first one of the block. */
struct term ref_in_run(struct term term, unsigned first)
{
    if (term.sort == VARIABLE)
        term.number += first;
    return term;
}

/* What a variable is bound to, the unifier's own changes first. */
static struct term binding(const struct unifier *unifier, uint32_t variable)
{
    unsigned k;

    for (k = 0; k < unifier->count; k++)
        if (unifier->changes[k].variable == variable)
            return unifier->changes[k].value;
    return unifier->tables->variables[variable];
}

/* Follows bindings down to a constant or an unbound variable; each leads to a lower number, so this ends. */
static struct term value_under(const struct unifier *unifier, struct term term)
{
    while (term.sort == VARIABLE) {
        struct term next = binding(unifier, term.number);

        if (next.sort == UNBOUND)
            return term;
        term = next;
    }
    return term;
}

struct term ref_value(const struct tables *tables, struct term term)
{
    struct unifier unchanged = { tables, 0, { { 0, { UNBOUND, 0 } } } };

    return value_under(&unchanged, term);
}

/* Adds at most one change; false when two different constants meet. */
bool ref_unify(struct unifier *unifier, struct term left, struct term right)
{
    struct term low = value_under(unifier, left);
    struct term high = value_under(unifier, right);
    struct change *change = &unifier->changes[unifier->count];

    if (low.sort == CONSTANT && high.sort == CONSTANT)
        return low.number == high.number;
    if (low.sort == high.sort && low.number == high.number)
        return true;
    /* the side to be bound is high: the variable of a mixed pair, the higher number of two variables */
    if (high.sort == CONSTANT || (low.sort == VARIABLE && low.number > high.number)) {
        struct term swapped = low;

        low = high;
        high = swapped;
    }
    change->variable = high.number;
    change->value = low;
    unifier->count++;
    return true;
}
