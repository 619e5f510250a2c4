/* What a PARLOG text means: names become numbers, lines become records, each tested as the image grows. */
#include "machine.h"
#include "reference.h"
#include "text.h"

#include <stdlib.h>
#include <string.h>

/* No accepted image has more bytes, and none more terms, than its records at their limits. */
enum {
    GOAL_MOST = 1 + STAGE_LIMIT + LITERAL_LIMIT * (2 + 2 * ARITY_LIMIT),
    CLAUSE_MOST = 8 + 2 * ARITY_LIMIT + 2 * GOAL_MOST,
    IMAGE_MOST = RELATION_LIMIT * (5 + ARITY_LIMIT) + CLAUSE_LIMIT * CLAUSE_MOST + 5 + GOAL_MOST,
    TERMS_MOST = CLAUSE_LIMIT * ARITY_LIMIT * (1 + 2 * LITERAL_LIMIT) + ARITY_LIMIT * LITERAL_LIMIT
};

enum { CONSTANT_SLOTS = 16384, RELATION_SLOTS = 128 };

/* Names found by their spelling: a slot holds a number and one more, 0 when it is free. At most half of the slots are taken. */
struct names {
    struct spelt *names;
    size_t count;
    uint32_t *slots;
    size_t slot_count; /* a power of two */
};

/* The image in the making, with what the tests of the records remember. */
struct making {
    const struct part *part; /* the next one */
    struct names relations;
    struct names constants;
    struct names variables; /* of this clause or goal */
    unsigned arity[RELATION_LIMIT];
    unsigned clauses;
    unsigned before;   /* relation of the clause before */
    bool closed;       /* that one ended in `;` */
    unsigned in_block; /* clauses in its block */
    uint8_t image[IMAGE_MOST];
    size_t length;
};

/* ---- names ---- */

static bool same_name(struct spelt a, struct spelt b)
{
    return a.length == b.length && memcmp(a.at, b.at, a.length) == 0;
}

/* The slot of a name, or the free one where it would go. */
static uint32_t *slot_of(const struct names *n, struct spelt name)
{
    uint32_t hash = 2166136261u;
    size_t k;

    for (k = 0; k < name.length; k++)
        hash = (hash ^ name.at[k]) * 16777619u;
    for (k = (hash ^ hash >> 15) & (n->slot_count - 1);; k = (k + 1) & (n->slot_count - 1))
        if (n->slots[k] == 0 || same_name(n->names[n->slots[k] - 1], name))
            return &n->slots[k];
}

/* The number of a name, which is entered if it is new. */
static size_t number_of(struct names *n, struct spelt name)
{
    uint32_t *slot = slot_of(n, name);

    if (*slot == 0) {
        n->names[n->count++] = name;
        *slot = (uint32_t)n->count;
    }
    return *slot - 1;
}

/* ---- 17: relations without a mode line ---- */

static bool is_name_of_relation(const struct part *part)
{
    return part->kind == HEAD || part->kind == CALL;
}

/* Fills in every name with a mode line, however many there are. */
static void declare(const struct parts *parts, struct names *declared)
{
    size_t modes = 0, k;

    for (k = 0; k < parts->count; k++)
        modes += parts->all[k].kind == MODE;
    declared->count = 0;
    declared->slot_count = RELATION_SLOTS;
    while (declared->slot_count < 2 * modes)
        declared->slot_count *= 2;
    declared->names = calloc(modes + 1, sizeof *declared->names);
    declared->slots = calloc(declared->slot_count, sizeof *declared->slots);
    if (declared->names == NULL || declared->slots == NULL)
        abort();
    for (k = 0; k < parts->count; k++)
        if (parts->all[k].kind == MODE)
            number_of(declared, parts->all[k].name);
}

static bool all_declared(const struct parts *parts)
{
    struct names declared;
    bool all = true;
    size_t k;

    declare(parts, &declared);
    for (k = 0; k < parts->count && all; k++)
        if (is_name_of_relation(&parts->all[k]))
            all = *slot_of(&declared, parts->all[k].name) != 0;
    free(declared.names);
    free(declared.slots);
    return all;
}

/* ---- 4: counts out of their ranges, over the parts of one line ---- */

static bool is_term(const struct part *part)
{
    return part->kind == CONSTANT_TERM || part->kind == VARIABLE_TERM;
}

static bool ends_line(const struct part *part)
{
    return part->kind == STOP || part->kind == NEXT;
}

/* How many terms stand here. */
static size_t terms_here(const struct part *part)
{
    size_t count = 0;

    while (is_term(&part[count]))
        count++;
    return count;
}

/* Enters the variables of a line by first appearance; false at the 17th, which is not entered. */
static bool enter_variables(struct names *variables, const struct part *part)
{
    size_t k;

    variables->count = 0;
    for (; !ends_line(part); part++) {
        if (part->kind != VARIABLE_TERM)
            continue;
        for (k = 0; k < variables->count; k++)
            if (same_name(variables->names[k], part->name))
                break;
        if (k == OWN_LIMIT)
            return false;
        if (k == variables->count)
            variables->names[variables->count++] = part->name;
    }
    return true;
}

/* Stages and literals of the goal that begins here. */
static bool goal_in_range(const struct part *part)
{
    size_t stages = 0, literals = 0;

    for (; !ends_line(part) && part->kind != COLON; part++) {
        if (part->kind == STAGE)
            stages++;
        else if (!is_term(part))
            literals++;
    }
    return stages < STAGE_LIMIT && literals <= LITERAL_LIMIT;
}

/* Every head and call has at most four terms, and guard, body and goal the stages and literals that they may have. */
static bool line_in_range(const struct part *part)
{
    for (; !ends_line(part); part++) {
        bool begins = part->kind == HEAD || part->kind == COLON || part->kind == GOAL;
        const struct part *goal = part + 1;

        if ((part->kind == HEAD || part->kind == CALL) && terms_here(part + 1) > ARITY_LIMIT)
            return false;
        if (part->kind == HEAD)
            goal += terms_here(goal);
        if (begins && !goal_in_range(goal))
            return false;
    }
    return true;
}

/* ---- records ---- */

static void put(struct making *m, size_t byte)
{
    m->image[m->length++] = (uint8_t)byte;
}

static void put_word(struct making *m, size_t word)
{
    put(m, word % 256);
    put(m, word / 256);
}

static size_t record_begin(struct making *m, unsigned kind)
{
    size_t start = m->length;

    put_word(m, 0);
    put_word(m, kind);
    return start;
}

static void record_end(struct making *m, size_t start)
{
    m->image[start] = (uint8_t)((m->length - start) % 256);
    m->image[start + 1] = (uint8_t)((m->length - start) / 256);
}

static void put_terms(struct making *m)
{
    size_t k;

    for (; is_term(m->part); m->part++) {
        if (m->part->kind == CONSTANT_TERM) {
            put_word(m, number_of(&m->constants, m->part->name));
            continue;
        }
        for (k = 0; !same_name(m->variables.names[k], m->part->name); k++)
            ;
        put_word(m, CONSTANT_LIMIT + 1 + k);
    }
}

/* A call or an equality; false where the arity is not the relation's. */
static bool put_literal(struct making *m)
{
    size_t arity = terms_here(m->part + 1), relation = EQUALITY;
    bool right = true;

    if (m->part->kind == CALL) {
        relation = number_of(&m->relations, m->part->name);
        right = m->arity[relation] == arity;
    }
    m->part++;
    put(m, relation);
    put(m, arity);
    put_terms(m);
    return right;
}

/* Literals as far as the goal goes; the counts are put in as they grow. */
static bool put_goal(struct making *m)
{
    size_t stages = m->length, literals = 0;
    bool right = true;

    put(m, 0);
    while (!ends_line(m->part) && m->part->kind != COLON) {
        if (literals == 0 || m->part->kind == STAGE) {
            m->part += m->part->kind == STAGE;
            m->image[stages]++;
            literals = m->length;
            put(m, 0);
        }
        m->image[literals]++;
        right = put_literal(m) && right;
    }
    return right;
}

/* Whether a guard stands here: literals with a colon behind them. */
static bool has_guard(const struct part *part)
{
    while (!ends_line(part) && part->kind != COLON)
        part++;
    return part->kind == COLON;
}

/* ---- the three kinds of lines, each with its tests in their order ---- */

static unsigned make_relation(struct making *m)
{
    size_t start, marks = 0, relation = m->relations.count, k;

    if (relation == RELATION_LIMIT)
        return REFUSED_MANY;
    while (!ends_line(&m->part[1 + marks]))
        marks++;
    if (marks > ARITY_LIMIT)
        return REFUSED_BODY;
    if (number_of(&m->relations, m->part->name) != relation)
        return REFUSED_NAME;
    m->arity[relation] = (unsigned)marks;
    start = record_begin(m, 1);
    put(m, marks);
    for (k = 1; k <= marks; k++)
        put(m, m->part[k].kind == OUTPUT);
    record_end(m, start);
    m->part += marks + 2;
    return ACCEPTED;
}

/* The fields of a clause that has passed 6 and 4; false where a name is wrong. */
static bool put_clause(struct making *m, size_t relation, bool mark)
{
    size_t start = record_begin(m, 2), arity = terms_here(m->part + 1);
    bool right = m->arity[relation] == arity && (m->clauses == 0 || relation >= m->before);

    m->part++;
    put(m, relation);
    put(m, arity);
    put(m, mark);
    put(m, m->variables.count);
    put_terms(m);
    if (has_guard(m->part)) {
        right = put_goal(m) && right;
        m->part++;
    } else {
        put(m, 0);
    }
    right = put_goal(m) && right;
    record_end(m, start);
    return right;
}

static unsigned make_clause(struct making *m)
{
    size_t relation = number_of(&m->relations, m->part->name);
    bool same = m->clauses > 0 && relation == m->before, mark = same && m->closed;

    if (m->clauses == CLAUSE_LIMIT)
        return REFUSED_MANY;
    if (!line_in_range(m->part) || !enter_variables(&m->variables, m->part))
        return REFUSED_BODY;
    if (!put_clause(m, relation, mark))
        return REFUSED_NAME;
    m->in_block = same && !mark ? m->in_block + 1 : 1;
    if (m->in_block > BLOCK_LIMIT)
        return REFUSED_MANY;
    m->clauses++;
    m->before = (unsigned)relation;
    m->closed = m->part->kind == NEXT;
    m->part++;
    return ACCEPTED;
}

static unsigned make_goal(struct making *m)
{
    size_t start;
    bool right;

    if (!line_in_range(m->part) || !enter_variables(&m->variables, m->part))
        return REFUSED_BODY;
    start = record_begin(m, 3);
    put(m, m->variables.count);
    m->part++;
    right = put_goal(m);
    record_end(m, start);
    m->part++;
    return right ? ACCEPTED : REFUSED_NAME;
}

/* Line by line up to the goal, which is the last; a refused one tells where its record would stand. */
static struct verdict make_image(struct making *m)
{
    struct verdict verdict = { ACCEPTED, 0 };
    bool more = true;

    while (more && verdict.refusal == ACCEPTED) {
        verdict.offset = m->length;
        more = m->part->kind != GOAL;
        if (m->part->kind == MODE)
            verdict.refusal = make_relation(m);
        else
            verdict.refusal = more ? make_clause(m) : make_goal(m);
    }
    return verdict;
}

/* ---- what is written ---- */

static size_t names_length(const struct names *n)
{
    size_t length = 0, k;

    for (k = 0; k < n->count; k++)
        length += n->names[k].length + 1;
    return length;
}

static uint8_t *put_names(uint8_t *to, const struct names *n)
{
    size_t k;

    for (k = 0; k < n->count; k++) {
        memcpy(to, n->names[k].at, n->names[k].length);
        to += n->names[k].length;
        *to++ = 10;
    }
    return to;
}

static uint64_t write_out(const struct making *m, uint8_t *image, size_t image_len, uint8_t *names, size_t names_len)
{
    size_t used = names_length(&m->relations) + names_length(&m->constants);

    if (m->length > image_len || used > names_len)
        return ref_refused(REFUSED_ROOM, 0);
    memcpy(image, m->image, m->length);
    put_names(put_names(names, &m->relations), &m->constants);
    return (uint64_t)m->length << 8 | ref_accepted(0, 0, ref_told(used));
}

/* Slots for the constants of the parts, twice as many at least, and no more than an accepted image has use for. */
static size_t constant_slots(const struct parts *parts)
{
    size_t constants = 0, slots = 64, k;

    for (k = 0; k < parts->count; k++)
        constants += parts->all[k].kind == CONSTANT_TERM;
    while (slots < 2 * constants && slots < CONSTANT_SLOTS)
        slots *= 2;
    return slots;
}

static void begin_names(struct names *n, struct spelt *names, uint32_t *slots, size_t slot_count)
{
    n->names = names;
    n->count = 0;
    n->slots = slots;
    n->slot_count = slot_count;
    memset(slots, 0, slot_count * sizeof *slots);
}

/* The image of parts that are all declared. */
static uint64_t make_and_write(const struct parts *parts, uint8_t *image, size_t image_len, uint8_t *names,
                               size_t names_len)
{
    struct spelt relations[RELATION_LIMIT + 1], constants[TERMS_MOST], variables[OWN_LIMIT];
    uint32_t relation_slots[RELATION_SLOTS], slots[CONSTANT_SLOTS];
    struct making m;
    struct verdict verdict;

    m.part = parts->all;
    m.clauses = m.before = m.in_block = 0;
    m.closed = false;
    m.length = 0;
    begin_names(&m.relations, relations, relation_slots, RELATION_SLOTS);
    begin_names(&m.constants, constants, slots, constant_slots(parts));
    m.variables.names = variables;
    verdict = make_image(&m);
    if (verdict.refusal != ACCEPTED)
        return ref_refused(verdict.refusal, verdict.offset);
    return write_out(&m, image, image_len, names, names_len);
}

uint64_t reference_parse(uint8_t *image, size_t image_len, uint8_t *names, size_t names_len, const uint8_t *text,
                         size_t text_len)
{
    struct parts parts = { NULL, 0, 0 };
    uint64_t answer;
    size_t stuck;

    if (!ref_take_apart(text, text_len, &parts, &stuck))
        answer = ref_refused(REFUSED_TEXT, ref_told(stuck));
    else if (!all_declared(&parts))
        answer = ref_refused(REFUSED_UNDECLARED, 0);
    else
        answer = make_and_write(&parts, image, image_len, names, names_len);
    free(parts.all);
    return answer;
}
