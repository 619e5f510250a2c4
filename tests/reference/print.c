/* Writes an image with its names as PARLOG text, one line for each record. */
#include "machine.h"
#include "reference.h"
#include "text.h"

#include <string.h>

enum { ENTRIES = RELATION_LIMIT + CONSTANT_LIMIT + 1 };

/* Measures where there is no room for the text, and writes where there is. */
struct writer {
    const struct program *program;
    const uint8_t *names;
    size_t starts[ENTRIES + 1]; /* entry k of the names, and one byte 10, end where entry k + 1 starts */
    size_t entries;
    uint8_t *text;
    size_t room;
    size_t length;
    bool lacking; /* a name in use is missing, or is none */
};

/* ---- names ---- */

static void find_entries(struct writer *w, size_t names_len)
{
    size_t k;

    w->entries = 0;
    w->starts[0] = 0;
    for (k = 0; k < names_len && w->entries < ENTRIES; k++)
        if (w->names[k] == 10)
            w->starts[++w->entries] = k + 1;
}

/* ---- bytes ---- */

static void put_bytes(struct writer *w, const void *bytes, size_t count)
{
    if (w->length + count <= w->room)
        memcpy(w->text + w->length, bytes, count);
    w->length += count;
}

static void put(struct writer *w, const char *words)
{
    put_bytes(w, words, strlen(words));
}

static void put_name(struct writer *w, unsigned entry)
{
    size_t start, length;

    if (entry >= w->entries) {
        w->lacking = true;
        return;
    }
    start = w->starts[entry];
    length = w->starts[entry + 1] - 1 - start;
    if (!ref_is_lower_name(w->names + start, length))
        w->lacking = true;
    put_bytes(w, w->names + start, length);
}

static void put_term(struct writer *w, struct term term)
{
    char letter = (char)('A' + term.number);

    if (term.sort == VARIABLE)
        put_bytes(w, &letter, 1);
    else
        put_name(w, w->program->relation_count + term.number);
}

/* ---- literals and goals ---- */

static void put_call(struct writer *w, unsigned relation, unsigned arity, const struct term *terms)
{
    unsigned k;

    put_name(w, relation);
    for (k = 0; k < arity; k++) {
        put(w, k == 0 ? "(" : ",");
        put_term(w, terms[k]);
    }
    if (arity > 0)
        put(w, ")");
}

static void put_literal(struct writer *w, const struct literal *literal)
{
    if (literal->relation != EQUALITY) {
        put_call(w, literal->relation, literal->arity, literal->terms);
        return;
    }
    put_term(w, literal->terms[0]);
    put(w, " = ");
    put_term(w, literal->terms[1]);
}

/* Literals with commas between, stages with `&`. */
static void put_goal(struct writer *w, const struct goal *goal)
{
    unsigned s, k;

    for (s = 0; s < goal->stage_count; s++)
        for (k = 0; k < goal->stages[s].count; k++) {
            put(w, k > 0 ? ", " : s > 0 ? " & " : "");
            put_literal(w, &goal->literals[goal->stages[s].first + k]);
        }
}

/* ---- lines ---- */

static void put_mode_line(struct writer *w, unsigned number)
{
    const struct relation *relation = &w->program->relations[number];
    unsigned k;

    put(w, "mode ");
    put_name(w, number);
    for (k = 0; k < relation->arity; k++) {
        put(w, k == 0 ? "(" : ",");
        put(w, relation->output[k] ? "^" : "?");
    }
    put(w, relation->arity > 0 ? ").\n" : ".\n");
}

/* `;` where the next clause, of the same relation, opens a block. */
static bool closes_block(const struct program *p, unsigned clause)
{
    const struct clause *next = &p->clauses[clause + 1];

    return clause + 1 < p->clause_count && next->relation == p->clauses[clause].relation && next->mark == 1;
}

static void put_clause(struct writer *w, unsigned number)
{
    const struct clause *clause = &w->program->clauses[number];
    const struct goal *body = &clause->written;

    put_call(w, clause->relation, clause->arity, clause->head);
    if (clause->guard.stage_count > 0 || body->stage_count > 0)
        put(w, " <- ");
    put_goal(w, &clause->guard);
    if (clause->guard.stage_count > 0)
        put(w, " : ");
    put_goal(w, body);
    put(w, closes_block(w->program, number) ? ";\n" : ".\n");
}

static void put_text(struct writer *w)
{
    unsigned k;

    for (k = 0; k < w->program->relation_count; k++)
        put_mode_line(w, k);
    for (k = 0; k < w->program->clause_count; k++)
        put_clause(w, k);
    put(w, "<- ");
    put_goal(w, &w->program->goal);
    put(w, ".\n");
}

/* Measured first, so that a text without room for it leaves every byte. */
uint64_t reference_print(const uint8_t *image, size_t image_len, const uint8_t *names, size_t names_len, uint8_t *text,
                         size_t text_len)
{
    struct program program;
    struct verdict verdict = ref_load(image, image_len, &program);
    struct writer w;

    if (verdict.refusal != ACCEPTED)
        return ref_refused(verdict.refusal, verdict.offset);
    w.program = &program;
    w.names = names;
    w.text = text;
    w.room = 0;
    w.length = 0;
    w.lacking = false;
    find_entries(&w, names_len);
    put_text(&w);
    if (w.lacking)
        return ref_refused(REFUSED_UNDECLARED, 0);
    if (w.length > text_len)
        return ref_refused(REFUSED_ROOM, 0);
    w.room = text_len;
    w.length = 0;
    put_text(&w);
    return ref_accepted(0, 0, ref_told(w.length));
}
