/* Numbers constants and variables of an image by first appearance; counts are believed, also those past a limit. */
#include "rissobarm.h"
#include "texts.h"

#include <string.h>

/* What each old number has become, and 0 before it is met; else one more. */
struct numbering {
    uint8_t *bytes;
    size_t at;
    uint16_t constants[RISSOBARM_CONSTANT_LIMIT + 1];
    unsigned constant_count;
    uint16_t variables[256];
    unsigned variable_count;
};

static unsigned take_byte(struct numbering *n)
{
    return n->bytes[n->at++];
}

static unsigned renumbered(uint16_t *known, unsigned *count)
{
    if (*known == 0)
        *known = (uint16_t)++*count;
    return *known - 1u;
}

static void number_terms(struct numbering *n, unsigned arity)
{
    for (; arity > 0; arity--) {
        uint8_t *at = n->bytes + n->at;
        unsigned word = at[0] + 256u * at[1];

        if (word >= RISSOBARM_TERM_VARIABLE)
            word = RISSOBARM_TERM_VARIABLE + renumbered(&n->variables[word % 256], &n->variable_count);
        else
            word = renumbered(&n->constants[word], &n->constant_count);
        at[0] = (uint8_t)(word % 256);
        at[1] = (uint8_t)(word / 256);
        n->at += 2;
    }
}

static void number_goal(struct numbering *n)
{
    unsigned stages = take_byte(n), literals;

    for (; stages > 0; stages--)
        for (literals = take_byte(n); literals > 0; literals--) {
            n->at++;
            number_terms(n, take_byte(n));
        }
}

/* A clause or the goal; the variable count stands where it is written last. */
static void number_line(struct numbering *n, unsigned kind)
{
    uint8_t *count = n->bytes + n->at + (kind == RISSOBARM_RECORD_CLAUSE ? 3 : 0);
    unsigned arity = n->bytes[n->at + 1];

    n->variable_count = 0;
    memset(n->variables, 0, sizeof n->variables);
    n->at = (size_t)(count - n->bytes) + 1;
    if (kind == RISSOBARM_RECORD_CLAUSE) {
        number_terms(n, arity);
        number_goal(n);
    }
    number_goal(n);
    *count = (uint8_t)n->variable_count;
}

unsigned image_renumber(struct image *image)
{
    static struct numbering n;

    memset(&n, 0, sizeof n);
    n.bytes = image->bytes;
    while (n.at < image->length) {
        unsigned length = image->bytes[n.at] + 256u * image->bytes[n.at + 1], kind = image->bytes[n.at + 2];
        size_t next = n.at + length;

        n.at += RISSOBARM_RECORD_HEAD;
        if (kind != RISSOBARM_RECORD_RELATION)
            number_line(&n, kind);
        n.at = next;
    }
    return n.constant_count;
}

static uint8_t *clause_at(struct image *image, unsigned record)
{
    uint8_t *at = image->bytes + image->starts[record];

    return record < image->records && at[2] == RISSOBARM_RECORD_CLAUSE ? at + RISSOBARM_RECORD_HEAD : NULL;
}

/* Some clause's or literal's relation becomes another; marks are kept to what a text can say. */
void image_misname(struct image *image, struct random *random)
{
    unsigned relations = image_relations(image), k, before = 255;
    uint8_t *clause;

    if (relations == 0 || image->records <= relations + 1)
        return;
    clause = clause_at(image, relations + random_below(random, image->records - relations - 1));
    if (clause != NULL)
        clause[0] = (uint8_t)random_below(random, relations);
    for (k = relations; (clause = clause_at(image, k)) != NULL; k++) {
        if (clause[0] != before)
            clause[2] = 0;
        before = clause[0];
    }
}

unsigned image_relations(const struct image *image)
{
    unsigned k = 0;

    while (k < image->records && image->bytes[image->starts[k] + 2] == RISSOBARM_RECORD_RELATION)
        k++;
    return k;
}

/* Every word of the image is looked at, wherever it stands, so this may be too many. */
unsigned image_constants(const struct image *image)
{
    unsigned most = 0;
    size_t k;

    for (k = 0; k + 1 < image->length; k++) {
        unsigned word = image->bytes[k] + 256u * image->bytes[k + 1];

        if (word < RISSOBARM_TERM_VARIABLE && word >= most)
            most = word + 1;
    }
    return most;
}
