/* Spells an image as text, by chance in every respect that a text leaves open. */
#include "rissobarm.h"
#include "texts.h"

#include <string.h>

/* An image that is read, and the text or the numbers that become of it. */
struct speller {
    const struct image *image;
    size_t at;
    struct text *text;
    struct random *random;
    const struct naming *naming;
    unsigned style; /* of this line's variables */
};

/* ---- names ---- */

/* The number in letters, then by its salt something that begins in `_`: no two numbers have one name. */
static size_t make_name(char *name, unsigned number, uint32_t salt, char first)
{
    static const char more[] = "aZ09_";
    uint32_t mixed = (number + 1) * 2654435761u ^ salt;
    size_t length = 0;

    for (number++; number > 0; number = (number - 1) / 26)
        name[length++] = (char)(first + (number - 1) % 26);
    if (mixed % 4 == 0)
        for (name[length++] = '_'; mixed % 3 != 0 && length < 24; mixed /= 3)
            name[length++] = more[mixed / 3 % (sizeof more - 1)];
    return length;
}

static size_t relation_name(char *name, const struct naming *naming, unsigned number)
{
    if (number == 0 && naming->mode_relation) {
        memcpy(name, "mode", 4);
        return 4;
    }
    return make_name(name, number, naming->salt, 'a');
}

static void list_add(struct list *list, const char *name, size_t length)
{
    if (list->length + length + 1 > NAMES_ROOM)
        return;
    memcpy(list->bytes + list->length, name, length);
    list->length += length;
    list->bytes[list->length++] = 10;
}

void list_names(struct list *list, const struct naming *naming, unsigned relations, unsigned constants)
{
    char name[32];
    unsigned k;

    list->length = 0;
    for (k = 0; k < relations; k++)
        list_add(list, name, relation_name(name, naming, k));
    for (k = 0; k < constants; k++)
        list_add(list, name, make_name(name, k, ~naming->salt, 'a'));
}

/* ---- bytes of the text ---- */

static void put_bytes(struct speller *s, const char *bytes, size_t length)
{
    if (s->text->length + length > TEXT_ROOM) {
        s->text->full = 1;
        return;
    }
    memcpy(s->text->bytes + s->text->length, bytes, length);
    s->text->length += length;
}

static void put_blanks(struct speller *s, unsigned least)
{
    static const char blanks[] = { 32, 32, 32, 10, 9, 13 };
    unsigned count = random_once(s->random, 3) ? random_below(s->random, 3) : 0;

    for (count = count < least ? least : count; count > 0; count--)
        put_bytes(s, &blanks[random_below(s->random, sizeof blanks)], 1);
}

static void put(struct speller *s, const char *sign)
{
    put_blanks(s, 0);
    put_bytes(s, sign, strlen(sign));
}

/* ---- fields of the image ---- */

static unsigned take_byte(struct speller *s)
{
    return s->at < s->image->length ? s->image->bytes[s->at++] : 0;
}

static void put_term(struct speller *s)
{
    unsigned word = take_byte(s);
    char name[32];

    word += 256 * take_byte(s);
    put_blanks(s, 0);
    if (word >= RISSOBARM_TERM_VARIABLE)
        put_bytes(s, name, make_name(name, word - RISSOBARM_TERM_VARIABLE, s->style, 'A'));
    else
        put_bytes(s, name, make_name(name, word, ~s->naming->salt, 'a'));
}

static void put_relation_name(struct speller *s, unsigned relation)
{
    char name[32];

    put_blanks(s, 0);
    put_bytes(s, name, relation_name(name, s->naming, relation));
}

static void put_terms(struct speller *s, unsigned arity)
{
    unsigned k;

    for (k = 0; k < arity; k++) {
        put(s, k == 0 ? "(" : ",");
        put_term(s);
    }
    if (arity > 0)
        put(s, ")");
}

static void put_literal(struct speller *s)
{
    unsigned relation = take_byte(s), arity = take_byte(s);

    if (relation == RISSOBARM_EQUALITY) {
        put_term(s);
        put(s, "=");
        put_term(s);
    } else {
        put_relation_name(s, relation);
        put_terms(s, arity);
    }
}

static void put_goal(struct speller *s)
{
    unsigned stages = take_byte(s), stage, literals, k;

    for (stage = 0; stage < stages; stage++) {
        literals = take_byte(s);
        for (k = 0; k < literals; k++) {
            if (k > 0 || stage > 0)
                put(s, k > 0 ? "," : "&");
            put_literal(s);
        }
    }
}

/* ---- records ---- */

static void put_mode_line(struct speller *s, unsigned number)
{
    unsigned arity = take_byte(s), k;

    put(s, "mode");
    put_blanks(s, 1);
    put_relation_name(s, number);
    for (k = 0; k < arity; k++) {
        put(s, k == 0 ? "(" : ",");
        put(s, take_byte(s) == 0 ? "?" : "^");
    }
    put(s, arity > 0 ? ")." : ".");
}

/* The end of a clause: told by the next record where that is of the same relation, else free. */
static const char *clause_end(struct speller *s, unsigned relation)
{
    const uint8_t *next = s->image->bytes + s->at;

    if (s->at + 6 < s->image->length && next[2] == RISSOBARM_RECORD_CLAUSE && next[4] == relation)
        return next[6] == 1 ? ";" : ".";
    return random_once(s->random, 3) ? ";" : ".";
}

static void put_clause(struct speller *s)
{
    unsigned relation = take_byte(s), arity = take_byte(s), guard;

    s->at += 2;
    s->style = random_bits(s->random);
    put_relation_name(s, relation);
    put_terms(s, arity);
    guard = s->image->bytes[s->at];
    if (guard > 0 || s->image->bytes[s->at + 1] > 0)
        put(s, "<-");
    put_goal(s);
    if (guard > 0)
        put(s, ":");
    put_goal(s);
    put(s, clause_end(s, relation));
}

static void put_goal_line(struct speller *s)
{
    s->at++;
    s->style = random_bits(s->random);
    put(s, "<-");
    put_goal(s);
    put(s, ".");
}

void text_spell(struct text *text, const struct image *image, const struct naming *naming, struct random *random)
{
    struct speller s = { image, 0, text, random, naming, 0 };
    unsigned number = 0;

    text->length = 0;
    text->full = 0;
    while (s.at + RISSOBARM_RECORD_HEAD <= image->length) {
        unsigned kind = image->bytes[s.at + 2];

        s.at += RISSOBARM_RECORD_HEAD;
        if (kind == RISSOBARM_RECORD_RELATION)
            put_mode_line(&s, number++);
        else if (kind == RISSOBARM_RECORD_CLAUSE)
            put_clause(&s);
        else
            put_goal_line(&s);
        if (random_once(random, 2))
            put_bytes(&s, "\n", 1);
    }
}
