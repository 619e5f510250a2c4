/* The archive's parse and print beside those of the reference, which are plain C, as ratios: sorts of texts, and texts by size. */
#include "reference.h"
#include "rissobarm.h"
#include "texts.h"
#include "times.h"

#include <string.h>

enum { IMAGE_BYTES = RISSOBARM_TEXT_IMAGE, LONG_TEXT = 60000, RELATIONS = 200 };

static struct image image;
static struct text text;
static struct list names;
static uint8_t into[TEXT_ROOM], listed[TEXT_ROOM];
static volatile uint64_t sink;

static double parses(unsigned side, unsigned times)
{
    static uint64_t (*const parse_of[TWO_SIDES])(uint8_t *, size_t, uint8_t *, size_t, const uint8_t *, size_t) = {
        rissobarm_parse, reference_parse
    };
    double start = now();
    unsigned k;

    for (k = 0; k < times; k++)
        sink = parse_of[side](into, IMAGE_BYTES, listed, sizeof listed, text.bytes, text.length);
    return (now() - start) / times;
}

static double prints(unsigned side, unsigned times)
{
    static uint64_t (*const print_of[TWO_SIDES])(const uint8_t *, size_t, const uint8_t *, size_t, uint8_t *, size_t) = {
        rissobarm_print, reference_print
    };
    double start = now();
    unsigned k;

    for (k = 0; k < times; k++)
        sink = print_of[side](image.bytes, image.length, names.bytes, names.length, into, sizeof into);
    return (now() - start) / times;
}

/* ---- texts ---- */

/* The full image with one in `part` of its relations and clauses, as it is printed. */
static void make_full(unsigned part, unsigned equality)
{
    struct random random = { 7 };
    struct recipe recipe = full_recipe;
    struct naming naming = { 9, 0 };

    recipe.relations /= part;
    recipe.clauses /= part;
    recipe.equality = equality;
    image_by_recipe(&image, &random, &recipe);
    image_renumber(&image);
    list_names(&names, &naming, recipe.relations, image_constants(&image) > 5000 ? 5000 : image_constants(&image));
    text.length = (size_t)(reference_print(image.bytes, image.length, names.bytes, names.length, text.bytes, TEXT_ROOM) >> 32);
}

static void make_any(unsigned part)
{
    make_full(part, 0);
}

static void make_equal(unsigned part)
{
    make_full(part, 16);
}

/* So many bytes of a piece, again and again. */
static void repeat(const char *piece, size_t length)
{
    while (text.length + strlen(piece) <= length) {
        memcpy(text.bytes + text.length, piece, strlen(piece));
        text.length += strlen(piece);
    }
}

/* A goal that is right up to its last byte, and then ends. */
static void make_stuck(unsigned part)
{
    text.length = 0;
    repeat("<- ", 3);
    repeat("a = B, ", LONG_TEXT / part);
}

/* Mode lines alone; too many, which is known only after the last. */
static void make_modes(unsigned part)
{
    text.length = 0;
    repeat("mode relation(?,^,?).\n", LONG_TEXT / part);
    repeat("<- .\n", text.length + 5);
}

/* A clause with too many literals. */
static void make_wide(unsigned part)
{
    text.length = 0;
    repeat("mode p(?). p(X) <- p(a)", 23);
    repeat(", p(X)", LONG_TEXT / part);
    repeat(". <- . ", text.length + 7);
}

/* A second mode line, refused 5 were it not for the calls without one far behind it. */
static void make_refused(unsigned part)
{
    text.length = 0;
    repeat("mode p. mode p.", 15);
    repeat(" ", LONG_TEXT / part / 2);
    repeat("<- q", text.length + 4);
    repeat(", q", LONG_TEXT / part);
    repeat(". ", text.length + 2);
}

/* A piece once, with the name of relation k in the place of its stars. */
static void put_named(const char *piece, unsigned k)
{
    char named[16], *star;

    strcpy(named, piece);
    for (star = named; *star != '\0'; star++)
        if (*star == '*') {
            *star = (char)('a' + k % 26);
            k /= 26;
        }
    repeat(named, text.length + strlen(named));
}

/* Mode lines with blanks between them, too many; then clauses and a goal that call each of these relations. */
static void make_many(unsigned part)
{
    size_t share = LONG_TEXT / part / 2 / RELATIONS;
    unsigned k;

    text.length = 0;
    for (k = 0; k < RELATIONS; k++) {
        put_named("mode ***.", k);
        repeat(" ", share * (k + 1));
    }
    for (k = 0; text.length < LONG_TEXT / part / 4 * 3; k++) {
        put_named("*** <- ", k % RELATIONS);
        put_named("***, a = b; ", (k + 7) % RELATIONS);
    }
    put_named("<- ***", 0);
    for (k = 1; text.length + 8 < LONG_TEXT / part; k++)
        put_named(", ***", k % RELATIONS);
    repeat(".\n", text.length + 2);
}

static const struct sort {
    const char *name;
    void (*make)(unsigned part);
} sorts[] = {
    { "any relation", make_any },       { "equalities", make_equal },       { "ends too early", make_stuck },
    { "mode lines alone", make_modes }, { "too many literals", make_wide }, { "refused mode line", make_refused },
    { "200 relations", make_many },
};

enum { SORTS = sizeof sorts / sizeof sorts[0], PRINTED = 2 };

/* Each sort at full size; times are told beside those of the first. */
static void tell_sorts(const char *what, work *thing, unsigned count)
{
    struct ratio first = { 0, 0, 0, { 0, 0, 0 } };
    unsigned k;

    for (k = 0; k < count; k++) {
        struct ratio here;

        sorts[k].make(1);
        here = in_turns(thing, TWO_SIDES);
        if (k == 0)
            first = here;
        tell(what, sorts[k].name, 0, text.length, &here, &first);
    }
}

/* A sort from a sixteenth up; times are told beside those at a sixteenth. */
static void tell_growth(const char *what, work *thing, const struct sort *sort)
{
    struct ratio first = { 0, 0, 0, { 0, 0, 0 } };
    unsigned part;

    for (part = 16; part >= 1; part /= 2) {
        struct ratio here;

        sort->make(part);
        here = in_turns(thing, TWO_SIDES);
        if (part == 16)
            first = here;
        tell(what, sort->name, 0, text.length, &here, &first);
    }
}

int main(void)
{
    unsigned k;

    tell_sorts("parse", parses, SORTS);
    tell_sorts("print", prints, PRINTED);
    for (k = 0; k < SORTS; k++)
        tell_growth("parse by size", parses, &sorts[k]);
    tell_growth("print by size", prints, &sorts[0]);
    return 0;
}
