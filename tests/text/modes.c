/* Texts of which a mode line is refused, with calls of what is declared before it, from it on, or nowhere. */
#include "classes.h"
#include "texts.h"

#include <string.h>

/* A plan has so many relations; so many names have no mode line; a crowd of one class has up to so many. */
enum { LIMIT = 32, SPARE = 4, NAME_ROOM = 16, CROWD = PLACES + 80 };

/* A text in the making. */
struct declaring {
    struct text *text;
    struct random *random;
    unsigned before;                  /* names with a mode line before the refused one */
    unsigned declared;                /* names with any */
    unsigned calls;                   /* what may be called: MODES_BEFORE and so on */
    unsigned called;                  /* what was */
    char (*of_class)[CLASS_NAME + 1]; /* names by their numbers, where they are of one class */
    int placeless;                    /* one of these is called that has no place */
};

/* ---- pieces ---- */

static void put(struct declaring *d, const char *piece)
{
    size_t length = strlen(piece);

    if (d->text->length + length > TEXT_ROOM) {
        d->text->full = 1;
        return;
    }
    memcpy(d->text->bytes + d->text->length, piece, length);
    d->text->length += length;
}

/* A mark, with a blank or two about it by chance. */
static void mark(struct declaring *d, const char *sign)
{
    static const char *const blanks[] = { "", "", " ", "\n", "\t ", " \r" };

    put(d, blanks[random_below(d->random, 6)]);
    put(d, sign);
    put(d, blanks[random_below(d->random, 6)]);
}

/* Name k: no two have one, and many begin alike. */
static void put_name(struct declaring *d, unsigned k)
{
    static const char more[] = "aZ09_b";
    char name[NAME_ROOM];
    unsigned length = 0;

    if (d->of_class != NULL) {
        put(d, d->of_class[k]);
        return;
    }
    name[length++] = (char)('a' + k % 8);
    for (k /= 8; k > 0; k = (k - 1) / 6)
        name[length++] = more[(k - 1) % 6];
    name[length] = '\0';
    put(d, name);
}

/* ---- mode lines ---- */

static void put_mode_line(struct declaring *d, unsigned name, unsigned modes)
{
    unsigned k;

    put(d, "mode ");
    put_name(d, name);
    for (k = 0; k < modes; k++) {
        mark(d, k == 0 ? "(" : ",");
        put(d, random_once(d->random, 2) ? "?" : "^");
    }
    put(d, modes > 0 ? ")." : ".");
}

/* A right line, or one that repeats a name, or has too many modes. */
static void declare(struct declaring *d, int wrong)
{
    if (wrong && d->declared > 0 && random_once(d->random, 2))
        put_mode_line(d, random_below(d->random, d->declared), random_below(d->random, 5));
    else
        put_mode_line(d, d->declared++, wrong ? 5 + random_below(d->random, 3) : random_below(d->random, 5));
}

/* Some lines, of which one is the first that is refused: by itself, or as the 33rd. */
static void put_lines(struct declaring *d)
{
    unsigned lines = 1 + random_below(d->random, 8), first, k;

    if (random_once(d->random, 3))
        lines += LIMIT;
    first = random_below(d->random, lines);
    if (first > LIMIT || (lines > LIMIT && random_once(d->random, 2)))
        first = LIMIT;
    for (k = 0; k < lines; k++) {
        if (k == first)
            d->before = d->declared;
        declare(d, (k == first && k < LIMIT) || (k > first && random_once(d->random, 8)));
        mark(d, "");
    }
}

/* More names than there are places for, or about as many. */
static void put_crowd(struct declaring *d)
{
    unsigned lines = PLACES - 5 + random_below(d->random, random_once(d->random, 2) ? 10 : 80);

    for (d->before = LIMIT; d->declared < lines; d->declared++)
        put_mode_line(d, d->declared, 0);
}

/* ---- mode lines of one class ---- */

/* Two names, or one with itself. */
static void swap_names(char *one, char *other)
{
    char kept[CLASS_NAME + 1];

    memcpy(kept, one, sizeof kept);
    memmove(one, other, sizeof kept);
    memcpy(other, kept, sizeof kept);
}

/* The next name of the class that is short or that the one before begins. */
static void next_short(char *name, unsigned class)
{
    char before[CLASS_NAME + 1];

    strcpy(before, name);
    do
        next_of_class(name, class);
    while (strlen(name) == CLASS_NAME && strncmp(name, before, strlen(before)) != 0);
}

/* So many names of one class and one of another: upwards or downwards, the last ones of the class by chance in any order. */
static void draw_names(struct declaring *d, unsigned count)
{
    static char names[CROWD + SPARE][CLASS_NAME + 1];
    unsigned class = random_below(d->random, CLASSES), down = random_below(d->random, 2), k, at;
    char name[CLASS_NAME + 1] = { (char)('a' + random_below(d->random, 26)) };

    for (k = 0; k < count; k++) {
        at = down ? count - 1 - k : k;
        if (at < PLACES - SPARE)
            next_of_class(name, class);
        else
            next_short(name, class);
        strcpy(names[at], name);
    }
    next_of_class(name, (class + 1 + random_below(d->random, CLASSES - 1)) % CLASSES);
    strcpy(names[count], name);
    if (random_once(d->random, 2))
        for (k = PLACES - SPARE; k < count; k++)
            swap_names(names[k], names[k + random_below(d->random, count - k)]);
    d->of_class = names;
}

/* The same with names of one class: mostly more than there are places for; among the last lines are some that are wrong. */
static void put_class(struct declaring *d)
{
    unsigned lines = PLACES - 1 + random_below(d->random, random_once(d->random, 2) ? 10 : 80);

    draw_names(d, lines + SPARE - 1);
    for (d->before = LIMIT; d->declared < PLACES - SPARE; d->declared++)
        put_mode_line(d, d->declared, 0);
    while (d->declared < lines)
        declare(d, random_once(d->random, 8));
}

/* ---- calls ---- */

/* The number of a name that may be called; of a crowd mostly one of the last, of which some have a place. */
static unsigned some_relation(struct declaring *d)
{
    unsigned last = d->declared < PLACES ? d->declared : d->declared - PLACES + SPARE;

    if (d->calls == MODES_UNDECLARED && random_once(d->random, 3))
        return d->declared + random_below(d->random, SPARE);
    if (d->calls == MODES_BEFORE)
        return random_below(d->random, d->before);
    return random_once(d->random, 4) ? random_below(d->random, d->declared) : d->declared - 1 - random_below(d->random, last);
}

static void put_relation(struct declaring *d)
{
    unsigned relation = some_relation(d), called = MODES_BEFORE;

    if (relation >= d->before)
        called = relation < d->declared ? MODES_BEHIND : MODES_UNDECLARED;
    if (called > d->called)
        d->called = called;
    d->placeless |= d->of_class != NULL && d->declared > PLACES && relation >= PLACES;
    put_name(d, relation);
}

static void put_term(struct declaring *d)
{
    if (random_once(d->random, 2))
        put(d, random_once(d->random, 2) ? "X" : "Y_1");
    else
        put_name(d, random_below(d->random, d->declared + SPARE));
}

static void put_terms(struct declaring *d)
{
    unsigned terms = random_once(d->random, 2) ? random_below(d->random, 7) : 0, k;

    for (k = 0; k < terms; k++) {
        mark(d, k == 0 ? "(" : ",");
        put_term(d);
    }
    if (terms > 0)
        mark(d, ")");
}

/* A call mostly; an equality calls nothing, whatever its names are. */
static void put_literal(struct declaring *d)
{
    if (!random_once(d->random, 4)) {
        put_relation(d);
        put_terms(d);
        return;
    }
    put_term(d);
    mark(d, "=");
    put_term(d);
}

static void put_goal(struct declaring *d)
{
    unsigned literals = 1 + random_below(d->random, 4), k;

    for (k = 0; k < literals; k++) {
        if (k > 0)
            mark(d, random_once(d->random, 4) ? "&" : ",");
        put_literal(d);
    }
}

static void put_clause(struct declaring *d)
{
    unsigned sort = random_below(d->random, 4);

    put_relation(d);
    put_terms(d);
    if (sort > 0)
        mark(d, "<-");
    if (sort > 1) {
        put_goal(d);
        mark(d, ":");
    }
    if (sort == 1 || sort == 3)
        put_goal(d);
    mark(d, random_once(d->random, 3) ? ";" : ".");
}

void text_modes(struct text *text, struct random *random)
{
    struct declaring d = { text, random, 0, 0, 0, MODES_UNCALLED, NULL, 0 };
    unsigned clauses = random_below(random, 5), sort = random_below(random, 400);

    text->length = 0;
    text->full = 0;
    if (sort == 0)
        put_crowd(&d);
    else if (sort < 5)
        put_class(&d);
    else
        put_lines(&d);
    d.calls = MODES_BEFORE + random_below(random, 3);
    if (d.before == 0 && d.calls == MODES_BEFORE)
        d.calls = MODES_BEHIND;
    for (; clauses > 0; clauses--)
        put_clause(&d);
    mark(&d, "<-");
    if (!random_once(random, 8))
        put_goal(&d);
    put(&d, ".");
    text->modes = d.called;
    if (d.placeless)
        text->modes = d.called == MODES_UNDECLARED ? CLASS_UNDECLARED : CLASS_BEHIND;
}
