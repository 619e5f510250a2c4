/* Harms texts, and makes what never was one. */
#include "texts.h"

#include <string.h>

static const char *const pieces[] = { "mode ", "mode p(?,^).", "p",     "q(a,B)", "(",   ")",  ",",    ".",   ";",
                                      ":",     "&",            "=",     "<-",     "<",   "-",  "?",    "^",   "X",
                                      "a",     " ",            "\n",    "\t",     "_",   "7",  "A = b", "p.\n", "<- p.",
                                      "%",     "mode",         "p <- ", " : ",    " & ", ", ", "\r",   "<- .", "mode p." };

enum { PIECES = sizeof pieces / sizeof pieces[0] };

/* Room for more, or less, at a place. */
static int shift(struct text *text, size_t from, size_t to)
{
    if (text->length - from + to > TEXT_ROOM)
        return 0;
    memmove(text->bytes + to, text->bytes + from, text->length - from);
    text->length = text->length - from + to;
    return 1;
}

static uint8_t some_byte(struct random *random)
{
    const char *piece = pieces[random_below(random, PIECES)];

    return random_once(random, 8) ? (uint8_t)random_below(random, 256) : (uint8_t)piece[0];
}

static void put_piece(struct text *text, size_t at, const char *piece)
{
    if (shift(text, at, at + strlen(piece)))
        memcpy(text->bytes + at, piece, strlen(piece));
}

/* The place behind some mark that ends a line. */
static size_t line_start(const struct text *text, struct random *random)
{
    size_t at = random_below(random, (uint32_t)text->length);

    while (at > 0 && text->bytes[at - 1] != '.' && text->bytes[at - 1] != ';')
        at--;
    return at;
}

/* Lines are given twice, dropped, or told in another order: what is wrong then is mostly the meaning. */
static void harm_lines(struct text *text, struct random *random)
{
    uint8_t kept[256];
    size_t from = line_start(text, random), to = from, other;

    while (to < text->length && to - from < sizeof kept && text->bytes[to] != '.' && text->bytes[to] != ';')
        to++;
    if (to == text->length || to - from >= sizeof kept)
        return;
    to++;
    memcpy(kept, text->bytes + from, to - from);
    if (!random_once(random, 3))
        shift(text, to, from);
    if (text->length == 0 || random_once(random, 3))
        return;
    other = line_start(text, random);
    if (shift(text, other, other + (to - from)))
        memcpy(text->bytes + other, kept, to - from);
}

static void harm_bytes(struct text *text, struct random *random)
{
    size_t at = random_below(random, (uint32_t)text->length);
    unsigned how = random_below(random, 6);

    if (how == 0)
        text->bytes[at] = some_byte(random);
    else if (how == 1)
        shift(text, at + 1, at);
    else if (how == 2)
        put_piece(text, at, pieces[random_below(random, PIECES)]);
    else if (how == 3)
        text->length = at;
    else if (how == 4)
        text->bytes[at] ^= (uint8_t)(1u << random_below(random, 8));
    else if (shift(text, at, at + 1))
        text->bytes[at] = text->bytes[at + 1];
}

/* A name, or part of one, stands where another did; the form mostly stays right. */
static void harm_names(struct text *text, struct random *random)
{
    size_t at = random_below(random, (uint32_t)text->length), from = random_below(random, (uint32_t)text->length);
    uint8_t *a = &text->bytes[at], b = text->bytes[from];

    if (*a >= 'a' && *a <= 'z' && b >= 'a' && b <= 'z')
        *a = b;
    else if (*a == ',' && random_once(random, 2))
        *a = '&';
    else if (*a == '.' && random_once(random, 2))
        *a = ';';
    else if (*a == ')' && random_once(random, 2))
        put_piece(text, at, ",a");
    else if (*a == '.')
        put_piece(text, at, ", A = b");
}

void text_damage(struct text *text, struct random *random)
{
    unsigned times = 1 + (random_once(random, 3) ? random_below(random, 4) : 0);

    for (; times > 0 && text->length > 0; times--) {
        unsigned sort = random_below(random, 8);

        if (sort < 3)
            harm_bytes(text, random);
        else if (sort < 5)
            harm_lines(text, random);
        else
            harm_names(text, random);
    }
}

void text_garbage(struct text *text, struct random *random)
{
    unsigned count = random_below(random, 24);

    text->length = 0;
    text->full = 0;
    for (; count > 0; count--)
        if (random_once(random, 12))
            text->bytes[text->length++] = (uint8_t)random_below(random, 256);
        else
            put_piece(text, text->length, pieces[random_below(random, PIECES)]);
}

/* Mostly small, sometimes anything up to the limits. */
static void draw_recipe(struct recipe *recipe, struct random *random)
{
    int large = random_once(random, 64);

    *recipe = full_recipe;
    recipe->relations = random_below(random, large ? recipe->relations + 1 : 6);
    recipe->clauses = random_below(random, large ? recipe->clauses + 1 : 8);
    recipe->literals = random_below(random, large ? recipe->literals + 1 : 5);
    recipe->tight = random_below(random, 9);
    recipe->equality = random_below(random, 9);
}

void image_for_text(struct image *image, struct random *random)
{
    struct recipe recipe;
    unsigned sort = random_below(random, 24);

    draw_recipe(&recipe, random);
    if (sort == 0)
        recipe.relations = full_recipe.relations + random_below(random, 2);
    else if (sort == 1)
        recipe.clauses = full_recipe.clauses + random_below(random, 2);
    else if (sort == 2) {
        recipe.block++;
        recipe.tight = 8;
        recipe.clauses = 16 + random_below(random, 16);
    } else if (sort == 3)
        recipe.variables++;
    else if (sort == 4)
        recipe.literals = full_recipe.literals + random_below(random, 2);
    else if (sort == 5)
        recipe.stages = recipe.literals = full_recipe.stages + random_below(random, 2);
    else if (sort == 6)
        recipe.arity++;
    if (sort < 2)
        recipe.literals = random_below(random, 3);
    if (recipe.relations == 0 && sort < 7)
        recipe.relations = 1;
    image_by_recipe(image, random, &recipe);
}

void text_any(struct text *text, struct random *random)
{
    static struct image image;
    struct naming naming = { random_bits(random), random_once(random, 8) };
    unsigned sort = random_below(random, 22);

    text->modes = OTHER_TEXT;
    if (sort < 6) {
        text_garbage(text, random);
        return;
    }
    if (sort >= 20) {
        text_modes(text, random);
        if (!random_once(random, 8))
            return;
        text->modes = OTHER_TEXT;
        text_damage(text, random);
        return;
    }
    image_for_text(&image, random);
    image_renumber(&image);
    text_spell(text, &image, &naming, random);
    if (sort < 15)
        text_damage(text, random);
}
