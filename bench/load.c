/* The archive's load beside the plain checker, as ratios: sorts of images, and images by size. */
#include "checker.h"
#include "images.h"
#include "rissobarm.h"
#include "times.h"

static struct image image;
static volatile uint64_t sink;

static double loads(unsigned side, unsigned times)
{
    static uint64_t (*const load_of[TWO_SIDES])(const uint8_t *, size_t) = { rissobarm_load, checker_load };
    double start = now();
    unsigned k;

    for (k = 0; k < times; k++)
        sink = load_of[side](image.bytes, image.length);
    return (now() - start) / times;
}

/* The full image with one in `part` of its relations and clauses. */
static void make_full(unsigned part, unsigned equality, unsigned last)
{
    struct random random = { 7 };
    struct recipe recipe = full_recipe;

    recipe.relations /= part;
    recipe.clauses /= part;
    recipe.equality = equality;
    recipe.last = last;
    image_by_recipe(&image, &random, &recipe);
}

/* Literals of relations drawn by chance. */
static void make_mixed(unsigned part)
{
    make_full(part, 0, 0);
}

/* Literals of the last relation. */
static void make_last(unsigned part)
{
    make_full(part, 0, 1);
}

/* Literals that are equalities. */
static void make_equal(unsigned part)
{
    make_full(part, 16, 0);
}

/* The last record takes all the bytes up to the length. */
static void reach(size_t length)
{
    size_t size = length - image.starts[image.records - 1];

    while (image.length < length)
        put_byte(&image, 0);
    image.bytes[length - size] = (uint8_t)(size % 256);
    image.bytes[length - size + 1] = (uint8_t)(size / 256);
}

/* A right goal that ends before its record does. */
static void make_late(unsigned part)
{
    make_mixed(part);
    reach(RISSOBARM_IMAGE_LIMIT / part);
}

/* From here on 255 stages of 255 literals without terms, as far as the length lets them stand. */
static void put_wild(size_t length)
{
    unsigned k;

    put_byte(&image, 255);
    while (image.length < length) {
        put_byte(&image, 255);
        for (k = 0; k < 2 * 255 && image.length < length; k++)
            put_byte(&image, 0);
    }
    reach(length);
}

/* A goal alone, with counts over their limits. */
static void make_wild(unsigned part)
{
    image.length = 0;
    image.records = 0;
    record_begin(&image, RISSOBARM_RECORD_GOAL);
    put_byte(&image, 0);
    put_wild(RISSOBARM_IMAGE_LIMIT / part);
}

/* Right clauses before such a goal. */
static void make_wild_late(unsigned part)
{
    make_equal(part);
    image.length = image.starts[image.records - 1] + RISSOBARM_RECORD_HEAD + 1;
    put_wild(RISSOBARM_IMAGE_LIMIT / part);
}

/* The sorts of image that are measured. */
static const struct sort {
    const char *name;
    void (*make)(unsigned part);
} sorts[] = {
    { "any relation", make_mixed },
    { "last relation", make_last },
    { "equalities", make_equal },
    { "goal ends too early", make_late },
    { "wild goal alone", make_wild },
    { "wild goal behind clauses", make_wild_late }
};

enum { SORTS = sizeof sorts / sizeof sorts[0] };

/* Each sort at full size; times are told beside those of the first, the largest image that is accepted. */
static void tell_sorts(void)
{
    struct ratio first = { 0, 0, 0, { 0, 0, 0 } };
    unsigned k;

    for (k = 0; k < SORTS; k++) {
        struct ratio here;

        sorts[k].make(1);
        here = in_turns(loads, TWO_SIDES);
        if (k == 0)
            first = here;
        tell("load", sorts[k].name, 0, image.length, &here, &first);
    }
}

/* A sort from a sixteenth of the relations and clauses up; times are told beside those at a sixteenth. */
static void tell_growth(const struct sort *sort)
{
    struct ratio first = { 0, 0, 0, { 0, 0, 0 } };
    unsigned part;

    for (part = 16; part >= 1; part /= 2) {
        struct ratio here;

        sort->make(part);
        here = in_turns(loads, TWO_SIDES);
        if (part == 16)
            first = here;
        tell("load by size", sort->name, 0, image.length, &here, &first);
    }
}

int main(void)
{
    tell_sorts();
    tell_growth(&sorts[0]);
    tell_growth(&sorts[2]);
    tell_growth(&sorts[5]);
    return 0;
}
