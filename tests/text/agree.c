/*
 * Parse and print of the archive beside the reference's: random, damaged and garbled texts, images and lists of names, rows
 * of every length. Each answer and each byte of the rows that are written must be the same, and no byte outside a lent row
 * may be read.
 */
#include "guard.h"
#include "reference.h"
#include "rissobarm.h"
#include "texts.h"

#include <inttypes.h>
#include <stdio.h>
#include <stdlib.h>
#include <string.h>

enum { TEXTS = 1000000, TO_A_PRINT = 25, IMAGE = 13000, ROOM = TEXT_ROOM + 64, REFUSALS = 18, LEAST = 100, LEAST_CLASS = 20 };

/* What one side has written. */
struct side {
    uint8_t image[IMAGE], names[ROOM], text[ROOM];
    uint64_t answer;
};

static struct side archive, reference;
static struct text text;
static struct image image;
static struct list list;
static unsigned long parsed[REFUSALS], printed[REFUSALS], moded[MODES_KINDS];

/* Lengths about what is needed: much, that, one less, any, none. */
static size_t some_length(struct random *random, size_t needed, size_t much)
{
    unsigned sort = random_below(random, 16);

    if (sort < 12)
        return much;
    if (sort == 12)
        return needed;
    if (sort == 13)
        return needed > 0 ? needed - 1 : 0;
    return sort == 14 ? random_below(random, (uint32_t)needed + 1) : 0;
}

static void differ(const char *call)
{
    printf("%s differs: archive %016" PRIx64 ", reference %016" PRIx64 "\n%.*s\n", call, archive.answer, reference.answer,
           (int)text.length, (const char *)text.bytes);
    exit(1);
}

/* ---- parse ---- */

/* The names of a text are never longer than it. */
static size_t names_room(void)
{
    return text.length + 64;
}

static void fill(struct side *side)
{
    memset(side->image, 0x5A, IMAGE);
    memset(side->names, 0x5A, names_room());
}

static int same_rows(void)
{
    return memcmp(archive.image, reference.image, IMAGE) == 0 && memcmp(archive.names, reference.names, names_room()) == 0;
}

/* Asked with room for all first, and again where the lengths are others. */
static void parse_reference(struct random *random, size_t *image_len, size_t *names_len)
{
    size_t much = names_room();

    *image_len = IMAGE;
    *names_len = much;
    fill(&reference);
    reference.answer = reference_parse(reference.image, IMAGE, reference.names, much, text.bytes, text.length);
    if (rissobarm_refusal(reference.answer) != RISSOBARM_ACCEPTED)
        return;
    *image_len = some_length(random, rissobarm_parsed_image(reference.answer), IMAGE);
    *names_len = some_length(random, rissobarm_parsed_names(reference.answer), much);
    if (*image_len == IMAGE && *names_len == much)
        return;
    fill(&reference);
    reference.answer = reference_parse(reference.image, *image_len, reference.names, *names_len, text.bytes, text.length);
}

/* Of a text with a refused mode line it is known whether it is 17, or refused for that line. */
static void judge_modes(void)
{
    unsigned refusal = rissobarm_refusal(archive.answer);
    int undeclared = refusal == RISSOBARM_UNDECLARED;
    int for_line = refusal == RISSOBARM_BODY || refusal == RISSOBARM_NAME || refusal == RISSOBARM_MANY;

    if (text.modes == OTHER_TEXT)
        return;
    moded[text.modes]++;
    if (text.modes == MODES_UNDECLARED || text.modes == CLASS_UNDECLARED ? !undeclared : !for_line)
        differ("what is known of the text");
}

static void parse_both(struct random *random)
{
    const uint8_t *lent = random_once(random, 2) ? guard_first(text.bytes, text.length) : guard_last(text.bytes, text.length);
    size_t image_len, names_len;

    parse_reference(random, &image_len, &names_len);
    fill(&archive);
    archive.answer = rissobarm_parse(archive.image, image_len, archive.names, names_len, lent, text.length);
    if (archive.answer != reference.answer || !same_rows())
        differ("parse");
    if (rissobarm_refusal(archive.answer) < REFUSALS)
        parsed[rissobarm_refusal(archive.answer)]++;
    judge_modes();
}

/* ---- print ---- */

/* Full lists mostly; some lack names, are cut, by the last byte alone too, or have bytes that no name has. */
static void make_names(struct random *random, unsigned most)
{
    struct naming naming = { random_bits(random), random_once(random, 8) };
    unsigned sort = random_below(random, 8);

    list_names(&list, &naming, image_relations(&image), sort == 0 ? random_below(random, most + 1) : most);
    if (sort == 1 && list.length > 0)
        list.length -= random_once(random, 2) ? 1 : 1 + random_below(random, (uint32_t)list.length);
    while (sort >= 2 && sort < 4 && list.length > 0 && !random_once(random, 3)) {
        uint8_t *at = &list.bytes[random_below(random, (uint32_t)list.length)];

        *at = (uint8_t)random_below(random, random_once(random, 2) ? 128 : 256);
    }
}

/* Any image, or one that is accepted as a rule; answers how many constants can stand in it. */
static unsigned make_image(struct random *random)
{
    if (random_once(random, 2)) {
        image_any(&image, random);
        return image_constants(&image);
    }
    image_for_text(&image, random);
    return image_renumber(&image);
}

static uint64_t print_reference(size_t text_len)
{
    return reference_print(image.bytes, image.length, list.bytes, list.length, reference.text, text_len);
}

static void print_both(struct random *random)
{
    const uint8_t *lent;
    size_t text_len = ROOM;

    make_names(random, make_image(random));
    lent = guard_last(image.bytes, image.length);
    reference.answer = print_reference(ROOM);
    if (rissobarm_refusal(reference.answer) == RISSOBARM_ACCEPTED)
        text_len = some_length(random, (size_t)(reference.answer >> 32), ROOM);
    memset(archive.text, 0x5A, ROOM);
    memset(reference.text, 0x5A, ROOM);
    reference.answer = print_reference(text_len);
    archive.answer = rissobarm_print(lent, image.length, list.bytes, list.length, archive.text, text_len);
    text.length = 0;
    if (archive.answer != reference.answer || memcmp(archive.text, reference.text, ROOM) != 0)
        differ("print");
    if (rissobarm_refusal(archive.answer) < REFUSALS)
        printed[rissobarm_refusal(archive.answer)]++;
}

/* ---- both ---- */

static int often_enough(const char *call, const unsigned long *seen, const unsigned *refusals, size_t count,
                        unsigned least)
{
    int enough = 1;
    size_t k;

    printf("%s:", call);
    for (k = 0; k < count; k++) {
        printf(" %u %lu", refusals[k], seen[refusals[k]]);
        enough &= seen[refusals[k]] >= least;
    }
    printf("\n");
    return enough;
}

int main(int count, char **words)
{
    static const unsigned by_parse[] = { 0, 4, 5, 6, 11, 16, 17 }, by_print[] = { 0, 1, 2, 3, 4, 5, 6, 7, 11, 17 };
    static const unsigned by_modes[] = { MODES_UNCALLED, MODES_BEFORE, MODES_BEHIND, MODES_UNDECLARED };
    static const unsigned by_class[] = { CLASS_BEHIND, CLASS_UNDECLARED };
    struct random random = { count > 1 ? strtoull(words[1], NULL, 10) : 41 };
    unsigned long texts = count > 2 ? strtoul(words[2], NULL, 10) : TEXTS, k;

    if (!guard_open())
        return 1;
    for (k = 0; k < texts; k++) {
        text_any(&text, &random);
        parse_both(&random);
        if (k % TO_A_PRINT == 0)
            print_both(&random);
    }
    printf("%lu texts, 0 differences\n", texts);
    return often_enough("parse", parsed, by_parse, sizeof by_parse / sizeof by_parse[0], LEAST) &&
                   often_enough("print", printed, by_print, sizeof by_print / sizeof by_print[0], LEAST) &&
                   often_enough("a mode line refused, by what is called", moded, by_modes, sizeof by_modes / sizeof by_modes[0],
                                LEAST) &&
                   often_enough("the same with more names of a class than places", moded, by_class,
                                sizeof by_class / sizeof by_class[0], LEAST_CLASS)
               ? 0
               : 1;
}
