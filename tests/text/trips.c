/*
 * Images and texts forth and back. An image is spelt as text by chance: that must be read as the image itself, or be
 * refused as its load is. It is printed with names for everything: what is read back is the image with its numbers in
 * order, and prints as before.
 */
#include "reference.h"
#include "texts.h"

#include <inttypes.h>
#include <stdio.h>
#include <stdlib.h>
#include <string.h>

enum { TRIPS = 20000, REFUSALS = 18 };

static struct image image, wanted, got;
static struct text text, again;
static struct list names, listed;
static unsigned long seen[REFUSALS], constants_used;

static void wrong(const char *what, uint64_t a, uint64_t b)
{
    printf("wrong, %s: %016" PRIx64 " and %016" PRIx64 "\n%.*s\n", what, a, b, (int)text.length, (const char *)text.bytes);
    exit(1);
}

static uint64_t parse(const struct text *from)
{
    uint64_t answer = reference_parse(got.bytes, IMAGE_ROOM, listed.bytes, NAMES_ROOM, from->bytes, from->length);

    got.length = (size_t)(answer >> 8 & 65535);
    listed.length = (size_t)(answer >> 32);
    return answer;
}

static uint64_t print(struct text *to, const struct image *from, const struct list *by)
{
    uint64_t answer = reference_print(from->bytes, from->length, by->bytes, by->length, to->bytes, TEXT_ROOM);

    to->length = (size_t)(answer >> 32);
    return answer;
}

/* How many entries a list has. */
static unsigned entries(const struct list *list)
{
    unsigned count = 0;
    size_t k;

    for (k = 0; k < list->length; k++)
        count += list->bytes[k] == 10;
    return count;
}

/* The text that was just read has given this image, and the names of it by number. */
static void is_wanted(const char *what, uint64_t answer, const struct naming *naming)
{
    if ((answer & 255) != 0 || got.length != wanted.length || memcmp(got.bytes, wanted.bytes, got.length) != 0)
        wrong(what, answer, wanted.length);
    if (naming == NULL)
        return;
    list_names(&names, naming, image_relations(&wanted), entries(&listed) - image_relations(&wanted));
    if (names.length != listed.length || memcmp(names.bytes, listed.bytes, names.length) != 0)
        wrong("the names", names.length, listed.length);
}

/* Spelt by chance. */
static void spelt(const struct naming *naming, struct random *random)
{
    uint64_t loaded = reference_load(wanted.bytes, wanted.length), answer;

    text_spell(&text, &wanted, naming, random);
    if (text.full)
        return;
    answer = parse(&text);
    seen[answer & 255]++;
    if ((loaded & 255) == 0)
        is_wanted("spelt and read", answer, naming);
    else if (answer != loaded)
        wrong("refused otherwise than its image", answer, loaded);
}

/* Printed with any numbers, read back, and printed once more; the list of the second has the names in their order. */
static void printed(const struct naming *naming)
{
    uint64_t answer;

    list_names(&names, naming, image_relations(&image), image_constants(&image));
    answer = print(&text, &image, &names);
    if ((answer & 255) != 0)
        wrong("printed", answer, 0);
    is_wanted("printed and read", parse(&text), NULL);
    answer = print(&again, &got, &listed);
    constants_used += entries(&listed);
    if ((answer & 255) != 0 || again.length < got.length / 4)
        wrong("printed again", answer, 0);
    is_wanted("printed again and read", parse(&again), NULL);
    print(&text, &got, &listed);
    if (text.length != again.length || memcmp(text.bytes, again.bytes, text.length) != 0)
        wrong("printed twice", text.length, again.length);
}

int main(int count, char **words)
{
    struct random random = { 40417 };
    unsigned trips = count > 1 ? (unsigned)strtoul(words[1], NULL, 10) : TRIPS, k;

    for (k = 0; k < trips; k++) {
        struct naming naming = { random_bits(&random), random_once(&random, 8) };

        image_for_text(&image, &random);
        if (random_once(&random, 8))
            image_misname(&image, &random);
        wanted = image;
        image_renumber(&wanted);
        spelt(&naming, &random);
        if (!random_once(&random, 8))
            image = wanted;
        if ((reference_load(image.bytes, image.length) & 255) == 0)
            printed(&naming);
    }
    printf("trips: %u images spelt and read, %lu as they are, %lu, %lu and %lu refused 4, 5 and 6 as they are; printed and read "
           "back, %lu names\n",
           trips, seen[0], seen[4], seen[5], seen[6], constants_used);
    return seen[0] > trips / 2 && seen[4] > 100 && seen[5] > 100 && seen[6] > 100 ? 0 : 1;
}
