/* Loads random images by the archive and by the reference, and compares the answers bit by bit. */
#include "guard.h"
#include "images.h"
#include "reference.h"
#include "rissobarm.h"

#include <inttypes.h>
#include <stdio.h>
#include <string.h>

/* A load refuses up to NOGOAL. */
enum { IMAGES = 120000, REFUSALS = RISSOBARM_NOGOAL + 1, LEAST = 100 };

static const uint64_t seed = 20011;
static const char *const names[REFUSALS] = {
    [RISSOBARM_ACCEPTED] = "accepted", [RISSOBARM_LONG] = "LONG", [RISSOBARM_CUT] = "CUT",
    [RISSOBARM_KIND] = "KIND",         [RISSOBARM_BODY] = "BODY", [RISSOBARM_NAME] = "NAME",
    [RISSOBARM_MANY] = "MANY",         [RISSOBARM_NOGOAL] = "NOGOAL",
};
static unsigned seen[REFUSALS], differences, touched;

/* The image at both ends of the guarded row: the same answer, and not one byte changed. */
static void compare(const struct image *image)
{
    const uint8_t *first = guard_first(image->bytes, image->length);
    uint64_t wanted = reference_load(image->bytes, image->length);
    uint64_t a = rissobarm_load(first, image->length), b;
    const uint8_t *last;

    touched += memcmp(first, image->bytes, image->length) != 0;
    last = guard_last(image->bytes, image->length);
    b = rissobarm_load(last, image->length);
    touched += memcmp(last, image->bytes, image->length) != 0;
    if (a != wanted || b != wanted) {
        differences++;
        printf("%zu bytes: archive %" PRIx64 " and %" PRIx64 ", reference %" PRIx64 "\n", image->length, a, b, wanted);
    }
    if (rissobarm_refusal(a) < REFUSALS)
        seen[rissobarm_refusal(a)]++;
}

/* How often each answer came, and whether each came often enough. */
static int tell(void)
{
    int enough = 1;
    unsigned k;

    for (k = 0; k < REFUSALS; k++) {
        printf("%u %-8s %6u\n", k, names[k], seen[k]);
        enough &= seen[k] >= LEAST;
    }
    printf("%d images, %u differences, %u images changed\n", IMAGES, differences, touched);
    return enough;
}

int main(void)
{
    static struct image image;
    struct random random = { seed };
    unsigned k;

    if (!guard_open()) {
        printf("no guarded row\n");
        return 1;
    }
    for (k = 0; k < IMAGES; k++) {
        image_any(&image, &random);
        compare(&image);
    }
    return tell() && differences == 0 && touched == 0 ? 0 : 1;
}
