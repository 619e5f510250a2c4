/* Harms whole images, and makes what never was one. */
#include "images.h"
#include "rissobarm.h"

#include <string.h>

/* Bytes that stand on either side of some limit. */
static const uint8_t telling[] = { 0, 1, 2, 3, 4, 5, 7, 8, 9, 15, 16, 17, 31, 32, 33, 64, 127, 128, 129, 254, 255 };

static unsigned telling_byte(struct random *random)
{
    return telling[random_below(random, sizeof telling)];
}

/* Any byte, often the kind of byte that matters. */
static unsigned some_byte(struct random *random)
{
    return random_once(random, 2) ? telling_byte(random) : random_below(random, 256);
}

/* A place in the image, often near the start of a record. */
static size_t some_place(const struct image *image, struct random *random)
{
    size_t at = random_below(random, (uint32_t)image->length);

    if (image->records > 0 && random_once(random, 2))
        at = image->starts[random_below(random, image->records)] + random_below(random, 12);
    return at < image->length ? at : image->length - 1;
}

/* The bytes from one place on stand at another; the image grows or shrinks by the distance. */
static void shift(struct image *image, size_t from, size_t to)
{
    if (image->length - from + to > IMAGE_ROOM)
        return;
    memmove(image->bytes + to, image->bytes + from, image->length - from);
    image->length = image->length - from + to;
}

static void write_over(struct image *image, struct random *random)
{
    image->bytes[some_place(image, random)] = (uint8_t)some_byte(random);
}

static void change_bit(struct image *image, struct random *random)
{
    image->bytes[some_place(image, random)] ^= (uint8_t)(1u << random_below(random, 8));
}

static void change_by_one(struct image *image, struct random *random)
{
    image->bytes[some_place(image, random)] += random_once(random, 2) ? 1 : 255;
}

static void drop_byte(struct image *image, struct random *random)
{
    size_t at = some_place(image, random);

    shift(image, at + 1, at);
}

static void add_byte(struct image *image, struct random *random)
{
    size_t at = some_place(image, random);

    shift(image, at, at + 1);
    image->bytes[at] = (uint8_t)some_byte(random);
}

static void cut_off(struct image *image, struct random *random)
{
    image->length = some_place(image, random);
}

/* From the start of a record on nothing is left; it is the goal that is dropped most. */
static void drop_records(struct image *image, struct random *random)
{
    size_t at = image->starts[random_once(random, 4) ? random_below(random, image->records) : image->records - 1];

    if (at < image->length)
        image->length = at;
}

static void append_bytes(struct image *image, struct random *random)
{
    unsigned count = 1 + random_below(random, 8);

    while (count-- > 0)
        put_byte(image, some_byte(random));
}

/* A record once more, behind itself or at the end. */
static void repeat_record(struct image *image, struct random *random)
{
    unsigned k = random_below(random, image->records);
    size_t from = image->starts[k], size, to;

    if (from + 2 > image->length)
        return;
    size = image->bytes[from] + 256u * image->bytes[from + 1];
    if (from + size > image->length || image->length + size > IMAGE_ROOM)
        return;
    to = random_once(random, 2) ? from + size : image->length;
    shift(image, to, to + size);
    memmove(image->bytes + to, image->bytes + from, size);
}

/* A record's length changed by one or two together with its bytes, so that the next record stands right. */
static void resize_record(struct image *image, struct random *random)
{
    size_t at = image->starts[random_below(random, image->records)];
    size_t end;

    if (at + RISSOBARM_RECORD_HEAD >= image->length)
        return;
    end = at + image->bytes[at];
    if (end >= image->length || image->bytes[at] <= RISSOBARM_RECORD_HEAD || image->bytes[at] > 250)
        return;
    if (random_once(random, 2)) {
        shift(image, end, end - 1);
        image->bytes[at] -= 1;
    } else {
        shift(image, end, end + 1);
        image->bytes[at] += 1;
    }
}

void image_damaged(struct image *image, struct random *random)
{
    static void (*const harms[])(struct image *, struct random *) = {
        write_over, write_over, write_over, change_bit, change_by_one, change_by_one, drop_byte, add_byte,
        cut_off, drop_records, append_bytes, repeat_record, resize_record, resize_record
    };
    unsigned places = 1 + random_below(random, 3);

    image_whole(image, random);
    while (places-- > 0 && image->length > 0)
        harms[random_below(random, sizeof harms / sizeof harms[0])](image, random);
}

void image_stretch(struct image *image, struct random *random, size_t length)
{
    size_t start = image->starts[image->records - 1], size = length - start;
    unsigned way = random_below(random, 3);

    if (way == 0) {
        image->bytes[start] = (uint8_t)(size % 256);
        image->bytes[start + 1] = (uint8_t)(size / 256);
    }
    while (way == 1 && image->length + 6 <= length) {
        record_begin(image, RISSOBARM_RECORD_GOAL);
        put_byte(image, 0);
        put_byte(image, 0);
        record_end(image);
    }
    while (image->length < length)
        put_byte(image, some_byte(random));
}

/* Records of likely lengths and kinds with fields by chance. */
static void garbage_records(struct image *image, struct random *random)
{
    unsigned count = random_below(random, 8), kind = RISSOBARM_RECORD_RELATION, k;

    while (count-- > 0) {
        record_begin(image, kind);
        for (k = random_below(random, 16); k > 0; k--)
            put_byte(image, random_below(random, 4));
        record_end(image);
        kind += random_below(random, 2);
    }
}

void image_garbage(struct image *image, struct random *random)
{
    static const uint32_t most[] = { 1, 5, 16, 64, 1024, 32771, 40000 };
    size_t length = random_below(random, most[random_below(random, 7)]);

    image->length = 0;
    image->records = 0;
    if (random_once(random, 2))
        garbage_records(image, random);
    if (random_once(random, 2))
        while (image->length < length)
            put_byte(image, some_byte(random));
}

void image_any(struct image *image, struct random *random)
{
    unsigned sort = random_below(random, 20);

    if (sort < 4)
        image_whole(image, random);
    else if (sort < 12)
        image_damaged(image, random);
    else if (sort < 17)
        image_crowded(image, random);
    else
        image_garbage(image, random);
}
