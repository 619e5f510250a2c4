/* Drops ever smaller runs of events, then records of the image, until nothing more can go. */
#include "shrink.h"

#include "counts.h"

#include <string.h>

enum { SECONDS = 10 };

struct replay {
    struct bed *bed;
    struct story *story;
};

static bool replay_all(void *context)
{
    struct replay *replay = context;
    unsigned k;

    bed_begin(replay->bed, replay->story);
    for (k = 0; k < replay->story->count; k++)
        if (!bed_play(replay->bed, &replay->story->events[k])) {
            replay->story->count = k + 1;
            return false;
        }
    return true;
}

enum trapped play_again(struct bed *bed, struct story *story)
{
    struct replay replay = { bed, story };

    counting = false;
    return trap(replay_all, &replay, SECONDS);
}

/* Keeps a shorter story if it still goes wrong. */
static bool keep_if_wrong(struct bed *bed, struct story *story, struct story *shorter)
{
    if (play_again(bed, shorter) == DONE_RIGHT)
        return false;
    *story = *shorter;
    return true;
}

static bool drop_events(struct bed *bed, struct story *story, unsigned from, unsigned size)
{
    static struct story shorter;

    shorter = *story;
    if (from + size > shorter.count)
        size = shorter.count - from;
    memmove(&shorter.events[from], &shorter.events[from + size],
            (shorter.count - from - size) * sizeof shorter.events[0]);
    shorter.count -= size;
    return keep_if_wrong(bed, story, &shorter);
}

/* The length that a record writes, or what is left where it passes the end. */
static size_t record_size(const struct image *image, size_t at)
{
    size_t left = image->length - at, size;

    if (left < RISSOBARM_RECORD_HEAD)
        return left;
    size = image->bytes[at] + 256u * image->bytes[at + 1];
    return size < RISSOBARM_RECORD_HEAD || size > left ? left : size;
}

static bool drop_record(struct bed *bed, struct story *story, size_t at, size_t size)
{
    static struct story shorter;
    struct image *image = &shorter.image;

    shorter = *story;
    memmove(image->bytes + at, image->bytes + at + size, image->length - at - size);
    image->length -= size;
    return keep_if_wrong(bed, story, &shorter);
}

static bool shrink_events(struct bed *bed, struct story *story)
{
    unsigned size, at;
    bool better = false;

    for (size = story->count / 2; size > 0; size /= 2)
        for (at = 0; at < story->count;) {
            if (drop_events(bed, story, at, size))
                better = true;
            else
                at += size;
        }
    return better;
}

static bool shrink_image(struct bed *bed, struct story *story)
{
    bool better = false;
    size_t at = 0, size;

    while (at < story->image.length) {
        size = record_size(&story->image, at);
        if (drop_record(bed, story, at, size))
            better = true;
        else
            at += size;
    }
    return better;
}

enum trapped shrink(struct bed *bed, struct story *story)
{
    unsigned rounds = 0;
    enum trapped came = play_again(bed, story);

    while (came != DONE_RIGHT && came != HUNG && rounds++ < 8) {
        bool events = shrink_events(bed, story), image = shrink_image(bed, story);

        if (!events && !image)
            break;
    }
    return play_again(bed, story);
}
