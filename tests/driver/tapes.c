/* Stories of traces that are played again. */
#include "journey.h"

#include "legal.h"

/* A stamp to begin with, often one from which the stamps soon start again at 0. */
static uint32_t draw_stamp(struct random *random)
{
    return random_once(random, 2) ? 65536 - random_below(random, 40) : random_below(random, 65536);
}

/* The tape from its beginning: whole, then damaged ones, then whole again and on. */
static bool play_tape(struct journey *journey, unsigned times)
{
    struct random *random = journey->random;

    if (!go(journey, REWINDS, 0, 0) || !go(journey, REPLAYS, 0, random_once(random, 4)))
        return false;
    while (times-- > 0)
        if (!go(journey, REWINDS, 0, 0) ||
            !go(journey, REPLAYS, 1 + random_bits(random) / 2, random_once(random, 16)))
            return false;
    return go(journey, REWINDS, 0, 0) && go(journey, REPLAYS, 0, 0);
}

bool story_of_traces(struct journey *journey)
{
    struct random *random = journey->random;
    bool legal = random_once(random, 4);
    unsigned records = 1 + random_below(random, random_once(random, 4) ? 60 : 12);

    if (!begin_plan(journey))
        return false;
    if (!go(journey, legal ? LEGALS : STARTS, legal ? random_bits(random) : 0, legal ? LEGAL_PLAIN : 0))
        return false;
    if (random_once(random, 2) && !drive(journey, MIXED, random_below(random, 40)))
        return false;
    if (!go(journey, STAMPS, draw_stamp(random) % 65536, 0))
        return false;
    while (records-- > 0)
        if (!go_traced(journey))
            return false;
    return play_tape(journey, 12 + random_below(random, 28)) &&
           drive(journey, random_below(random, TEMPERS), random_below(random, 20));
}
