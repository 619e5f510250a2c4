/* Stories of runs that are saved and taken up again. */
#include "journey.h"

#include "legal.h"

/* Damaged runs one after the other, and a call on what is let in. */
static bool damaged_nights(struct journey *journey, unsigned times)
{
    while (times-- > 0) {
        if (!go(journey, RESUMES, 1 + random_bits(journey->random) / 2, 0))
            return false;
        if (rissobarm_refusal(journey->bed->answer) == RISSOBARM_ACCEPTED && !go_anywhere(journey))
            return false;
    }
    return true;
}

/* One night: saved, perhaps gone on with, taken up where it was or in rows of chance; damaged ones; and on from the whole one. */
static bool night(struct journey *journey)
{
    struct random *random = journey->random;

    if (!go_save(journey) || !go(journey, SAVES, 0, 0))
        return false;
    if (random_once(random, 2) && !drive(journey, MIXED, random_below(random, 8)))
        return false;
    if (random_once(random, 2) && !go(journey, SCATTERS, random_bits(random), random_below(random, SCATTER_STYLES)))
        return false;
    return go(journey, RESUMES, 0, 0) && damaged_nights(journey, 8 + random_below(random, 24)) &&
           go(journey, RESUMES, 0, 0) && drive(journey, random_below(random, TEMPERS), random_below(random, 30));
}

bool story_of_nights(struct journey *journey)
{
    struct random *random = journey->random;
    unsigned nights = 1 + random_below(random, 2);
    bool legal = random_once(random, 4);

    if (!begin_plan(journey))
        return false;
    if (!go(journey, legal ? LEGALS : STARTS, legal ? random_bits(random) : 0, legal ? LEGAL_PLAIN : 0))
        return false;
    if (!drive(journey, random_below(random, TEMPERS), random_below(random, 60)))
        return false;
    while (nights-- > 0)
        if (!night(journey))
            return false;
    return true;
}
