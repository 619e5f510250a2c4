/* Makes a story that goes wrong shorter, as long as it goes wrong. */
#ifndef SHRINK_H
#define SHRINK_H

#include "bed.h"
#include "trap.h"

/* Plays a whole story again. */
enum trapped play_again(struct bed *bed, struct story *story);

/* Drops events and records; the bed is left as the shortest story leaves it. */
enum trapped shrink(struct bed *bed, struct story *story);

#endif
