/* Counts what an event that was played came to. */
#ifndef SEEN_H
#define SEEN_H

#include "bed.h"
#include "properties.h"

void seen(const struct bed *bed, const struct event *event, const struct entry *entry);

/* Counts the shapes of the goals and relations that the processes of the tables work in. */
void seen_shapes(const struct bed *bed);

#endif
