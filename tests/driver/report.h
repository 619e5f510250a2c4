/* A story that went wrong, in full: the image's bytes, the events, the tables, what differs. */
#ifndef REPORT_H
#define REPORT_H

#include "bed.h"

void report_story(const struct story *story);

/* The tables before the last call and, where both sides differ, each field that does. */
void report_tables(struct bed *bed);

#endif
