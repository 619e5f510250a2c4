/* Lists of names: one name a line, relations by number, then constants; the last line may be the mark of an image. */
#ifndef TOOL_LIST_H
#define TOOL_LIST_H

#include "plan.h"

/*
 * Puts the mark of the plan's image behind its names: a name like the others, so that the list stays one for every reader, out
 * of the image's length and a sum of its bytes.
 */
void list_mark(struct plan *plan);

/* Tests the names of an accepted image; 0 where they are no list, or one that lacks a name in use. list_wrong tells why. */
int list_test(struct plan *plan);

/* The same for a list at this path: its mark must be the image's, and is cut off. One without a mark was made by hand. */
int list_take(struct plan *plan, const char *path);

#endif
