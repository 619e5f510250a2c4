/* The processes of a saved run as a picture. */
#ifndef INDEX_TREE_H
#define INDEX_TREE_H

#include "plan.h"
#include "text.h"

/* Draws the live processes of a saved run; answers 0 if the library refuses it. */
int tree_svg(const struct plan *plan, const void *saved, size_t size, struct text *text);

#endif
