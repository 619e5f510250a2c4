/* Words that are searched for. */
#ifndef INDEX_QUERY_H
#define INDEX_QUERY_H

#include "text.h"

/* Adds the words as FTS5 takes them: folded, each quoted, so that none is an operator. Nothing if there is no word. */
void query_of(struct text *query, const char *words);

#endif
