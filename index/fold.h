/* Letters that a search takes for others: ø for o, æ for ae, ł for l. */
#ifndef INDEX_FOLD_H
#define INDEX_FOLD_H

#include "text.h"

/* Adds the words of a text that have such a letter, folded, a blank between two: one that FTS5 leaves as it is, or, with all, any with an accent. */
void fold_words(struct text *out, const char *text, int all);

/* Adds a text with every such letter folded. */
void fold_all(struct text *out, const char *text);

#endif
