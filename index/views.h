/* What the page shows, as HTML: every word that comes from outside is escaped. */
#ifndef INDEX_VIEWS_H
#define INDEX_VIEWS_H

#include "service.h"
#include "text.h"

extern const char view_style[];

/* Status for operators. */
void view_status(struct store *store, struct text *page);
/* A search; the words may be NULL. */
void view_search(struct store *store, const char *words, struct text *page);
/* One record: its log, and the tree of its run if it waits. Answers 0 if there is no such record. */
int view_record(struct store *store, int64_t record, struct text *page);

#endif
