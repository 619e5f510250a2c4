/* One record's run: an item of the queue is done. */
#ifndef INDEX_RUN_H
#define INDEX_RUN_H

#include "service.h"

/* Does an item, inside a transaction. What goes wrong with the record alone goes to the trouble list. */
void run_item(struct service *service, const struct item *item);

/* Begins a waiting run anew with the plan in use, with the answers of its log in hand. */
void run_anew(struct service *service, int64_t record, int64_t version, const char *log);

#endif
