/* Edits that the job makes itself. */
#ifndef INDEX_AGAIN_H
#define INDEX_AGAIN_H

#include "store.h"

/* Gives a record its next version and queues the edit; gone or not as it was. */
void edit_again(struct store *store, int64_t record);

#endif
