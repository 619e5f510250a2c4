/* Programs that requests are for: started outside any transaction, at least once, and again when they fail. */
#ifndef INDEX_CALLS_H
#define INDEX_CALLS_H

#include "service.h"

/* Starts what is due and takes what has ended. Answers how many run or are due, or -1 after an error. */
int calls_tend(struct service *service);

#endif
