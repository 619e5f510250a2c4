/* The work itself: batches of the queue, clocks, programs. */
#ifndef INDEX_WORK_H
#define INDEX_WORK_H

#include "service.h"

/* Does a batch in one transaction. Answers how many items, or -1 after an error, which the store tells; then nothing is done. */
int work_batch(struct service *service);

/* Queues the answers whose clocks have run out; how many, or -1. */
int work_clocks(struct service *service);

/* Works until nothing is left to do now; answers 0 after an error. */
int work_once(struct service *service);

/* Works until a stop comes. */
void work_on(struct service *service);

/* Whether a stop has come: SIGTERM, SIGINT. */
extern volatile int work_stopped;
void work_take_stops(void);

#endif
