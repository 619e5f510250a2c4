/* How the whole job is: queue, waiting runs, trouble, ages. For `status` and for the page. */
#ifndef INDEX_OVERVIEW_H
#define INDEX_OVERVIEW_H

#include "ages.h"
#include "store.h"

enum { REASONS_MOST = 16, COUNTS_MOST = 8 };

struct reason {
    char what[64], word[64];
    int64_t count;
    double oldest; /* when the oldest of them was asked */
};

struct overview {
    int64_t records, shown, queued, waiting, trouble, states, moves;
    double oldest; /* seconds that the oldest item has waited; 0 if the queue is empty */
    struct reason reasons[REASONS_MOST];
    unsigned reason_count;
    char count_names[COUNTS_MOST][32];
    int64_t counts[COUNTS_MOST];
    unsigned count_count;
    struct ages ages; /* of the last hour */
};

void overview_read(struct store *store, struct overview *overview);
void overview_free(struct overview *overview);
void overview_json(const struct overview *overview, struct text *text);

#endif
