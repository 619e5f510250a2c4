/* How old an edit was when it was searchable, and what a build at night would have made of it. */
#ifndef INDEX_AGES_H
#define INDEX_AGES_H

#include "store.h"
#include "text.h"

enum { PERCENTILES = 5 };
extern const double percents[PERCENTILES]; /* 50, 90, 99, 99.9, 100 */

struct ages {
    unsigned count;
    double *edits;   /* from an edit until it was first shown, in order */
    double *causes;  /* from the item that a placing comes from until it was shown, in order */
    double *nightly; /* from an edit until the end of the next build at night, in order */
};

/* Of what was placed in so many seconds up to now. */
void ages_read(struct store *store, double since, struct ages *ages);
void ages_free(struct ages *ages);

double percentile(const double *sorted, unsigned count, double percent);

void ages_json(const struct ages *ages, struct text *text);
void ages_svg(const struct ages *ages, struct text *text);

/* A time as words: 4.5 ms, 12 s, 14.0 h. */
void add_seconds(struct text *text, double seconds);

#endif
