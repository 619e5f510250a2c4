/* Placing: a record's form into the index. */
#ifndef INDEX_PLACE_H
#define INDEX_PLACE_H

#include "service.h"

/* What is placed, and why. */
struct placing {
    int64_t record, version;
    const char *word; /* of the form */
    double edited;    /* when the version was made */
    double cause;     /* when the item was made that this comes from */
    int64_t move;
};

/* A record's title, body and folded words, as a form gives them. */
struct document {
    struct text title, body, folded;
};

/* Writes the form into the index, and the row of what is shown. Answers 0 if the plan's word has no form. */
int place(struct service *service, const struct placing *placing);

/* The document of a form; to be freed. */
void document_make(struct service *service, const struct form *form, int64_t record, int64_t version, struct document *document);
void document_free(struct document *document);

#endif
