/* Random images: whole ones, damaged ones, ones about the limits, and garbage. */
#ifndef IMAGES_H
#define IMAGES_H

#include "random.h"

#include <stddef.h>
#include <stdint.h>

enum { IMAGE_ROOM = 65536, RECORD_ROOM = 256 };

/* An image in the making, and where its records begin. */
struct image {
    uint8_t bytes[IMAGE_ROOM];
    size_t length;
    size_t starts[RECORD_ROOM];
    unsigned records;
};

/* How many of everything; a top over the document's limit makes an image that is refused there. */
struct recipe {
    unsigned relations;
    unsigned clauses;
    unsigned arity;     /* most arguments */
    unsigned block;     /* most clauses of a block */
    unsigned variables; /* most variables */
    unsigned literals;  /* most literals of a goal */
    unsigned stages;    /* most stages of a goal */
    unsigned tight;     /* how often in 16 a top is taken as it is */
    unsigned equality;  /* how often in 16 a literal is an equality */
    unsigned last;      /* whether every other literal calls the last relation */
};

/* The document's limits, with every top taken: the largest image that is accepted. */
extern const struct recipe full_recipe;

/* Makes an image after a recipe; within the limits it is accepted. */
void image_by_recipe(struct image *image, struct random *random, const struct recipe *recipe);

/* The four sorts. */
void image_whole(struct image *image, struct random *random);
void image_damaged(struct image *image, struct random *random);
void image_crowded(struct image *image, struct random *random);
void image_garbage(struct image *image, struct random *random);

/* One of the four sorts. */
void image_any(struct image *image, struct random *random);

/* Makes the image as long as told: by its last record's length, by further records, or by any bytes. */
void image_stretch(struct image *image, struct random *random, size_t length);

/* Begins a record of a kind, and sets its length once its fields are there. */
void record_begin(struct image *image, unsigned kind);
void record_end(struct image *image);

/* One more byte; what no longer fits is dropped. */
void put_byte(struct image *image, unsigned byte);

#endif
