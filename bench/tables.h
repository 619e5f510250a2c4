/* The image and the lent rows at hand. */
#ifndef TABLES_H
#define TABLES_H

#include "images.h"
#include "rissobarm.h"

/* The three rows of a run. */
struct tables {
    uint8_t head[RISSOBARM_HEAD_SIZE];
    uint8_t procs[RISSOBARM_PROCS_SIZE];
    uint8_t vars[RISSOBARM_VARS_SIZE];
};

#define IMAGE image.bytes, image.length
#define TABLES(t) (t)->head, sizeof (t)->head, (t)->procs, sizeof (t)->procs, (t)->vars, sizeof (t)->vars

static inline unsigned processes(const struct tables *t)
{
    return t->head[RISSOBARM_HEAD_PROCS] + 256u * t->head[RISSOBARM_HEAD_PROCS + 1];
}

#endif
