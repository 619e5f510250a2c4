/* The bed: one image and the same tables on both sides, the reference's in plain memory, the archive's between guards. */
#ifndef BED_H
#define BED_H

#include "event.h"
#include "layout.h"
#include "machine.h"
#include "tablerules.h"

enum { FAULT_ROOM = 400, UNTOLD = ROW_ROOM + 1 };

/* What was saved last, and the tables then. */
struct kept {
    uint8_t bytes[RISSOBARM_SAVED_SIZE];
    size_t length; /* 0 where nothing was saved */
    struct rows rows;
    bool straight, changed, scattered;
};

enum { TAPE_ROOM = ROW_ROOM - 2 * ROW_GUARD };

/* The records of the traced calls that followed each other last, and the tables before the first and after the last. */
struct tape {
    uint8_t bytes[TAPE_ROOM];
    size_t length;
    struct rows from, to;
    bool straight;  /* of the tables before */
    uint16_t stamp; /* of the next record */
};

struct bed {
    struct row image;              /* the archive's */
    struct row lent[LENT_ROWS];    /* the archive's */
    struct row wide;               /* rows of processes to be watched, more than a table has */
    struct row further;            /* what a call is lent behind the tables, the archive's */
    uint8_t beside[ROW_ROOM];      /* the reference's */
    size_t further_length;         /* of the next call, where it was told */
    unsigned calls;                /* made so far */
    bool was_short;                /* whether the last call can have been refused for its further row alone */
    struct rows ours;              /* the reference's */
    struct rows before;            /* both sides' before the last call */
    size_t sizes[LENT_ROWS];       /* the lengths that the next call is lent */
    struct kept kept;
    struct tape tape;
    const struct image *source;
    uint64_t loaded;               /* what a load answers */
    struct program program;        /* meant only when the image is accepted */
    struct broken broken;          /* the table rules that the tables break */
    bool known;                    /* whether that is known */
    bool straight;                 /* from a fresh start by calls alone */
    bool changed;                  /* changed by hand or by chance */
    bool scattered;                /* by chance alone */
    bool fair;                     /* whether turns are watched */
    uint64_t wanted;               /* the reference's answer */
    uint64_t answer;               /* the archive's */
    char fault[FAULT_ROOM];        /* what was wrong */
};

/* Maps the archive's rows, and answers whether that could be done. */
bool bed_open(struct bed *bed);

/* Places an image and fills all tables with a byte that means nothing. */
void bed_begin(struct bed *bed, const struct story *story);

/* Plays one event on both sides and compares; false where something is wrong, and fault says what. */
bool bed_play(struct bed *bed, const struct event *event);

/* Whether the image is accepted. */
static inline bool bed_accepts(const struct bed *bed)
{
    return rissobarm_refusal(bed->loaded) == RISSOBARM_ACCEPTED;
}

/* Which table rules the tables break now. */
const struct broken *bed_broken(struct bed *bed);

/* Notes a fault; always false. */
bool bed_fault(struct bed *bed, const char *format, ...);

#endif
