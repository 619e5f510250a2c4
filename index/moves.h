/*
 * States and moves. A move is a group of supplies, such as `Kind=paper Rights=free`, after another move; it leads to a state, the
 * saved run. The machine is asked once for each move: what it answers depends on nothing but what it is lent, so it is remembered,
 * in memory and in the database. The chain of moves is the log of a run; a state that is no good is made again from it.
 */
#ifndef INDEX_MOVES_H
#define INDEX_MOVES_H

#include "plan.h"
#include "store.h"
#include "text.h"

struct move {
    int64_t id; /* 0 of the start, which no supply led to */
    int64_t before;
    char *supplied;
    int64_t state;
    unsigned ended; /* RISSOBARM_END_.. */
    uint8_t values[RISSOBARM_VALUES_SIZE];
    uint8_t *saved;
    size_t size;
    struct move *after_id, *after_words; /* in the buckets of the memory */
};

enum { BUCKETS = 4096 };

struct moves {
    const struct plan *plan;
    struct move *start;
    struct move *by_id[BUCKETS], *by_words[BUCKETS];
    unsigned count;
    uint64_t made, remembered; /* moves that the machine made, and those that it needed not make */
    double machine;            /* processor time that the machine took for them, in seconds */
    struct rissobarm_plan run;
    uint8_t saved[RISSOBARM_SAVED_SIZE];
};

struct moves *moves_of(const struct plan *plan);
void moves_free(struct moves *moves);

/* Forgets what is remembered in memory: after a transaction that was undone, or when it is too much. */
void moves_forget(struct moves *moves);
int moves_many(const struct moves *moves);

/* The move after another one by a group of supplies; NULL after an error of the store. */
const struct move *moves_next(struct store *store, struct moves *moves, const struct move *from, const char *supplied);

/* The move of a number; NULL if there is none of this plan. */
const struct move *moves_find(struct store *store, struct moves *moves, int64_t id);

/* The machine alone: what a group of supplies leads to, with nothing remembered. The move must be freed. */
struct move *moves_make(struct moves *moves, const struct move *from, const char *supplied);
void move_free(struct move *move);

/* The word that a goal variable has after a move, or NULL while it is open. */
const char *move_word(const struct plan *plan, const struct move *move, unsigned variable);

/* The log of a move: its groups in order, a semicolon and a blank between two. */
void move_log(struct store *store, struct moves *moves, const struct move *move, struct text *text);

/* Walks over the supplies of a group: the next name and word, each in a room of its own; 0 at the end. */
enum { NAME_ROOM = 256 };
int next_supply(const char **at, char *name, char *word);

#endif
