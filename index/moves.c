/* States and moves. */
#include "moves.h"

#include "say.h"

#include <stdio.h>
#include <stdlib.h>
#include <string.h>

enum { HASH_ROOM = 33, MOVES_MOST = 50000, STEPS_MOST = 1000000 };

/* ---- hashes: FNV of 64 bits, twice with other beginnings ---- */

static uint64_t fnv(uint64_t hash, const void *bytes, size_t length)
{
    const uint8_t *at = bytes;
    size_t k;

    for (k = 0; k < length; k++)
        hash = (hash ^ at[k]) * 1099511628211u;
    return hash;
}

static void hash_of(const uint8_t *saved, size_t size, unsigned ended, char *hex)
{
    uint8_t end = (uint8_t)ended;
    uint64_t one = fnv(fnv(14695981039346656037u, saved, size), &end, 1);
    uint64_t two = fnv(fnv(one ^ 0x9e3779b97f4a7c15u, &end, 1), saved, size);

    snprintf(hex, HASH_ROOM, "%016llx%016llx", (unsigned long long)one, (unsigned long long)two);
}

/* ---- the memory ---- */

static unsigned words_bucket(int64_t before, const char *supplied)
{
    return (unsigned)(fnv(fnv(14695981039346656037u, &before, sizeof before), supplied, strlen(supplied)) % BUCKETS);
}

static void remember(struct moves *moves, struct move *move)
{
    struct move **ids = &moves->by_id[(uint64_t)move->id % BUCKETS];
    struct move **words = &moves->by_words[words_bucket(move->before, move->supplied)];

    move->after_id = *ids;
    *ids = move;
    move->after_words = *words;
    *words = move;
    moves->count++;
}

static const struct move *remembered(const struct moves *moves, int64_t before, const char *supplied)
{
    const struct move *move = moves->by_words[words_bucket(before, supplied)];

    while (move != NULL && (move->before != before || strcmp(move->supplied, supplied) != 0))
        move = move->after_words;
    return move;
}

void move_free(struct move *move)
{
    free(move->supplied);
    free(move->saved);
    free(move);
}

void moves_forget(struct moves *moves)
{
    unsigned k;

    for (k = 0; k < BUCKETS; k++) {
        struct move *move = moves->by_id[k], *next;

        for (; move != NULL; move = next) {
            next = move->after_id;
            move_free(move);
        }
        moves->by_id[k] = moves->by_words[k] = NULL;
    }
    moves->count = 0;
}

int moves_many(const struct moves *moves)
{
    return moves->count > MOVES_MOST;
}

struct moves *moves_of(const struct plan *plan)
{
    struct moves *moves = room_for(sizeof *moves);

    moves->plan = plan;
    moves->start = moves_make(moves, NULL, "");
    return moves;
}

void moves_free(struct moves *moves)
{
    moves_forget(moves);
    move_free(moves->start);
    free(moves);
}

/* ---- the machine ---- */

int next_supply(const char **at, char *name, char *word)
{
    size_t length = strcspn(*at, "="), rest;

    if ((*at)[length] == 0 || length >= NAME_ROOM)
        return 0;
    snprintf(name, NAME_ROOM, "%.*s", (int)length, *at);
    *at += length + 1;
    rest = strcspn(*at, " ");
    snprintf(word, NAME_ROOM, "%.*s", (int)rest, *at);
    *at += rest + ((*at)[rest] == ' ');
    return 1;
}

static void supply_all(struct moves *moves, const char *supplied)
{
    char name[NAME_ROOM], word[NAME_ROOM];

    while (next_supply(&supplied, name, word)) {
        int variable = plan_variable(moves->plan, name);

        /* one that is bound by then, through another variable, is refused and left out */
        if (variable >= 0)
            rissobarm_plan_supply(&moves->run, (uint32_t)variable, plan_number(moves->plan, word));
    }
}

/* Takes from the run what a move keeps of it. */
static void keep(struct moves *moves, struct move *move)
{
    move->size = rissobarm_saved(rissobarm_plan_save(&moves->run, moves->saved, sizeof moves->saved));
    move->saved = room_for(move->size);
    memcpy(move->saved, moves->saved, move->size);
    rissobarm_plan_values(&moves->run, move->values, sizeof move->values);
}

struct move *moves_make(struct moves *moves, const struct move *from, const char *supplied)
{
    const struct plan *plan = moves->plan;
    struct move *move = room_for(sizeof *move);
    double began = processor_time();

    move->supplied = copy_of(supplied);
    if (from == NULL || from->id == 0)
        rissobarm_plan_start(&moves->run, plan->image, plan->image_length);
    else
        rissobarm_plan_resume(&moves->run, plan->image, plan->image_length, from->saved, from->size);
    move->before = from != NULL ? from->id : 0;
    move->ended = RISSOBARM_END_WAITING;
    if (from != NULL) {
        supply_all(moves, supplied);
        move->ended = rissobarm_end(rissobarm_plan_run(&moves->run, STEPS_MOST));
        moves->made++;
    }
    keep(moves, move);
    moves->machine += processor_time() - began;
    return move;
}

/* ---- the database ---- */

/* The number of a state, which is put there if it is new. */
static int64_t state_number(struct store *store, const struct moves *moves, const struct move *move)
{
    char hash[HASH_ROOM];

    hash_of(move->saved, move->size, move->ended, hash);
    store_do(store, "INSERT INTO ri_state(plan, hash, ended, saved) VALUES($1, $2, $3, $4) ON CONFLICT(plan, hash) DO NOTHING", "itib",
             moves->plan->id, hash, (int64_t)move->ended, move->saved, move->size);
    return store_integer(store, 0, "SELECT id FROM ri_state WHERE plan = $1 AND hash = $2", "it", moves->plan->id, hash);
}

/* Writes a state again that was no good. */
static void mend_state(struct store *store, const struct move *move)
{
    char hash[HASH_ROOM];

    hash_of(move->saved, move->size, move->ended, hash);
    store_do(store, "UPDATE ri_state SET hash = $2, ended = $3, saved = $4 WHERE id = $1", "itib", move->state, hash,
             (int64_t)move->ended, move->saved, move->size);
}

static void keep_move(struct store *store, const struct moves *moves, struct move *move)
{
    move->state = state_number(store, moves, move);
    store_do(store,
             "INSERT INTO ri_move(plan, before, supplied, state) VALUES($1, $2, $3, $4) ON CONFLICT(plan, before, supplied) DO NOTHING",
             "iiti", moves->plan->id, move->before, move->supplied, move->state);
    move->id = store_integer(store, 0, "SELECT id FROM ri_move WHERE plan = $1 AND before = $2 AND supplied = $3", "iit",
                             moves->plan->id, move->before, move->supplied);
}

/* Whether the bytes of a state are those that its hash was made of, and the library takes them up. */
static int is_good(struct moves *moves, const char *hash, unsigned ended, const void *saved, size_t size)
{
    const struct plan *plan = moves->plan;
    char hex[HASH_ROOM];

    hash_of(saved, size, ended, hex);
    return hash != NULL && strcmp(hex, hash) == 0 &&
           rissobarm_refusal(rissobarm_plan_resume(&moves->run, plan->image, plan->image_length, saved, size)) == RISSOBARM_ACCEPTED;
}

/* Reads the state of a move; 0 if there is none, or it is no good. */
static int read_state(struct store *store, struct moves *moves, struct move *move)
{
    struct rows *rows = store_ask(store, "SELECT ended, hash, saved FROM ri_state WHERE id = $1", "i", move->state);
    const void *saved;
    size_t size;
    int good = 0;

    if (!rows_next(store, rows))
        return 0;
    saved = store->kind->bytes(rows, 2, &size);
    move->ended = (unsigned)store->kind->integer(rows, 0);
    if (saved != NULL && is_good(moves, store->kind->word(rows, 1), move->ended, saved, size)) {
        keep(moves, move);
        good = 1;
    }
    rows_end(store, rows);
    return good;
}

/* Makes the state of a move again from the log, and puts it into its place. */
static void make_again(struct store *store, struct moves *moves, struct move *move)
{
    const struct move *from = moves_find(store, moves, move->before);
    struct move *made;

    if (from == NULL)
        return;
    made = moves_make(moves, from, move->supplied);
    move->saved = made->saved;
    move->size = made->size;
    move->ended = made->ended;
    memcpy(move->values, made->values, sizeof move->values);
    made->saved = NULL;
    move_free(made);
    if (store_integer(store, 0, "SELECT id FROM ri_state WHERE id = $1", "i", move->state) == 0)
        store_do(store, "UPDATE ri_move SET state = $2 WHERE id = $1", "ii", move->id, state_number(store, moves, move));
    else
        mend_state(store, move);
}

/* Fills a move of the database with its state. */
static const struct move *fill(struct store *store, struct moves *moves, struct move *move)
{
    if (!read_state(store, moves, move))
        make_again(store, moves, move);
    if (move->saved == NULL || store->failed) {
        move_free(move);
        return NULL;
    }
    remember(moves, move);
    return move;
}

const struct move *moves_find(struct store *store, struct moves *moves, int64_t id)
{
    struct move *move = moves->by_id[(uint64_t)id % BUCKETS];
    struct rows *rows;

    if (id == 0)
        return moves->start;
    while (move != NULL && move->id != id)
        move = move->after_id;
    if (move != NULL)
        return move;
    rows = store_ask(store, "SELECT before, supplied, state FROM ri_move WHERE id = $1 AND plan = $2", "ii", id, moves->plan->id);
    if (!rows_next(store, rows))
        return NULL;
    move = room_for(sizeof *move);
    move->id = id;
    move->before = store->kind->integer(rows, 0);
    move->supplied = copy_of(store->kind->word(rows, 1));
    move->state = store->kind->integer(rows, 2);
    rows_end(store, rows);
    return fill(store, moves, move);
}

const struct move *moves_next(struct store *store, struct moves *moves, const struct move *from, const char *supplied)
{
    const struct move *known = remembered(moves, from->id, supplied);
    struct move *move;
    int64_t id;

    if (known != NULL) {
        moves->remembered++;
        return known;
    }
    id = store_integer(store, 0, "SELECT id FROM ri_move WHERE plan = $1 AND before = $2 AND supplied = $3", "iit", moves->plan->id,
                       from->id, supplied);
    if (id != 0)
        return moves_find(store, moves, id);
    if (store->failed)
        return NULL;
    move = moves_make(moves, from, supplied);
    keep_move(store, moves, move);
    if (store->failed) {
        move_free(move);
        return NULL;
    }
    remember(moves, move);
    return move;
}

/* ---- what a move tells ---- */

const char *move_word(const struct plan *plan, const struct move *move, unsigned variable)
{
    if (rissobarm_sort_at(move->values, variable) != RISSOBARM_SORT_CONSTANT)
        return NULL;
    return plan_text(plan, rissobarm_number_at(move->values, variable));
}

void move_log(struct store *store, struct moves *moves, const struct move *move, struct text *text)
{
    if (move == NULL || move->id == 0)
        return;
    if (move->before != 0) {
        move_log(store, moves, moves_find(store, moves, move->before), text);
        text_word(text, "; ");
    }
    text_word(text, move->supplied);
}
