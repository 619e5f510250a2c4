/* The further row of a call, behind the tables: placed and filled on both sides, and compared after the call. */
#ifndef FURTHER_H
#define FURTHER_H

#include "bed.h"

/* Whether the call is lent one. */
bool further_lent(const struct event *event);

/* The tables as records of a saved run, whatever they hold; how many bytes. A row more than there can be is counted no further. */
size_t records_of(const struct rows *rows, unsigned image_length, uint8_t *bytes);

/*
 * Places it with the length that was told, or one that is always enough, and fills it with bytes that mean nothing; or, where
 * the call reads it, with what it is to read.
 */
void further_place(struct bed *bed, const struct event *event);

/* How many bytes of it the call has written. */
size_t further_written(const struct bed *bed, const struct event *event);

/* Whether both sides wrote the same, and nothing behind it, nor anything where the call was refused. */
bool further_right(struct bed *bed, const struct event *event);

/* Whether a refused resume was one of damaged records or rows, and what a save or resume left is what it says. */
bool whole_let_in(struct bed *bed, const struct event *event);
bool saved_holds(struct bed *bed, const struct event *event);

/* Whether the records that a traced call wrote are those of what it did; puts them on the tape. */
bool trace_holds(struct bed *bed, const struct event *event);

/* Whether a replay has given the tables that it must. */
bool replay_holds(struct bed *bed, const struct event *event);

/* Whether what an accepted call wrote is what the tables before and after it tell. */
bool further_holds(struct bed *bed, const struct event *event);

#endif
