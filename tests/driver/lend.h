/* Rows of bytes as they are lent: guard bytes beside them, and further out parts that nothing may touch. */
#ifndef LEND_H
#define LEND_H

#include <stdbool.h>
#include <stddef.h>
#include <stdint.h>

enum { ROW_ROOM = 65536, ROW_GUARD = 256 };

/* Where a row stands: right behind the untouchable part before it, right before the one behind it, or far from both. */
enum standing { FIRST, LAST, BETWEEN, STANDINGS };

struct row {
    uint8_t *room;
    uint8_t *bytes;
    size_t length;
    enum standing standing;
};

/* Maps the room of a row, and answers whether that could be done. */
bool row_open(struct row *row);

/* Places the row in its room and writes the guard bytes. */
void row_place(struct row *row, size_t length, enum standing standing);

/* Whether the guard bytes are as they were written. */
bool row_guarded(const struct row *row);

/* Where a row of another length begins that stands so: a part of the row, or the row with guard bytes beside it. */
uint8_t *row_of_length(const struct row *row, size_t length);

#endif
