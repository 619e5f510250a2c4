/* A row of bytes between two pages that nothing may touch: a read outside it ends the program. */
#ifndef GUARD_H
#define GUARD_H

#include <stddef.h>
#include <stdint.h>

enum { GUARD_ROOM = 65536 };

/* Maps the row, and answers whether that could be done. */
int guard_open(void);

/* The bytes right behind the first guard, so that a read before them is seen. */
const uint8_t *guard_first(const uint8_t *bytes, size_t length);

/* The bytes right before the last guard, so that a read past them is seen. */
const uint8_t *guard_last(const uint8_t *bytes, size_t length);

#endif
