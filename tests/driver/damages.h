/* Damage to a row of records by chance: bytes, lengths, kinds, whole records. */
#ifndef DAMAGES_H
#define DAMAGES_H

#include <stddef.h>
#include <stdint.h>

/* The kinds that a row has, and the bytes of a record of each. */
struct record_kinds {
    unsigned count;
    uint8_t kinds[3];
    uint8_t sizes[3];
};

/* Damages the row, which has room for more, by a seed; answers how long it is then. */
size_t damage_records(uint8_t *bytes, size_t length, size_t room, uint32_t seed, const struct record_kinds *kinds);

#endif
