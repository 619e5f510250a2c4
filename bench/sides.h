/* The sides that are compared and timed: the archive, the plain C of the targets, and the quick C. */
#ifndef SIDES_H
#define SIDES_H

#include <stddef.h>
#include <stdint.h>

/* A load has the first two alone. */
enum { ARCHIVE, PLAIN, QUICK, ALL_SIDES, TWO_SIDES = QUICK };

typedef uint64_t runner(const uint8_t *image, size_t image_len, uint8_t *head, size_t head_len, uint8_t *procs,
                        size_t procs_len, uint8_t *vars, size_t vars_len, uint16_t limit);

typedef uint64_t supplier(const uint8_t *image, size_t image_len, const uint8_t *head, size_t head_len,
                          const uint8_t *procs, size_t procs_len, uint8_t *vars, size_t vars_len, uint32_t variable,
                          uint32_t value);

typedef uint64_t valuer(const uint8_t *image, size_t image_len, const uint8_t *head, size_t head_len,
                        const uint8_t *procs, size_t procs_len, const uint8_t *vars, size_t vars_len, uint8_t *values,
                        size_t values_len);

/* The run, the supply and the values of each side. */
extern runner *const run_of[ALL_SIDES];
extern supplier *const supply_of[ALL_SIDES];
extern valuer *const values_of[ALL_SIDES];

#endif
