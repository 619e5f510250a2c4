/* The fastest run and supply in C that we have, and values: the same lent bytes and answers as rissobarm_run, _supply and _values. */
#ifndef QUICK_H
#define QUICK_H

#include <stddef.h>
#include <stdint.h>

uint64_t quick_run(const uint8_t *image, size_t image_len, uint8_t *head, size_t head_len,
                   uint8_t *procs, size_t procs_len, uint8_t *vars, size_t vars_len,
                   uint16_t limit);

uint64_t quick_supply(const uint8_t *image, size_t image_len, const uint8_t *head, size_t head_len,
                      const uint8_t *procs, size_t procs_len, uint8_t *vars, size_t vars_len,
                      uint32_t variable, uint32_t constant);

uint64_t quick_values(const uint8_t *image, size_t image_len, const uint8_t *head, size_t head_len,
                      const uint8_t *procs, size_t procs_len, const uint8_t *vars, size_t vars_len,
                      uint8_t *values, size_t values_len);

#endif
