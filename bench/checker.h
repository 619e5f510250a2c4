/* A plain one-pass checker of images, with the answers of the load. */
#ifndef CHECKER_H
#define CHECKER_H

#include <stddef.h>
#include <stdint.h>

uint64_t checker_load(const uint8_t *image, size_t image_len);

#endif
