/* Whole files, read at once. */
#ifndef TOOL_FILES_H
#define TOOL_FILES_H

#include <stddef.h>
#include <stdint.h>
#include <stdio.h>

/* Bytes with their length; there is always a byte of room at least, so that the pointer is none of null. */
struct bytes {
    uint8_t *at;
    size_t length;
    size_t room;
};

/* Puts bytes behind the others. */
void bytes_add(struct bytes *bytes, const void *more, size_t count);

/* A sum of bytes (FNV-1a, 64 bits): other bytes do not have the same by chance. */
uint64_t bytes_sum(const void *bytes, size_t count);

/* A file to be read, "-" being standard input, which is one file alone; ends the tool where it cannot be had. */
FILE *file_open(const char *path);

/* All bytes of a file, "-" being standard input; ends the tool where that cannot be had. */
struct bytes file_read(const char *path);

#endif
