/* Whole files. */
#include "files.h"

#include "say.h"

#include <errno.h>
#include <stdio.h>
#include <stdlib.h>
#include <string.h>

enum { LEAST_ROOM = 256, FILE_LIMIT = 64 << 20 };

static void make_room(struct bytes *bytes, size_t count)
{
    if (bytes->length + count < bytes->room)
        return;
    bytes->room = 2 * (bytes->length + count) + LEAST_ROOM;
    bytes->at = (uint8_t *)realloc(bytes->at, bytes->room);
    if (bytes->at == NULL)
        quit(NO_FILE, "no memory is left");
}

void bytes_add(struct bytes *bytes, const void *more, size_t count)
{
    make_room(bytes, count);
    if (count > 0)
        memcpy(bytes->at + bytes->length, more, count);
    bytes->length += count;
}

uint64_t bytes_sum(const void *bytes, size_t count)
{
    const uint8_t *at = (const uint8_t *)bytes;
    uint64_t sum = UINT64_C(14695981039346656037);
    size_t k;

    for (k = 0; k < count; k++)
        sum = (sum ^ at[k]) * UINT64_C(1099511628211);
    return sum;
}

static void read_all(struct bytes *bytes, FILE *file, const char *path)
{
    size_t got;

    do {
        make_room(bytes, LEAST_ROOM);
        got = fread(bytes->at + bytes->length, 1, bytes->room - bytes->length, file);
        bytes->length += got;
        if (bytes->length > FILE_LIMIT)
            quit(NO_FILE, "%s: has more than %s bytes", path, grouped(FILE_LIMIT));
    } while (got > 0);
    if (ferror(file))
        quit(NO_FILE, "%s: %s", path, strerror(errno));
}

FILE *file_open(const char *path)
{
    static int in_use;
    FILE *file = strcmp(path, "-") == 0 ? stdin : fopen(path, "rb");

    if (file == NULL)
        quit(NO_FILE, "%s: %s", path, strerror(errno));
    if (file == stdin && in_use++)
        quit(USAGE, "-: standard input cannot be two files");
    return file;
}

struct bytes file_read(const char *path)
{
    struct bytes bytes = { NULL, 0, 0 };
    FILE *file = file_open(path);

    read_all(&bytes, file, path);
    if (file != stdin)
        fclose(file);
    return bytes;
}
