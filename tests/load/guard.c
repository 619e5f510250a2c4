/* The guards are wide enough for any page size. */
#define _DEFAULT_SOURCE
#include "guard.h"

#include <string.h>
#include <sys/mman.h>

static uint8_t *room;

int guard_open(void)
{
    void *all = mmap(NULL, 3 * GUARD_ROOM, PROT_NONE, MAP_PRIVATE | MAP_ANONYMOUS, -1, 0);

    if (all == MAP_FAILED)
        return 0;
    room = (uint8_t *)all + GUARD_ROOM;
    return mprotect(room, GUARD_ROOM, PROT_READ | PROT_WRITE) == 0;
}

static const uint8_t *placed(uint8_t *at, const uint8_t *bytes, size_t length)
{
    memcpy(at, bytes, length);
    return at;
}

const uint8_t *guard_first(const uint8_t *bytes, size_t length)
{
    return placed(room, bytes, length);
}

const uint8_t *guard_last(const uint8_t *bytes, size_t length)
{
    return placed(room + GUARD_ROOM - length, bytes, length);
}
