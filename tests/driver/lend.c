/* The untouchable parts are wide enough for any page size. */
#define _DEFAULT_SOURCE
#include "lend.h"

#include <string.h>
#include <sys/mman.h>

enum { GUARD_BYTE = 0xC3, ASIDE = 4099 };

bool row_open(struct row *row)
{
    void *all = mmap(NULL, 3 * ROW_ROOM, PROT_NONE, MAP_PRIVATE | MAP_ANONYMOUS, -1, 0);

    if (all == MAP_FAILED)
        return false;
    row->room = (uint8_t *)all + ROW_ROOM;
    return mprotect(row->room, ROW_ROOM, PROT_READ | PROT_WRITE) == 0;
}

void row_place(struct row *row, size_t length, enum standing standing)
{
    row->length = length;
    row->standing = standing;
    if (standing == FIRST)
        row->bytes = row->room;
    else if (standing == LAST)
        row->bytes = row->room + ROW_ROOM - length;
    else
        row->bytes = row->room + ASIDE; /* at an odd address */
    if (standing != FIRST)
        memset(row->bytes - ROW_GUARD, GUARD_BYTE, ROW_GUARD);
    if (standing != LAST)
        memset(row->bytes + length, GUARD_BYTE, ROW_GUARD);
}

static bool untouched(const uint8_t *guard)
{
    unsigned k;

    for (k = 0; k < ROW_GUARD; k++)
        if (guard[k] != GUARD_BYTE)
            return false;
    return true;
}

bool row_guarded(const struct row *row)
{
    if (row->standing != FIRST && !untouched(row->bytes - ROW_GUARD))
        return false;
    return row->standing == LAST || untouched(row->bytes + row->length);
}

uint8_t *row_of_length(const struct row *row, size_t length)
{
    return row->standing == LAST ? row->room + ROW_ROOM - length : row->bytes;
}
