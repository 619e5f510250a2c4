/* Ways to damage a row of records. */
#include "damages.h"

#include "random.h"
#include "rissobarm.h"

#include <stdbool.h>
#include <string.h>

/* A row in the making. */
struct damaged {
    uint8_t *bytes;
    size_t length;
    size_t room;
    struct random random;
    const struct record_kinds *kinds;
};

static unsigned word(const uint8_t *bytes)
{
    return bytes[0] + 256u * bytes[1];
}

static void put_word(uint8_t *bytes, unsigned number)
{
    bytes[0] = (uint8_t)(number % 256);
    bytes[1] = (uint8_t)(number / 256 % 256);
}

/* The length of the record at a place; what is left where it makes no sense. */
static size_t record_at(const struct damaged *d, size_t at)
{
    size_t left = d->length - at, size;

    if (left < RISSOBARM_RECORD_HEAD)
        return left;
    size = word(d->bytes + at);
    return size < RISSOBARM_RECORD_HEAD || size > left ? left : size;
}

/* Where a record by chance begins, every fourth time the first; 0 for an empty row. */
static size_t any_record(struct damaged *d)
{
    size_t at = 0, count = 0, k;

    if (random_once(&d->random, 4))
        return 0;
    for (at = 0; at < d->length; at += record_at(d, at))
        count++;
    if (count == 0)
        return 0;
    count = random_below(&d->random, (uint32_t)count);
    for (at = 0, k = 0; k < count; k++)
        at += record_at(d, at);
    return at;
}

/* Makes room for more bytes at a place; false where there is none. */
static bool open_gap(struct damaged *d, size_t at, size_t size)
{
    if (d->length + size > d->room)
        return false;
    memmove(d->bytes + at + size, d->bytes + at, d->length - at);
    d->length += size;
    return true;
}

static void change_byte(struct damaged *d, unsigned top)
{
    if (d->length > 0)
        d->bytes[random_below(&d->random, (uint32_t)d->length)] = (uint8_t)random_below(&d->random, top);
}

static void cut(struct damaged *d)
{
    d->length = random_once(&d->random, 2) ? any_record(d) : random_below(&d->random, (uint32_t)d->length + 1);
}

static void drop_record(struct damaged *d)
{
    size_t at = any_record(d), size = d->length > 0 ? record_at(d, at) : 0;

    memmove(d->bytes + at, d->bytes + at + size, d->length - at - size);
    d->length -= size;
}

/* A copy of one record in front of another, or behind the last. */
static void repeat_record(struct damaged *d)
{
    size_t from = any_record(d), to = random_once(&d->random, 3) ? d->length : any_record(d);
    size_t size = d->length > 0 ? record_at(d, from) : 0;
    uint8_t copy[65536];

    memcpy(copy, d->bytes + from, size);
    if (open_gap(d, to, size))
        memcpy(d->bytes + to, copy, size);
}

/* A record of a kind that the row has, or another one, all zeros; mostly of the length that is right. */
static void insert_record(struct damaged *d)
{
    unsigned k = random_below(&d->random, d->kinds->count), size = d->kinds->sizes[k], kind = d->kinds->kinds[k];
    size_t at = random_once(&d->random, 2) ? d->length : any_record(d);

    if (random_once(&d->random, 6))
        kind = random_below(&d->random, 40);
    if (random_once(&d->random, 6))
        size = RISSOBARM_RECORD_HEAD + random_below(&d->random, 40);
    if (!open_gap(d, at, size))
        return;
    memset(d->bytes + at, 0, size);
    put_word(d->bytes + at, size);
    put_word(d->bytes + at + 2, kind);
}

/* A few bytes of a record put in or taken out, its length told so or not. */
static void stretch_record(struct damaged *d)
{
    size_t at = any_record(d), size = d->length > 0 ? record_at(d, at) : 0, more = 1 + random_below(&d->random, 3);
    bool longer = random_once(&d->random, 2);

    if (size < RISSOBARM_RECORD_HEAD + more)
        return;
    if (longer && !open_gap(d, at + size, more))
        return;
    if (!longer) {
        memmove(d->bytes + at + size - more, d->bytes + at + size, d->length - at - size);
        d->length -= more;
    }
    if (!random_once(&d->random, 3))
        put_word(d->bytes + at, (unsigned)(longer ? size + more : size - more));
}

/* The length or the kind that a record tells. */
static void change_front(struct damaged *d)
{
    size_t at = any_record(d);
    unsigned field = 2 * random_below(&d->random, 2), told;

    if (d->length < at + RISSOBARM_RECORD_HEAD)
        return;
    told = word(d->bytes + at + field);
    if (random_once(&d->random, 3))
        told = random_below(&d->random, 300);
    else
        told += random_once(&d->random, 2) ? 1u : 65535u;
    put_word(d->bytes + at + field, told);
}

/* A field of a body, near to what it was or small, so that what it says may still make sense. */
static void change_field(struct damaged *d)
{
    size_t at = any_record(d), size = d->length > 0 ? record_at(d, at) : 0;
    uint8_t *byte;

    if (size <= RISSOBARM_RECORD_HEAD)
        return;
    byte = d->bytes + at + RISSOBARM_RECORD_HEAD + random_below(&d->random, (uint32_t)size - RISSOBARM_RECORD_HEAD);
    if (random_once(&d->random, 2))
        *byte = (uint8_t)(*byte + (random_once(&d->random, 2) ? 1 : 255));
    else
        *byte = (uint8_t)random_below(&d->random, 8);
}

static void garbage(struct damaged *d)
{
    size_t k;

    d->length = random_below(&d->random, 200);
    for (k = 0; k < d->length; k++)
        d->bytes[k] = (uint8_t)random_bits(&d->random);
}

static void damage(struct damaged *d)
{
    switch (random_below(&d->random, 20)) {
    case 0:
        change_byte(d, 256);
        break;
    case 1:
        change_byte(d, 8);
        break;
    case 2:
        cut(d);
        break;
    case 3:
    case 4:
        drop_record(d);
        break;
    case 5:
    case 6:
        repeat_record(d);
        break;
    case 7:
    case 8:
        insert_record(d);
        break;
    case 9:
    case 10:
        stretch_record(d);
        break;
    case 11:
    case 12:
        change_front(d);
        break;
    default:
        change_field(d);
    }
}

size_t damage_records(uint8_t *bytes, size_t length, size_t room, uint32_t seed, const struct record_kinds *kinds)
{
    struct damaged d = { bytes, length, room, { seed + UINT64_C(0x9E3779B97F4A7C15) }, kinds };
    unsigned times;

    random_bits(&d.random);
    if (random_once(&d.random, 64))
        garbage(&d);
    for (times = random_once(&d.random, 4) ? 1 + random_below(&d.random, 4) : 1; times > 0; times--)
        damage(&d);
    return d.length;
}
