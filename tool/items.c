/* The lines of a right PARLOG text. */
#include "items.h"

#include <ctype.h>
#include <string.h>

/* ---- bytes and names ---- */

static int byte_at(const struct bytes *text, size_t at)
{
    return at < text->length ? text->at[at] : 0;
}

static int in_name(int byte)
{
    return byte < 128 && (isalnum(byte) || byte == '_');
}

static size_t skip_blanks(const struct bytes *text, size_t at)
{
    while (at < text->length && strchr("\t\n\r ", text->at[at]) != NULL)
        at++;
    return at;
}

/* The name at a place, or one of length 0. */
static struct word name_at(const struct bytes *text, size_t at)
{
    struct word word = { (const char *)text->at + at, 0 };

    while (in_name(byte_at(text, at + word.length)))
        word.length++;
    return word;
}

static int same_word(struct word a, struct word b)
{
    return a.length == b.length && memcmp(a.at, b.at, a.length) == 0;
}

/* The place of the next name from a place on, up to an end; the end where there is none. */
static size_t next_name(const struct bytes *text, size_t at, size_t end)
{
    while (at < end && !in_name(byte_at(text, at)))
        at++;
    return at;
}

/* ---- lines ---- */

static enum item_sort sort_at(const struct bytes *text, size_t at, int in_modes)
{
    struct word first = name_at(text, at);

    if (byte_at(text, at) == '<')
        return GOAL_LINE;
    if (in_modes && first.length == 4 && memcmp(first.at, "mode", 4) == 0 &&
        islower(byte_at(text, skip_blanks(text, at + 4))))
        return MODE_LINE;
    return CLAUSE_LINE;
}

struct item item_next(const struct bytes *text, size_t at, int in_modes)
{
    struct item item = { NO_LINE, 0, 0 };

    item.start = item.end = skip_blanks(text, at);
    if (item.start == text->length)
        return item;
    item.sort = sort_at(text, item.start, in_modes);
    while (item.end < text->length && text->at[item.end] != '.' && text->at[item.end] != ';')
        item.end++;
    if (item.end < text->length)
        item.end++;
    return item;
}

struct item item_number(const struct bytes *text, size_t number)
{
    struct item item = item_next(text, 0, 1);

    for (; number > 0 && item.sort != NO_LINE; number--)
        item = item_next(text, item.end, item.sort == MODE_LINE);
    return item;
}

struct item item_clause(const struct bytes *text, size_t clause)
{
    struct item item = item_next(text, 0, 1);

    while (item.sort == MODE_LINE)
        item = item_next(text, item.end, 1);
    for (; clause > 0 && item.sort != NO_LINE; clause--)
        item = item_next(text, item.end, 0);
    return item;
}

struct item item_goal(const struct bytes *text)
{
    struct item item = item_next(text, 0, 1);

    while (item.sort != GOAL_LINE && item.sort != NO_LINE)
        item = item_next(text, item.end, item.sort == MODE_LINE);
    return item;
}

/* ---- names of a line ---- */

/* Whether a variable stood before this one. */
static int stood_before(const struct bytes *text, const struct item *item, struct word word)
{
    size_t end = (size_t)(word.at - (const char *)text->at), at = next_name(text, item->start, end);

    for (; at < end; at = next_name(text, at + name_at(text, at).length, end))
        if (same_word(name_at(text, at), word))
            return 1;
    return 0;
}

struct word item_variable(const struct bytes *text, const struct item *item, unsigned v)
{
    struct word word = { "", 0 };
    size_t at = next_name(text, item->start, item->end);

    for (; at < item->end; at = next_name(text, at + word.length, item->end)) {
        word = name_at(text, at);
        if (isupper((unsigned char)word.at[0]) && !stood_before(text, item, word) && v-- == 0)
            return word;
    }
    word.length = 0;
    return word;
}

int item_find_variable(const struct bytes *text, const struct item *item, const char *name)
{
    struct word word;
    int v;

    for (v = 0; (word = item_variable(text, item, (unsigned)v)).length > 0; v++)
        if (word.length == strlen(name) && memcmp(word.at, name, word.length) == 0)
            return v;
    return -1;
}

static int is_declared(const struct bytes *text, struct word name)
{
    struct item item = item_next(text, 0, 1);

    for (; item.sort == MODE_LINE; item = item_next(text, item.end, 1))
        if (same_word(name_at(text, skip_blanks(text, item.start + 4)), name))
            return 1;
    return 0;
}

/* Whether the name at a place is a side of an equality. */
static int in_equality(const struct bytes *text, const struct item *item, size_t at, size_t length)
{
    size_t before = at;

    while (before > item->start && strchr("\t\n\r ", text->at[before - 1]) != NULL)
        before--;
    if (before > item->start && text->at[before - 1] == '=')
        return 1;
    return byte_at(text, skip_blanks(text, at + length)) == '=';
}

struct word item_undeclared(const struct bytes *text, const struct item *item)
{
    struct word word = { "", 0 };
    size_t at = item->start;
    int depth = 0;

    for (; at < item->end && item->sort != MODE_LINE; at += word.length > 0 ? word.length : 1) {
        word = name_at(text, at);
        depth += byte_at(text, at) == '(';
        depth -= byte_at(text, at) == ')';
        if (depth == 0 && word.length > 0 && islower((unsigned char)word.at[0]) &&
            !in_equality(text, item, at, word.length) && !is_declared(text, word))
            return word;
    }
    word.length = 0;
    return word;
}

void place_of(const struct bytes *text, size_t offset, size_t *line, size_t *column)
{
    size_t k;

    *line = *column = 1;
    for (k = 0; k < offset && k < text->length; k++) {
        *column = text->at[k] == '\n' ? 1 : *column + 1;
        *line += text->at[k] == '\n';
    }
}
