/* Names of relations, constants and variables; numbers where a plan has no list. */
#include "items.h"
#include "plan.h"
#include "say.h"

#include <ctype.h>
#include <stdio.h>
#include <stdlib.h>
#include <string.h>

/* Room for a text at first, and at most: a list may have names of any length. */
enum { TEXT_ROOM = 1 << 16, TEXT_MOST = 1 << 30 };

/* ---- the list ---- */

/* Entry k of the list; length 0 where there is none. */
static struct word entry(const struct plan *plan, size_t k)
{
    const char *at = (const char *)plan->names.at, *end = at + plan->names.length;
    struct word word = { "", 0 };

    for (;; k--) {
        const char *stop = at < end ? (const char *)memchr(at, 10, (size_t)(end - at)) : NULL;

        if (stop == NULL)
            return word;
        if (k == 0) {
            word.at = at;
            word.length = (size_t)(stop - at);
            return word;
        }
        at = stop + 1;
    }
}

static size_t entries(const struct plan *plan)
{
    size_t count = 0, k;

    for (k = 0; k < plan->names.length; k++)
        count += plan->names.at[k] == 10;
    return count;
}

/* The number of the first entry with this name, from an entry on; -1 where there is none. */
static long find_entry(const struct plan *plan, size_t from, const char *name)
{
    const char *at = (const char *)plan->names.at, *end = at + plan->names.length, *stop;
    size_t length = strlen(name), k;

    for (k = 0; at < end && (stop = (const char *)memchr(at, 10, (size_t)(end - at))) != NULL; at = stop + 1, k++)
        if (k >= from && (size_t)(stop - at) == length && memcmp(at, name, length) == 0)
            return (long)k;
    return -1;
}

/* The name, cut where it is longer than the room; or the number behind these letters. */
static void name_of(struct word word, const char *letters, unsigned number, char *name)
{
    if (word.length > 0)
        snprintf(name, NAME_ROOM, "%.*s", word.length < NAME_ROOM ? (int)word.length : NAME_ROOM - 1, word.at);
    else
        snprintf(name, NAME_ROOM, "%s%u", letters, number);
}

void name_relation(const struct plan *plan, unsigned relation, char *name)
{
    name_of(entry(plan, relation), "r", relation, name);
}

void name_constant(const struct plan *plan, unsigned constant, char *name)
{
    name_of(entry(plan, plan->relations + (size_t)constant), "", constant, name);
}

long find_constant(struct plan *plan, const char *name)
{
    size_t count = entries(plan);
    char *end;
    unsigned long number;
    const char *c;
    long found;

    if (isdigit((unsigned char)name[0])) {
        number = strtoul(name, &end, 10);
        return *end == '\0' && number <= RISSOBARM_CONSTANT_LIMIT ? (long)number : -1;
    }
    for (c = name; *c != '\0'; c++)
        if (!isalnum((unsigned char)*c) && *c != '_')
            return -1;
    if (!islower((unsigned char)name[0]) || count < plan->relations || (count == 0 && !plan->is_text))
        return -1;
    found = find_entry(plan, plan->relations, name);
    if (found >= 0)
        return found - (long)plan->relations;
    if (count - plan->relations > RISSOBARM_CONSTANT_LIMIT)
        return -1;
    bytes_add(&plan->names, name, strlen(name));
    bytes_add(&plan->names, "\n", 1);
    return (long)(count - plan->relations);
}

/* ---- variables ---- */

/* The name of a variable in a line of the text; else a letter. */
static void name_variable(const struct plan *plan, const struct item *item, unsigned variable, char *name)
{
    struct word word = { "", 0 };

    if (plan->is_text)
        word = item_variable(&plan->text, item, variable);
    if (word.length > 0)
        name_of(word, "", variable, name);
    else
        snprintf(name, NAME_ROOM, "%c", (char)('A' + variable % 26));
}

void name_goal_variable(const struct plan *plan, unsigned variable, char *name)
{
    struct item goal = item_goal(&plan->text);

    name_variable(plan, &goal, variable, name);
}

void name_clause_variable(const struct plan *plan, unsigned clause, unsigned variable, char *name)
{
    struct item item = item_clause(&plan->text, clause);

    name_variable(plan, &item, variable, name);
}

int find_goal_variable(const struct plan *plan, const char *name)
{
    struct item goal = item_goal(&plan->text);

    if (plan->is_text)
        return item_find_variable(&plan->text, &goal, name);
    return name[0] >= 'A' && name[0] <= 'P' && name[1] == '\0' ? name[0] - 'A' : -1;
}

/* ---- the image as text ---- */

/* A list with made up names for all that an image can have. */
static struct bytes made_up(const struct plan *plan)
{
    struct bytes list = { NULL, 0, 0 };
    uint64_t loaded = rissobarm_load(plan->image.at, plan->image.length);
    char name[32];
    unsigned k;

    bytes_add(&list, "", 0);
    for (k = 0; k < rissobarm_relations(loaded); k++)
        bytes_add(&list, name, (size_t)sprintf(name, "r%u\n", k));
    for (k = 0; k <= RISSOBARM_CONSTANT_LIMIT; k++)
        bytes_add(&list, name, (size_t)sprintf(name, "c%u\n", k));
    return list;
}

uint64_t plan_print(const struct plan *plan, struct bytes *text)
{
    struct bytes list = plan->names.length > 0 ? plan->names : made_up(plan);
    uint64_t answer = RISSOBARM_ROOM;

    for (text->room = TEXT_ROOM; rissobarm_refusal(answer) == RISSOBARM_ROOM && text->room <= TEXT_MOST; text->room *= 2) {
        text->at = (uint8_t *)realloc(text->at, text->room);
        if (text->at == NULL)
            quit(NO_FILE, "no memory is left");
        answer = rissobarm_print(plan->image.at, plan->image.length, list.at, list.length, text->at, text->room);
    }
    text->length = rissobarm_refusal(answer) == RISSOBARM_ACCEPTED ? rissobarm_printed(answer) : 0;
    if (list.at != plan->names.at)
        free(list.at);
    return answer;
}
