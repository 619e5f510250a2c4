/* Lists of names. */
#include "list.h"

#include "items.h"
#include "program.h"
#include "say.h"

#include <inttypes.h>
#include <stdio.h>
#include <stdlib.h>
#include <string.h>

/* As many names as there can be relations and constants, and a mark. */
enum { NAMES_MOST = RISSOBARM_RELATION_LIMIT + RISSOBARM_CONSTANT_LIMIT + 2, SHOWN = 40, SAID = 128, MARK_ROOM = 64 };

/* A name of the list, by the number of its line. */
struct entry {
    struct word word;
    size_t line;
};

/* Says what is wrong with a line, from 1 on; always 0. */
static int wrong_at(struct plan *plan, size_t line, const char *words)
{
    snprintf(plan->list_wrong, LIST_WORDS, "line %s %s", grouped(line), words);
    return 0;
}

/* ---- marks ---- */

static size_t mark_of(const struct bytes *image, char *mark)
{
    return (size_t)snprintf(mark, MARK_ROOM, "image_%lu_%016" PRIx64, (unsigned long)image->length,
                            bytes_sum(image->at, image->length));
}

/* Whether a line has the form of a mark. */
static int is_mark(struct word word)
{
    char line[MARK_ROOM];
    unsigned long length;
    uint64_t sum;
    int used = 0;

    if (word.length >= MARK_ROOM)
        return 0;
    memcpy(line, word.at, word.length);
    line[word.length] = '\0';
    return sscanf(line, "image_%9lu_%16" SCNx64 "%n", &length, &sum, &used) == 2 && (size_t)used == word.length &&
           strlen(strrchr(line, '_') + 1) == 16;
}

void list_mark(struct plan *plan)
{
    char mark[MARK_ROOM];

    bytes_add(&plan->names, mark, mark_of(&plan->image, mark));
    bytes_add(&plan->names, "\n", 1);
}

/* ---- names ---- */

static int is_lower(char byte)
{
    return byte >= 'a' && byte <= 'z';
}

static int is_name(struct word word)
{
    size_t k;

    for (k = 0; k < word.length; k++)
        if (!is_lower(word.at[k]) && !(word.at[k] >= 'A' && word.at[k] <= 'Z') && !(word.at[k] >= '0' && word.at[k] <= '9') &&
            word.at[k] != '_')
            return 0;
    return word.length > 0 && is_lower(word.at[0]);
}

/* The lines of the list, each with its name; their number, or -1 where a line is none. */
static long names_in(struct plan *plan, struct entry *names)
{
    const char *at = (const char *)plan->names.at, *end = at + plan->names.length, *stop;
    long count = 0;

    for (; at < end; at = stop + 1, count++) {
        stop = (const char *)memchr(at, '\n', (size_t)(end - at));
        if (count == NAMES_MOST)
            return wrong_at(plan, NAMES_MOST + 1, "is one name too many") - 1;
        names[count].word.at = at;
        names[count].word.length = (size_t)((stop != NULL ? stop : end) - at);
        names[count].line = (size_t)count + 1;
        if (names[count].word.length == 0)
            return wrong_at(plan, names[count].line, "is empty") - 1;
        if (!is_name(names[count].word))
            return wrong_at(plan, names[count].line, "is no name: a lower-case letter, then letters, digits and _") - 1;
        if (stop == NULL)
            return wrong_at(plan, names[count].line, "does not end: the list is cut, or a new line is missing") - 1;
    }
    return count;
}

static int by_name(const void *left, const void *right)
{
    const struct entry *a = (const struct entry *)left, *b = (const struct entry *)right;
    size_t least = a->word.length < b->word.length ? a->word.length : b->word.length;
    int order = memcmp(a->word.at, b->word.at, least);

    if (order == 0 && a->word.length != b->word.length)
        order = a->word.length < b->word.length ? -1 : 1;
    if (order == 0)
        order = a->line < b->line ? -1 : 1;
    return order;
}

/* Whether no two of these are the same: a text with such names would be that of another image. Puts them in order. */
static int all_differ(struct plan *plan, struct entry *names, size_t count)
{
    char words[SAID];
    size_t k;

    qsort(names, count, sizeof *names, by_name);
    for (k = 1; k < count; k++)
        if (names[k].word.length == names[k - 1].word.length &&
            memcmp(names[k].word.at, names[k - 1].word.at, names[k].word.length) == 0) {
            snprintf(words, sizeof words, "has the name of line %s again, `%.*s`", grouped(names[k - 1].line),
                     names[k].word.length < SHOWN ? (int)names[k].word.length : SHOWN, names[k].word.at);
            return wrong_at(plan, names[k].line, words);
        }
    return 1;
}

/* ---- what an image needs ---- */

static unsigned most_in(const struct literal *literal, unsigned most)
{
    unsigned k;

    for (k = 0; k < literal->arity; k++)
        if (literal->terms[k] < RISSOBARM_TERM_VARIABLE && literal->terms[k] >= most)
            most = literal->terms[k] + 1;
    return most;
}

static unsigned most_in_goal(const struct goal *goal, unsigned most)
{
    unsigned k;

    for (k = 0; k < goal->first[goal->stages]; k++)
        most = most_in(&goal->literals[k], most);
    return most;
}

/* How many constants an image has, up to the highest in use. */
static unsigned constants_of(const struct bytes *image)
{
    static struct program program;
    unsigned c, most;

    program_read(&program, image);
    most = most_in_goal(&program.goal, 0);
    for (c = 0; c < program.clauses; c++) {
        most = most_in(&program.clause[c].head, most);
        most = most_in_goal(&program.clause[c].guard, most);
        most = most_in_goal(&program.clause[c].written, most);
    }
    return most;
}

/* ---- all ---- */

static int enough(struct plan *plan, long count)
{
    unsigned constants = constants_of(&plan->image);

    if ((unsigned long)count >= plan->relations + (unsigned long)constants)
        return 1;
    snprintf(plan->list_wrong, LIST_WORDS, "%s; the image needs %s, for %s and %s", counted((uint64_t)count, "name", "names"),
             grouped(plan->relations + (uint64_t)constants), counted(plan->relations, "relation", "relations"),
             counted(constants, "constant", "constants"));
    return 0;
}

/* Cuts the mark off; 0 where it is another image's, or names stand behind it. A constant may have such a name before the mark. */
static int take_mark(struct plan *plan, const struct entry *names, long *count)
{
    char mark[MARK_ROOM];
    size_t length = mark_of(&plan->image, mark);
    long k;

    if (*count == 0 || !is_mark(names[*count - 1].word)) {
        for (k = 0; k < *count; k++)
            if (is_mark(names[k].word))
                return wrong_at(plan, (size_t)k + 1, "is the mark of an image, and names stand behind it");
        return 1;
    }
    --*count;
    if (names[*count].word.length != length || memcmp(names[*count].word.at, mark, length) != 0)
        return wrong_at(plan, (size_t)*count + 1, "is the mark of another image: list and image were not compiled together");
    plan->names.length -= length + 1;
    return 1;
}

/* With a mark or without; what is wrong stands in list_wrong. */
static int test(struct plan *plan, int marked)
{
    struct entry *names = (struct entry *)malloc(NAMES_MOST * sizeof *names);
    long count;
    int right;

    if (names == NULL)
        quit(NO_FILE, "no memory is left");
    count = names_in(plan, names);
    right = count >= 0 && (!marked || take_mark(plan, names, &count)) && enough(plan, count) &&
            all_differ(plan, names, plan->relations) &&
            all_differ(plan, names + plan->relations, (size_t)count - plan->relations);
    free(names);
    return right;
}

int list_test(struct plan *plan)
{
    return test(plan, 0);
}

int list_take(struct plan *plan, const char *path)
{
    char why[LIST_WORDS];

    if (test(plan, 1))
        return 1;
    strcpy(why, plan->list_wrong);
    snprintf(plan->list_wrong, LIST_WORDS, "%.200s: %.200s", path, why);
    return 0;
}
