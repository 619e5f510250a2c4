/* The lines of a right PARLOG text, for names and places that an image does not have. */
#ifndef TOOL_ITEMS_H
#define TOOL_ITEMS_H

#include "files.h"

/* A name in the text. */
struct word {
    const char *at;
    size_t length;
};

enum item_sort { MODE_LINE, CLAUSE_LINE, GOAL_LINE, NO_LINE };

/* A mode line, clause or goal: from its first byte to behind its mark. */
struct item {
    enum item_sort sort;
    size_t start, end;
};

/* The next line behind a place; NO_LINE where only blanks follow. Mode lines come before the first clause. */
struct item item_next(const struct bytes *text, size_t at, int in_modes);

/* The line with this number, mode lines, clauses and the goal counted on from 0. */
struct item item_number(const struct bytes *text, size_t number);

/* Clause k, or the goal. */
struct item item_clause(const struct bytes *text, size_t clause);
struct item item_goal(const struct bytes *text);

/* Variable v of a line, by first appearance; length 0 where there are fewer. */
struct word item_variable(const struct bytes *text, const struct item *item, unsigned v);

/* The first relation that a line names and no mode line declares; length 0 where there is none. */
struct word item_undeclared(const struct bytes *text, const struct item *item);

/* The number of a variable in a line, or -1. */
int item_find_variable(const struct bytes *text, const struct item *item, const char *name);

/* Line and column of a byte, from 1 on. */
void place_of(const struct bytes *text, size_t offset, size_t *line, size_t *column);

#endif
