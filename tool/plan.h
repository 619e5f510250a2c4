/* A plan: its image, its list of names where there is one, and its text where it came as one. */
#ifndef TOOL_PLAN_H
#define TOOL_PLAN_H

#include "rissobarm_plan.h"
#include "files.h"

#include <stddef.h>
#include <stdint.h>

enum { WORDS_ROOM = 1024, LIST_WORDS = 512, NAME_ROOM = 128 };

struct plan {
    struct bytes image;
    struct bytes names;
    struct bytes text;
    unsigned relations;
    unsigned clauses;
    int is_text;
    char list_wrong[LIST_WORDS]; /* why its list of names is refused; empty where it is not */
};

/* The line that a saved run begins with, which no plan does. */
#define SAVED_LINE "rissobarm run 1\n"

/* Whether these bytes begin so. */
int is_saved(const struct bytes *bytes);

/*
 * Takes the bytes of a file for a plan, image or text, with a list of names for an image (NULL for none), and answers the word
 * of the call that tested it.
 */
uint64_t plan_take(struct plan *plan, struct bytes read, const char *path, const char *names_path);

/* Reads the file first. */
uint64_t plan_read(struct plan *plan, const char *path, const char *names_path);

/* Ends the tool where the answer is a refusal. */
void plan_hold(const struct plan *plan, uint64_t answer, const char *path);

/* Reads a plan, and ends the tool where it is refused. */
void plan_need(struct plan *plan, const char *path, const char *names_path);

/* Why a plan was refused, in words, with line and column of a text or the record of an image; writes at most WORDS_ROOM bytes. */
void plan_words(const struct plan *plan, uint64_t answer, char *words);

/* The place in the text that a refusal is about; 0 where it has none. */
int plan_place(const struct plan *plan, uint64_t answer, size_t *offset);

/* The image as text, with made up names where there is no list. */
uint64_t plan_print(const struct plan *plan, struct bytes *text);

/* Names, or numbers where there is no list. A clause's number is its own, a variable's that within its clause. */
void name_relation(const struct plan *plan, unsigned relation, char *name);
void name_constant(const struct plan *plan, unsigned constant, char *name);
void name_goal_variable(const struct plan *plan, unsigned variable, char *name);
void name_clause_variable(const struct plan *plan, unsigned clause, unsigned variable, char *name);

/* The goal variable of a name, or -1. */
int find_goal_variable(const struct plan *plan, const char *name);

/* The constant of a name or of digits; a name that is new is put behind the others. -1 where it is neither. */
long find_constant(struct plan *plan, const char *name);

#endif
