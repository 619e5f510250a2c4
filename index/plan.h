/* A plan: its image, the words that it has, the variables of its goal. */
#ifndef INDEX_PLAN_H
#define INDEX_PLAN_H

#include "rissobarm_plan.h"

enum { GOAL_VARIABLES = RISSOBARM_OWN_LIMIT };

/* The number that stands for every word that a plan has not. */
enum { OTHER_NUMBER = RISSOBARM_CONSTANT_LIMIT };
#define OTHER_WORD "other"

struct plan {
    int64_t id; /* in the database; 0 if it is not there */
    char *text;
    uint8_t image[RISSOBARM_TEXT_IMAGE];
    size_t image_length;
    char *names; /* what the words point into */
    char **words;
    unsigned word_count;
    char *relations[RISSOBARM_RELATION_LIMIT];
    unsigned relation_count;
    char *variables[GOAL_VARIABLES];
    unsigned variable_count;
};

/* Makes a plan of a text; NULL with the reason, if it is refused. */
struct plan *plan_make(const char *text, char *why, size_t room);
void plan_free(struct plan *plan);

/* The number of a goal variable by its name, or -1; the second takes upper and lower case as one. */
int plan_variable(const struct plan *plan, const char *name);
int plan_variable_alike(const struct plan *plan, const char *name);

/* Whether the plan has a word, the word that it is supplied as, and the number of that. */
int plan_has(const struct plan *plan, const char *word);
const char *plan_word(const struct plan *plan, const char *word);
unsigned plan_number(const struct plan *plan, const char *word);

/* A number as a word. */
const char *plan_text(const struct plan *plan, unsigned number);

/* X of a request's name DoX, or NULL. */
const char *request_of(const char *variable);

#endif
