/* A plan, out of its text. */
#define _POSIX_C_SOURCE 200809L
#include "plan.h"

#include "text.h"

#include <ctype.h>
#include <stdio.h>
#include <stdlib.h>
#include <string.h>
#include <strings.h>

/* ---- goal variables: the library numbers them by first appearance in the goal, which is the text's last line ---- */

static const char *goal_of(const char *text)
{
    const char *goal = text, *arrow;

    while ((arrow = strstr(goal, "<-")) != NULL)
        goal = arrow + 2;
    return goal;
}

static size_t name_length(const char *at)
{
    size_t length = 0;

    while (isalnum((unsigned char)at[length]) || at[length] == '_')
        length++;
    return length;
}

static void note_variable(struct plan *plan, const char *at, size_t length)
{
    unsigned k;

    for (k = 0; k < plan->variable_count; k++)
        if (strlen(plan->variables[k]) == length && strncmp(plan->variables[k], at, length) == 0)
            return;
    if (k == GOAL_VARIABLES)
        return;
    plan->variables[k] = room_for(length + 1);
    memcpy(plan->variables[k], at, length);
    plan->variable_count++;
}

static void read_variables(struct plan *plan)
{
    const char *at = goal_of(plan->text);

    while (*at != 0) {
        size_t length = name_length(at);

        if (length > 0 && isupper((unsigned char)*at))
            note_variable(plan, at, length);
        at += length > 0 ? length : 1;
    }
}

/* ---- words ---- */

static void read_words(struct plan *plan, unsigned relations)
{
    char *line = plan->names, *end;
    unsigned k;

    plan->words = room_for((strlen(plan->names) + 1) * sizeof plan->words[0]);
    for (k = 0; (end = strchr(line, '\n')) != NULL; line = end + 1, k++) {
        *end = 0;
        if (k < relations)
            plan->relations[plan->relation_count++] = line;
        else
            plan->words[plan->word_count++] = line;
    }
}

/* ---- making one ---- */

/* Line and column of a place in the text. */
static void place_words(const char *text, uint32_t at, char *why, size_t room, const char *refusal)
{
    unsigned line = 1, column = 1;
    uint32_t k;

    for (k = 0; k < at && text[k] != 0; k++) {
        column = text[k] == '\n' ? 1 : column + 1;
        line += text[k] == '\n';
    }
    snprintf(why, room, "line %u, column %u: %s", line, column, refusal);
}

static int refused(const struct plan *plan, uint64_t made, char *why, size_t room)
{
    unsigned refusal = rissobarm_refusal(made);

    if (refusal == RISSOBARM_TEXT)
        place_words(plan->text, rissobarm_offset(made), why, room, rissobarm_refusal_text(refusal));
    else if (refusal != RISSOBARM_ACCEPTED)
        snprintf(why, room, "%s", rissobarm_refusal_text(refusal));
    return refusal != RISSOBARM_ACCEPTED;
}

struct plan *plan_make(const char *text, char *why, size_t room)
{
    struct plan *plan = room_for(sizeof *plan);
    size_t length = strlen(text);
    uint64_t made;

    plan->text = copy_of(text);
    plan->names = room_for(length + 1);
    made = rissobarm_parse(plan->image, sizeof plan->image, (uint8_t *)plan->names, length + 1, (const uint8_t *)text, length);
    if (refused(plan, made, why, room)) {
        plan_free(plan);
        return NULL;
    }
    plan->image_length = rissobarm_parsed_image(made);
    plan->names[rissobarm_parsed_names(made)] = 0;
    read_words(plan, rissobarm_relations(rissobarm_load(plan->image, plan->image_length)));
    read_variables(plan);
    return plan;
}

void plan_free(struct plan *plan)
{
    unsigned k;

    for (k = 0; k < plan->variable_count; k++)
        free(plan->variables[k]);
    free(plan->words);
    free(plan->names);
    free(plan->text);
    free(plan);
}

/* ---- looking up ---- */

int plan_variable(const struct plan *plan, const char *name)
{
    unsigned k;

    for (k = 0; k < plan->variable_count; k++)
        if (strcmp(plan->variables[k], name) == 0)
            return (int)k;
    return -1;
}

int plan_variable_alike(const struct plan *plan, const char *name)
{
    unsigned k;

    for (k = 0; k < plan->variable_count; k++)
        if (strcasecmp(plan->variables[k], name) == 0)
            return (int)k;
    return -1;
}

int plan_has(const struct plan *plan, const char *word)
{
    unsigned k;

    for (k = 0; k < plan->word_count; k++)
        if (strcmp(plan->words[k], word) == 0)
            return 1;
    return 0;
}

const char *plan_word(const struct plan *plan, const char *word)
{
    return word != NULL && plan_has(plan, word) ? word : OTHER_WORD;
}

unsigned plan_number(const struct plan *plan, const char *word)
{
    unsigned k;

    for (k = 0; k < plan->word_count; k++)
        if (strcmp(plan->words[k], word) == 0)
            return k;
    return OTHER_NUMBER;
}

const char *plan_text(const struct plan *plan, unsigned number)
{
    return number < plan->word_count ? plan->words[number] : OTHER_WORD;
}

const char *request_of(const char *variable)
{
    return strncmp(variable, "Do", 2) == 0 && isupper((unsigned char)variable[2]) ? variable + 2 : NULL;
}
