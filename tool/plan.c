/* Reading a plan and saying why it is refused. */
#include "plan.h"

#include "items.h"
#include "list.h"
#include "say.h"

#include <stdio.h>
#include <stdlib.h>
#include <string.h>

/* An image always has a byte 0 (a kind has two bytes and is at most 3), and a text never. */
static int looks_like_image(const struct bytes *bytes)
{
    return bytes->length > 0 && memchr(bytes->at, 0, bytes->length) != NULL;
}

int is_saved(const struct bytes *bytes)
{
    return bytes->length >= sizeof SAVED_LINE - 1 && memcmp(bytes->at, SAVED_LINE, sizeof SAVED_LINE - 1) == 0;
}

/* ---- reading ---- */

static uint64_t read_text(struct plan *plan)
{
    uint64_t answer;

    plan->image.at = (uint8_t *)malloc(RISSOBARM_TEXT_IMAGE);
    plan->names.at = (uint8_t *)malloc(plan->text.length + 1);
    if (plan->image.at == NULL || plan->names.at == NULL)
        quit(NO_FILE, "no memory is left");
    plan->image.room = RISSOBARM_TEXT_IMAGE;
    plan->names.room = plan->text.length + 1;
    answer = rissobarm_parse(plan->image.at, plan->image.room, plan->names.at, plan->names.room, plan->text.at,
                             plan->text.length);
    if (rissobarm_refusal(answer) == RISSOBARM_ACCEPTED) {
        plan->image.length = rissobarm_parsed_image(answer);
        plan->names.length = rissobarm_parsed_names(answer);
    }
    return answer;
}

static uint64_t read_image(struct plan *plan)
{
    bytes_add(&plan->text, "", 0);
    bytes_add(&plan->names, "", 0);
    return RISSOBARM_ACCEPTED;
}

static uint64_t load(struct plan *plan)
{
    uint64_t answer = rissobarm_load(plan->image.at, plan->image.length);

    if (rissobarm_refusal(answer) == RISSOBARM_ACCEPTED) {
        plan->relations = rissobarm_relations(answer);
        plan->clauses = rissobarm_clauses(answer);
    }
    return answer;
}

/* The list of names of an accepted image. One that is refused has the number that a print has for it. */
static uint64_t read_list(struct plan *plan, const char *path)
{
    free(plan->names.at);
    plan->names = file_read(path);
    return list_take(plan, path) ? RISSOBARM_ACCEPTED : RISSOBARM_UNDECLARED;
}

uint64_t plan_take(struct plan *plan, struct bytes read, const char *path, const char *names_path)
{
    uint64_t answer;

    memset(plan, 0, sizeof *plan);
    plan->is_text = !looks_like_image(&read);
    if (plan->is_text && names_path != NULL)
        quit(USAGE, "--names: %s is text, which has names of its own", path);
    if (plan->is_text)
        plan->text = read;
    else
        plan->image = read;
    answer = plan->is_text ? read_text(plan) : read_image(plan);
    if (rissobarm_refusal(answer) == RISSOBARM_ACCEPTED)
        answer = load(plan);
    if (rissobarm_refusal(answer) == RISSOBARM_ACCEPTED && names_path != NULL)
        answer = read_list(plan, names_path);
    return answer;
}

uint64_t plan_read(struct plan *plan, const char *path, const char *names_path)
{
    struct bytes read = file_read(path);

    if (is_saved(&read))
        quit(PLAN_REFUSED, "%s: is a saved run, not a plan", path);
    return plan_take(plan, read, path, names_path);
}

void plan_hold(const struct plan *plan, uint64_t answer, const char *path)
{
    char words[WORDS_ROOM];

    if (rissobarm_refusal(answer) == RISSOBARM_ACCEPTED)
        return;
    plan_words(plan, answer, words);
    quit(PLAN_REFUSED, "%s: %s", path, words);
}

void plan_need(struct plan *plan, const char *path, const char *names_path)
{
    plan_hold(plan, plan_read(plan, path, names_path), path);
}

/* ---- refusals of a text ---- */

/* Whether the lines before this one, with an empty goal, are accepted as they stand. */
static int accepted_up_to(const struct plan *plan, size_t end)
{
    uint8_t *image = (uint8_t *)malloc(RISSOBARM_TEXT_IMAGE), *names = (uint8_t *)malloc(end + 8);
    struct bytes part = { NULL, 0, 0 };
    uint64_t answer;

    bytes_add(&part, plan->text.at, end);
    bytes_add(&part, "<- .", 4);
    if (image == NULL || names == NULL)
        quit(NO_FILE, "no memory is left");
    answer = rissobarm_parse(image, RISSOBARM_TEXT_IMAGE, names, end + 8, part.at, part.length);
    free(image);
    free(names);
    free(part.at);
    return rissobarm_refusal(answer) == RISSOBARM_ACCEPTED;
}

/* The first line that is refused, by reading the text line after line. */
static struct item refused_line(const struct plan *plan)
{
    struct item item = item_next(&plan->text, 0, 1);

    while (item.sort != GOAL_LINE && item.sort != NO_LINE && accepted_up_to(plan, item.end))
        item = item_next(&plan->text, item.end, item.sort == MODE_LINE);
    return item;
}

/* The first line with a relation that has no mode line, and the place of that name. */
static struct word undeclared(const struct plan *plan)
{
    struct item item = item_next(&plan->text, 0, 1);
    struct word word = { "", 0 };

    for (; item.sort != NO_LINE; item = item_next(&plan->text, item.end, item.sort == MODE_LINE)) {
        word = item_undeclared(&plan->text, &item);
        if (word.length > 0)
            break;
    }
    return word;
}

int plan_place(const struct plan *plan, uint64_t answer, size_t *offset)
{
    struct word word;

    if (!plan->is_text)
        return 0;
    switch (rissobarm_refusal(answer)) {
    case RISSOBARM_TEXT:
        *offset = rissobarm_offset(answer);
        return 1;
    case RISSOBARM_UNDECLARED:
        word = undeclared(plan);
        *offset = (size_t)(word.at - (const char *)plan->text.at);
        return word.length > 0;
    case RISSOBARM_BODY:
    case RISSOBARM_NAME:
    case RISSOBARM_MANY:
        *offset = refused_line(plan).start;
        return 1;
    default:
        return 0;
    }
}

/* What stands at a place of the text: a byte as it is where it can be shown, else its number, or the end. */
static void found_at(const struct plan *plan, size_t offset, char *found)
{
    if (offset >= plan->text.length)
        strcpy(found, "the text ends here");
    else if (plan->text.at[offset] > 32 && plan->text.at[offset] < 127)
        sprintf(found, "no text could go on with `%c` here", plan->text.at[offset]);
    else
        sprintf(found, "no text could go on with byte %u here", plan->text.at[offset]);
}

/* What 4, 5 and 6 can mean of a mode line, a clause and the goal. */
static const char *const limits[][3] = {
    { "this mode line has more than 4 arguments", "this relation has a mode line already",
      "there are 32 relations before this mode line" },
    { "this clause has more than 4 arguments at a call, 16 variables, or 8 literals in its guard or body",
      "a call of this clause has another number of arguments than its mode line, or the clauses do not stand in the order of "
      "the mode lines",
      "there are 64 clauses before this one, or 8 in its block" },
    { "this goal has more than 4 arguments at a call, 16 variables, or 8 literals",
      "a call of this goal has another number of arguments than its mode line", "" },
};

/* What is the matter there. */
static void matter_at(const struct plan *plan, unsigned refusal, size_t offset, char *found)
{
    struct word word;

    if (refusal == RISSOBARM_TEXT) {
        found_at(plan, offset, found);
    } else if (refusal == RISSOBARM_UNDECLARED) {
        word = undeclared(plan);
        sprintf(found, "`%.*s` has no mode line", word.length < 40 ? (int)word.length : 40, word.at);
    } else {
        strcpy(found, limits[refused_line(plan).sort][refusal - RISSOBARM_BODY]);
    }
}

/* The name of a refusal, without its words. */
static const char *refusal_name(unsigned refusal)
{
    static char name[16];
    const char *text = rissobarm_refusal_text(refusal);

    snprintf(name, sizeof name, "%.*s", (int)strcspn(text, ":") < 15 ? (int)strcspn(text, ":") : 15, text);
    return name;
}

static void text_words(const struct plan *plan, uint64_t answer, char *words)
{
    unsigned refusal = rissobarm_refusal(answer);
    size_t offset, line, column;
    char found[256];

    if (!plan_place(plan, answer, &offset)) {
        snprintf(words, WORDS_ROOM, "refused %u (%s)", refusal, rissobarm_refusal_text(refusal));
        return;
    }
    place_of(&plan->text, offset, &line, &column);
    matter_at(plan, refusal, offset, found);
    snprintf(words, WORDS_ROOM, "line %lu, column %lu: %s (refused %u, %s)", (unsigned long)line, (unsigned long)column, found,
             refusal, refusal_name(refusal));
}

/* ---- refusals of an image ---- */

/* How many records stand before a place. */
static unsigned records_before(const struct bytes *image, size_t offset)
{
    unsigned count = 0;
    size_t at = 0;

    for (; at < offset && at + 2 <= image->length; count++)
        at += rissobarm_word_at(image->at + at);
    return count;
}

void plan_words(const struct plan *plan, uint64_t answer, char *words)
{
    unsigned refusal = rissobarm_refusal(answer);
    size_t offset = rissobarm_offset(answer);

    if (plan->is_text)
        text_words(plan, answer, words);
    else if (plan->list_wrong[0] != '\0')
        snprintf(words, WORDS_ROOM, "%s (refused %u, %s)", plan->list_wrong, refusal, refusal_name(refusal));
    else if (refusal > RISSOBARM_NOGOAL || refusal == RISSOBARM_LONG)
        snprintf(words, WORDS_ROOM, "refused %u (%s)", refusal, rissobarm_refusal_text(refusal));
    else
        snprintf(words, WORDS_ROOM, "byte %s, record %u; refused %u (%s)", grouped(offset),
                 records_before(&plan->image, offset) + 1, refusal, rissobarm_refusal_text(refusal));
}
