/* The words of a command. */
#include "options.h"

#include "paths.h"
#include "rissobarm_plan.h"
#include "say.h"

#include <ctype.h>
#include <stdlib.h>
#include <string.h>

enum { STEPS = 1000000, SLICE = 1000 };

/* An option with a file behind it, or a switch. */
struct known {
    const char *name;
    const char **file;
    int *on;
};

uint32_t number_from(const char *what, const char *digits, uint32_t least, uint32_t most)
{
    char *end;
    unsigned long number = strtoul(digits, &end, 10);

    if (!isdigit((unsigned char)digits[0]) || *end != '\0' || number < least || number > most)
        quit(USAGE, "%s: a number from %s to %s is wanted, not `%s`", what, grouped(least), grouped(most), digits);
    return (uint32_t)number;
}

/* What stands behind an option. */
static const char *behind(const char *name, char **words, int *k, int count)
{
    if (*k + 1 >= count)
        quit(USAGE, "%s: something is missing behind it; rissobarm help", name);
    return words[++*k];
}

/* Options with a number or a pair behind them; whether it was one. */
static int take_special(struct options *o, const char *word, char **words, int *k, int count)
{
    if (strcmp(word, "--steps") == 0) {
        o->steps = number_from(word, behind(word, words, k, count), 0, 4294967295u);
        o->has_steps = 1;
    } else if (strcmp(word, "--slice") == 0)
        o->slice = number_from(word, behind(word, words, k, count), 1, RISSOBARM_RUN_LIMIT);
    else if (strcmp(word, "--supply") == 0 && o->supply_count == SUPPLIES_MOST)
        quit(USAGE, "--supply: at most %d of them", SUPPLIES_MOST);
    else if (strcmp(word, "--supply") == 0)
        o->supplies[o->supply_count++] = behind(word, words, k, count);
    else
        return 0;
    return 1;
}

static int take_known(const struct known *known, const char *word, char **words, int *k, int count)
{
    for (; known->name != NULL; known++) {
        if (strcmp(known->name, word) != 0)
            continue;
        if (known->file != NULL && *known->file != NULL)
            quit(USAGE, "%s: told twice", word);
        if (known->file != NULL)
            *known->file = behind(word, words, k, count);
        else
            *known->on = 1;
        return 1;
    }
    return 0;
}

static void take_word(struct options *o, const char *word)
{
    if (o->word_count == WORDS_MOST)
        quit(USAGE, "%s: one word too many; rissobarm help", word);
    o->words[o->word_count++] = word;
}

/* Whether an option stands in a line of options. */
static int is_among(const char *options, const char *word)
{
    const char *at = options;
    size_t length = strlen(word);

    for (; (at = strstr(at, word)) != NULL; at += length)
        if ((at == options || at[-1] == ' ') && (at[length] == ' ' || at[length] == '\0'))
            return 1;
    return 0;
}

/* One file for two options: one would be lost, or be read when it is written already. Standard input and output are two. */
static void refuse_shared(const struct known *known)
{
    const struct known *other;

    for (; known->name != NULL; known++)
        for (other = known + 1; other->name != NULL && known->file != NULL; other++)
            if (other->file != NULL && *known->file != NULL && *other->file != NULL && is_same_file(*known->file, *other->file))
                quit(USAGE, "%s and %s: %s cannot be both", known->name, other->name, *known->file);
}

/* A plan, image or trace that would be written over. A saved run may be, by the one that it goes on to. */
static void refuse_lost(const struct options *o, const char *command)
{
    const char *const written[] = { o->out, o->trace, strcmp(command, "run") == 0 ? o->save : NULL,
                                    strcmp(command, "compile") == 0 ? o->names : NULL };
    unsigned k, w;

    for (k = 0; k < sizeof written / sizeof written[0]; k++)
        for (w = 0; w < o->word_count; w++)
            if (written[k] != NULL && is_same_file(written[k], o->words[w]))
                quit(USAGE, "%s: would be written over", written[k]);
}

void options_read(struct options *o, const char *allowed, int count, char **words)
{
    struct known known[] = {
        { "--names", &o->names, NULL }, { "-o", &o->out, NULL },         { "--plan", &o->plan, NULL },
        { "--save", &o->save, NULL },   { "--trace", &o->trace, NULL },  { "--arrivals", &o->arrivals, NULL },
        { "--json", NULL, &o->json },   { "--dot", NULL, &o->dot },      { "--all", NULL, &o->all },
        { "--strict", NULL, &o->strict }, { "--progress", NULL, &o->progress }, { NULL, NULL, NULL }
    };
    int k;

    memset(o, 0, sizeof *o);
    o->steps = STEPS;
    o->slice = SLICE;
    for (k = 2; k < count; k++) {
        if (words[k][0] == '-' && words[k][1] != '\0' && !is_among(allowed, words[k]))
            quit(USAGE, "%s: no option of %s; rissobarm help", words[k], words[1]);
        if (!take_special(o, words[k], words, &k, count) && !take_known(known, words[k], words, &k, count))
            take_word(o, words[k]);
    }
    refuse_shared(known);
    refuse_lost(o, words[1]);
    if ((o->save != NULL && strcmp(o->save, "-") == 0) || (o->trace != NULL && strcmp(o->trace, "-") == 0))
        quit(USAGE, "--save and --trace: standard output has the words of the run; a file is wanted");
}
