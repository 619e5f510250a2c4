/* The words of a command. */
#include "options.h"

#include "conf.h"
#include "say.h"

#include <errno.h>
#include <stdlib.h>
#include <string.h>

#define HOUR 3600.0

enum { LIMIT = 20 };

static int is_allowed(const char *allowed, const char *option)
{
    size_t length = strlen(option);
    const char *at = allowed;

    while ((at = strstr(at, option)) != NULL) {
        if ((at == allowed || at[-1] == ' ') && (at[length] == ' ' || at[length] == 0))
            return 1;
        at += length;
    }
    return 0;
}

int64_t number_from(const char *what, const char *digits)
{
    char *end;
    long long number;

    errno = 0;
    number = strtoll(digits, &end, 10);
    if (errno != 0 || end == digits || *end != 0 || number < 1)
        quit(USAGE, "%s: %s is no number from 1 on", what, digits);
    return number;
}

/* An option without a value; whether it was one. */
static int take_flag(struct options *options, const char *word)
{
    static const char *const names[] = { "--json", "--once", "--repair", "--all", "--beside", "--lines" };
    int *const flags[] = { &options->json, &options->once, &options->repair, &options->all, &options->beside, &options->lines };
    unsigned k;

    for (k = 0; k < sizeof names / sizeof names[0]; k++)
        if (strcmp(word, names[k]) == 0) {
            *flags[k] = 1;
            return 1;
        }
    return 0;
}

static void take_value(struct options *options, const char *word, const char *value)
{
    if (strcmp(word, "--conf") == 0)
        options->conf = value;
    else if (strcmp(word, "--http") == 0)
        options->http = value;
    else if (strcmp(word, "--svg") == 0)
        options->svg = value;
    else if (strcmp(word, "--cursor") == 0)
        options->cursor = value;
    else if (strcmp(word, "--text") == 0)
        options->text = value;
    else if (strcmp(word, "--limit") == 0)
        options->limit = number_from(word, value);
    else if ((options->since = seconds_from(value)) <= 0)
        quit(USAGE, "--since: %s is no time, such as 90s, 10m, 2h or 7d", value);
}

void options_read(struct options *options, const char *allowed, int count, char **words)
{
    int k, only_words = 0;

    memset(options, 0, sizeof *options);
    options->conf = "index.conf";
    options->since = HOUR;
    options->limit = LIMIT;
    for (k = 2; k < count; k++) {
        const char *word = words[k];

        if (strcmp(word, "--") == 0 && !only_words)
            only_words = 1;
        else if (only_words || word[0] != '-' || word[1] == 0) {
            if (options->word_count == WORDS_MOST)
                quit(USAGE, "too many words");
            options->words[options->word_count++] = word;
        } else if (strcmp(word, "--json") != 0 && strcmp(word, "--conf") != 0 && !is_allowed(allowed, word))
            quit(USAGE, "%s: %s has no such option", word, words[1]);
        else if (!take_flag(options, word)) {
            if (++k == count)
                quit(USAGE, "%s: a value must follow", word);
            take_value(options, word, words[k]);
        }
    }
}
