/* The words of a command. */
#ifndef TOOL_OPTIONS_H
#define TOOL_OPTIONS_H

#include <stdint.h>

enum { WORDS_MOST = 3, SUPPLIES_MOST = 64 };

struct options {
    const char *words[WORDS_MOST]; /* files, a process */
    unsigned word_count;
    const char *names;    /* --names FILE: the list of names of an image */
    const char *out;      /* -o FILE */
    const char *plan;     /* --plan FILE: a saved run must be of this plan */
    const char *save;     /* --save FILE */
    const char *trace;    /* --trace FILE */
    const char *arrivals; /* --arrivals FILE, "-" standard input */
    const char *supplies[SUPPLIES_MOST]; /* --supply NAME=VALUE */
    unsigned supply_count;
    uint32_t steps;       /* --steps N */
    int has_steps;        /* whether it was told */
    unsigned slice;       /* --slice N */
    int json, dot, all, strict, progress;
};

/* Takes the words of a command apart; allowed has its options, a blank between them. Ends the tool where they are wrong. */
void options_read(struct options *options, const char *allowed, int count, char **words);

/* A number up to a most, or the end of the tool. */
uint32_t number_from(const char *what, const char *digits, uint32_t least, uint32_t most);

#endif
