/* The words of a command. */
#ifndef INDEX_OPTIONS_H
#define INDEX_OPTIONS_H

#include <stdint.h>

enum { WORDS_MOST = 64 };

struct options {
    const char *words[WORDS_MOST];
    unsigned word_count;
    const char *conf;   /* --conf FILE */
    const char *http;   /* --http ADDRESS:PORT */
    const char *svg;    /* --svg FILE */
    const char *cursor; /* --cursor NAME */
    const char *text;   /* --text FILE */
    double since;       /* --since TIME */
    int64_t limit;      /* --limit N */
    int json, once, repair, all, beside, lines;
};

/* Takes the words apart; allowed has the command's options, a blank between them. Ends the program if they are wrong. */
void options_read(struct options *options, const char *allowed, int count, char **words);

/* A record's or version's number, or the end of the program. */
int64_t number_from(const char *what, const char *digits);

#endif
