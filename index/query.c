/* Words that are searched for. */
#include "query.h"

#include "fold.h"

#include <ctype.h>
#include <stdlib.h>
#include <string.h>

/* Whether a word has a letter or digit; a byte over 127 counts as one. */
static int has_letter(const char *word, size_t length)
{
    size_t k;

    for (k = 0; k < length; k++)
        if (isalnum((unsigned char)word[k]) || (unsigned char)word[k] > 127)
            return 1;
    return 0;
}

static void add_quoted(struct text *query, const char *word, size_t length)
{
    struct text folded = { 0 };
    char *copy = room_for(length + 1);
    const char *at;

    memcpy(copy, word, length);
    fold_all(&folded, copy);
    text_word(query, query->length > 0 ? " \"" : "\"");
    for (at = text_of(&folded); *at != 0; at++)
        text_bytes(query, *at == '"' ? "\"\"" : at, *at == '"' ? 2 : 1);
    text_word(query, "\"");
    free(copy);
    text_free(&folded);
}

void query_of(struct text *query, const char *words)
{
    while (*words != 0) {
        size_t length = strcspn(words, " \t\r\n");

        if (length > 0 && has_letter(words, length))
            add_quoted(query, words, length);
        words += length;
        words += strspn(words, " \t\r\n");
    }
}
