/* Texts that grow, and what they are quoted for. */
#define _POSIX_C_SOURCE 200809L
#include "text.h"

#include "say.h"

#include <stdarg.h>
#include <stdio.h>
#include <stdlib.h>
#include <string.h>

void *room_for(size_t bytes)
{
    void *room = calloc(1, bytes > 0 ? bytes : 1);

    if (room == NULL)
        quit(NO_FILE, "there is no memory left");
    return room;
}

char *copy_of(const char *word)
{
    char *copy = room_for(strlen(word) + 1);

    strcpy(copy, word);
    return copy;
}

void text_bytes(struct text *text, const char *bytes, size_t count)
{
    if (text->length + count + 1 > text->room) {
        size_t room = 2 * (text->length + count + 1);
        char *at = realloc(text->at, room);

        if (at == NULL)
            quit(NO_FILE, "there is no memory left");
        text->at = at;
        text->room = room;
    }
    memcpy(text->at + text->length, bytes, count);
    text->length += count;
    text->at[text->length] = 0;
}

void text_word(struct text *text, const char *word)
{
    text_bytes(text, word, strlen(word));
}

void text_form(struct text *text, const char *form, ...)
{
    char small[256], *large;
    va_list words;
    int count;

    va_start(words, form);
    count = vsnprintf(small, sizeof small, form, words);
    va_end(words);
    if (count >= 0 && (size_t)count < sizeof small) {
        text_bytes(text, small, (size_t)count);
        return;
    }
    large = room_for((size_t)count + 1);
    va_start(words, form);
    vsnprintf(large, (size_t)count + 1, form, words);
    va_end(words);
    text_bytes(text, large, (size_t)count);
    free(large);
}

void text_html(struct text *text, const char *word)
{
    for (; *word != 0; word++)
        switch (*word) {
        case '<': text_word(text, "&lt;"); break;
        case '>': text_word(text, "&gt;"); break;
        case '&': text_word(text, "&amp;"); break;
        case '"': text_word(text, "&quot;"); break;
        case '\'': text_word(text, "&#39;"); break;
        default: text_bytes(text, word, 1);
        }
}

void text_clear(struct text *text)
{
    text->length = 0;
    if (text->at != NULL)
        text->at[0] = 0;
}

void text_free(struct text *text)
{
    free(text->at);
    memset(text, 0, sizeof *text);
}

const char *text_of(const struct text *text)
{
    return text->at != NULL ? text->at : "";
}

/* ---- JSON ---- */

static void quoted(struct text *text, const char *word)
{
    text_word(text, "\"");
    for (; *word != 0; word++) {
        unsigned char byte = (unsigned char)*word;

        if (byte == '"' || byte == '\\')
            text_form(text, "\\%c", byte);
        else if (byte < ' ')
            text_form(text, "\\u%04x", byte);
        else
            text_bytes(text, word, 1);
    }
    text_word(text, "\"");
}

/* The comma and the key before a value. */
static void lead(struct text *text, const char *key)
{
    char last = text->length > 0 ? text->at[text->length - 1] : '{';

    if (last != '{' && last != '[' && last != '\n')
        text_word(text, ",");
    if (key != NULL) {
        quoted(text, key);
        text_word(text, ":");
    }
}

void json_open(struct text *text, const char *key, char bracket)
{
    lead(text, key);
    text_bytes(text, &bracket, 1);
}

void json_close(struct text *text, char bracket)
{
    text_bytes(text, &bracket, 1);
}

void json_text(struct text *text, const char *key, const char *word)
{
    lead(text, key);
    if (word == NULL)
        text_word(text, "null");
    else
        quoted(text, word);
}

void json_number(struct text *text, const char *key, int64_t number)
{
    lead(text, key);
    text_form(text, "%lld", (long long)number);
}

void json_real(struct text *text, const char *key, double number)
{
    lead(text, key);
    text_form(text, "%.6f", number);
}
