/* Texts that grow, and what they are quoted for: JSON and HTML. */
#ifndef INDEX_TEXT_H
#define INDEX_TEXT_H

#include <stddef.h>
#include <stdint.h>

struct text {
    char *at; /* ends with a byte 0 once something was added */
    size_t length;
    size_t room;
};

void text_bytes(struct text *text, const char *bytes, size_t count);
void text_word(struct text *text, const char *word);
void text_form(struct text *text, const char *form, ...);
void text_html(struct text *text, const char *word);
void text_clear(struct text *text);
void text_free(struct text *text);

/* The text, "" if nothing was added. */
const char *text_of(const struct text *text);

/* A copy that must be freed; ends the program if there is no memory. */
char *copy_of(const char *word);
void *room_for(size_t bytes);

/* ---- JSON: one value after the other; a key is NULL inside a list ---- */

void json_open(struct text *text, const char *key, char bracket);
void json_close(struct text *text, char bracket);
void json_text(struct text *text, const char *key, const char *word); /* null for NULL */
void json_number(struct text *text, const char *key, int64_t number);
void json_real(struct text *text, const char *key, double number);

#endif
