/* Words, JSON and the end of the tool. */
#include "say.h"

#include <errno.h>
#include <inttypes.h>
#include <stdarg.h>
#include <stdio.h>
#include <stdlib.h>
#include <string.h>

enum { WORDS = 2048, ROOMS = 8, ROOM = 96 };

int say_json;

/* Whether something stands before the next value in the same brackets. */
static int behind;

/* ---- what is wrong ---- */

void warn(const char *form, ...)
{
    va_list more;

    va_start(more, form);
    fflush(stdout);
    fputs("rissobarm: ", stderr);
    vfprintf(stderr, form, more);
    fputc('\n', stderr);
    va_end(more);
}

void quit(enum status status, const char *form, ...)
{
    char words[WORDS];
    va_list more;

    va_start(more, form);
    vsnprintf(words, sizeof words, form, more);
    va_end(more);
    warn("%s", words);
    if (say_json) {
        behind = 0;
        json_open(NULL, '{');
        json_text("error", words);
        json_number("status", (uint64_t)status);
        json_close('}');
        putchar('\n');
    }
    exit(finish(status));
}

int finish(enum status status)
{
    if (fflush(stdout) == 0 && !ferror(stdout))
        return (int)status;
    fprintf(stderr, "rissobarm: standard output: %s\n", strerror(errno));
    return NO_FILE;
}

/* ---- JSON ---- */

/* How many bytes the character has that begins here, by UTF-8; 0 where none does, or it is one of ASCII. */
static unsigned wide_length(const unsigned char *at)
{
    unsigned length = at[0] < 0xc2 ? 0 : at[0] < 0xe0 ? 2 : at[0] < 0xf0 ? 3 : at[0] < 0xf5 ? 4 : 0, k;

    for (k = 1; k < length; k++)
        if (at[k] < 0x80 || at[k] > 0xbf)
            return 0;
    /* longer than it need be, half of a pair, past the last character */
    if ((at[0] == 0xe0 && at[1] < 0xa0) || (at[0] == 0xed && at[1] > 0x9f) || (at[0] == 0xf0 && at[1] < 0x90) ||
        (at[0] == 0xf4 && at[1] > 0x8f))
        return 0;
    return length;
}

/* A byte that is no part of a character, as names of files may have it, is written as the character of its number. */
static void json_string(const char *text)
{
    const unsigned char *at = (const unsigned char *)text;
    unsigned wide;

    putchar('"');
    for (; *at != '\0'; at += wide > 0 ? wide : 1) {
        wide = wide_length(at);
        if (wide > 0)
            fwrite(at, 1, wide, stdout);
        else if (*at == '"' || *at == '\\')
            printf("\\%c", *at);
        else if (*at < 32 || *at > 126)
            printf("\\u%04x", *at);
        else
            putchar(*at);
    }
    putchar('"');
}

static void json_key(const char *key)
{
    if (behind)
        putchar(',');
    if (key != NULL) {
        json_string(key);
        putchar(':');
    }
    behind = 1;
}

void json_open(const char *key, char bracket)
{
    json_key(key);
    putchar(bracket);
    behind = 0;
}

void json_close(char bracket)
{
    putchar(bracket);
    behind = 1;
}

void json_text(const char *key, const char *text)
{
    json_key(key);
    json_string(text);
}

void json_number(const char *key, uint64_t number)
{
    json_key(key);
    printf("%" PRIu64, number);
}

void json_truth(const char *key, int truth)
{
    json_key(key);
    fputs(truth ? "true" : "false", stdout);
}

void json_null(const char *key)
{
    json_key(key);
    fputs("null", stdout);
}

/* ---- numbers ---- */

/* The next of a few rooms, so that several texts can stand in one line. */
static char *next_room(void)
{
    static char rooms[ROOMS][ROOM];
    static unsigned turn;

    turn = (turn + 1) % ROOMS;
    return rooms[turn];
}

const char *grouped(uint64_t number)
{
    char digits[32], *room = next_room();
    size_t length = (size_t)snprintf(digits, sizeof digits, "%" PRIu64, number), k, to = 0;

    for (k = 0; k < length; k++) {
        if (k > 0 && (length - k) % 3 == 0)
            room[to++] = ',';
        room[to++] = digits[k];
    }
    room[to] = '\0';
    return room;
}

const char *counted(uint64_t number, const char *one, const char *many)
{
    char *room = next_room();

    snprintf(room, ROOM, "%s %s", grouped(number), number == 1 ? one : many);
    return room;
}
