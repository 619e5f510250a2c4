/* What the program says. */
#define _POSIX_C_SOURCE 200809L
#include "say.h"

#include <stdarg.h>
#include <stdio.h>
#include <stdlib.h>
#include <time.h>
#include <unistd.h>

int say_json;

enum { LINE = 2048 };

void quit(enum status status, const char *form, ...)
{
    char line[LINE];
    va_list words;

    va_start(words, form);
    vsnprintf(line, sizeof line, form, words);
    va_end(words);
    fprintf(stderr, "rissobarm-index: %s\n", line);
    if (say_json) {
        struct text text = { 0 };

        json_open(&text, NULL, '{');
        json_text(&text, "error", line);
        json_number(&text, "status", status);
        json_close(&text, '}');
        answer(&text);
    }
    exit(status);
}

void warn(const char *form, ...)
{
    va_list words;

    va_start(words, form);
    fprintf(stderr, "rissobarm-index: ");
    vfprintf(stderr, form, words);
    fprintf(stderr, "\n");
    va_end(words);
}

int progress_shown(void)
{
    return isatty(STDERR_FILENO);
}

void progress(const char *form, ...)
{
    va_list words;

    if (!progress_shown())
        return;
    va_start(words, form);
    fprintf(stderr, "\r");
    vfprintf(stderr, form, words);
    fprintf(stderr, "\033[K");
    va_end(words);
}

void answer(const struct text *text)
{
    puts(text_of(text));
}

int finish(enum status status)
{
    if (fflush(stdout) != 0 || ferror(stdout))
        quit(NO_FILE, "standard output cannot be written");
    return status;
}

double now(void)
{
    struct timespec time;

    clock_gettime(CLOCK_REALTIME, &time);
    return (double)time.tv_sec + (double)time.tv_nsec / 1e9;
}

double processor_time(void)
{
    struct timespec time;

    clock_gettime(CLOCK_PROCESS_CPUTIME_ID, &time);
    return (double)time.tv_sec + (double)time.tv_nsec / 1e9;
}
