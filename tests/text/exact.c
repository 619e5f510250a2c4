/*
 * Shows by brute force that the offset of 16 is exact. From some beginnings on, every byte is put behind what can be
 * continued; the reader must say that the text is stuck there exactly when no ending, of all those tried, makes it a text.
 */
#include "text.h"

#include <stdio.h>
#include <stdlib.h>
#include <string.h>

enum { ROOM = 64, DEPTH = 2 };

/* One byte of each sort that any place of the grammar tells apart, letters of `mode` among them. */
static const char signs[] = "amode_Z0 \n(),.;:&=<-?^%";
/* What may stand behind two signs to end a text. */
static const char *const endings[] = { "", ".", ".<-.", "<-.", ").<-.", "a.<-." };
static const char *const beginnings[] = {
    "",       "m",     "mode",    "mode ",  "mode a", "mode a(", "mode a(?", "mode a(?,", "mode a.",  "mode a. mode",
    "mode.",  "a",     "a(",      "a(a",    "a(a,",   "a(a)",    "a<",       "a<-",       "a<-a",     "a<-a(",
    "a<-a(Z", "a<-Z",  "a<-Z=",   "a<-Z=a", "a<-a=",  "a<-a,",   "a<-a&",    "a<-a:",     "a<-a:a",   "a<-a:a(a",
    "a<-a:Z", "a.",    "a. mode", "a;",     "<",      "<-",      "<-a",      "<-a(a",     "<-Z",      "<-a=a",
    "<-a&",   "<-a.",  "<-. ",    "mode(",  "mode<-", "mode a.mode.",        "mode a.mode ", "a.mode."
};

static unsigned long tried, able;
static struct parts parts;

/* Whether these bytes are a text, and if not where they are stuck. */
static bool is_text(const char *bytes, size_t length, size_t *stuck)
{
    parts.count = 0;
    return ref_take_apart((const uint8_t *)bytes, length, &parts, stuck);
}

static bool ends_with(char *bytes, size_t length)
{
    size_t k, stuck;

    for (k = 0; k < sizeof endings / sizeof endings[0]; k++) {
        memcpy(bytes + length, endings[k], strlen(endings[k]));
        if (is_text(bytes, length + strlen(endings[k]), &stuck))
            return true;
    }
    return false;
}

/* Whether some ending, with up to two signs before it, makes this a text. */
static bool can_end(char *bytes, size_t length)
{
    const char *a, *b;

    if (ends_with(bytes, length))
        return true;
    for (a = signs; *a != '\0'; a++) {
        bytes[length] = *a;
        if (ends_with(bytes, length + 1))
            return true;
        for (b = signs; *b != '\0'; b++) {
            bytes[length] = *a;
            bytes[length + 1] = *b;
            if (ends_with(bytes, length + 2))
                return true;
        }
    }
    return false;
}

/* The reader's word on these bytes, of which all but the last can be continued. */
static bool goes_on(const char *bytes, size_t length)
{
    size_t stuck;
    bool right = is_text(bytes, length, &stuck);

    if (!right && stuck != length && stuck != length - 1) {
        printf("stuck at %zu of %.*s\n", stuck, (int)length, bytes);
        exit(1);
    }
    return right || stuck == length;
}

static void explore(const char *before, size_t length, unsigned depth);

/* One byte more; where that can be continued and depth is left, another. */
static void try_byte(const char *before, size_t length, unsigned depth, char byte)
{
    char bytes[ROOM];
    bool on;

    memcpy(bytes, before, length);
    bytes[length] = byte;
    on = goes_on(bytes, length + 1);
    tried++;
    able += on;
    if (can_end(bytes, length + 1) != on) {
        printf("%s be continued, says the reader: %.*s\n", on ? "can" : "cannot", (int)length + 1, bytes);
        exit(1);
    }
    if (on && depth > 1)
        explore(bytes, length + 1, depth - 1);
}

static void explore(const char *before, size_t length, unsigned depth)
{
    const char *sign;

    for (sign = signs; *sign != '\0'; sign++)
        try_byte(before, length, depth, *sign);
}

int main(int count, char **words)
{
    unsigned depth = count > 1 ? (unsigned)atoi(words[1]) : DEPTH, byte;
    size_t k;

    for (k = 0; k < sizeof beginnings / sizeof beginnings[0]; k++) {
        explore(beginnings[k], strlen(beginnings[k]), depth);
        for (byte = 0; byte < 256; byte++)
            try_byte(beginnings[k], strlen(beginnings[k]), 1, (char)byte);
    }
    free(parts.all);
    printf("exact: of %lu texts, %lu can be continued, and the others are stuck at a byte behind which no ending helps\n", tried,
           able);
    return 0;
}
