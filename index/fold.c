/* Letters that a search takes for others. Those with accents are here too, for a store that does not fold them itself. */
#include "fold.h"

#include <ctype.h>
#include <string.h>

/* U+00C0 to U+017F, a word each, in order; "-" stays as it is. */
static const char *const latin[] = {
    "A", "A", "A", "A", "A", "A", "AE", "C", "E", "E", "E", "E", "I", "I", "I", "I",                     /* C0 */
    "D", "N", "O", "O", "O", "O", "O", "-", "O", "U", "U", "U", "U", "Y", "TH", "ss",                    /* D0 */
    "a", "a", "a", "a", "a", "a", "ae", "c", "e", "e", "e", "e", "i", "i", "i", "i",                     /* E0 */
    "d", "n", "o", "o", "o", "o", "o", "-", "o", "u", "u", "u", "u", "y", "th", "y",                     /* F0 */
    "A", "a", "A", "a", "A", "a", "C", "c", "C", "c", "C", "c", "C", "c", "D", "d",                      /* 100 */
    "D", "d", "E", "e", "E", "e", "E", "e", "E", "e", "E", "e", "G", "g", "G", "g",                      /* 110 */
    "G", "g", "G", "g", "H", "h", "H", "h", "I", "i", "I", "i", "I", "i", "I", "i",                      /* 120 */
    "I", "i", "IJ", "ij", "J", "j", "K", "k", "k", "L", "l", "L", "l", "L", "l", "L",                    /* 130 */
    "l", "L", "l", "N", "n", "N", "n", "N", "n", "n", "N", "n", "O", "o", "O", "o",                      /* 140 */
    "O", "o", "OE", "oe", "R", "r", "R", "r", "R", "r", "S", "s", "S", "s", "S", "s",                    /* 150 */
    "S", "s", "T", "t", "T", "t", "T", "t", "U", "u", "U", "u", "U", "u", "U", "u",                      /* 160 */
    "U", "u", "U", "u", "W", "w", "Y", "y", "Y", "Z", "z", "Z", "z", "Z", "z", "s"                       /* 170 */
};

enum { FIRST = 0xC0, LAST = 0x17F };

/* What the letter at a place is folded to, and how many bytes it has; NULL if it stays. */
static const char *folded(const unsigned char *at, size_t *length)
{
    unsigned letter;

    *length = 1;
    if (at[0] < 0xC3 || at[0] > 0xC5 || (at[1] & 0xC0) != 0x80)
        return NULL;
    letter = (at[0] & 0x1Fu) << 6 | (at[1] & 0x3Fu);
    *length = 2;
    if (letter < FIRST || letter > LAST || latin[letter - FIRST][0] == '-')
        return NULL;
    return latin[letter - FIRST];
}

static void fold_bytes(struct text *out, const char *text, size_t count)
{
    size_t k, length;

    for (k = 0; k < count; k += length) {
        const char *letters = folded((const unsigned char *)text + k, &length);

        if (letters != NULL)
            text_word(out, letters);
        else
            text_bytes(out, text + k, length);
    }
}

void fold_all(struct text *out, const char *text)
{
    fold_bytes(out, text, strlen(text));
}

/* Letters that FTS5 does not fold: those that are no letter with an accent. */
static const char *const whole[] = { "Æ", "æ", "Ð", "ð", "Ø", "ø", "Þ", "þ", "ß", "Đ", "đ", "Ħ", "ħ", "ı", "Ĳ", "ĳ", "ĸ",
                                     "Ŀ", "ŀ", "Ł", "ł", "ŉ", "Ŋ", "ŋ", "Œ", "œ", "Ŧ", "ŧ", "ſ" };

static int is_whole(const char *letter)
{
    unsigned k;

    for (k = 0; k < sizeof whole / sizeof whole[0]; k++)
        if (strncmp(letter, whole[k], strlen(whole[k])) == 0)
            return 1;
    return 0;
}

static int changes(const char *word, size_t count, int all)
{
    size_t k, length;

    for (k = 0; k < count; k += length)
        if (folded((const unsigned char *)word + k, &length) != NULL && (all || is_whole(word + k)))
            return 1;
    return 0;
}

void fold_words(struct text *out, const char *text, int all)
{
    while (*text != 0) {
        size_t count = strcspn(text, " \t\r\n");

        if (count > 0 && changes(text, count, all)) {
            if (out->length > 0)
                text_word(out, " ");
            fold_bytes(out, text, count);
        }
        text += count;
        text += strspn(text, " \t\r\n");
    }
}
