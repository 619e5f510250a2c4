/*
 * Turns a plan in PARLOG text, read from standard input, into an image on standard output.
 *
 *   compile [NAMES] <PLAN >IMAGE
 *
 * NAMES is a file for the list of names: relations by number, then constants, one a line. What is refused is told with line
 * and column where it is the form of the text (16), and with the record's place in the image where it is what the text
 * says. Ends with 0, 1 where the text is refused, 2 where a file is no good or the text has more than 262,143 bytes.
 */
#include "rissobarm_plan.h"

#include <stdio.h>

enum { DONE = 0, REFUSED = 1, NO_GOOD = 2, TEXT_ROOM = 262144 };

static uint8_t text[TEXT_ROOM], names[TEXT_ROOM], image[RISSOBARM_TEXT_IMAGE];

/* The place of a byte, from line 1 and column 1 on. */
static void say_place(size_t offset)
{
    unsigned line = 1, column = 1;
    size_t k;

    for (k = 0; k < offset; k++) {
        column = text[k] == '\n' ? 1 : column + 1;
        line += text[k] == '\n';
    }
    fprintf(stderr, " at line %u, column %u", line, column);
}

static int say_refusal(uint64_t answer)
{
    unsigned refusal = rissobarm_refusal(answer);

    fprintf(stderr, "compile: refused %u", refusal);
    if (refusal == RISSOBARM_TEXT)
        say_place(rissobarm_offset(answer));
    else if (refusal <= RISSOBARM_MANY)
        fprintf(stderr, " at byte %u of the image", (unsigned)rissobarm_offset(answer));
    fprintf(stderr, " (%s)\n", rissobarm_refusal_text(refusal));
    return REFUSED;
}

static int write_names(const char *path, size_t length)
{
    FILE *file = fopen(path, "wb");
    int good = file != NULL && fwrite(names, 1, length, file) == length;

    return file != NULL && fclose(file) == 0 && good;
}

int main(int count, char **words)
{
    size_t length = fread(text, 1, sizeof text, stdin), made;
    uint64_t answer;

    if (length == sizeof text) {
        fprintf(stderr, "compile: the text is too long\n");
        return NO_GOOD;
    }
    answer = rissobarm_parse(image, sizeof image, names, sizeof names, text, length);
    if (rissobarm_refusal(answer) != RISSOBARM_ACCEPTED)
        return say_refusal(answer);
    made = rissobarm_parsed_image(answer);
    if (count > 1 && !write_names(words[1], rissobarm_parsed_names(answer))) {
        fprintf(stderr, "compile: %s cannot be written\n", words[1]);
        return NO_GOOD;
    }
    return fwrite(image, 1, made, stdout) == made && fflush(stdout) == 0 ? DONE : NO_GOOD;
}
