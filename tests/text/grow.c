/*
 * grow SORT SIZE: makes a text of the sort, of so many bytes, and parses it once; it must be answered as the sort is. A text of
 * a sort has as many names however long it is, so that what a parse does may grow with the text and no faster.
 * grow: prints each sort and its least size.
 */
#include "classes.h"
#include "rissobarm.h"

#include <inttypes.h>
#include <stdio.h>
#include <stdlib.h>
#include <string.h>

enum { SMALL = 16384, LARGE = 65536, TEXT_ROOM = 4 * LARGE, NAME_ROOM = 8 };
enum { RELATIONS = 200, CROWD = 4500, CALLED = 40, LONG_NAMES = 8 };

static char text[TEXT_ROOM];
static size_t length;
static uint8_t image[RISSOBARM_TEXT_IMAGE], names[TEXT_ROOM];

/* ---- pieces ---- */

static void put(const char *piece)
{
    size_t more = strlen(piece);

    if (more > TEXT_ROOM - length)
        abort();
    memcpy(text + length, piece, more);
    length += more;
}

/* Blanks up to a length. */
static void blanks(size_t to)
{
    while (length < to)
        put(" ");
}

/* A piece again and again, while it fits below a length. */
static void repeat(const char *piece, size_t to)
{
    while (length + strlen(piece) <= to)
        put(piece);
}

/* The goal's end, and blanks up to the size. */
static void finish(size_t size)
{
    put(".");
    blanks(size);
}

/* Name k of many: three letters. */
static const char *name_of(unsigned k)
{
    static char name[NAME_ROOM];

    sprintf(name, "%c%c%c", 'a' + k / 676 % 26, 'a' + k / 26 % 26, 'a' + k % 26);
    return name;
}

/* Name k of a crowd of one class. */
static const char *name_of_class(unsigned k)
{
    static char names[CROWD][CLASS_NAME + 1], name[CLASS_NAME + 1] = "a";
    static unsigned made;

    for (; made <= k; made++) {
        next_of_class(name, 0);
        strcpy(names[made], name);
    }
    return names[k];
}

/* So many mode lines, spread over the text up to a length. */
static void modes(const char *(*name_of)(unsigned), unsigned count, size_t to)
{
    size_t from = length;
    unsigned k;

    for (k = 0; k < count; k++) {
        put("mode ");
        put(name_of(k));
        put(".");
        blanks(from + (to - from) * (k + 1) / count);
    }
}

/* Calls of the names from one on up to another, over and over, as a goal. */
static void calls(const char *(*name_of)(unsigned), unsigned from, unsigned to, size_t end)
{
    unsigned k = from;

    put("<- ");
    put(name_of(k));
    while (length + 2 * NAME_ROOM < end) {
        k = k + 1 < to ? k + 1 : from;
        put(", ");
        put(name_of(k));
    }
}

/* ---- sorts ---- */

/* A plan that is accepted, with as many blanks at each ~. */
static const char plan[] = "mode~p(~?~,~^~)~.~mode~q(?).~mode r~.~p(a,B)~<-~q~(~a~)~:~q(c)~,~B~=~d~&~r~;~p(A,A).~q(e).~"
                           "r <- q(e)~.~<-~p(~a~,~X~)~,~r~.~";

static void make_blanks(size_t size)
{
    const char *at;
    size_t places = 0, share;

    for (at = plan; *at != '\0'; at++)
        places += *at == '~';
    share = (size - strlen(plan)) / places;
    for (at = plan; *at != '\0'; at++)
        if (*at == '~')
            blanks(length + share);
        else
            text[length++] = *at;
    blanks(size);
}

/* A clause with too many literals, and clauses and a goal behind it. */
static void make_literals(size_t size)
{
    put("mode p(?,^). mode q(?). p(a,B) <- q(c)");
    repeat(", p(a,B), q(c), B = d", size / 2);
    put(". ");
    repeat("p(a,B) <- q(a) : p(B,c) & q(d); ", size / 4 * 3);
    put("<- q(a)");
    repeat(", p(a,X), q(X)", size - 1);
    finish(size);
}

/* A second mode line, and calls without one. */
static void make_undeclared(size_t size)
{
    put("mode p. mode p.");
    blanks(size / 2);
    put("<- q");
    repeat(", q", size - 1);
    finish(size);
}

/* The calls have theirs behind the one that is refused. */
static void make_behind(size_t size)
{
    put("mode p. mode p.");
    blanks(size / 2);
    put("mode q. <- q");
    repeat(", q", size - 1);
    finish(size);
}

/* Too many mode lines, and clauses and a goal that call each of them. */
static void make_many(size_t size)
{
    unsigned k;

    modes(name_of, RELATIONS, size / 2);
    for (k = 0; length < size / 4 * 3; k++) {
        put(name_of(k % RELATIONS));
        put(" <- ");
        put(name_of((k + 7) % RELATIONS));
        put(", a = b; ");
    }
    calls(name_of, 0, RELATIONS, size);
    finish(size);
}

/* More relations than a parse has places for, and calls of the last ones. */
static void make_crowd(size_t size)
{
    modes(name_of, CROWD, size / 16 * 15);
    calls(name_of, CROWD - CALLED, CROWD, size);
    finish(size);
}

/* The same with names of one class. */
static void make_class(size_t size)
{
    modes(name_of_class, CROWD, size / 64 * 63);
    calls(name_of_class, CROWD - CALLED, CROWD, size);
    finish(size);
}

/* Right so far, and then the text ends. */
static void make_stuck(size_t size)
{
    put("mode p(?). mode q(?). ");
    repeat("p(A) <- q(A) : q(b) & p(c); ", size / 2);
    put("p(A) <- q(A)");
    repeat(", q(b)", size);
    blanks(size);
}

/* One of the long names: they differ in their last bytes alone, and have one sum. */
static void put_long(unsigned k, size_t long_length)
{
    size_t end = length + long_length - 6;

    repeat("n", end);
    put(k & 1 ? "Aa" : "BB");
    put(k & 2 ? "Aa" : "BB");
    put(k & 4 ? "Aa" : "BB");
}

/* Long names: a second mode line of the first, then the others, and a call of each. */
static void make_long(size_t size)
{
    size_t long_length = size / (2 * LONG_NAMES + 2);
    unsigned k;

    for (k = 0; k <= LONG_NAMES; k++) {
        put("mode ");
        put_long(k == 0 ? 0 : k - 1, long_length - 8);
        put(".");
    }
    put("<- ");
    for (k = 0; k < LONG_NAMES; k++) {
        if (k > 0)
            put(",");
        put_long(k, long_length - 8);
    }
    finish(size);
}

static const struct sort {
    const char *name;
    void (*make)(size_t size);
    unsigned least; /* size */
    unsigned refusal;
    uint32_t offset; /* of a text that is stuck: its end */
} sorts[] = {
    { "blanks", make_blanks, SMALL, RISSOBARM_ACCEPTED, 0 },
    { "literals", make_literals, SMALL, RISSOBARM_BODY, 13 },
    { "undeclared", make_undeclared, SMALL, RISSOBARM_UNDECLARED, 0 },
    { "behind", make_behind, SMALL, RISSOBARM_NAME, 5 },
    { "many", make_many, SMALL, RISSOBARM_MANY, 160 },
    { "crowd", make_crowd, LARGE, RISSOBARM_MANY, 160 },
    { "class", make_class, LARGE, RISSOBARM_MANY, 160 },
    { "stuck", make_stuck, SMALL, RISSOBARM_TEXT, 0 },
    { "long", make_long, SMALL, RISSOBARM_NAME, 5 },
};

enum { SORTS = sizeof sorts / sizeof sorts[0] };

/* Whether a text of the sort has the size, and is answered as it must be. */
static int parse(const struct sort *sort, size_t size)
{
    uint64_t answer;
    int right;

    length = 0;
    sort->make(size);
    answer = rissobarm_parse(image, sizeof image, names, sizeof names, (const uint8_t *)text, length);
    right = length == size && rissobarm_refusal(answer) == sort->refusal;
    if (sort->refusal != RISSOBARM_ACCEPTED)
        right &= rissobarm_offset(answer) == (sort->refusal == RISSOBARM_TEXT ? size : sort->offset);
    if (!right)
        printf("grow: %s of %zu bytes, made as %zu: answers %016" PRIx64 "\n", sort->name, size, length, answer);
    return right;
}

int main(int count, char **words)
{
    unsigned k;

    for (k = 0; k < SORTS; k++)
        if (count == 1)
            printf("%s %u\n", sorts[k].name, sorts[k].least);
        else if (count == 3 && strcmp(words[1], sorts[k].name) == 0)
            return parse(&sorts[k], strtoul(words[2], NULL, 10)) ? 0 : 1;
    return count == 1 ? 0 : 1;
}
