/* Texts and what becomes of them, case by case: the answer, and of what is accepted every byte, forth and back. */
#include "classes.h"
#include "reference.h"

#include <inttypes.h>
#include <stdio.h>
#include <string.h>

enum { ROOM = 16384, BODY = 4, NAME = 5, MANY = 6, NO_ROOM = 11, TEXT = 16, UNDECLARED = 17, UNTOUCHED = 0xA5 };

static uint8_t image[ROOM], names[ROOM], text[ROOM];
static unsigned passed, failed;

static void judge(int right, const char *what, uint64_t answer)
{
    if (right) {
        passed++;
        return;
    }
    failed++;
    printf("wrong: %s\n  answers %016" PRIx64 "\n", what, answer);
}

static int untouched(const uint8_t *row, size_t from)
{
    while (from < ROOM && row[from] == UNTOUCHED)
        from++;
    return from == ROOM;
}

static uint64_t parse_into(const char *words, size_t image_room, size_t names_room)
{
    memset(image, UNTOUCHED, sizeof image);
    memset(names, UNTOUCHED, sizeof names);
    return reference_parse(image, image_room, names, names_room, (const uint8_t *)words, strlen(words));
}

static void refused_in(const char *words, size_t image_room, size_t names_room, unsigned refusal, uint64_t offset)
{
    uint64_t answer = parse_into(words, image_room, names_room);

    judge(answer == (refusal | offset << 32) && untouched(image, 0) && untouched(names, 0), words, answer);
}

static void refused(const char *words, unsigned refusal, uint64_t offset)
{
    refused_in(words, ROOM, ROOM, refusal, offset);
}

/* Prints what was parsed into so many bytes; whether it answers so, writes no more than that, and nothing behind it. */
static void print_into(size_t room, size_t image_len, size_t names_len, const char *wanted, uint64_t word)
{
    size_t written = word == NO_ROOM ? 0 : strlen(wanted);
    uint64_t answer;

    memset(text, UNTOUCHED, sizeof text);
    answer = reference_print(image, image_len, names, names_len, text, room);
    judge(answer == word && memcmp(text, wanted, written) == 0 && untouched(text, written), wanted, answer);
}

static void print_back(const char *wanted, size_t image_len, size_t names_len)
{
    print_into(strlen(wanted), image_len, names_len, wanted, (uint64_t)strlen(wanted) << 32);
    print_into(strlen(wanted) - 1, image_len, names_len, wanted, NO_ROOM);
}

/* A text, its image and names; then how it is written. One byte less of either row is 11. */
static void accepted(const char *words, const uint8_t *bytes, size_t length, const char *listed, const char *written)
{
    uint64_t answer = parse_into(words, length, strlen(listed));

    judge(answer == ((uint64_t)length << 8 | (uint64_t)strlen(listed) << 32) && memcmp(image, bytes, length) == 0 &&
              memcmp(names, listed, strlen(listed)) == 0 && untouched(image, length) && untouched(names, strlen(listed)),
          words, answer);
    refused_in(words, length - 1, strlen(listed), NO_ROOM, 0);
    if (listed[0] != '\0')
        refused_in(words, length, strlen(listed) - 1, NO_ROOM, 0);
    parse_into(words, length, strlen(listed));
    print_back(written, length, strlen(listed));
}

/* ---- what is accepted ---- */

static const uint8_t s_five[] = { 6, 0,  1, 0, 1, 1, 12, 0, 2, 0, 0, 1, 0, 0,   0,
                                  0, 0,  0, 11, 0, 3, 0, 1, 1, 1, 0, 1, 0, 0x80 };
static const uint8_t nothing[] = { 6, 0, 3, 0, 0, 0 };
static const uint8_t named_mode[] = { 5, 0, 1, 0, 0, 10, 0, 2, 0, 0, 0, 0, 0, 0, 0, 9, 0, 3, 0, 0, 1, 1, 0, 0 };
/* mode p(?,^). mode q. mode r. mode s. p(a,A) <- q : r, A = b & s; p(X,Y) <- q : . p(c,c). <- a = A & r. */
static const uint8_t sides[] = {
    7,  0, 1, 0, 2, 0, 1,                                                          /* mode p(?,^). */
    5,  0, 1, 0, 0, 5, 0, 1, 0, 0, 5, 0, 1, 0, 0,                                  /* mode q. mode r. mode s. */
    29, 0, 2, 0, 0, 2, 0, 1, 0, 0, 0, 0x80,                                        /* p(a,A) <- */
    1,  1, 1, 0, 2, 2, 2, 0, 255, 2, 0, 0x80, 1, 0, 1, 3, 0,                       /* q : r, A = b & s; */
    17, 0, 2, 0, 0, 2, 1, 2, 0, 0x80, 1, 0x80, 1, 1, 1, 0, 0,                      /* p(X,Y) <- q : . */
    14, 0, 2, 0, 0, 2, 0, 0, 2, 0, 2, 0, 0, 0,                                     /* p(c,c). */
    16, 0, 3, 0, 1, 2, 1, 255, 2, 0, 0, 0, 0x80, 1, 2, 0                           /* <- a = A & r. */
};

/* One plan, however it is spaced and its variable named. */
static void accepted_s_five(const char *words)
{
    accepted(words, s_five, sizeof s_five, "s\nfive\n", "mode s(^).\ns(five).\n<- s(A).\n");
}

static void what_is_accepted(void)
{
    accepted_s_five("mode s(^).\ns(five).\n<- s(A).\n");
    accepted_s_five("mode s(^).s(five).<-s(A_9z).");
    accepted_s_five("\r\n\tmode s ( ^ ) . s ( five ) ;<- s ( Zz ) . \t");
    accepted("<-.", nothing, sizeof nothing, "", "<- .\n");
    accepted("mode mode. mode. <- mode.", named_mode, sizeof named_mode, "mode\n", "mode mode.\nmode.\n<- mode.\n");
    accepted("mode p(?,^). mode q. mode r. mode s. p(a,A)<-q:r,A=b&s;p(X,Y)<-q:.p(c,c).<-a=A&r.", sides, sizeof sides,
             "p\nq\nr\ns\na\nb\nc\n",
             "mode p(?,^).\nmode q.\nmode r.\nmode s.\np(a,A) <- q : r, A = b & s;\np(A,B) <- q : .\np(c,c).\n"
             "<- a = A & r.\n");
}

/* ---- what is refused: the form ---- */

static void form_is_refused(void)
{
    refused("mode p.\np <- .", TEXT, 13);
    refused("mode p.\np < q.", TEXT, 11);
    refused("mode p.\np.\nmode q.", TEXT, 16);
    refused("mode p.\n<- p", TEXT, 12);
    refused("", TEXT, 0);
    refused("mode p. p <- : q.", TEXT, 13);
    refused("mode p. <- p;", TEXT, 12);
    refused("mode p. <- p : p.", TEXT, 13);
    refused("mode p. <- p. p.", TEXT, 14);
    refused("mode p(). <- p.", TEXT, 7);
    refused("mode p(?,). <- p.", TEXT, 9);
    refused("mode P. <- .", TEXT, 5);
    refused("mode p <- .", TEXT, 7);
    refused("mode p. p(). <- p.", TEXT, 10);
    refused("mode p. P. <- p.", TEXT, 8);
    refused("mode p. <- P.", TEXT, 12);
    refused("mode p. <- P(a).", TEXT, 12);
    refused("mode p. <- p(a) = b.", TEXT, 16);
    refused("mode p. <- 5 = 5.", TEXT, 11);
    refused("mode p. <- _x = p.", TEXT, 11);
    refused("mode p. % a comment", TEXT, 8);
    refused("mode p. p <- q : r : s.", TEXT, 19);
    refused("mode p. p = q.", TEXT, 10);
    refused("<- a = b,.", TEXT, 9);
    refused("<- a = b & & c = d.", TEXT, 11);
    refused("<- a == b.", TEXT, 6);
    refused("mo de p.", TEXT, 3);
    refused("<- . x", TEXT, 5);
    refused("\xC3\xA4.", TEXT, 0);
}

/* ---- what is refused: the meaning ---- */

/* A text with a line so many times, each with its number where it has room for one. */
static void refused_repeated(const char *before, const char *line, unsigned count, const char *behind, unsigned refusal,
                             uint64_t offset)
{
    static char all[4 * ROOM];
    unsigned k;

    strcpy(all, before);
    for (k = 0; k < count; k++)
        sprintf(all + strlen(all), line, k);
    strcat(all, behind);
    refused(all, refusal, offset);
}

static void limits_are_refused(void)
{
    refused_repeated("", "mode p%u. ", 33, "<- .", MANY, 160);
    refused_repeated("", "mode p%u. ", 32, "mode p0. <- .", MANY, 160);
    refused_repeated("", "mode p%u. ", 34, "p32. <- p33.", MANY, 160);
    refused_repeated("", "mode p%u. ", 34, "p32. <- p34.", UNDECLARED, 0);
    refused_repeated("mode p. ", "p; ", 65, "<- .", MANY, 645);
    refused_repeated("mode p. ", "p. ", 9, "<- .", MANY, 85);
    refused_repeated("mode p. p <- p", ", p", 8, ". <- .", BODY, 5);
    refused_repeated("<- V = W", " & V = W", 8, ".", BODY, 0);
    refused("mode p(?,?,?). <- p(A,B,C), p(D,E,F), p(G,H,I), p(J,K,L), p(M,N,O), p(P,Q,R).", BODY, 8);
}

/* Calls of what has a mode line before the refused one, from it on, or nowhere. A parse has places for 4,385 names. */
static void modes_are_refused(void)
{
    refused("mode p. mode p. mode q. p. <- p.", NAME, 5);
    refused("mode p. mode p. mode q. <- q.", NAME, 5);
    refused("mode p. mode p. mode q. q <- p : q; q. <- p & q.", NAME, 5);
    refused("mode p. mode p. mode q. q <- p : q; q. <- p & q, r.", UNDECLARED, 0);
    refused("mode p. mode p. mode q. q <- r : q; q. <- p & q.", UNDECLARED, 0);
    refused("mode p. mode p. mode q. q; r. <- .", UNDECLARED, 0);
    refused("mode p. mode p. <- a = b.", NAME, 5);
    refused("mode p. mode p. mode p_. <- p_.", NAME, 5);
    refused("mode p. mode p. mode p_. <- p_0.", UNDECLARED, 0);
    refused("mode q. mode p(?,?,?,?,?). <- p.", BODY, 5);
    refused("mode p(?,?,?,?,?). mode q. mode q. q <- p. <- q.", BODY, 0);
    refused("mode p(?,?,?,?,?). mode q. mode q. q <- r. <- q.", UNDECLARED, 0);
    refused_repeated("", "mode p%u. ", 4385, "p33. <- p4384, p0.", MANY, 160);
    refused_repeated("", "mode p%u. ", 4385, "p33. <- p4385, p0.", UNDECLARED, 0);
    refused_repeated("", "mode p%u. ", 4386, "p4385. <- p4384, p0.", MANY, 160);
    refused_repeated("", "mode p%u. ", 4386, "p4385. <- p4386, p0.", UNDECLARED, 0);
    refused_repeated("", "mode p%u. ", 4400, "p4399 <- p4390 : p4386. p4389. <- p4385 & p4399, p4388.", MANY, 160);
    refused_repeated("", "mode p%u. ", 4400, "p4399 <- p4390 : p4386. p4389. <- p4385 & p4400, p4388.", UNDECLARED, 0);
    refused_repeated("", "mode p%u. ", 4400, "p4399 <- p4390 : p43. p438. <- p4385 & p4399, p43990.", UNDECLARED, 0);
    refused_repeated("", "mode p%u. ", 4400, "mode p0. mode q. q <- p4390 : p43. p438. <- p4385 & p4399, q.", MANY, 160);
}

/* ---- what is refused: relations of one class, about as many as places, or more ---- */

/* Names of the class of `m`, in any order and in that of their bytes. */
#define LATE \
    "mode mbbbb. mode mddnZZji. mode m00cv. mode m__dwaaoo. mode m. mode mxxlbyycb. mode mbbbbddn(?,^). mode mAAbu. mode mddn. " \
    "mode m00cv11oo. mode mccb. mode maabu. mode m__dw. mode mZZ. mode mbbbbccb. "
#define UPWARDS "m, m00cv, m00cv11oo, mAAbu, mZZ, m__dw, m__dwaaoo, maabu, " \
                "mbbbb, mbbbbccb, mbbbbddn, mccb, mddn, mddnZZji, mxxlbyycb"
#define DOWNWARDS "mxxlbyycb, mddnZZji, mddn, mccb, mbbbbddn, mbbbbccb, mbbbb, maabu, " \
                  "m__dwaaoo, m__dw, mZZ, mAAbu, m00cv11oo, m00cv, m"

/* A text with so many mode lines of that class before, of names that begin otherwise. */
static void refused_class(unsigned lines, const char *behind, unsigned refusal, uint64_t offset)
{
    static char all[4 * ROOM];
    char name[CLASS_NAME + 1] = "a", *end = all;

    while (lines > 0) {
        next_of_class(name, class_of("m"));
        if (name[0] == 'm')
            continue;
        end += sprintf(end, "mode %s. ", name);
        lines--;
    }
    strcpy(end, behind);
    refused(all, refusal, offset);
}

/* One more than the lines before, and a call of what has none: the same class and less, more, much more; another class. */
static void one_late(unsigned lines)
{
    refused_class(lines, "mode m. <- .", MANY, 160);
    refused_class(lines, "mode m. m <- m. <- m, m & m.", MANY, 160);
    refused_class(lines, "mode m. m <- m. <- m, aNNUu & m.", UNDECLARED, 0);
    refused_class(lines, "mode m. m <- mbbbb. <- m, m & m.", UNDECLARED, 0);
    refused_class(lines, "mode m. m <- m : zwRu. <- m, m & m.", UNDECLARED, 0);
    refused_class(lines, "mode m. m <- m. <- m, m & mb.", UNDECLARED, 0);
}

static void classes_are_refused(void)
{
    one_late(PLACES - 2);
    one_late(PLACES - 1);
    one_late(PLACES);
    refused_class(PLACES, LATE "<- " UPWARDS ".", MANY, 160);
    refused_class(PLACES, LATE "<- " DOWNWARDS ".", MANY, 160);
    refused_class(PLACES, LATE "m <- " UPWARDS " : " DOWNWARDS "; mxxlbyycb <- " UPWARDS ". <- " DOWNWARDS ", m, m.", MANY, 160);
    refused_class(PLACES, LATE "mddn(m00cv) <- mbbbb, mddn, m : maabu, m; mddn <- m. "
                  "<- mbbbb & m00cv(zwRu,mb), mbbbb = aNNUu, mddnZZji.", MANY, 160);
    refused_class(PLACES, LATE "mode m. mode mddn. mode meeob. <- meeob, " UPWARDS ".", MANY, 160);
    refused_class(PLACES, LATE "<- aNNUu, " UPWARDS ".", UNDECLARED, 0);
    refused_class(PLACES, LATE "<- " DOWNWARDS ", aNNUu.", UNDECLARED, 0);
    refused_class(PLACES, LATE "<- " UPWARDS ", mbbbbaabu.", UNDECLARED, 0);
    refused_class(PLACES, LATE "m <- m__dw : mccb; mddnZZji00. <- " DOWNWARDS ".", UNDECLARED, 0);
    refused_class(PLACES, LATE "m <- m__dw, mxxlb : mccb. <- " UPWARDS ".", UNDECLARED, 0);
    refused_class(PLACES, LATE "m <- m__dw : mccb & mxxlbyycbyyon. <- .", UNDECLARED, 0);
    refused_class(PLACES, LATE "<- " UPWARDS " & zwRu.", UNDECLARED, 0);
    refused_class(PLACES, LATE "zwRu. <- " DOWNWARDS ".", UNDECLARED, 0);
    refused_class(PLACES, LATE "<- " UPWARDS ", mb.", UNDECLARED, 0);
    refused_class(PLACES, LATE "<- mb, " DOWNWARDS ".", UNDECLARED, 0);
    refused_class(PLACES, LATE "<- mb.", UNDECLARED, 0);
}

static void meaning_is_refused(void)
{
    refused("<- p.", UNDECLARED, 0);
    refused("mode p. q. <- p.", UNDECLARED, 0);
    refused("mode p. p <- q : p. <- p.", UNDECLARED, 0);
    refused("mode p(?,?,?,?,?). <- q.", UNDECLARED, 0);
    refused("mode p. <- q", TEXT, 12);
    refused("mode p(?).\n<- p.", NAME, 6);
    refused("mode p. mode q. mode p. <- .", NAME, 10);
    refused("mode p. mode p. <- q.", UNDECLARED, 0);
    refused("mode p. mode p. p <- q. <- p.", UNDECLARED, 0);
    refused("mode p(?,^,?,^,?). <- .", BODY, 0);
    refused("mode p. mode p(?,^,?,^,?). <- .", BODY, 5);
    refused("mode p. p(a). <- .", NAME, 5);
    refused("mode p. p(a,b,c,d,e). <- .", BODY, 5);
    refused("mode p. mode q. q. p. <- .", NAME, 20);
    refused("mode p. mode q. p; q; q; p. <- .", NAME, 40);
    refused("mode p. <- p(a,b,c,d,e).", BODY, 5);
    limits_are_refused();
    modes_are_refused();
    classes_are_refused();
}

/* ---- printing: names that are lacking ---- */

static void lacks(const char *listed, uint64_t wanted)
{
    uint64_t answer;

    memset(text, UNTOUCHED, sizeof text);
    answer = reference_print(s_five, sizeof s_five, (const uint8_t *)listed, strlen(listed), text, ROOM);
    judge(answer == wanted && (wanted != UNDECLARED || untouched(text, 0)), listed, answer);
}

static void names_are_lacking(void)
{
    lacks("s\nfive\n", (uint64_t)29 << 32);
    lacks("s\nfive\nrest", (uint64_t)29 << 32);
    lacks("mode\nmode\n!\n\n", (uint64_t)38 << 32);
    lacks("s\nfive", UNDECLARED);
    lacks("s\nFive\n", UNDECLARED);
    lacks("S\nfive\n", UNDECLARED);
    lacks("s\n\n", UNDECLARED);
    lacks("s\nfi ve\n", UNDECLARED);
    lacks("5\nfive\n", UNDECLARED);
    lacks("", UNDECLARED);
}

int main(void)
{
    uint64_t answer;

    what_is_accepted();
    form_is_refused();
    meaning_is_refused();
    names_are_lacking();
    answer = reference_print(s_five, sizeof s_five - 1, names, 0, text, ROOM);
    judge(answer == ((uint64_t)18 << 32 | 2), "a cut image", answer);
    printf("text: %u cases right, %u wrong\n", passed, failed);
    return failed == 0 ? 0 : 1;
}
