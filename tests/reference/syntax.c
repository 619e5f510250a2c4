/* The form of PARLOG text, by descent: every step looks at one byte and goes on only where some text goes on so. */
#include "text.h"

#include <stdlib.h>
#include <string.h>

/* The text, how far it is read, and whether a byte came that nothing could continue with; from there on nothing is read. */
struct reader {
    const uint8_t *text;
    size_t length;
    size_t at;
    bool stuck;
    struct parts *parts;
};

enum { NO_BYTE = -1 };

/* ---- bytes ---- */

static bool is_blank(int byte)
{
    return byte == 9 || byte == 10 || byte == 13 || byte == 32;
}

static bool is_lower(int byte)
{
    return byte >= 'a' && byte <= 'z';
}

static bool is_upper(int byte)
{
    return byte >= 'A' && byte <= 'Z';
}

static bool is_in_name(int byte)
{
    return is_lower(byte) || is_upper(byte) || (byte >= '0' && byte <= '9') || byte == '_';
}

/* The byte that comes next; none at the end, and none to one who is stuck. */
static int next(const struct reader *r)
{
    return !r->stuck && r->at < r->length ? r->text[r->at] : NO_BYTE;
}

static void skip_blanks(struct reader *r)
{
    while (is_blank(next(r)))
        r->at++;
}

/* Whether this sign comes next, behind blanks; if so it is passed. */
static bool take(struct reader *r, char sign)
{
    skip_blanks(r);
    if (next(r) != sign)
        return false;
    r->at++;
    return true;
}

static void need(struct reader *r, char sign)
{
    if (!take(r, sign))
        r->stuck = true;
}

/* Behind `<` only `-` can stand, and nothing between the two. */
static bool take_arrow(struct reader *r)
{
    if (!take(r, '<'))
        return false;
    if (next(r) == '-')
        r->at++;
    else
        r->stuck = true;
    return !r->stuck;
}

/* ---- parts ---- */

static size_t add(struct reader *r, enum part_kind kind, struct spelt name)
{
    struct parts *p = r->parts;

    if (p->count == p->room) {
        p->room = 2 * p->room + 64;
        p->all = realloc(p->all, p->room * sizeof *p->all);
        if (p->all == NULL)
            abort();
    }
    p->all[p->count].kind = kind;
    p->all[p->count].name = name;
    return p->count++;
}

static void add_sign(struct reader *r, enum part_kind kind)
{
    struct spelt none = { NULL, 0 };

    add(r, kind, none);
}

/* A name as far as it goes; what it begins with has been looked at. */
static struct spelt take_name(struct reader *r)
{
    struct spelt name = { r->text + r->at, 0 };

    while (is_in_name(next(r)))
        r->at++;
    name.length = (size_t)(r->text + r->at - name.at);
    return name;
}

/* ---- terms, literals, goals ---- */

static void read_term(struct reader *r)
{
    skip_blanks(r);
    if (is_lower(next(r)))
        add(r, CONSTANT_TERM, take_name(r));
    else if (is_upper(next(r)))
        add(r, VARIABLE_TERM, take_name(r));
    else
        r->stuck = true;
}

/* The terms in brackets; no brackets, no terms. */
static void read_terms(struct reader *r)
{
    if (!take(r, '('))
        return;
    do
        read_term(r);
    while (take(r, ','));
    need(r, ')');
}

/* `term = term`, of which the left one has been read as this name. */
static void read_equality(struct reader *r, enum part_kind left, struct spelt name)
{
    add_sign(r, EQUALS);
    add(r, left, name);
    read_term(r);
}

/* A lower-case name begins a call or an equality, an upper-case one an equality. */
static void read_literal(struct reader *r)
{
    struct spelt name;

    skip_blanks(r);
    if (is_upper(next(r))) {
        name = take_name(r);
        need(r, '=');
        read_equality(r, VARIABLE_TERM, name);
    } else if (is_lower(next(r))) {
        name = take_name(r);
        if (take(r, '=')) {
            read_equality(r, CONSTANT_TERM, name);
        } else {
            add(r, CALL, name);
            read_terms(r);
        }
    } else {
        r->stuck = true;
    }
}

static void read_goal(struct reader *r)
{
    for (;;) {
        do
            read_literal(r);
        while (take(r, ','));
        if (!take(r, '&'))
            return;
        add_sign(r, STAGE);
    }
}

/* ---- lines ---- */

/* What follows `mode` and its blanks. */
static void read_mode_line(struct reader *r)
{
    add(r, MODE, take_name(r));
    if (take(r, '(')) {
        do {
            bool input = take(r, '?');

            if (!input)
                need(r, '^');
            add_sign(r, input ? INPUT : OUTPUT);
        } while (take(r, ','));
        need(r, ')');
    }
    need(r, '.');
    add_sign(r, STOP);
}

/* `.` or `;`. */
static void read_clause_end(struct reader *r)
{
    if (take(r, ';')) {
        add_sign(r, NEXT);
    } else {
        need(r, '.');
        add_sign(r, STOP);
    }
}

/* Whether a clause ends here, so that what is behind its colon is empty. */
static bool ends_here(struct reader *r)
{
    skip_blanks(r);
    return next(r) == '.' || next(r) == ';';
}

/* What follows the name in the head of a clause. */
static void read_clause(struct reader *r, struct spelt name)
{
    add(r, HEAD, name);
    read_terms(r);
    if (take_arrow(r)) {
        read_goal(r);
        if (take(r, ':')) {
            add_sign(r, COLON);
            if (!ends_here(r))
                read_goal(r);
        }
    }
    read_clause_end(r);
}

/* What follows `<-` in the goal line, and the blanks up to the end. */
static void read_goal_line(struct reader *r)
{
    add_sign(r, GOAL);
    skip_blanks(r);
    if (next(r) != '.')
        read_goal(r);
    need(r, '.');
    add_sign(r, STOP);
    skip_blanks(r);
    if (r->at < r->length)
        r->stuck = true;
}

/* Before the first clause, `mode` and a lower-case name open a mode line; otherwise `mode` is a name as any other. */
static void read_line(struct reader *r, bool *in_modes)
{
    struct spelt name = take_name(r);

    skip_blanks(r);
    if (*in_modes && name.length == 4 && memcmp(name.at, "mode", 4) == 0 && is_lower(next(r))) {
        read_mode_line(r);
    } else {
        *in_modes = false;
        read_clause(r, name);
    }
}

static void read_text(struct reader *r)
{
    bool in_modes = true;

    for (;;) {
        skip_blanks(r);
        if (!is_lower(next(r)))
            break;
        read_line(r, &in_modes);
    }
    if (take_arrow(r))
        read_goal_line(r);
    else
        r->stuck = true;
}

bool ref_take_apart(const uint8_t *text, size_t length, struct parts *parts, size_t *stuck)
{
    struct reader r = { text, length, 0, false, parts };

    read_text(&r);
    *stuck = r.at;
    return !r.stuck;
}

bool ref_is_lower_name(const uint8_t *bytes, size_t length)
{
    size_t k;

    if (length == 0 || !is_lower(bytes[0]))
        return false;
    for (k = 0; k < length; k++)
        if (!is_in_name(bytes[k]))
            return false;
    return true;
}
