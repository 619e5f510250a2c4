/* Values from outside. poll, fileno and isatty are POSIX, not C99. */
#define _POSIX_C_SOURCE 200809L
#include "arrivals.h"

#include "say.h"

#include <ctype.h>
#include <errno.h>
#include <poll.h>
#include <stdlib.h>
#include <string.h>
#include <unistd.h>

enum { LINE_MOST = 2 * ARRIVAL_ROOM, DIGITS_ROOM = 11 };

/* ---- one value ---- */

/* Supplies a variable by name; what is wrong with it stands in why. */
static int supply_named(struct session *session, const char *name, const char *value, char *why)
{
    int variable = find_goal_variable(&session->plan, name);
    unsigned refusal;
    long constant;

    if (variable < 0 || (unsigned)variable >= session->program.variables) {
        snprintf(why, WORDS_ROOM, "the goal has no variable `%.100s`", name);
        return 0;
    }
    constant = find_constant(&session->plan, value);
    if (constant < 0) {
        snprintf(why, WORDS_ROOM, "`%.100s` is no constant: a lower-case name%s, or a number up to 32,767, is one", value,
                 session->plan.names.length > 0 || session->plan.is_text ? "" : " (where the plan has a list of names)");
        return 0;
    }
    refusal = rissobarm_refusal(session_supply(session, (unsigned)variable, (unsigned)constant));
    if (refusal != RISSOBARM_ACCEPTED)
        snprintf(why, WORDS_ROOM, "%.100s is not supplied: refused %u (%s)", name, refusal, rissobarm_refusal_text(refusal));
    return refusal == RISSOBARM_ACCEPTED;
}

/* Takes `NAME = VALUE` apart, blanks around either left out; what stands behind the value begins at rest. */
static int take_pair(const char *line, char *name, char *value, const char **rest)
{
    int used = 0;

    if (sscanf(line, " %511[A-Za-z0-9_] = %511[A-Za-z0-9_] %n", name, value, &used) != 2)
        return 0;
    *rest = line + used;
    return 1;
}

void supply_given(struct session *session, const char *pair)
{
    char name[ARRIVAL_ROOM], value[ARRIVAL_ROOM], why[WORDS_ROOM];
    const char *rest;

    if (!take_pair(pair, name, value, &rest) || *rest != '\0')
        quit(USAGE, "--supply: NAME=VALUE is wanted, not `%s`", pair);
    if (!supply_named(session, name, value, why))
        quit(VALUE_REFUSED, "--supply %s: %s", pair, why);
}

/* ---- lines ---- */

void arrivals_open(struct arrivals *arrivals, const struct options *options)
{
    memset(arrivals, 0, sizeof *arrivals);
    arrivals->strict = options->strict;
    arrivals->path = options->arrivals;
    if (options->arrivals == NULL)
        return;
    arrivals->file = file_open(options->arrivals);
    arrivals->is_terminal = isatty(fileno(arrivals->file));
    /* so that what has come in can be asked for */
    setvbuf(arrivals->file, NULL, _IONBF, 0);
}

/* Whether a line has come in, or the end: a run that can move does not wait for one. */
static int has_come(const struct arrivals *a)
{
    struct pollfd asked;

    asked.fd = fileno(a->file);
    asked.events = POLLIN;
    asked.revents = 0;
    return poll(&asked, 1, 0) != 0;
}

/* A line, or an arrival, that is no good: told and left out, or the end of the tool. */
static void complain(const struct arrivals *a, const char *why)
{
    if (a->strict)
        quit(VALUE_REFUSED, "%s, line %lu: %s", a->path, a->line, why);
    warn("%s, line %lu, left out: %s", a->path, a->line, why);
}

static int take_line(struct arrivals *a, const char *line)
{
    char digits[DIGITS_ROOM] = "0";
    unsigned long steps;
    const char *rest;
    int used = 0;

    if (!take_pair(line, a->name, a->value, &rest))
        return 0;
    if (sscanf(rest, "@ %10[0-9] %n", digits, &used) == 1)
        rest += used;
    steps = strtoul(digits, NULL, 10);
    a->steps = (uint32_t)steps;
    return *rest == '\0' && steps <= UINT32_MAX;
}

/* A read is ended by a stop too, and from a terminal that goes away there is nothing more to come: the run can still be saved. */
static void no_more(struct arrivals *a)
{
    if (ferror(a->file) && errno != EINTR && !(errno == EIO && a->is_terminal))
        quit(NO_FILE, "%s: %s", a->path, strerror(errno));
    if (a->file != stdin)
        fclose(a->file);
    a->file = NULL;
}

/* The next line without its end; one that is too long or has a byte 0, and is no comment, comes as `?`, which is no arrival. */
static int get_line(struct arrivals *a, char *line)
{
    size_t length = 0;
    int byte, odd = 0;

    while ((byte = fgetc(a->file)) != EOF && byte != '\n') {
        odd |= byte == 0 || length == LINE_MOST;
        line[length] = (char)byte;
        length += length < LINE_MOST;
    }
    line[length] = '\0';
    if (odd && line[strspn(line, " \t")] != '#')
        strcpy(line, "?");
    return byte != EOF || (length > 0 && !ferror(a->file));
}

/* Reads on until an arrival is pending or none is left, or none has come where that is not waited for. */
static void look_ahead(struct arrivals *a, int wait)
{
    char line[LINE_MOST + 1];

    while (!a->pending && a->file != NULL && (wait || has_come(a))) {
        if (!get_line(a, line)) {
            no_more(a);
            return;
        }
        a->line++;
        if (line[strspn(line, " \t\r")] == '\0' || line[strspn(line, " \t")] == '#')
            continue;
        a->pending = take_line(a, line);
        if (!a->pending)
            complain(a, "an arrival is `NAME = VALUE` or `NAME = VALUE @ STEPS`");
    }
}

static void deliver(struct arrivals *a, struct session *session)
{
    char why[WORDS_ROOM];

    a->pending = 0;
    if (!supply_named(session, a->name, a->value, why))
        complain(a, why);
    else if (!say_json)
        printf("step %s: %s arrives as %s\n", grouped(rissobarm_plan_steps(&session->run)), a->name, a->value);
}

void arrivals_due(struct arrivals *a, struct session *session)
{
    look_ahead(a, 0);
    while (a->pending && a->steps <= rissobarm_plan_steps(&session->run)) {
        deliver(a, session);
        look_ahead(a, 0);
    }
}

int arrivals_next(struct arrivals *a, struct session *session)
{
    look_ahead(a, 1);
    if (!a->pending)
        return 0;
    deliver(a, session);
    return 1;
}
