/* Events as text. */
#include "event.h"

#include <stdio.h>

static const char *const names[EVENT_KINDS] = {
    "load",   "start",  "step", "turn", "run",   "supply",  "value", "watch", "values", "save",
    "replay", "resume", "size", "poke", "legal", "scatter", "stamp", "rewind"
};
static const char *const rows[] = { "head", "procs", "vars", "further" };

const char *event_name(unsigned kind)
{
    return names[kind];
}

const char *form_name(unsigned form)
{
    static const char *const forms[FORMS] = { "", "-bound", "-traced" };

    return forms[form];
}

void event_print(const struct event *event)
{
    const char *name = names[event->kind], *form = form_name(event->form);

    switch (event->kind) {
    case SIZES:
        printf("  %s %s %u\n", name, rows[event->row], event->a);
        break;
    case POKES:
        printf("  %s %s %u %u\n", name, rows[event->row], event->a, event->b);
        break;
    case STEPS:
    case SUPPLIES:
    case RUNS:
    case WATCHES:
    case LEGALS:
    case SCATTERS:
    case ALL_VALUES:
    case RESUMES:
    case REPLAYS:
        printf("  %s%s %u %u\n", name, form, event->a, event->b);
        break;
    case VALUES:
    case STAMPS:
        printf("  %s %u\n", name, event->a);
        break;
    default:
        printf("  %s%s\n", name, form);
    }
}
