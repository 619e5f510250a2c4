/* What a run has come to, in lines or as JSON. */
#include "tell.h"

#include "say.h"
#include "waits.h"
#include "words.h"

#include <stdio.h>

/* ---- values ---- */

static void tell_value(const struct session *session, unsigned variable)
{
    char name[LINE_ROOM], value[LINE_ROOM];
    unsigned number;
    int known = value_of(session, variable, &number);

    variable_words(session, variable, name);
    value_words(session, variable, value);
    if (say_json && known)
        json_text(name, value);
    else if (say_json)
        json_null(name);
    else if (known)
        printf("%s = %s\n", name, value);
    else if (number == variable)
        printf("%s is open\n", name);
    else
        printf("%s = %s, which is open\n", name, value);
}

static void tell_values(const struct session *session)
{
    unsigned v;

    for (v = 0; v < session->program.variables; v++)
        tell_value(session, v);
}

/* ---- what is waited for ---- */

/* How many suspended processes have noted a variable. */
static unsigned waiting_for(const struct session *session, unsigned variable)
{
    unsigned count = 0, p, k;

    for (p = 0; p < rissobarm_plan_processes(&session->run); p++)
        for (k = 0; is_suspended(session, p) && k < note_count(session, p); k++)
            count += note_at(session, p, k) == variable;
    return count;
}

static void tell_waited(const struct session *session)
{
    char name[LINE_ROOM];
    unsigned v, count;

    for (v = 0; v < rissobarm_plan_variables(&session->run); v++) {
        count = waiting_for(session, v);
        if (count == 0)
            continue;
        variable_words(session, v, name);
        if (say_json)
            json_number(name, count);
        else
            printf("waits for %s: %s\n", name, counted(count, "process", "processes"));
    }
}

/* ---- all ---- */

static void tell_json(const struct session *session, unsigned end)
{
    json_open(NULL, '{');
    json_text("end", rissobarm_end_text(end));
    json_number("steps", rissobarm_plan_steps(&session->run));
    json_number("processes", rissobarm_plan_processes(&session->run));
    json_number("variables", rissobarm_plan_variables(&session->run));
    json_open("values", '{');
    tell_values(session);
    json_close('}');
    json_open("waits", '{');
    tell_waited(session);
    json_close('}');
    json_close('}');
    putchar('\n');
}

void tell_run(const struct session *session, unsigned end)
{
    if (say_json) {
        tell_json(session, end);
        return;
    }
    printf("%s after %s, with %s and %s\n", rissobarm_end_text(end),
           counted(rissobarm_plan_steps(&session->run), "step", "steps"),
           counted(rissobarm_plan_processes(&session->run), "process", "processes"),
           counted(rissobarm_plan_variables(&session->run), "variable", "variables"));
    tell_values(session);
    tell_waited(session);
}
