/* What a run has asked for, and may be answered: it is all in the values after its last move. */
#include "asked.h"

#include <stdio.h>
#include <string.h>

const char *requested(const struct plan *plan, const struct move *move, const struct action *action)
{
    char name[NAME_ROOM];
    const char *word;
    int variable;

    snprintf(name, sizeof name, "Do%s", action->name);
    variable = plan_variable(plan, name);
    word = variable >= 0 ? move_word(plan, move, (unsigned)variable) : NULL;
    return word != NULL && strcmp(word, "no") != 0 ? word : NULL;
}

static int is_open(const struct plan *plan, const struct move *move, const char *name)
{
    int variable = plan_variable(plan, name);

    return variable >= 0 && move_word(plan, move, (unsigned)variable) == NULL;
}

int is_awaited(const struct plan *plan, const struct move *move, const struct action *action)
{
    unsigned k;

    if (action->kind != ACTION_ASK && action->kind != ACTION_CALL)
        return 0;
    if (requested(plan, move, action) == NULL)
        return 0;
    for (k = 0; k < action->answer_count; k++)
        if (is_open(plan, move, action->answers[k]))
            return 1;
    return 0;
}

static int answers_it(const struct action *action, const char *name)
{
    unsigned k;

    for (k = 0; k < action->answer_count; k++)
        if (strcmp(action->answers[k], name) == 0)
            return 1;
    return 0;
}

int may_answer(const struct service *service, const struct move *move, const char *name)
{
    const struct conf *conf = service->conf;
    unsigned k;

    if (!is_open(service->plan, move, name))
        return 0;
    for (k = 0; k < conf->action_count; k++)
        if (is_awaited(service->plan, move, &conf->actions[k]) && answers_it(&conf->actions[k], name))
            return 1;
    return 0;
}
