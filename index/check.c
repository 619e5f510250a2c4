/* check: plan and index.conf held together. */
#include "check.h"

#include "commands.h"
#include "explore.h"

#include <stdlib.h>
#include <string.h>
#include <strings.h>

/* Letters of a word or a variable. */
enum { NAME_MOST = 200 };

/* ---- requests, answers, words, forms ---- */

static void check_requests(const struct conf *conf, const struct plan *plan, struct findings *findings)
{
    unsigned k;

    for (k = 0; k < plan->variable_count; k++) {
        const char *name = request_of(plan->variables[k]);

        if (name != NULL && conf_action(conf, name) == NULL)
            note_wrong(findings, "the goal asks for %s, and %s has no line for %s", plan->variables[k], conf->path, name);
    }
    for (k = 0; k < conf->action_count; k++) {
        struct text name = { 0 };

        text_form(&name, "Do%s", conf->actions[k].name);
        if (plan_variable(plan, text_of(&name)) < 0)
            note_wrong(findings, "line %u: the goal has no %s", conf->actions[k].line, text_of(&name));
        text_free(&name);
    }
    for (k = 0; k < plan->word_count + plan->variable_count; k++) {
        const char *name = k < plan->word_count ? plan->words[k] : plan->variables[k - plan->word_count];

        if (strlen(name) > NAME_MOST)
            note_wrong(findings, "a word has more than %d letters: %.60s..", NAME_MOST, name);
    }
    if (plan_variable(plan, "Edit") < 0)
        note_wrong(findings, "the goal has no Edit");
    if (plan_variable(plan, "Place") < 0)
        note_wrong(findings, "the goal has no Place");
}

/* An answer is a goal variable, and none that the job itself or the plan gives. */
static void check_answer(const struct plan *plan, const struct action *action, const char *name, struct findings *findings)
{
    int variable = action->kind == ACTION_READ ? plan_variable_alike(plan, name) : plan_variable(plan, name);

    if (variable < 0)
        note_wrong(findings, "line %u: %s is no variable of the goal", action->line, name);
    else if (request_of(plan->variables[variable]) != NULL || strcmp(plan->variables[variable], "Place") == 0 ||
             strcmp(plan->variables[variable], "Edit") == 0)
        note_wrong(findings, "line %u: %s cannot be answered", action->line, name);
}

static int has_answer(const struct action *action, const char *name)
{
    unsigned k;

    for (k = 0; k < action->answer_count; k++)
        if (strcmp(action->answers[k], name) == 0)
            return 1;
    return 0;
}

static void check_actions(const struct conf *conf, const struct plan *plan, struct findings *findings)
{
    unsigned k, answer;

    for (k = 0; k < conf->action_count; k++) {
        const struct action *action = &conf->actions[k];

        for (answer = 0; answer < action->answer_count; answer++)
            check_answer(plan, action, action->answers[answer], findings);
        if (action->after > 0 && !has_answer(action, action->late_name))
            note_wrong(findings, "line %u: %s is no answer of %s", action->line, action->late_name, action->name);
        if (action->after > 0 && strcmp(action->late_word, OTHER_WORD) != 0 && !plan_has(plan, action->late_word))
            note_wrong(findings, "line %u: %s is no word of the plan", action->line, action->late_word);
    }
}

static int is_answer(const struct conf *conf, const char *name)
{
    unsigned k;

    for (k = 0; k < conf->action_count; k++)
        if (conf->actions[k].kind != ACTION_READ && has_answer(&conf->actions[k], name))
            return 1;
    return 0;
}

static int is_column(struct store *store, struct rows *rows, const char *name)
{
    unsigned k, count = rows != NULL ? store->kind->columns(rows) : 0;

    for (k = 0; k < count; k++)
        if (strcasecmp(store->kind->column(rows, k), name) == 0)
            return 1;
    return 0;
}

static void check_forms(const struct conf *conf, const struct plan *plan, struct store *store, struct findings *findings)
{
    struct rows *rows = house_ask(store, &conf->text, 0, 0);
    unsigned k, part;

    if (rows == NULL || store->failed) {
        note_wrong(findings, "the line `text`: %s", store->why);
        return;
    }
    for (k = 0; k < conf->form_count; k++) {
        const struct form *form = &conf->forms[k];

        if (!plan_has(plan, form->word))
            note_wrong(findings, "line %u: %s is no word of the plan", form->line, form->word);
        for (part = 0; part < form->part_count; part++)
            if (!is_column(store, rows, form->parts[part]) && !is_answer(conf, form->parts[part]))
                note_wrong(findings, "line %u: %s is neither a column of `text` nor an answer", form->line, form->parts[part]);
    }
    rows_end(store, rows);
}

/* ---- all of it ---- */

void check_plan(struct conf *conf, struct plan *plan, struct store *store, struct findings *findings)
{
    char why[WHY_ROOM];

    memset(findings, 0, sizeof *findings);
    check_requests(conf, plan, findings);
    if (!service_learn(conf, store, why))
        note_wrong(findings, "%s", why);
    check_actions(conf, plan, findings);
    check_forms(conf, plan, store, findings);
    if (findings->wrong_count == 0)
        explore(conf, plan, findings);
}

void check_or_quit(struct conf *conf, struct plan *plan, struct store *store)
{
    struct findings findings;

    check_plan(conf, plan, store, &findings);
    if (findings.odd_count > 0)
        warn("%u odd, as `rissobarm-index check` says", findings.odd_count);
    if (findings.wrong_count > 0)
        quit(PLAN_REFUSED, "%s and %s do not fit together: %s", conf->path, conf->plan, text_of(&findings.wrong));
    text_free(&findings.wrong);
    text_free(&findings.odd);
}

/* The database, or if there is none an empty one in memory, with the table `catalogue`. */
static struct store *some_store(struct conf *conf)
{
    char why[WHY_ROOM];
    struct store *store = store_try(conf, 1, why);

    if (store != NULL || conf->postgres)
        return store != NULL ? store : store_open(conf, 1);
    free(conf->database);
    conf->database = copy_of(":memory:");
    store = store_open(conf, 0);
    store->kind->run(store, store->kind->catalogue);
    return store;
}

static void list_lines(struct text *text, const char *key, const char *lines)
{
    json_open(text, key, '[');
    while (*lines != 0) {
        size_t length = strcspn(lines, "\n");
        char *line = copy_of(lines);

        line[length] = 0;
        json_text(text, NULL, line);
        free(line);
        lines += length + 1;
    }
    json_close(text, ']');
}

static void say_findings(const struct options *options, const struct findings *findings)
{
    struct text text = { 0 };

    if (options->json) {
        json_open(&text, NULL, '{');
        list_lines(&text, "wrong", text_of(&findings->wrong));
        list_lines(&text, "odd", text_of(&findings->odd));
        json_number(&text, "moves", findings->moves);
        json_number(&text, "states", findings->states);
        json_number(&text, "successes", findings->successes);
        json_close(&text, '}');
    } else
        text_form(&text, "%s%s%u wrong, %u odd; %u moves through %u states, %u of them at the end", text_of(&findings->wrong),
                  text_of(&findings->odd), findings->wrong_count, findings->odd_count, findings->moves, findings->states,
                  findings->successes);
    answer(&text);
    text_free(&text);
}

enum status command_check(const struct options *options)
{
    struct conf *conf = conf_read(options->conf);
    struct plan *plan = plan_of_file(options->word_count > 0 ? options->words[0] : conf->plan);
    struct store *store = some_store(conf);
    struct findings findings;

    check_plan(conf, plan, store, &findings);
    say_findings(options, &findings);
    store_close(store);
    return findings.wrong_count > 0 ? PLAN_REFUSED : DONE;
}
