/* Every run that the words of a plan allow: states by their bytes, each looked at once. */
#include "explore.h"

#include "asked.h"
#include "flow.h"
#include "say.h"

#include <stdarg.h>
#include <stdio.h>
#include <stdlib.h>
#include <string.h>

enum { MOVES_MOST = 20000, TABLE = 65536, LINE = 1024 };

/* A state that was reached: its move, and the log up to it. */
struct reached {
    struct move *move;
    char *log;
};

struct search {
    struct service service; /* conf and plan alone */
    const struct flow *flow;
    struct findings *findings;
    struct reached *reached; /* in the order in which they were found */
    unsigned count, next;
    unsigned table[TABLE]; /* from bytes to number + 1 */
    unsigned char *seen;   /* words that have come up */
    unsigned char asked[ACTIONS_MOST];              /* actions that were requested */
    unsigned char open[ACTIONS_MOST][ANSWERS_MOST]; /* and their answers that were open then */
};

/* ---- findings ---- */

static int add_line(struct text *text, const char *line)
{
    const char *at = strstr(text_of(text), line);

    if (at != NULL && (at == text->at || at[-1] == '\n') && at[strlen(line)] == '\n')
        return 0;
    text_word(text, line);
    text_word(text, "\n");
    return 1;
}

void note_wrong(struct findings *findings, const char *form, ...)
{
    char line[LINE];
    va_list words;

    va_start(words, form);
    vsnprintf(line, sizeof line, form, words);
    va_end(words);
    findings->wrong_count += (unsigned)add_line(&findings->wrong, line);
}

void note_odd(struct findings *findings, const char *form, ...)
{
    char line[LINE];
    va_list words;

    va_start(words, form);
    vsnprintf(line, sizeof line, form, words);
    va_end(words);
    findings->odd_count += (unsigned)add_line(&findings->odd, line);
}

/* ---- states ---- */

static unsigned hash_of(const struct move *move)
{
    unsigned hash = 2166136261u;
    size_t k;

    for (k = 0; k < move->size; k++)
        hash = (hash ^ move->saved[k]) * 16777619u;
    return hash % TABLE;
}

/* Whether the state is new; then it is in the table. */
static int is_new(struct search *search, const struct move *move)
{
    unsigned at = hash_of(move);

    for (; search->table[at] != 0; at = (at + 1) % TABLE) {
        const struct move *other = search->reached[search->table[at] - 1].move;

        if (other->size == move->size && memcmp(other->saved, move->saved, move->size) == 0)
            return 0;
    }
    search->table[at] = search->count + 1;
    return 1;
}

/* The words that the variables of the run have: they have come up. */
static void see_words(struct search *search)
{
    const struct rissobarm_plan *run = &search->service.moves->run;
    unsigned k, count = rissobarm_plan_variables(run);

    for (k = 0; k < count; k++)
        if (rissobarm_sort_at(run->vars, k) == RISSOBARM_SORT_CONSTANT && rissobarm_number_at(run->vars, k) < search->service.plan->word_count)
            search->seen[rissobarm_number_at(run->vars, k)] = 1;
}

static void go(struct search *search, const struct reached *from, const char *supplied);

/* ---- one state ---- */

/* A placing of a word, by a write or at the end. */
static void want_form(struct search *search, const char *word, const char *by, const char *log)
{
    if (conf_form(search->service.conf, word) == NULL)
        note_wrong(search->findings, "%s can be %s, which has no form (%s)", by, word, log);
}

/* The open columns of a read are to be supplied; one that is bound is left out. */
static unsigned want_columns(const struct search *search, const struct move *move, const struct action *action, unsigned *open)
{
    const struct plan *plan = search->service.plan;
    unsigned k, count = 0;

    for (k = 0; k < action->answer_count; k++) {
        int variable = plan_variable_alike(plan, action->answers[k]);

        if (variable >= 0 && move_word(plan, move, (unsigned)variable) == NULL)
            open[count++] = (unsigned)variable;
    }
    return count;
}

/* Notes that an action was requested, and which of its answers were open. */
static void note_request(struct search *search, const struct move *move, const struct action *action)
{
    unsigned number = (unsigned)(action - search->service.conf->actions), k;

    search->asked[number] = 1;
    for (k = 0; k < action->answer_count; k++) {
        int variable = plan_variable_alike(search->service.plan, action->answers[k]);

        if (variable >= 0 && move_word(search->service.plan, move, (unsigned)variable) == NULL)
            search->open[number][k] = 1;
    }
}

/* The requests that are new in this state: forms are looked for, and the open columns of reads collected. */
static unsigned look_at_requests(struct search *search, const struct reached *at, const struct move *before, unsigned *open)
{
    const struct plan *plan = search->service.plan;
    unsigned k, count = 0;

    for (k = 0; k < plan->variable_count; k++) {
        const char *name = request_of(plan->variables[k]), *word = move_word(plan, at->move, k);
        const struct action *action = name != NULL ? conf_action(search->service.conf, name) : NULL;

        if (action == NULL || word == NULL || strcmp(word, "no") == 0 || move_word(plan, before, k) != NULL)
            continue;
        note_request(search, at->move, action);
        if (action->kind == ACTION_WRITE)
            want_form(search, word, plan->variables[k], at->log);
        else if (action->kind == ACTION_READ && count < GOAL_VARIABLES)
            count += want_columns(search, at->move, action, open + count);
    }
    return count;
}

/* Supplies every combination of words to the open columns, from the k-th on. */
static void supply_columns(struct search *search, const struct reached *from, const unsigned *open, unsigned count, const char *group)
{
    const struct plan *plan = search->service.plan;
    char longer[LINE];
    unsigned word;

    if (count == 0) {
        go(search, from, group);
        return;
    }
    for (word = 0; word <= plan->word_count; word++)
        if (word == plan->word_count ? !plan_has(plan, OTHER_WORD) || !flow_meets(search->flow, open[0], plan_number(plan, OTHER_WORD))
                                     : flow_meets(search->flow, open[0], word)) {
            snprintf(longer, sizeof longer, "%s%s%s=%s", group, group[0] != 0 ? " " : "", plan->variables[open[0]], plan_text(plan, word));
            supply_columns(search, from, open + 1, count - 1, longer);
        }
}

/* Every answer that is asked for, with every word. */
static unsigned supply_answers(struct search *search, const struct reached *from)
{
    const struct plan *plan = search->service.plan;
    unsigned k, asked = 0;

    for (k = 0; k < plan->variable_count; k++)
        if (may_answer(&search->service, from->move, plan->variables[k])) {
            supply_columns(search, from, &k, 1, "");
            asked++;
        }
    return asked;
}

static void look_at_end(struct search *search, const struct reached *at)
{
    const struct plan *plan = search->service.plan;
    int variable = plan_variable(plan, "Place");
    const char *word = variable >= 0 ? move_word(plan, at->move, (unsigned)variable) : NULL;

    if (at->move->ended == RISSOBARM_END_SUCCESS) {
        search->findings->successes++;
        if (word == NULL)
            note_wrong(search->findings, "the goal can succeed without a Place (%s)", at->log);
        else
            want_form(search, word, "Place", at->log);
    } else if (at->move->ended == RISSOBARM_END_FAILURE)
        note_odd(search->findings, "a run fails with %s", at->log);
    else
        note_wrong(search->findings, "a run ends by %s with %s", rissobarm_end_text(at->move->ended), at->log);
}

static void look_at(struct search *search, const struct reached *at, const struct move *before)
{
    unsigned open[2 * GOAL_VARIABLES], count = look_at_requests(search, at, before, open);

    if (count > 0)
        supply_columns(search, at, open, count, "");
    else if (at->move->ended != RISSOBARM_END_WAITING)
        look_at_end(search, at);
    else if (supply_answers(search, at) == 0)
        note_wrong(search->findings, "a run waits for ever with %s: nothing that is open is asked for", at->log);
}

/* The move from a state by a group of supplies; what it leads to is looked at if it is new. */
static void go(struct search *search, const struct reached *from, const char *supplied)
{
    struct findings *findings = search->findings;
    struct reached made = { 0 };
    struct text log = { 0 };

    if (findings->moves >= MOVES_MOST)
        return;
    findings->moves++;
    made.move = moves_make(search->service.moves, from->move, supplied);
    made.move->id = 1 + findings->moves;
    see_words(search);
    text_form(&log, "%s%s%s", from->log, from->log[0] != 0 ? "; " : "", supplied);
    made.log = log.at;
    if (!is_new(search, made.move)) {
        move_free(made.move);
        free(made.log);
        return;
    }
    search->reached[search->count++] = made;
    look_at(search, &made, from->move);
}

/* ---- all of them ---- */

static void look_for_words(struct search *search)
{
    const struct plan *plan = search->service.plan;
    unsigned k;

    if (search->findings->moves >= MOVES_MOST) {
        note_odd(search->findings, "after %d moves there are more: not every run was looked at", MOVES_MOST);
        return;
    }
    for (k = 0; k < plan->word_count; k++)
        if (!search->seen[k] && !flow_passes(search->flow, k))
            note_wrong(search->findings, "the word %s comes up in no run: it can be neither answered nor shown", plan->words[k]);
}

/* Actions that no run asks for, and answers that are bound whenever they are asked for. */
static void look_for_answers(struct search *search)
{
    const struct conf *conf = search->service.conf;
    unsigned k, answer;

    for (k = 0; k < conf->action_count; k++) {
        const struct action *action = &conf->actions[k];

        if (!search->asked[k])
            note_odd(search->findings, "line %u: no run asks for %s", action->line, action->name);
        for (answer = 0; answer < action->answer_count && search->asked[k]; answer++)
            if (!search->open[k][answer])
                note_wrong(search->findings, "line %u: %s is bound already whenever %s is asked for", action->line, action->answers[answer],
                           action->name);
    }
}

void explore(const struct conf *conf, const struct plan *plan, struct findings *findings)
{
    struct search *search = room_for(sizeof *search);
    struct flow *flow = flow_of(plan);
    struct reached start = { 0 };
    unsigned k;

    search->service.conf = (struct conf *)conf;
    search->service.plan = (struct plan *)plan;
    search->service.moves = moves_of(plan);
    search->flow = flow;
    search->findings = findings;
    search->reached = room_for((MOVES_MOST + 1) * sizeof *search->reached);
    search->seen = room_for(plan->word_count + 1);
    start.move = search->service.moves->start;
    start.log = copy_of("");
    go(search, &start, plan_has(plan, "changed") ? "Edit=changed" : "Edit=other");
    go(search, &start, plan_has(plan, "gone") ? "Edit=gone" : "Edit=other");
    findings->states = search->count;
    look_for_words(search);
    if (findings->moves < MOVES_MOST)
        look_for_answers(search);
    for (k = 0; k < search->count; k++) {
        move_free(search->reached[k].move);
        free(search->reached[k].log);
    }
    free(search->reached);
    free(search->seen);
    free(start.log);
    moves_free(search->service.moves);
    flow_free(flow);
    free(search);
}
