/* replay: a trace on its plan, or on the saved run that it began at. */
#include "commands.h"
#include "outputs.h"
#include "paths.h"
#include "session.h"
#include "tell.h"
#include "words.h"

#include <stdio.h>
#include <string.h>

/* What a record of the trace says. */
static void record_words(const struct session *session, const uint8_t *record, char *words)
{
    unsigned first = rissobarm_word_at(record + RISSOBARM_TRACE_PROCESS);
    unsigned second = rissobarm_word_at(record + RISSOBARM_TRACE_RULE);
    char variable[LINE_ROOM], value[NAME_ROOM];

    if (rissobarm_word_at(record + 2) == RISSOBARM_RECORD_STEP) {
        sprintf(words, "process %u makes the move `%s`", first, rissobarm_rule_text(second));
        return;
    }
    if (first < session->program.variables)
        variable_words(session, first, variable);
    else
        sprintf(variable, "variable %u", first);
    name_constant(&session->plan, second, value);
    snprintf(words, LINE_ROOM, "%.200s arrives as %s", variable, value);
}

/* What the machine says to that record, tried on a copy. */
static void machine_words(const struct session *session, const uint8_t *record, char *words)
{
    static struct rissobarm_plan copy;
    unsigned first = rissobarm_word_at(record + RISSOBARM_TRACE_PROCESS);
    unsigned second = rissobarm_word_at(record + RISSOBARM_TRACE_RULE);
    uint64_t answer;

    copy = session->run;
    if (rissobarm_word_at(record + 2) == RISSOBARM_RECORD_STEP)
        answer = rissobarm_plan_step(&copy, first);
    else
        answer = rissobarm_plan_supply(&copy, first, second);
    if (rissobarm_refusal(answer) != RISSOBARM_ACCEPTED)
        sprintf(words, "refused %u (%s)", rissobarm_refusal(answer), rissobarm_refusal_text(rissobarm_refusal(answer)));
    else
        sprintf(words, "its move is `%s`", rissobarm_rule_text(rissobarm_rule(answer)));
}

static void tell_refused(const struct session *session, const struct bytes *trace, const char *path, uint64_t answer)
{
    size_t offset = rissobarm_offset(answer);
    unsigned refusal = rissobarm_refusal(answer);
    char said[LINE_ROOM], machine[LINE_ROOM];

    if (refusal != RISSOBARM_DISAGREES)
        quit(TRACE_REFUSED, "%s: record %s, byte %s: refused %u (%s)", path, grouped(offset / TRACE_RECORD + 1), grouped(offset),
             refusal, rissobarm_refusal_text(refusal));
    record_words(session, trace->at + offset, said);
    machine_words(session, trace->at + offset, machine);
    quit(TRACE_REFUSED, "%s: record %s, byte %s: disagrees after %s: the trace says that %s; of the machine: %s", path,
         grouped(offset / TRACE_RECORD + 1), grouped(offset), counted(rissobarm_plan_steps(&session->run), "step", "steps"), said,
         machine);
}

/* How the run stands behind the trace: asked of a run without a step. */
static unsigned end_now(const struct session *session)
{
    static struct rissobarm_plan copy;

    copy = session->run;
    return rissobarm_end(rissobarm_plan_run(&copy, 0));
}

/*
 * Whether a trace begins where the run stands, by the stamp of its first record. A saved run knows its stamp, so that a trace
 * of other moves is refused, even one that could be played. On a plan a trace of another program may begin at any stamp:
 * that is told.
 */
static void test_stamp(const struct session *session, const struct bytes *trace, const char *path)
{
    unsigned first = trace->length > 0 ? rissobarm_word_at(trace->at + RISSOBARM_TRACE_STAMP) : session->stamp;

    if (first == session->stamp)
        return;
    if (session->run_is_saved)
        quit(TRACE_REFUSED, "%s: record 1 has the stamp %s, and the saved run goes on with %s: the trace did not begin there",
             path, grouped(first), grouped(session->stamp));
    warn("%s: record 1 has the stamp %s, not 0: where the tool records, that is no start of a plan", path, grouped(first));
}

/* Plays the trace; ends the tool where its records are no good, do not begin here or disagree. */
static void play(struct session *session, const struct bytes *trace, const char *path)
{
    uint64_t answer = rissobarm_replay(RISSOBARM_PLAN_LENT(&session->run), trace->at, trace->length);
    unsigned refusal = rissobarm_refusal(answer);

    if (refusal == RISSOBARM_ACCEPTED || refusal == RISSOBARM_DISAGREES)
        test_stamp(session, trace, path);
    if (refusal != RISSOBARM_ACCEPTED)
        tell_refused(session, trace, path, answer);
    if (!say_json)
        printf("%s: %s played, and all agree\n", path, counted(answer >> 32, "record", "records"));
    if (trace->length > 0)
        session->stamp = (uint16_t)(rissobarm_word_at(trace->at + trace->length - TRACE_RECORD + RISSOBARM_TRACE_STAMP) + 1);
}

enum status command_replay(const struct options *options)
{
    static struct session session;
    static struct bytes trace, saved;
    struct output output = { options->save, &saved };

    output_test(options->save);
    session_open(&session, options->words[0], options->names);
    if (options->save != NULL && (is_same_file(options->save, options->words[1]) ||
                                  (!session.run_is_saved && is_same_file(options->save, options->words[0]))))
        quit(USAGE, "%s: would be written over", options->save);
    trace = file_read(options->words[1]);
    play(&session, &trace, options->words[1]);
    if (options->save != NULL)
        saved = session_bytes(&session);
    outputs_write(&output, 1);
    tell_run(&session, end_now(&session));
    return DONE;
}
