/* why: one process explained, and the waits of any. */
#include "explain.h"

#include "commands.h"
#include "run.h"
#include "waits.h"
#include "words.h"

#include <stdio.h>
#include <string.h>

/* ---- who could bind ---- */

static int is_later(const struct session *session, unsigned process)
{
    return row_byte(session, process, RISSOBARM_ROW_TAG) == RISSOBARM_TAG_AND_SEQ;
}

static void print_binders(const struct session *session, const unsigned *processes, unsigned count, const char *before)
{
    char work[LINE_ROOM];
    unsigned k;

    for (k = 0; k < count; k++) {
        work_words(session, processes[k], work);
        printf("%sprocess %u (%s%s)", k == 0 ? before : ", ", processes[k],
               is_later(session, processes[k]) ? "a later stage of " : "", work);
    }
}

void explain_note(const struct session *session, unsigned process, unsigned variable)
{
    struct binders binders;
    char name[LINE_ROOM];

    find_binders(session, process, variable, &binders);
    variable_words(session, variable, name);
    printf("process %u waits for %s: ", process, name);
    if (binders.supply)
        printf("a supply of %s", name);
    print_binders(session, binders.outputs, binders.output_count, binders.supply ? ", or " : "");
    if (!binders.supply && binders.output_count == 0 && binders.input_count > 0)
        print_binders(session, binders.inputs, binders.input_count, "nobody gives it; it is also an input of ");
    if (!binders.supply && binders.output_count == 0 && binders.input_count == 0)
        printf("nobody: no other call that is live has it");
    printf("\n");
}

/* ---- JSON ---- */

static void numbers_json(const char *key, const unsigned *numbers, unsigned count)
{
    unsigned k;

    json_open(key, '[');
    for (k = 0; k < count; k++)
        json_number(NULL, numbers[k]);
    json_close(']');
}

static void note_json(const struct session *session, unsigned process, unsigned variable)
{
    struct binders binders;
    char name[LINE_ROOM];

    find_binders(session, process, variable, &binders);
    variable_words(session, variable, name);
    json_open(NULL, '{');
    json_text("variable", name);
    json_number("number", variable);
    json_truth("supply", binders.supply);
    numbers_json("outputs", binders.outputs, binders.output_count);
    numbers_json("inputs", binders.inputs, binders.input_count);
    json_close('}');
}

void explain_json(const struct session *session, const char *key, unsigned process)
{
    static const char *const results[] = { "none", "success", "failure" };
    char work[LINE_ROOM];
    unsigned k;

    work_words(session, process, work);
    json_open(key, '{');
    json_number("process", process);
    json_text("tag", rissobarm_tag_text(row_byte(session, process, RISSOBARM_ROW_TAG)));
    json_text("mode", rissobarm_mode_text(row_byte(session, process, RISSOBARM_ROW_MODE)));
    json_text("result", results[row_byte(session, process, RISSOBARM_ROW_RESULT)]);
    if (process > 0)
        json_number("parent", row_word(session, process, RISSOBARM_ROW_PARENT));
    json_text("work", work);
    json_open("waits", '[');
    for (k = 0; is_suspended(session, process) && k < note_count(session, process); k++)
        note_json(session, process, note_at(session, process, k));
    json_close(']');
    json_close('}');
}

/* ---- why ---- */

static void print_process(const struct session *session, const char *before, unsigned process)
{
    char mode[NAME_ROOM], work[LINE_ROOM];

    mode_words(session, process, mode);
    work_words(session, process, work);
    printf("%sprocess %u, %s, %s: %s\n", before, process, rissobarm_tag_text(row_byte(session, process, RISSOBARM_ROW_TAG)),
           mode, work);
}

/* What its mode means, for this process. */
static void print_meaning(const struct session *session, unsigned process)
{
    static const char *const ended[] = { "it was put to sleep, since what is above it had ended", "it has ended in success",
                                         "it has ended in failure" };

    switch (row_byte(session, process, RISSOBARM_ROW_MODE)) {
    case RISSOBARM_MODE_READY:
    case RISSOBARM_MODE_STARTING:
        printf("it can move when its turn comes\n");
        break;
    case RISSOBARM_MODE_REPORTING:
        printf("its parent will hear what it reports\n");
        break;
    case RISSOBARM_MODE_DORMANT:
        printf("%s\n", ended[row_byte(session, process, RISSOBARM_ROW_RESULT)]);
        break;
    case RISSOBARM_MODE_SUSPENDED:
        printf("it would have to bind what is not its own to bind:\n");
        break;
    default:
        printf("it waits for its children:\n");
    }
}

static void print_children(const struct session *session, unsigned process)
{
    unsigned p;

    for (p = process + 1; p < rissobarm_plan_processes(&session->run); p++)
        if (row_word(session, p, RISSOBARM_ROW_PARENT) == process &&
            row_byte(session, p, RISSOBARM_ROW_MODE) != RISSOBARM_MODE_DORMANT)
            print_process(session, "  ", p);
}

static void print_why(const struct session *session, unsigned process)
{
    unsigned mode = row_byte(session, process, RISSOBARM_ROW_MODE), k;

    print_process(session, "", process);
    print_meaning(session, process);
    for (k = 0; mode == RISSOBARM_MODE_SUSPENDED && k < note_count(session, process); k++) {
        printf("  ");
        explain_note(session, process, note_at(session, process, k));
    }
    if (mode == RISSOBARM_MODE_WAITING)
        print_children(session, process);
    for (k = 0; process > 0; k++) {
        process = row_word(session, process, RISSOBARM_ROW_PARENT);
        print_process(session, k == 0 ? "it works for " : "which works for ", process);
    }
}

enum status command_why(const struct options *options)
{
    static struct session session;
    uint32_t process = number_from("why", options->words[0], 0, 4294967295u);

    session_open(&session, options->words[1], options->names);
    run_to_show(&session, options);
    if (process >= rissobarm_plan_processes(&session.run))
        quit(NO_PROCESS, "there is no process %s: %s", grouped(process),
             counted(rissobarm_plan_processes(&session.run), "process has been made", "processes have been made"));
    if (options->json) {
        explain_json(&session, NULL, process);
        putchar('\n');
    } else {
        print_why(&session, process);
    }
    return DONE;
}
