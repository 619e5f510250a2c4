/* show: the process tree as lines, as Graphviz or as JSON. */
#include "commands.h"
#include "explain.h"
#include "run.h"
#include "session.h"
#include "waits.h"
#include "words.h"

#include <stdio.h>
#include <string.h>

static int is_shown(const struct session *session, const struct options *options, unsigned process)
{
    return options->all || process == 0 || row_byte(session, process, RISSOBARM_ROW_MODE) != RISSOBARM_MODE_DORMANT;
}

/* "4 input-match, suspended: q(A), clause 1 of q" */
static void process_line(const struct session *session, unsigned process, char *line)
{
    char mode[NAME_ROOM], work[LINE_ROOM];

    mode_words(session, process, mode);
    work_words(session, process, work);
    snprintf(line, 2 * LINE_ROOM, "%u %s, %s: %s", process, rissobarm_tag_text(row_byte(session, process, RISSOBARM_ROW_TAG)),
             mode, work);
}

/* ---- lines ---- */

static void show_line(const struct session *session, unsigned process, unsigned depth)
{
    char line[2 * LINE_ROOM], name[LINE_ROOM];
    unsigned k;

    process_line(session, process, line);
    printf("%*s%s", (int)(2 * depth), "", line);
    for (k = 0; is_suspended(session, process) && k < note_count(session, process); k++) {
        variable_words(session, note_at(session, process, k), name);
        printf("%s%s", k == 0 ? "; waits for " : ", ", name);
    }
    printf("\n");
}

/* Children have higher numbers than their parents, so each is met behind it; what is hidden has nothing live below it. */
static void show_below(const struct session *session, const struct options *options, unsigned process, unsigned depth)
{
    unsigned p;

    show_line(session, process, depth);
    for (p = process + 1; p < rissobarm_plan_processes(&session->run); p++)
        if (row_word(session, p, RISSOBARM_ROW_PARENT) == process && is_shown(session, options, p))
            show_below(session, options, p, depth + 1);
}

static void show_lines(const struct session *session, const struct options *options)
{
    unsigned p, k;

    show_below(session, options, 0, 0);
    for (p = 0; p < rissobarm_plan_processes(&session->run); p++)
        for (k = 0; is_suspended(session, p) && k < note_count(session, p); k++)
            explain_note(session, p, note_at(session, p, k));
}

/* ---- Graphviz ---- */

static const char *colour_of(const struct session *session, unsigned process)
{
    static const char *const by_mode[] = { "gray85", "lightskyblue", "paleturquoise", "white", "palegreen", "gold" };
    unsigned mode = row_byte(session, process, RISSOBARM_ROW_MODE), result = row_byte(session, process, RISSOBARM_ROW_RESULT);

    if (mode == RISSOBARM_MODE_REPORTING && result == RISSOBARM_RESULT_FAILURE)
        return "salmon";
    return by_mode[mode];
}

/* Dashed, from who waits to who could bind. */
static void dot_waits(const struct session *session, unsigned process)
{
    struct binders binders;
    char name[LINE_ROOM];
    unsigned k, b;

    for (k = 0; is_suspended(session, process) && k < note_count(session, process); k++) {
        variable_words(session, note_at(session, process, k), name);
        find_binders(session, process, note_at(session, process, k), &binders);
        if (binders.supply)
            printf("  \"supply %s\" [shape=plain, style=solid];\n  p%u -> \"supply %s\" [style=dashed, label=\"%s\"];\n", name,
                   process, name, name);
        for (b = 0; b < binders.output_count; b++)
            printf("  p%u -> p%u [style=dashed, constraint=false, label=\"%s\"];\n", process, binders.outputs[b], name);
    }
}

static void show_dot(const struct session *session, const struct options *options)
{
    char mode[NAME_ROOM], work[LINE_ROOM];
    unsigned p;

    printf("digraph run {\n  node [shape=box, style=filled, fontname=\"sans-serif\"];\n  edge [fontname=\"sans-serif\"];\n");
    for (p = 0; p < rissobarm_plan_processes(&session->run); p++) {
        if (!is_shown(session, options, p))
            continue;
        mode_words(session, p, mode);
        work_words(session, p, work);
        printf("  p%u [label=\"%u %s\\n%s\\n%s\", fillcolor=%s];\n", p, p,
               rissobarm_tag_text(row_byte(session, p, RISSOBARM_ROW_TAG)), mode, work, colour_of(session, p));
        if (p > 0)
            printf("  p%u -> p%u;\n", row_word(session, p, RISSOBARM_ROW_PARENT), p);
        dot_waits(session, p);
    }
    printf("}\n");
}

/* ---- JSON ---- */

static void show_json(const struct session *session, const struct options *options)
{
    unsigned p;

    json_open(NULL, '{');
    json_number("steps", rissobarm_plan_steps(&session->run));
    json_number("last", rissobarm_word_at(session->run.head + RISSOBARM_HEAD_LAST));
    json_open("processes", '[');
    for (p = 0; p < rissobarm_plan_processes(&session->run); p++)
        if (is_shown(session, options, p))
            explain_json(session, NULL, p);
    json_close(']');
    json_close('}');
    putchar('\n');
}

enum status command_show(const struct options *options)
{
    static struct session session;

    session_open(&session, options->words[0], options->names);
    run_to_show(&session, options);
    if (options->json)
        show_json(&session, options);
    else if (options->dot)
        show_dot(&session, options);
    else
        show_lines(&session, options);
    return DONE;
}
