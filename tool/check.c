/* check, compile, print: plans without a run. */
#include "commands.h"
#include "plan.h"
#include "program.h"

#include "items.h"
#include "list.h"
#include "outputs.h"

#include <stdio.h>
#include <string.h>

/* ---- check ---- */

static void tell_accepted(const struct plan *plan, const char *path)
{
    struct program program;

    program_read(&program, &plan->image);
    if (!say_json) {
        printf("%s: %s accepted: %s, %s, a goal with %s; an image of %s\n", path, plan->is_text ? "text" : "image",
               counted(plan->relations, "relation", "relations"), counted(plan->clauses, "clause", "clauses"),
               counted(program.variables, "variable", "variables"), counted(plan->image.length, "byte", "bytes"));
        return;
    }
    json_open(NULL, '{');
    json_text("file", path);
    json_text("sort", plan->is_text ? "text" : "image");
    json_truth("accepted", 1);
    json_number("relations", plan->relations);
    json_number("clauses", plan->clauses);
    json_number("variables", program.variables);
    json_number("image", plan->image.length);
    json_close('}');
    putchar('\n');
}

static void tell_refused_json(const struct plan *plan, const char *path, uint64_t answer, const char *words)
{
    size_t offset, line, column;

    json_open(NULL, '{');
    json_text("file", path);
    json_text("sort", plan->is_text ? "text" : "image");
    json_truth("accepted", 0);
    json_number("refusal", rissobarm_refusal(answer));
    json_number("offset", rissobarm_offset(answer));
    if (plan_place(plan, answer, &offset)) {
        place_of(&plan->text, offset, &line, &column);
        json_number("line", line);
        json_number("column", column);
    }
    json_text("words", words);
    json_close('}');
    putchar('\n');
}

enum status command_check(const struct options *options)
{
    char words[WORDS_ROOM];
    static struct plan plan;
    uint64_t answer = plan_read(&plan, options->words[0], options->names);

    if (rissobarm_refusal(answer) == RISSOBARM_ACCEPTED) {
        tell_accepted(&plan, options->words[0]);
        return DONE;
    }
    plan_words(&plan, answer, words);
    if (say_json)
        tell_refused_json(&plan, options->words[0], answer, words);
    else
        printf("%s: %s\n", options->words[0], words);
    return PLAN_REFUSED;
}

/* ---- compile and print ---- */

/*
 * The list is renamed before the image, and has the image's mark: killed between the two, the tool leaves an old image and a
 * list that is refused with it. The other way round an old list made by hand, which has no mark, would pass for that of the
 * new image.
 */
enum status command_compile(const struct options *options)
{
    static struct plan plan;
    struct output outputs[2] = { { options->names, &plan.names }, { options->out, &plan.image } };

    if (options->out == NULL)
        quit(USAGE, "compile: -o FILE says where the image goes");
    if (options->names != NULL && strcmp(options->names, "-") == 0 && strcmp(options->out, "-") == 0)
        quit(USAGE, "-o and --names: standard output cannot be both");
    output_test(options->names);
    output_test(options->out);
    plan_need(&plan, options->words[0], NULL);
    if (!plan.is_text)
        quit(PLAN_REFUSED, "%s: is an image already", options->words[0]);
    list_mark(&plan);
    outputs_write(outputs, 2);
    return DONE;
}

enum status command_print(const struct options *options)
{
    static struct bytes text;
    static struct plan plan;
    struct output output = { options->out != NULL ? options->out : "-", &text };

    output_test(options->out);
    plan_need(&plan, options->words[0], options->names);
    plan_hold(&plan, plan_print(&plan, &text), options->words[0]);
    outputs_write(&output, 1);
    return DONE;
}
