/* rissobarm: plans, runs and traces of the PARLOG process machine from the command line. SIGXFSZ is POSIX, not C99. */
#define _POSIX_C_SOURCE 200809L
#include "commands.h"

#include "rissobarm_plan.h"

#include <signal.h>
#include <stdio.h>
#include <string.h>

struct command {
    const char *name;
    unsigned words; /* how many stand behind it */
    const char *usage;
    const char *options; /* that it takes */
    enum status (*run)(const struct options *options);
};

#define RUNS "--supply --arrivals --strict --steps --slice --progress --json"

static const struct command commands[] = {
    { "check", 1, "check PLAN [--names FILE]", "--names --json", command_check },
    { "compile", 1, "compile TEXT -o IMAGE [--names FILE]", "-o --names --json", command_compile },
    { "print", 1, "print IMAGE [--names FILE] [-o TEXT]", "-o --names --json", command_print },
    { "run", 1,
      "run PLAN [--names FILE] [--supply NAME=VALUE].. [--arrivals FILE] [--steps N] [--slice N] [--save FILE] "
      "[--trace FILE]",
      "--names --save --trace " RUNS, command_run },
    { "resume", 1, "resume SAVED [--plan PLAN] and as run", "--plan --names --save --trace " RUNS, command_resume },
    { "replay", 2, "replay PLAN|SAVED TRACE [--names FILE] [--save FILE]", "--names --save --json", command_replay },
    { "show", 1, "show PLAN|SAVED [--all] [--dot] and as run, without --save and --trace", "--names --all --dot " RUNS,
      command_show },
    { "why", 2, "why PROCESS PLAN|SAVED and as run, without --save and --trace", "--names " RUNS, command_why },
};

static const char *const statuses[] = {
    "done; of a run: the goal has succeeded",
    "the goal has failed",
    "the run waits, and no arrival is left or a stop came",
    "a move needs more rows than a run has",
    "the steps that were allowed are made, or a stop came before",
    "the plan or its list of names is refused",
    "the saved run is refused, or is of another plan",
    "the trace is refused, or disagrees",
    "a value or a variable is refused",
    "there is no such process",
    "a file cannot be read or written",
    "the words of the command are wrong",
};

enum { COMMANDS = sizeof commands / sizeof commands[0], STATUSES = sizeof statuses / sizeof statuses[0] };

static enum status help(void)
{
    unsigned k;

    printf("rissobarm %s, for plans of the PARLOG process machine\n\n", RISSOBARM_VERSION);
    for (k = 0; k < COMMANDS; k++)
        printf("  rissobarm %s\n", commands[k].usage);
    printf("\nA PLAN is PARLOG text or an image; SAVED is what --save wrote. --json is for machines, --strict ends at the first\n"
           "arrival that is no good. An arrival is a line `NAME = VALUE` or `NAME = VALUE @ STEPS`.\n\nIt ends with\n");
    for (k = 0; k < STATUSES; k++)
        printf("  %2u  %s\n", k, statuses[k]);
    return DONE;
}

static enum status carry_out(const struct command *command, int count, char **words)
{
    struct options options;

    options_read(&options, command->options, count, words);
    if (options.word_count != command->words)
        quit(USAGE, "usage: rissobarm %s", command->usage);
    return command->run(&options);
}

int main(int count, char **words)
{
    const char *name = count > 1 ? words[1] : "help";
    int k;

    /* past a limit of the shell, a write is to fail and not to end the tool */
    signal(SIGXFSZ, SIG_IGN);
    /* first, so that every complaint is JSON where it is asked for */
    for (k = 1; k < count; k++)
        say_json |= strcmp(words[k], "--json") == 0;
    if (strcmp(name, "help") == 0 || strcmp(name, "--help") == 0)
        return finish(help());
    if (strcmp(name, "--version") == 0) {
        printf("rissobarm %s\n", RISSOBARM_VERSION);
        return finish(DONE);
    }
    for (k = 0; k < COMMANDS; k++)
        if (strcmp(commands[k].name, name) == 0)
            return finish(carry_out(&commands[k], count, words));
    quit(USAGE, "%s: no such command; rissobarm help", name);
    return USAGE;
}
