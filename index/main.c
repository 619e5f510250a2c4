/* rissobarm-index: keeps a full-text index up to date with a catalogue, by a plan of the PARLOG process machine. */
#define _POSIX_C_SOURCE 200809L
#include "commands.h"

#include "rissobarm.h"

#include <signal.h>
#include <stdio.h>
#include <string.h>

struct command {
    const char *name;
    unsigned least, most; /* how many words stand after it */
    const char *usage;
    const char *options;
    enum status (*run)(const struct options *options);
};

static const struct command commands[] = {
    { "init", 0, 0, "init", "", command_init },
    { "check", 0, 1, "check [PLAN]", "", command_check },
    { "serve", 0, 0, "serve [--http 127.0.0.1:8377]", "--http", command_serve },
    { "work", 0, 0, "work --once", "--once", command_work },
    { "edit", 1, 1, "edit FILE|- [--cursor NAME]", "--cursor", command_edit },
    { "answer", 1, 4, "answer RECORD VERSION NAME WORD [--text FILE], or answer --lines FILE|-", "--text --lines", command_answer },
    { "jobs", 0, 1, "jobs [ACTION] [--limit N]", "--limit", command_jobs },
    { "status", 0, 0, "status", "", command_status },
    { "why", 1, 1, "why RECORD", "", command_why },
    { "trouble", 0, 0, "trouble [--limit N]", "--limit", command_trouble },
    { "retry", 0, WORDS_MOST, "retry RECORD.. | --all", "--all", command_retry },
    { "replan", 1, 1, "replan PLAN [--all]", "--all", command_replan },
    { "verify", 0, 0, "verify [--repair]", "--repair", command_verify },
    { "rebuild", 0, 0, "rebuild [--beside]", "--beside", command_rebuild },
    { "search", 1, WORDS_MOST, "search WORDS.. [--limit N]", "--limit", command_search },
    { "age", 0, 0, "age [--since TIME] [--svg FILE]", "--since --svg", command_age },
};

static const struct {
    enum status status;
    const char *words;
} statuses[] = {
    { DONE, "done" },
    { FOUND_WRONG, "verify has found something that is not as it must be" },
    { WORK_LEFT, "there is work left" },
    { PLAN_REFUSED, "the plan or index.conf is refused, or they do not fit together" },
    { VALUE_REFUSED, "a line, a value or a variable is refused" },
    { NO_RECORD, "there is no such record" },
    { NO_FILE, "a file or the database cannot be read or written" },
    { USAGE, "the words of the command are wrong" },
};

enum { COMMANDS = sizeof commands / sizeof commands[0], STATUSES = sizeof statuses / sizeof statuses[0] };

static enum status help(void)
{
    unsigned k;

    printf("rissobarm-index %s, keeps a full-text index by a plan\n\n", RISSOBARM_VERSION);
    for (k = 0; k < COMMANDS; k++)
        printf("  rissobarm-index %s\n", commands[k].usage);
    printf("\nEach takes --conf FILE (index.conf) and --json.\n\nIt ends with\n");
    for (k = 0; k < STATUSES; k++)
        printf("  %2d  %s\n", (int)statuses[k].status, statuses[k].words);
    return DONE;
}

static enum status carry_out(const struct command *command, int count, char **words)
{
    struct options options;

    options_read(&options, command->options, count, words);
    if (options.word_count < command->least || options.word_count > command->most)
        quit(USAGE, "usage: rissobarm-index %s", command->usage);
    return command->run(&options);
}

int main(int count, char **words)
{
    const char *name = count > 1 ? words[1] : "help";
    int k;

    /* past a limit of the shell, or into a closed pipe, a write is to fail and not to end the program */
    signal(SIGXFSZ, SIG_IGN);
    signal(SIGPIPE, SIG_IGN);
    for (k = 1; k < count; k++)
        say_json |= strcmp(words[k], "--json") == 0;
    if (strcmp(name, "help") == 0 || strcmp(name, "--help") == 0)
        return finish(help());
    if (strcmp(name, "--version") == 0) {
        printf("rissobarm-index %s\n", RISSOBARM_VERSION);
        return finish(DONE);
    }
    for (k = 0; k < COMMANDS; k++)
        if (strcmp(commands[k].name, name) == 0)
            return finish(carry_out(&commands[k], count, words));
    quit(USAGE, "%s: no such command; rissobarm-index help", name);
    return USAGE;
}
