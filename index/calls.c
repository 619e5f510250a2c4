/* Programs that requests are for. */
#define _POSIX_C_SOURCE 200809L
#include "calls.h"

#include "say.h"

#include <errno.h>
#include <fcntl.h>
#include <math.h>
#include <signal.h>
#include <stdio.h>
#include <stdlib.h>
#include <string.h>
#include <sys/wait.h>
#include <unistd.h>

enum { CALLS_MOST = 4, OUTPUT_MOST = 64 << 20 };

/* Seconds after which a call that nobody tends any more is tried again, and the longest pause between two tries. */
#define GRACE 5.0
#define PAUSE_MOST 3600.0

struct call {
    pid_t pid; /* 0 if the room is free */
    int from;
    double deadline;
    int64_t record, version;
    int tries; /* this one counted */
    const struct action *action;
    struct text output;
};

static struct call calls[CALLS_MOST];

/* ---- starting ---- */

static void become(const struct action *action, const char *word, int64_t record, int64_t version, int out)
{
    char numbers[2][24];
    int null = open("/dev/null", O_RDWR);

    snprintf(numbers[0], sizeof numbers[0], "%lld", (long long)record);
    snprintf(numbers[1], sizeof numbers[1], "%lld", (long long)version);
    setpgid(0, 0);
    dup2(null, STDIN_FILENO);
    dup2(out, STDOUT_FILENO);
    execlp(action->program, action->program, action->name, word, numbers[0], numbers[1], (char *)NULL);
    _exit(127);
}

static void start(struct call *call, const char *word)
{
    int ends[2];

    if (pipe(ends) != 0)
        return;
    fcntl(ends[0], F_SETFL, O_NONBLOCK);
    fcntl(ends[0], F_SETFD, FD_CLOEXEC);
    fcntl(ends[1], F_SETFD, FD_CLOEXEC);
    call->pid = fork();
    if (call->pid == 0)
        become(call->action, word, call->record, call->version, ends[1]);
    close(ends[1]);
    call->from = ends[0];
    call->deadline = now() + call->action->within;
    text_clear(&call->output);
    if (call->pid < 0) {
        close(ends[0]);
        call->pid = 0;
    }
}

/* Claims a call that is due, by moving its next try behind the time that this one has. Answers 1, 0 if none is due, -1 after an error. */
static int claim(struct service *service, struct call *call, char *word, size_t room)
{
    struct store *store = service->store;
    struct rows *rows = store_ask(store, "SELECT record, version, what, word, tries FROM ri_job WHERE next <= $1 ORDER BY next LIMIT 1",
                                  "d", now());
    int64_t claimed;

    if (!rows_next(store, rows))
        return store->failed ? -1 : 0;
    call->record = store->kind->integer(rows, 0);
    call->version = store->kind->integer(rows, 1);
    call->action = conf_action(service->conf, store->kind->word(rows, 2));
    snprintf(word, room, "%s", store->kind->word(rows, 3));
    call->tries = (int)store->kind->integer(rows, 4) + 1;
    rows_end(store, rows);
    if (call->action == NULL || call->action->kind != ACTION_CALL)
        return 0;
    if (!store_begin(store)) {
        store_undo(store);
        return -1;
    }
    claimed = store_integer(store, 0,
                            "UPDATE ri_job SET next = $4, tries = $5 WHERE record = $1 AND what = $2 AND version = $3 AND tries < $5"
                            " RETURNING record",
                            "itidi", call->record, call->action->name, call->version, now() + call->action->within + GRACE,
                            (int64_t)call->tries);
    return store_commit(store) ? claimed != 0 : -1;
}

/* ---- what a program wrote ---- */

/* One line `NAME = WORD`; 0 if it is none, or the name is no answer of the action. */
static int read_line(const struct action *action, const char *line, size_t length, char *name, char *word)
{
    char copy[2 * NAME_ROOM], rest[2];
    unsigned k;

    if (length >= sizeof copy)
        return 0;
    memcpy(copy, line, length);
    copy[length] = 0;
    if (sscanf(copy, " %255[A-Za-z0-9_] = %255[A-Za-z0-9_] %1s", name, word, rest) != 2)
        return 0;
    for (k = 0; k < action->answer_count; k++)
        if (strcmp(action->answers[k], name) == 0)
            return 1;
    return 0;
}

struct said {
    char names[ANSWERS_MOST][NAME_ROOM], words[ANSWERS_MOST][NAME_ROOM];
    unsigned count;
    char text_name[NAME_ROOM];
    const char *text; /* NULL for none */
};

/* Takes the output apart; 0 if it is not as it must be. */
static int read_output(const struct call *call, struct said *said)
{
    const char *at = text_of(&call->output);

    memset(said, 0, sizeof *said);
    if (strlen(at) != call->output.length)
        return 0;
    while (*at != 0) {
        size_t length = strcspn(at, "\n");

        if (at[length] == 0)
            return 0;
        if (sscanf(at, "text %255[A-Za-z0-9_]", said->text_name) == 1) {
            said->text = at + length + 1;
            break;
        }
        if (said->count == ANSWERS_MOST || !read_line(call->action, at, length, said->names[said->count], said->words[said->count]))
            return 0;
        said->count++;
        at += length + 1;
    }
    return said->count > 0;
}

/* ---- ends ---- */

static void queue_answers(struct store *store, const struct call *call, const struct said *said)
{
    unsigned k;

    for (k = 0; k < said->count; k++)
        store_do(store, "INSERT INTO ri_item(record, version, name, word, text, at) VALUES($1, $2, $3, $4, $5, $6)", "iitttd",
                 call->record, call->version, said->names[k], said->words[k],
                 said->text != NULL && strcmp(said->names[k], said->text_name) == 0 ? said->text : NULL, now());
    store_do(store, "UPDATE ri_job SET next = NULL WHERE record = $1 AND what = $2 AND version = $3", "iti", call->record,
             call->action->name, call->version);
}

/* Tries again later, or gives up: then it is trouble, and the run waits for its clock, or for an answer by hand. */
static void try_again(struct store *store, const struct call *call, const char *why)
{
    double pause = ldexp(1.0, call->tries < 13 ? call->tries - 1 : 12);
    int last = call->tries >= call->action->tries;
    char words[WHY_ROOM];

    store_do(store, "UPDATE ri_job SET next = $4 WHERE record = $1 AND what = $2 AND version = $3", "itid", call->record,
             call->action->name, call->version, last ? NAN : now() + (pause < PAUSE_MOST ? pause : PAUSE_MOST));
    if (!last)
        return;
    snprintf(words, sizeof words, "%s: %s %s, %d times", call->action->name, call->action->program, why, call->tries);
    store_do(store,
             "INSERT INTO ri_trouble(record, version, move, why, at) SELECT record, version, move, $3, $4 FROM ri_run"
             " WHERE record = $1 AND version = $2",
             "iitd", call->record, call->version, words, now());
}

/* What a program has come to: NULL if it ended well, else why not. */
static const char *fault_of(const struct call *call, int ended, int state)
{
    if (!ended)
        return "takes too long";
    if (WIFSIGNALED(state))
        return "was killed";
    if (WEXITSTATUS(state) == 127)
        return "cannot be started";
    if (WEXITSTATUS(state) != 0)
        return "ended with another status than 0";
    return call->output.length > OUTPUT_MOST ? "writes too much" : NULL;
}

static int end_call(struct service *service, struct call *call, int ended, int state)
{
    const char *fault = fault_of(call, ended, state);
    struct store *store = service->store;
    struct said said;

    close(call->from);
    call->pid = 0;
    if (fault == NULL && !read_output(call, &said))
        fault = "writes something else than answers";
    if (!store_begin(store)) {
        store_undo(store);
        return -1;
    }
    if (fault == NULL)
        queue_answers(store, call, &said);
    else
        try_again(store, call, fault);
    return store_commit(store) ? 0 : -1;
}

/* Reads what is there, and ends a call that is over, or hangs. */
static int tend(struct service *service, struct call *call)
{
    char part[65536];
    ssize_t count;
    int state = 0, ended;

    ended = waitpid(call->pid, &state, WNOHANG) == call->pid;
    while ((count = read(call->from, part, sizeof part)) > 0 && call->output.length <= OUTPUT_MOST)
        text_bytes(&call->output, part, (size_t)count);
    if (ended)
        return end_call(service, call, 1, state);
    if (now() < call->deadline && call->output.length <= OUTPUT_MOST)
        return 1;
    kill(-call->pid, SIGKILL);
    kill(call->pid, SIGKILL);
    waitpid(call->pid, &state, 0);
    return end_call(service, call, 0, state);
}

int calls_tend(struct service *service)
{
    char word[NAME_ROOM];
    unsigned k;
    int running = 0, claimed;

    for (k = 0; k < CALLS_MOST; k++) {
        struct call *call = &calls[k];
        int still = call->pid != 0 ? tend(service, call) : 0;

        if (still < 0)
            return -1;
        if (call->pid == 0) {
            claimed = claim(service, call, word, sizeof word);
            if (claimed < 0)
                return -1;
            if (claimed > 0)
                start(call, word);
        }
        running += call->pid != 0;
    }
    return running;
}
