/*
 * How much stack each call takes: it runs on a painted stack, and what is not paint afterwards was used. On the largest images
 * that are accepted, over whole runs turn by turn, and on tables with every row in use.
 */
#define _XOPEN_SOURCE 700
#include "images.h"
#include "longrun.h"
#include "texts.h"

#include <stdio.h>
#include <string.h>
#include <ucontext.h>

enum { STACK_ROOM = 262144, PAINT = 0xA5, IMAGES = 20, LARGE_RUN = 5000, RELATIONS = 4400, LINE_ROOM = 32 };
enum deed {
    NOTHING, LOAD, START, STEP, TURN, RUN, SUPPLY, VALUE, WATCH, VALUES, STEP_BOUND, TURN_BOUND, SUPPLY_BOUND, SAVE, RESUME,
    STEP_TRACED, SUPPLY_TRACED, RUN_TRACED, REPLAY, PRINT, PARSE, DEEDS
};

static const char *const names[DEEDS] = { "nothing", "load",   "start", "step",  "turn",
                                          "run",     "supply", "value", "watch", "values",
                                          "step with a list",  "turn with a list", "supply with a list", "save", "resume",
                                          "step with a trace", "supply with a trace", "run with a trace",  "replay",
                                          "print",   "parse" };

static uint8_t stack[STACK_ROOM];
static ucontext_t here, there;
static struct rissobarm_plan plan;
static struct image image;
static enum deed next;
static uint64_t answer;
static uint8_t further[LARGE_RUN * RISSOBARM_TRACE_RECORD_SIZE];
static struct text text;
static struct list list, listed;
static size_t most[DEEDS];

static uint32_t last_stepped(void)
{
    return rissobarm_word_at(plan.head + RISSOBARM_HEAD_LAST);
}

#define LENT RISSOBARM_PLAN_LENT(&plan)
#define FURTHER further, sizeof further

/* Makes the call that is next; the same frame for each, so that what nothing takes can be taken off. */
static void make(void)
{
    switch (next) {
    case LOAD: answer = rissobarm_load(plan.image, plan.image_len); break;
    case START: answer = rissobarm_start(LENT); break;
    case STEP: answer = rissobarm_step(LENT, last_stepped()); break;
    case TURN: answer = rissobarm_turn(LENT); break;
    case RUN: answer = rissobarm_run(LENT, LARGE_RUN); break;
    case SUPPLY: answer = rissobarm_supply(LENT, 0, 1); break;
    case VALUE: answer = rissobarm_value(LENT, 0); break;
    case WATCH: answer = rissobarm_watch(plan.procs, sizeof plan.procs); break;
    case VALUES: answer = rissobarm_values(LENT, FURTHER); break;
    case STEP_BOUND: answer = rissobarm_step_bound(LENT, FURTHER, last_stepped()); break;
    case TURN_BOUND: answer = rissobarm_turn_bound(LENT, FURTHER); break;
    case SUPPLY_BOUND: answer = rissobarm_supply_bound(LENT, FURTHER, 0, 1); break;
    case SAVE: answer = rissobarm_save(LENT, FURTHER); break;
    case RESUME: answer = rissobarm_resume(LENT, further, rissobarm_saved(answer)); break;
    case STEP_TRACED: answer = rissobarm_step_traced(LENT, FURTHER, last_stepped(), 0); break;
    case SUPPLY_TRACED: answer = rissobarm_supply_traced(LENT, FURTHER, 0, 1, 0); break;
    case RUN_TRACED: answer = rissobarm_run_traced(LENT, FURTHER, LARGE_RUN, 0); break;
    case REPLAY: answer = rissobarm_replay(LENT, further, RISSOBARM_TRACE_RECORD_SIZE * (size_t)rissobarm_steps(answer)); break;
    case PRINT:
        answer = rissobarm_print(image.bytes, image.length, list.bytes, list.length, text.bytes, sizeof text.bytes);
        break;
    case PARSE:
        answer = rissobarm_parse(further, sizeof further, listed.bytes, sizeof listed.bytes, text.bytes, text.length);
        break;
    default: break;
    }
}

/* Makes a call on the painted stack, and notes how far down it went. */
static void measure(enum deed deed)
{
    size_t untouched = 0;

    memset(stack, PAINT, sizeof stack);
    getcontext(&there);
    there.uc_stack.ss_sp = stack;
    there.uc_stack.ss_size = sizeof stack;
    there.uc_link = &here;
    next = deed;
    makecontext(&there, make, 0);
    swapcontext(&here, &there);
    while (untouched < sizeof stack && stack[untouched] == PAINT)
        untouched++;
    if (sizeof stack - untouched > most[deed])
        most[deed] = sizeof stack - untouched;
}

/* Every call where the run stands; a step may be refused, as it may in a program. */
static void measure_all(void)
{
    measure(NOTHING);
    measure(LOAD);
    measure(VALUE);
    measure(VALUES);
    measure(WATCH);
    measure(STEP);
    measure(SAVE);
    measure(RESUME); /* of what was just saved */
    measure(STEP_TRACED);
    measure(SUPPLY_TRACED);
    measure(STEP_BOUND);
    measure(SUPPLY_BOUND);
    measure(SUPPLY);
}

/* The image as text, with a constant for each number that it has, and back. */
static void measure_text(struct random *random)
{
    struct naming naming = { 0, 0 };

    naming.salt = random_bits(random);
    list_names(&list, &naming, image_relations(&image), image_renumber(&image));
    measure(PRINT);
    text.length = rissobarm_printed(answer);
    measure(PARSE);
}

/* More relations than a parse has places for, and a call that is the last one's or nobody's. */
static void measure_many_relations(unsigned called)
{
    char line[LINE_ROOM];
    unsigned k;

    text.length = 0;
    for (k = 0; k <= RELATIONS; k++) {
        snprintf(line, sizeof line, k < RELATIONS ? "mode r%u. " : "<- r%u.", k < RELATIONS ? k : called);
        memcpy(text.bytes + text.length, line, strlen(line));
        text.length += strlen(line);
    }
    measure(PARSE);
}

/* Texts that are refused behind their spelling: in a clause, in a mode line, and for a call without a mode line. */
static void measure_refused_texts(void)
{
    static const char *const refused[] = {
        "mode p(?). p(a,b) <- p(b) : p(c). p(a) <- p(b) & q : p(c). <- p(A), A = b & p(d).",
        "mode p(?). mode p(?). p(a) <- p(b) : p(c). <- p(A) & p(d).",
        "mode p(?). p(a) <- p(b) : q(c). <- p(A), A = b & p(d).",
    };
    unsigned k;

    for (k = 0; k < sizeof refused / sizeof refused[0]; k++) {
        text.length = strlen(refused[k]);
        memcpy(text.bytes, refused[k], text.length);
        measure(PARSE);
    }
    measure_many_relations(RELATIONS - 1);
    measure_many_relations(RELATIONS);
}

/* A whole run of one of the largest images: turn by turn, then from the start by one run call. */
static void measure_image(struct random *random)
{
    unsigned turns = 0;

    image_by_recipe(&image, random, &full_recipe);
    rissobarm_plan_start(&plan, image.bytes, image.length);
    do {
        measure(turns % 2 == 0 ? TURN : TURN_BOUND);
    } while (rissobarm_refusal(answer) == RISSOBARM_ACCEPTED && ++turns < LARGE_RUN);
    measure_all();
    measure(START);
    measure(RUN);
    measure(START);
    measure(RUN_TRACED);
    rissobarm_plan_start(&plan, image.bytes, image.length);
    measure(REPLAY); /* of the run before */
    measure_text(random);
}

int main(void)
{
    struct random random = { 1 };
    unsigned k;
    int good = 1;

    for (k = 0; k < IMAGES; k++)
        measure_image(&random);
    measure_refused_texts();
    longrun_fill(&plan);
    measure(TURN);
    measure_all();
    measure(RUN);
    for (k = LOAD; k < DEEDS; k++) {
        size_t taken = most[k] - most[NOTHING];

        printf("stack: %s takes %u bytes\n", names[k], (unsigned)taken);
        if (taken > RISSOBARM_STACK)
            good = 0;
    }
    printf("stack: %s %d bytes\n", good ? "none takes more than" : "FAILED, some call takes more than", RISSOBARM_STACK);
    return good ? 0 : 1;
}
