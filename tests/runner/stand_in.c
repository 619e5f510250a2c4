/* Prints what the runner must print, worked out by the reference: an image from standard input, limit 60,000. */
#include "reference.h"
#include "rissobarm.h"

#include <stdio.h>

enum { ROOM = RISSOBARM_IMAGE_LIMIT + 1, LIMIT = 60000 };

/* The image and the tables of its run. */
static uint8_t image[ROOM], head[RISSOBARM_HEAD_SIZE], procs[RISSOBARM_PROCS_SIZE], vars[RISSOBARM_VARS_SIZE];
static size_t length;

#define RUN image, length, head, sizeof head, procs, sizeof procs, vars, sizeof vars

/* A line for each goal variable; the first that is refused is past the goal's count. */
static void print_variables(void)
{
    unsigned v;

    for (v = 0; v < RISSOBARM_OWN_LIMIT; v++) {
        uint64_t value = reference_value(RUN, v);
        int constant = rissobarm_value_sort(value) == RISSOBARM_SORT_CONSTANT;

        if (rissobarm_refusal(value) != RISSOBARM_ACCEPTED)
            return;
        printf("var %u = %s%u\n", v, constant ? "" : "_", (unsigned)rissobarm_value_number(value));
    }
}

int main(void)
{
    static const char *const ends[RISSOBARM_END_COUNT + 1] = {
        [RISSOBARM_END_SUCCESS] = "success", [RISSOBARM_END_FAILURE] = "failure", [RISSOBARM_END_WAITING] = "waiting",
        [RISSOBARM_END_ROOM] = "room",       [RISSOBARM_END_BUDGET] = "budget",
    };
    uint64_t loaded, ran;

    length = fread(image, 1, sizeof image, stdin);
    loaded = reference_load(image, length);
    if (rissobarm_refusal(loaded) != RISSOBARM_ACCEPTED) {
        printf("refused %u at %u\n", rissobarm_refusal(loaded), (unsigned)rissobarm_offset(loaded));
        return 0;
    }
    reference_start(RUN);
    ran = reference_run(RUN, LIMIT);
    printf("steps %u\nend %s\n", (unsigned)rissobarm_steps(ran), ends[rissobarm_end(ran)]);
    print_variables();
    return 0;
}
