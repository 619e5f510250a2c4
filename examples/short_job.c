/*
 * A short index job: short_job PLAN SAVED <ARRIVALS. Whenever the run of a plan in PARLOG text waits, it takes a line `VARIABLE VALUE`, both
 * numbers from 0, by first appearance: a goal variable and a constant. At its end the run is written to SAVED, from which it goes on the next
 * time. Ends with 0 (success), 1 (failure), 2 (waiting), 3 (no room), 4 (refused) or 5 (a file is no good). index_job.c does more.
 */
#include "rissobarm_plan.h"
#include <stdio.h>
#include <stdlib.h>

enum { MOVES = 1000000, REFUSED = 4, NO_GOOD = 5 };

static struct rissobarm_plan run;
static uint8_t text[65536], names[sizeof text], image[RISSOBARM_TEXT_IMAGE], saved[RISSOBARM_SAVED_SIZE], values[RISSOBARM_VALUES_SIZE];

/* The bytes of a file, 0 if there is none; one that does not fit ends the job. */
static size_t read_file(const char *path, uint8_t *into, size_t room)
{
    FILE *file = fopen(path, "rb");
    size_t length = file == NULL ? 0 : fread(into, 1, room, file);

    if (file != NULL && (fgetc(file) != EOF || fclose(file) != 0))
        exit(NO_GOOD);
    return length;
}

/* An answer that has to be accepted. */
static uint64_t accepted(const char *what, uint64_t answer)
{
    if (rissobarm_refusal(answer) == RISSOBARM_ACCEPTED)
        return answer;
    fprintf(stderr, "%s: at %u: %s\n", what, (unsigned)rissobarm_offset(answer), rissobarm_refusal_text(rissobarm_refusal(answer)));
    exit(REFUSED);
}

int main(int count, char **words)
{
    unsigned variable, value;
    size_t length, size;
    uint64_t answer;
    FILE *file;

    if (count != 3)
        return NO_GOOD;
    answer = rissobarm_parse(image, sizeof image, names, sizeof names, text, read_file(words[1], text, sizeof text));
    size = rissobarm_parsed_image(accepted(words[1], answer));
    length = read_file(words[2], saved, sizeof saved);
    accepted(words[2], length == 0 ? rissobarm_plan_start(&run, image, size) : rissobarm_plan_resume(&run, image, size, saved, length));
    while (rissobarm_end(answer = accepted("run", rissobarm_plan_run(&run, MOVES))) == RISSOBARM_END_WAITING && scanf("%u %u", &variable, &value) == 2)
        if (rissobarm_refusal(rissobarm_plan_supply(&run, variable, value)) != RISSOBARM_ACCEPTED)
            fprintf(stderr, "arrival %u %u: left out\n", variable, value);
    printf("%s after %u steps\n", rissobarm_end_text(rissobarm_end(answer)), (unsigned)rissobarm_plan_steps(&run));
    length = rissobarm_values_count(accepted("values", rissobarm_plan_values(&run, values, sizeof values)));
    for (variable = 0; variable < length; variable++)
        if (rissobarm_sort_at(values, variable) == RISSOBARM_SORT_CONSTANT)
            printf("variable %u is constant %u\n", variable, (unsigned)rissobarm_number_at(values, variable));
    length = rissobarm_saved(accepted("save", rissobarm_plan_save(&run, saved, sizeof saved)));
    if ((file = fopen(words[2], "wb")) == NULL || fwrite(saved, 1, length, file) != length || fclose(file) != 0)
        return NO_GOOD;
    return (int)rissobarm_end(answer) - RISSOBARM_END_SUCCESS;
}
