/* A program of a user: the installed header and archive, and nothing else of the repository. */
#include <rissobarm.h>

#include <stdio.h>

int main(void)
{
    /* mode s(^), fact s(5), goal s(A) */
    static const uint8_t image[] = {
        6,  0, RISSOBARM_RECORD_RELATION, 0, 1, 1,
        12, 0, RISSOBARM_RECORD_CLAUSE,   0, 0, 1, 0, 0, 5, 0, 0, 0,
        11, 0, RISSOBARM_RECORD_GOAL,     0, 1, 1, 1, 0, 1, 0, RISSOBARM_TERM_VARIABLE / 256,
    };
    uint64_t answer = rissobarm_load(image, sizeof image);

    printf("refusal %u, relations %u, clauses %u\n", rissobarm_refusal(answer), rissobarm_relations(answer),
           rissobarm_clauses(answer));
    return 0;
}
