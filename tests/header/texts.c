/* Prints every text of rissobarm_plan.h behind its sort and number, and one number past the last. Links nothing. */
#include "rissobarm_plan.h"

#include <stdio.h>

typedef const char *texts(unsigned number);

static void print(const char *sort, texts *text, unsigned first, unsigned last)
{
    unsigned number;

    for (number = first; number <= last; number++)
        printf("%s %u %s\n", sort, number, text(number));
    printf("%s past %s\n", sort, text(last + 1));
}

int main(void)
{
    printf("version %s\n", RISSOBARM_VERSION);
    printf("version numbers %d.%d\n", RISSOBARM_VERSION_MAJOR, RISSOBARM_VERSION_MINOR);
    print("refusal", rissobarm_refusal_text, 0, RISSOBARM_REFUSAL_COUNT);
    print("rule", rissobarm_rule_text, 1, RISSOBARM_RULE_COUNT);
    print("tag", rissobarm_tag_text, 0, RISSOBARM_TAG_COUNT - 1);
    print("mode", rissobarm_mode_text, 0, RISSOBARM_MODE_COUNT - 1);
    print("end", rissobarm_end_text, 1, RISSOBARM_END_COUNT);
    printf("none: %s, %s\n", rissobarm_rule_text(0), rissobarm_end_text(0));
    return 0;
}
