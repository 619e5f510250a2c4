/* A run in the tool: begun, moved, saved and taken up again. */
#include "session.h"

#include "list.h"
#include "say.h"

#include <stdio.h>
#include <stdlib.h>
#include <string.h>

enum { PART_LINE = 64 };

/* ---- moving ---- */

void session_start(struct session *session)
{
    bytes_add(&session->trace, "", 0);
    program_read(&session->program, &session->plan.image);
    rissobarm_plan_start(&session->run, session->plan.image.at, session->plan.image.length);
}

/* Stamps count on whether records are kept or not: where some are missing, a replay says so. */
static uint64_t count_on(struct session *session, uint64_t answer, const uint8_t *records, uint32_t count)
{
    if (rissobarm_refusal(answer) != RISSOBARM_ACCEPTED)
        return answer;
    if (session->traced)
        bytes_add(&session->trace, records, (size_t)count * TRACE_RECORD);
    session->stamp = (uint16_t)(session->stamp + count);
    return answer;
}

uint64_t session_run(struct session *session, unsigned steps)
{
    static uint8_t records[RISSOBARM_RUN_LIMIT * TRACE_RECORD];
    uint64_t answer;

    if (session->traced)
        answer = rissobarm_run_traced(RISSOBARM_PLAN_LENT(&session->run), records, (size_t)steps * TRACE_RECORD,
                                      (uint16_t)steps, session->stamp);
    else
        answer = rissobarm_plan_run(&session->run, steps);
    return count_on(session, answer, records, rissobarm_steps(answer));
}

uint64_t session_supply(struct session *session, unsigned variable, unsigned value)
{
    uint8_t record[TRACE_RECORD];
    uint64_t answer;

    if (session->traced)
        answer = rissobarm_supply_traced(RISSOBARM_PLAN_LENT(&session->run), record, sizeof record, variable, value,
                                         session->stamp);
    else
        answer = rissobarm_plan_supply(&session->run, variable, value);
    return count_on(session, answer, record, 1);
}

/* ---- saving ---- */

static void add_part(struct bytes *file, const char *name, const void *bytes, size_t length)
{
    char line[PART_LINE];

    bytes_add(file, line, (size_t)sprintf(line, "%s %lu\n", name, (unsigned long)length));
    bytes_add(file, bytes, length);
    bytes_add(file, "\n", 1);
}

struct bytes session_bytes(const struct session *session)
{
    static uint8_t saved[RISSOBARM_SAVED_SIZE];
    struct bytes file = { NULL, 0, 0 };
    uint64_t answer = rissobarm_save(RISSOBARM_PLAN_LENT(&session->run), saved, sizeof saved);
    char stamp[16];

    if (rissobarm_refusal(answer) != RISSOBARM_ACCEPTED)
        quit(RUN_REFUSED, "the run is not saved: %s", rissobarm_refusal_text(rissobarm_refusal(answer)));
    bytes_add(&file, SAVED_LINE, sizeof SAVED_LINE - 1);
    add_part(&file, "image", session->plan.image.at, session->plan.image.length);
    add_part(&file, "names", session->plan.names.at, session->plan.names.length);
    add_part(&file, "text", session->plan.text.at, session->plan.text.length);
    add_part(&file, "stamp", stamp, (size_t)sprintf(stamp, "%u", session->stamp));
    add_part(&file, "run", saved, rissobarm_saved(answer));
    return file;
}

/* ---- taking up ---- */

/* The part of this name at a place, which moves behind it; ends the tool where it is not there, whole. */
static struct bytes take_part(const struct bytes *file, size_t *at, const char *name, const char *path)
{
    struct bytes part = { NULL, 0, 0 };
    char line[PART_LINE], *end;
    size_t width = 0, length;

    while (width < sizeof line - 1 && *at + width < file->length && file->at[*at + width] != '\n')
        width++;
    memcpy(line, file->at + *at, width);
    line[width] = '\0';
    if (strncmp(line, name, strlen(name)) != 0 || line[strlen(name)] != ' ')
        quit(RUN_REFUSED, "%s: no saved run: the part `%s` is not where it should be", path, name);
    length = strtoul(line + strlen(name) + 1, &end, 10);
    *at += width + 1;
    if (*end != '\0' || *at > file->length || length >= file->length - *at || file->at[*at + length] != '\n')
        quit(RUN_REFUSED, "%s: no saved run: the part `%s` is cut", path, name);
    bytes_add(&part, file->at + *at, length);
    *at += length + 1;
    return part;
}

/* The machine's own tests of the image; those of the run make them once more, and could not tell whose they are. */
static void take_image(struct plan *plan, const char *path)
{
    uint64_t loaded = rissobarm_load(plan->image.at, plan->image.length);
    unsigned refusal = rissobarm_refusal(loaded);

    if (refusal != RISSOBARM_ACCEPTED)
        quit(RUN_REFUSED, "%s: the saved run is refused %u at byte %s of the part `image` (%s)", path, refusal,
             grouped(rissobarm_offset(loaded)), rissobarm_refusal_text(refusal));
    plan->relations = rissobarm_relations(loaded);
    plan->clauses = rissobarm_clauses(loaded);
}

/* The machine's own tests of the run. */
static void take_up(struct session *session, const struct bytes *saved, const char *path)
{
    struct rissobarm_plan *run = &session->run;
    uint64_t answer;
    unsigned refusal;

    run->image = session->plan.image.at;
    run->image_len = session->plan.image.length;
    answer = rissobarm_resume(RISSOBARM_PLAN_LENT(run), saved->at, saved->length);
    refusal = rissobarm_refusal(answer);
    if (refusal != RISSOBARM_ACCEPTED && refusal <= RISSOBARM_NOGOAL)
        quit(RUN_REFUSED, "%s: the saved run is refused %u at byte %s of the part `run` (%s)", path, refusal,
             grouped(rissobarm_offset(answer)), rissobarm_refusal_text(refusal));
    if (refusal != RISSOBARM_ACCEPTED)
        quit(RUN_REFUSED, "%s: the saved run is refused %u (%s)", path, refusal, rissobarm_refusal_text(refusal));
}

/* Digits alone, up to 65,535. */
static uint16_t stamp_of(struct bytes *stamp, const char *path)
{
    unsigned long number;

    bytes_add(stamp, "", 1);
    number = strtoul((const char *)stamp->at, NULL, 10);
    if (stamp->length < 2 || strspn((const char *)stamp->at, "0123456789") != stamp->length - 1 || number > 65535)
        quit(RUN_REFUSED, "%s: no saved run: the part `stamp` is no number up to 65,535", path);
    return (uint16_t)number;
}

/* Names that are told must be such: a part that was changed by hand is none. A plan without a list has none. */
static void test_names(struct session *session, const char *path)
{
    if (session->plan.names.length > 0 && !list_test(&session->plan))
        quit(RUN_REFUSED, "%s: no saved run: the part `names`, %s", path, session->plan.list_wrong);
}

static void take_saved(struct session *session, struct bytes *file, const char *path)
{
    struct bytes stamp, saved;
    size_t at = sizeof SAVED_LINE - 1;

    session->plan.image = take_part(file, &at, "image", path);
    session->plan.names = take_part(file, &at, "names", path);
    session->plan.text = take_part(file, &at, "text", path);
    stamp = take_part(file, &at, "stamp", path);
    saved = take_part(file, &at, "run", path);
    if (at != file->length)
        quit(RUN_REFUSED, "%s: no saved run: %s behind the part `run`", path,
             counted(file->length - at, "byte stands", "bytes stand"));
    session->run_is_saved = 1;
    session->plan.is_text = session->plan.text.length > 0;
    session->stamp = stamp_of(&stamp, path);
    take_image(&session->plan, path);
    take_up(session, &saved, path);
    test_names(session, path);
    bytes_add(&session->trace, "", 0);
    program_read(&session->program, &session->plan.image);
    free(file->at);
    free(stamp.at);
    free(saved.at);
}

void session_load(struct session *session, const char *path)
{
    struct bytes file = file_read(path);

    if (!is_saved(&file))
        quit(RUN_REFUSED, "%s: no saved run", path);
    take_saved(session, &file, path);
}

void session_open(struct session *session, const char *path, const char *names_path)
{
    struct bytes file = file_read(path);

    if (is_saved(&file)) {
        if (names_path != NULL)
            quit(USAGE, "--names: %s is a saved run, which has names of its own", path);
        take_saved(session, &file, path);
        return;
    }
    plan_hold(&session->plan, plan_take(&session->plan, file, path, names_path), path);
    session_start(session);
}

/* The machine compares lengths alone, so that an edited plan of the same length would pass. */
void session_same_plan(const struct session *session, const char *saved, const char *path, const char *names_path)
{
    static struct plan plan;
    const struct bytes *mine = &session->plan.image;
    size_t k = 0;

    plan_need(&plan, path, names_path);
    while (k < mine->length && k < plan.image.length && mine->at[k] == plan.image.at[k])
        k++;
    if (k < mine->length || k < plan.image.length)
        quit(RUN_REFUSED, "%s: the run was saved with another plan than %s: their images differ from byte %s on", saved, path,
             grouped(k));
    k = plan.names.length < session->plan.names.length ? plan.names.length : session->plan.names.length;
    if (memcmp(plan.names.at, session->plan.names.at, k) != 0)
        quit(RUN_REFUSED, "%s: the run was saved with other names than those of %s", saved, path);
}

/* ---- what a run tells ---- */

int value_of(const struct session *session, unsigned variable, unsigned *number)
{
    for (;;) {
        const uint8_t *cell = session->run.vars + variable * RISSOBARM_VARIABLE_ROW;

        *number = rissobarm_word_at(cell + RISSOBARM_CELL_NUMBER);
        if (cell[RISSOBARM_CELL_SORT] == RISSOBARM_SORT_CONSTANT)
            return 1;
        if (cell[RISSOBARM_CELL_SORT] == RISSOBARM_SORT_UNBOUND) {
            *number = variable;
            return 0;
        }
        variable = *number;
    }
}

unsigned row_byte(const struct session *session, unsigned process, unsigned field)
{
    return rissobarm_plan_row(&session->run, process)[field];
}

unsigned row_word(const struct session *session, unsigned process, unsigned field)
{
    return rissobarm_word_at(rissobarm_plan_row(&session->run, process) + field);
}
