/* Worked examples of traces (change request 7). */
#include "marked.h"

enum { RECORD = 10, ALL = 19, TRACE_ROOM = 200, FIRST_STAMP = 0xFFFD };

static uint8_t trace[TRACE_ROOM];

/* c6 with A supplied as 1: nine steps, the supply, nine more. */
static bool record(void)
{
    uint16_t stamp = FIRST_STAMP;
    uint64_t first, last;

    begin(WITH(q_one));
    memset(trace, 0xAA, sizeof trace);
    first = reference_run_traced(IMAGE(&run), TABLES(&run), WITH(trace), LIMIT, stamp);
    if (bits8(first) != WAITING || bits32(first) != 9)
        return false;
    if (reference_supply_traced(IMAGE(&run), TABLES(&run), trace + 90, RECORD, 0, 1, (uint16_t)(stamp + 9)) != 0)
        return false;
    last = reference_run_traced(IMAGE(&run), TABLES(&run), trace + 100, 90, LIMIT, (uint16_t)(stamp + 10));
    return bits8(last) == SUCCESS && bits32(last) == 9;
}

static uint64_t replay(const uint8_t *from, size_t length)
{
    begin(WITH(q_one));
    return reference_replay(IMAGE(&run), TABLES(&run), from, length);
}

static bool stands_at(unsigned at, const uint8_t *expected)
{
    return memcmp(trace + at, expected, RECORD) == 0;
}

/* The records byte for byte; stamps go on over 65,535; played again they give the same tables. */
static void record_case(void)
{
    const uint8_t first[] = { 10, 0, 32, 0, 0, 0, 11, 0, 0xFD, 0xFF };
    const uint8_t suspends[] = { 10, 0, 32, 0, 4, 0, 28, 0, 4, 0 }, supplied[] = { 10, 0, 33, 0, 0, 0, 1, 0, 6, 0 };
    struct run end;
    bool good = record();

    end = run;
    good = good && stands_at(0, first) && number_at(trace + 28) == 0xFFFF && number_at(trace + 38) == 0;
    good = good && stands_at(70, suspends) && stands_at(90, supplied) && trace[ALL * RECORD] == 0xAA;
    good = good && replay(trace, ALL * RECORD) == (uint64_t)ALL << 32 && memcmp(&end, &run, sizeof run) == 0;
    good = good && replay(trace, 0) == 0 && total_steps() == 0;
    say("trace of c6, then A = 1", good, "19 records, stamps from 65,533 over 0; played to the same bytes");
}

/* A row of the trace that is full ends a run by the budget; one without room for a record refuses a step. */
static void room_case(void)
{
    struct run before;
    bool good;

    begin(WITH(q_one));
    good = reference_run_traced(IMAGE(&run), TABLES(&run), trace, 39, LIMIT, 0) == (BUDGET << 8 | (uint64_t)3 << 32);
    before = run;
    good = good && reference_step_traced(IMAGE(&run), TABLES(&run), trace, 9, 3, 0) == 11;
    good = good && reference_supply_traced(IMAGE(&run), TABLES(&run), trace, 9, 0, 1, 0) == 11;
    good = good && memcmp(&before, &run, sizeof run) == 0;
    say("trace without room", good, "a run ends behind 3 records, step and supply are refused 11");
}

/* What is refused, each with the offset of its record. */
static void damaged_case(void)
{
    uint8_t other[ALL * RECORD];
    bool good = record();

    memcpy(other, trace, sizeof other);
    other[76] = 26;
    good = good && replay(WITH(other)) == (20 | (uint64_t)70 << 32) && total_steps() == 7 && processes() == 6;
    memcpy(other, trace, 20);
    memcpy(other + 20, trace + 30, sizeof other - 30);
    good = good && replay(other, sizeof other - RECORD) == (19 | (uint64_t)20 << 32) && total_steps() == 0;
    good = good && replay(trace, 95) == (2 | (uint64_t)90 << 32) && replay(other, 85) == (2 | (uint64_t)80 << 32);
    say("traces refused", good, "20 at 70 behind seven steps, 19 at 20, 2 at 90");
}

void trace_cases(void)
{
    record_case();
    room_case();
    damaged_case();
}
