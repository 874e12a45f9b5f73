/* What the example host does not ask of the exports: property numbers that the table has not (refusal 12) and their place in the order,
 * answers to no bytes at all, and that lent bytes stay as they are; the plain names and the prefixed ones, called and as pointers; the
 * exit status for answers of each kind. Prints the answers that are wrong, and 'N passed, M failed'. */
#include <stdio.h>
#include <string.h>

#include "yulbravi.h"

/* Document 01's example: three properties, three signals, two cycles. */
static const uint8_t table[42] = {1, 0, 3, 0, 5, 0, 3, 0, 16, 0, 36, 0, 42, 0, 0, 0, 3, 0, 0, 0, 3,
                                  1, 0, 0, 39, 0, 1, 0, 38, 0, 0, 0, 34, 1, 0, 0, 2, 0, 3, 0, 4, 0};
static const uint8_t trace[20] = {1, 0, 3, 0, 2, 0, 0, 0, 12, 0, 0, 0, 1, 0, 0, 0, 3, 0, 0, 0};

static unsigned passed, failed;

static void expect(const char *what, uint64_t answer, unsigned kind, uint32_t low)
{
    if (answer == (((uint64_t)kind << 32) | low)) {
        passed++;
    } else {
        failed++;
        printf("exports: %s: %llx\n", what, (unsigned long long)answer);
    }
}

static uint32_t refusal(unsigned number, unsigned place)
{
    return (uint32_t)number << 16 | place;
}

/* A pointer to each function, by its plain and by its prefixed name, gets the same answers. */
static void names(void)
{
    uint64_t (*const checks[])(const uint8_t *, size_t) = {check, yulbravi_check};
    uint64_t (*const judges[])(const uint8_t *, size_t, const uint8_t *, size_t, uint32_t) = {judge, yulbravi_judge};
    for (size_t i = 0; i < 2; i++) {
        expect("a check by its pointer", checks[i](table, 3), YULBRAVI_REFUSED, refusal(YULBRAVI_TABLE_SHORT, 0));
        expect("a judge by its pointer", judges[i](table, sizeof table, trace, sizeof trace, 2), YULBRAVI_SETTLED, 2);
    }
    expect("yulbravi_check", yulbravi_check(table, sizeof table), 0, 0);
    expect("yulbravi_judge", yulbravi_judge(table, sizeof table, trace, sizeof trace, 1), YULBRAVI_PENDING, 2);
}

/* Answers in this order have these exit statuses: refused before all, then broken, then pending; 0 for settled ones alone. */
static void statuses(void)
{
    static const uint64_t settled = (uint64_t)YULBRAVI_SETTLED << 32 | 2, pending = (uint64_t)YULBRAVI_PENDING << 32 | 2;
    static const uint64_t broken = (uint64_t)YULBRAVI_BROKEN << 32 | 1, refused = (uint64_t)YULBRAVI_TRACE_WRONG << 16;
    const uint64_t answers[] = {settled, settled, pending, settled, broken, pending, refused, settled};
    static const uint32_t expected[] = {0, 0, 3, 3, 1, 1, 4, 4};
    const uint64_t accepted = 0, unheard_of = (uint64_t)4 << 32;
    for (size_t count = 1; count <= sizeof answers / sizeof answers[0]; count++) {
        expect("status", (uint64_t)yulbravi_status(answers, count), 0, expected[count - 1]);
    }
    expect("status of no answers", (uint64_t)yulbravi_status(answers, 0), 0, YULBRAVI_EXIT_REFUSED);
    expect("status of an accepted table alone", (uint64_t)yulbravi_status(&accepted, 1), 0, YULBRAVI_EXIT_REFUSED);
    expect("status of no kind of answer", (uint64_t)yulbravi_status(&unheard_of, 1), 0, YULBRAVI_EXIT_REFUSED);
}

int main(void)
{
    uint8_t lent_table[sizeof table], lent_trace[sizeof trace];
    memcpy(lent_table, table, sizeof table);
    memcpy(lent_trace, trace, sizeof trace);

    expect("accepted", check(lent_table, sizeof table), 0, 0);
    expect("no table", check(lent_table, 0), YULBRAVI_REFUSED, refusal(YULBRAVI_TABLE_SHORT, 0));
    expect("the example", judge(lent_table, sizeof table, lent_trace, sizeof trace, 1), YULBRAVI_PENDING, 2);

    const uint32_t unknown[] = {3, 8, 256, 65536, 0xFFFFFFFFu};
    for (size_t i = 0; i < sizeof unknown / sizeof unknown[0]; i++) {
        expect("12", judge(lent_table, sizeof table, lent_trace, sizeof trace, unknown[i]), YULBRAVI_REFUSED,
               refusal(YULBRAVI_PROPERTY_UNKNOWN, 0));
    }
    expect("12 before 15", judge(lent_table, sizeof table, lent_trace, 0, 3), YULBRAVI_REFUSED, refusal(YULBRAVI_PROPERTY_UNKNOWN, 0));
    expect("1 before 12", judge(lent_table, 0, lent_trace, sizeof trace, 3), YULBRAVI_REFUSED, refusal(YULBRAVI_TABLE_SHORT, 0));
    expect("no trace", judge(lent_table, sizeof table, lent_trace, 0, 0), YULBRAVI_REFUSED, refusal(YULBRAVI_TRACE_WRONG, 0));

    expect("the table is unchanged", (uint64_t)(memcmp(lent_table, table, sizeof table) != 0), 0, 0);
    expect("the trace is unchanged", (uint64_t)(memcmp(lent_trace, trace, sizeof trace) != 0), 0, 0);

    names();
    statuses();

    printf("%u passed, %u failed\n", passed, failed);
    return failed != 0;
}
