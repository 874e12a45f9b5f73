/* The program `judge` in plain C: the same files, the same checks and passes in the same order, the same lines out. It is what the proved
 * program's instructions are held against; nothing is proved of it. */
#include <stdio.h>
#include "table.h"
#include "cycle.h"

enum { BROKEN, SETTLED, PENDING };
static const char *const NAMES[] = {"broken", "settled", "pending"};

typedef struct {
    Plan plan;
    Expected expected;
    uint32_t verdict, cycle;
    uint64_t families[32];
} Monitor;

static uint32_t sample_at(const uint8_t *trace, uint32_t i) { return u32_at(trace + 12 + 4 * (size_t)i); }
static int undeclared(uint32_t sample, uint32_t signals) { return (uint64_t)sample >> signals != 0; }

/* Refusal 15, then 13. */
static Refusal check_trace(const uint8_t *trace, size_t len, uint32_t signals) {
    if (len < 12 || u16_at(trace) != 1 || u16_at(trace + 2) != signals) return (Refusal){15, 0};
    uint32_t cycles = u32_at(trace + 4);
    if (cycles > 16381 || u32_at(trace + 8) != 12 || len != 12 + 4 * (size_t)cycles) return (Refusal){15, 0};
    for (uint32_t i = 0; i < cycles; i++)
        if (undeclared(sample_at(trace, i), signals)) return (Refusal){13, i + 1};
    return (Refusal){0, 0};
}

/* One sample; answers 13 or 14 where it is refused. */
static uint32_t step(const uint8_t *table, Monitor *m, uint32_t sample) {
    if (undeclared(sample, table[2])) return 13;
    if (m->verdict != PENDING) return 0;
    if (m->cycle == 4294967295u) return 14;
    uint64_t first = with(0, m->plan.root, m->cycle == 0);
    int outcome = cycle(table, m->plan, &m->expected, first, sample, m->families);
    m->cycle++;
    m->verdict = outcome & 1 ? BROKEN : outcome & 2 ? SETTLED : PENDING;
    return 0;
}

static Refusal judge(const uint8_t *table, size_t table_len, const uint8_t *trace, size_t trace_len, uint32_t property, Monitor *m) {
    Counts c;
    Refusal r = check_table(table, table_len, &c);
    if (r.number) return r;
    if (property >= c.properties) return (Refusal){12, 0};
    r = check_trace(trace, trace_len, c.signals);
    if (r.number) return r;
    *m = (Monitor){.plan = planned(table, root_at(table, c.nodes, property)), .verdict = PENDING};
    uint32_t cycles = u32_at(trace + 4);
    for (uint32_t i = 0; i < cycles; i++) step(table, m, sample_at(trace, i));
    return r;
}

static size_t read_file(const char *name, uint8_t *room, size_t size) {
    FILE *f = fopen(name, "rb");
    if (!f) return 0;
    size_t n = fread(room, 1, size, f);
    fclose(f);
    return n;
}

int main(void) {
    static uint8_t table[289], trace[65537];
    size_t table_len = read_file("table.bin", table, sizeof table), trace_len = read_file("trace.bin", trace, sizeof trace);
    Monitor m;
    for (uint32_t p = 0; p == 0 || p < u16_at(table + 6); p++) {
        Refusal r = judge(table, table_len, trace, trace_len, p, &m);
        if (r.number) return printf("refused %u %u\n", r.number, r.place), 0;
        if (p == 0) printf("cycles %u\n", u32_at(trace + 4));
        printf("%u %s %u\n", p, NAMES[m.verdict], m.cycle);
    }
    return 0;
}
