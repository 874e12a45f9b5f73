/* Table bytes in plain C: the check, refusals 1 to 11, by the same passes as crates/table. */
#include <stddef.h>
#include <stdint.h>

typedef struct { uint32_t number, place; } Refusal;
typedef struct { uint32_t signals, nodes, properties; } Counts;
typedef enum { NOTHING, SIGNAL, B, Q, F } Holds;
typedef struct { uint8_t kind, f[3]; } Row;

static const Holds FIELDS[51][3] = {
    [3] = {SIGNAL}, [4] = {B}, [5] = {B, B}, [6] = {B, B},
    [16] = {Q, Q}, [17] = {Q, Q}, [18] = {Q, Q}, [19] = {Q}, [20] = {Q},
    [32] = {Q}, [33] = {F, F}, [34] = {F}, [35] = {B, F, F}, [36] = {B, F}, [37] = {F, B}, [38] = {F}, [39] = {F, B},
    [40] = {Q, F}, [41] = {Q, F}, [42] = {Q},
};

static uint32_t u16_at(const uint8_t *p) { return p[0] | p[1] << 8; }
static uint32_t u32_at(const uint8_t *p) { return u16_at(p) | u16_at(p + 2) << 16; }
static Row row_at(const uint8_t *table, uint32_t n) {
    const uint8_t *p = table + 16 + 4 * n;
    return (Row){p[0], {p[1], p[2], p[3]}};
}
static uint32_t root_at(const uint8_t *table, uint32_t nodes, uint32_t property) { return u16_at(table + 16 + 4 * nodes + 2 * property); }

static int is_boolean(uint8_t kind) { return 1 <= kind && kind <= 6; }
static int is_sequence(uint8_t kind) { return 16 <= kind && kind <= 20; }
static int is_property(uint8_t kind) { return 32 <= kind && kind <= 42; }

static int operand_ok(Holds holds, uint8_t kind) {
    if (holds <= SIGNAL || is_boolean(kind)) return 1;
    return holds == Q ? is_sequence(kind) : holds == F && is_property(kind);
}

static int field_ok(Holds holds, uint8_t value, uint32_t n, uint32_t signals) {
    return holds == NOTHING ? value == 0 : holds == SIGNAL ? value < signals : value < n;
}

/* Numbers 5 to 8 of one row, 0 where it is right. */
static uint32_t row_rule(const uint8_t *table, uint32_t signals, uint32_t n) {
    Row row = row_at(table, n);
    if (48 <= row.kind && row.kind <= 50) return 6;
    if (!is_boolean(row.kind) && !is_sequence(row.kind) && !is_property(row.kind)) return 5;
    for (int k = 0; k < 3; k++)
        if (!field_ok(FIELDS[row.kind][k], row.f[k], n, signals)) return 7;
    for (int k = 0; k < 3; k++)
        if (!operand_ok(FIELDS[row.kind][k], row_at(table, row.f[k]).kind)) return 8;
    return 0;
}

/* Number 10: how often each node is used. */
static Refusal use_rule(const uint8_t *table, Counts c) {
    uint8_t uses[64] = {0};
    for (uint32_t n = 0; n < c.nodes; n++) {
        Row row = row_at(table, n);
        for (int k = 0; k < 3; k++)
            if (FIELDS[row.kind][k] >= B && uses[row.f[k]] < 2) uses[row.f[k]]++;
    }
    for (uint32_t p = 0; p < c.properties; p++) {
        uint32_t root = root_at(table, c.nodes, p);
        if (uses[root] < 2) uses[root]++;
    }
    for (uint32_t n = 0; n < c.nodes; n++)
        if (row_at(table, n).kind >= 16 && uses[n] != 1) return (Refusal){10, n};
    return (Refusal){0, 0};
}

/* Number 11: the cells of weak sequences. */
static Refusal cell_rule(const uint8_t *table, Counts c) {
    uint8_t cells[64];
    for (uint32_t n = 0; n < c.nodes; n++) {
        Row row = row_at(table, n);
        uint32_t count = 1;
        if (16 <= row.kind && row.kind <= 18) count = cells[row.f[0]] + cells[row.f[1]];
        if (19 <= row.kind && row.kind <= 20) count = cells[row.f[0]];
        if (row.kind == 32 && cells[row.f[0]] > 6) return (Refusal){11, n};
        cells[n] = count < 7 ? count : 7;
    }
    return (Refusal){0, 0};
}

static uint32_t header_rule(const uint8_t *table, size_t len, Counts *c) {
    if (len < 16) return 1;
    if (u16_at(table) != 1) return 2;
    *c = (Counts){u16_at(table + 2), u16_at(table + 4), u16_at(table + 6)};
    if (c->signals - 1 > 31 || c->nodes - 1 > 63 || c->properties - 1 > 7) return 3;
    uint32_t roots = 16 + 4 * c->nodes, total = roots + 2 * c->properties;
    return u16_at(table + 8) == 16 && u16_at(table + 10) == roots && u32_at(table + 12) == total && len == total ? 0 : 4;
}

/* Numbers 1 to 11, in the order of document 01. */
static Refusal check_table(const uint8_t *table, size_t len, Counts *c) {
    uint32_t number = header_rule(table, len, c);
    if (number) return (Refusal){number, 0};
    for (uint32_t n = 0; n < c->nodes; n++)
        if ((number = row_rule(table, c->signals, n))) return (Refusal){number, n};
    for (uint32_t p = 0; p < c->properties; p++) {
        uint32_t root = root_at(table, c->nodes, p);
        if (root >= c->nodes || is_sequence(row_at(table, root).kind)) return (Refusal){9, p};
    }
    Refusal r = use_rule(table, *c);
    return r.number ? r : cell_rule(table, *c);
}
