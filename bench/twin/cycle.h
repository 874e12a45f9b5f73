/* One cycle of a property in plain C: the same passes over the same rows with the same state as crates/engine. */
#include <string.h>

typedef struct { uint64_t booleans, sides, weaks; uint8_t root; } Plan;
typedef struct { uint64_t held, a, b; } Expected;
typedef struct { uint64_t ends, early, empty; } Hits;
typedef struct { uint64_t begin, held; int broken; } Pass;

static int bit(uint64_t word, uint8_t k) { return word >> (k & 63) & 1; }
static uint64_t with(uint64_t word, uint8_t k, int on) { return word | (uint64_t)on << (k & 63); }
static int lowest(uint64_t word) { return __builtin_ctzll(word); }
static int highest(uint64_t word) { return 63 - __builtin_clzll(word); }
static uint64_t below(int k) { return ((uint64_t)1 << k) - 1; }

#define ROW(n) (table + 16 + 4 * (n))
#define KIND(n) ROW(n)[0]
#define A(n) ROW(n)[1]
#define B_(n) ROW(n)[2]
#define C(n) ROW(n)[3]

/* The plan, downwards from the root. */
static uint64_t spread(const uint8_t *table, uint8_t least, uint64_t rows) {
    for (int n = 63; n >= 0; n--) {
        if (!bit(rows, n)) continue;
        for (int k = 0; k < 3; k++)
            if (FIELDS[KIND(n)][k] >= B && KIND(ROW(n)[1 + k]) >= least) rows = with(rows, ROW(n)[1 + k], 1);
    }
    return rows;
}

static uint64_t chosen(const uint8_t *table, uint64_t rows, uint8_t low, uint8_t high, uint8_t left) {
    uint64_t found = 0;
    for (; rows; rows &= rows - 1) {
        int n = lowest(rows);
        found = with(found, n, low <= KIND(n) && KIND(n) <= high && KIND(A(n)) >= left);
    }
    return found;
}

static Plan planned(const uint8_t *table, uint8_t root) {
    uint64_t rows = spread(table, 0, with(0, root, 1));
    uint64_t weaks = spread(table, 16, chosen(table, rows, 32, 32, 0));
    uint64_t sequences = chosen(table, rows, 16, 20, 0) & ~weaks;
    return (Plan){chosen(table, rows, 0, 15, 0), chosen(table, rows, 40, 42, 16) | sequences, weaks, root};
}

/* The truth of the Booleans, upwards. */
static uint64_t truths(const uint8_t *table, uint64_t booleans, uint32_t sample) {
    uint64_t truth = 0;
    for (; booleans; booleans &= booleans - 1) {
        int n = lowest(booleans), on;
        if (KIND(n) == 3) {
            truth = with(truth, n, bit(sample, A(n)));
            continue;
        }
        switch (KIND(n)) {
        case 4: on = !bit(truth, A(n)); break;
        case 5: on = bit(truth, A(n)) & bit(truth, B_(n)); break;
        case 6: on = bit(truth, A(n)) | bit(truth, B_(n)); break;
        default: on = KIND(n) == 1;
        }
        truth = with(truth, n, on);
    }
    return truth;
}

/* Left sides and never, upwards. A part: 1 entered now it ends now, 2 an attempt under way ends it, 4 it can be empty. */
static uint8_t seen(uint8_t v, int live, uint64_t truth, const uint8_t parts[64]) {
    if (live) return bit(truth, v) ? 3 : 0;
    return parts[v];
}

static uint8_t then_part(uint8_t a, uint8_t b) {
    if (!((a | b) & 4)) return b & 2;
    return (b & (2 | (a & 4) >> 2)) | (b & 4 ? a & 3 : 0) | (a & b & 4);
}

static uint8_t then_row(uint8_t a, uint8_t v, int live, uint64_t truth, const uint8_t parts[64]) {
    if (live) return bit(truth, v) ? 2 | (a & 4) >> 2 : 0;
    return then_part(a, parts[v]);
}

static uint8_t side_part(uint8_t kind, uint8_t a, uint8_t b) {
    switch (kind) {
    case 17: return (b & 2) | (b & 1 ? a & 3 : 0);
    case 18: return a | b;
    case 19: return a | 4;
    default: return a;
    }
}

static Hits sides_up(const uint8_t *table, Plan plan, uint64_t truth, Expected was, uint8_t lefts[64]) {
    uint8_t parts[64];
    Hits hits = {0, 0, 0};
    for (uint64_t left = plan.booleans; left; left &= left - 1) parts[lowest(left)] = bit(truth, lowest(left));
    for (uint64_t left = plan.sides; left; left &= left - 1) {
        int n = lowest(left);
        uint8_t kind = KIND(n), a = seen(A(n), bit(was.a, n), truth, parts);
        lefts[n] = a;
        if (kind == 16) {
            parts[n] = then_row(a, B_(n), bit(was.b, n), truth, parts);
        } else if (kind >= 32) {
            hits.ends = with(hits.ends, n, (a & 2) != 0);
            hits.early = with(hits.early, n, a & 1);
            hits.empty = with(hits.empty, n, (a & 4) != 0);
        } else {
            parts[n] = side_part(kind, a, kind <= 18 ? seen(B_(n), bit(was.b, n), truth, parts) : 0);
        }
    }
    return hits;
}

/* The property rows, downwards. */
static int ends_left(const uint8_t *table, int n, uint64_t truth, Hits hits, int on) {
    return bit(hits.ends, n) | ((bit(hits.early, n) | bit(truth, A(n))) & on);
}

static void property_row(const uint8_t *table, int n, uint64_t was, uint64_t truth, Hits hits, Pass *p) {
    int on;
    switch (KIND(n)) {
    case 33: p->begin = with(with(p->begin, A(n), 1), B_(n), 1); break;
    case 34: p->begin = with(p->begin, A(n), bit(was, n)); p->held = with(p->held, n, bit(p->begin, n)); break;
    case 35: p->begin = with(p->begin, bit(truth, A(n)) ? B_(n) : C(n), 1); break;
    case 36: p->begin = with(p->begin, B_(n), bit(truth, A(n))); break;
    case 37: p->begin = with(p->begin, A(n), !bit(truth, B_(n))); break;
    case 38: p->begin = with(p->begin, A(n), 1); p->held = with(p->held, n, 1); break;
    case 39: on = !bit(truth, B_(n)); p->begin = with(p->begin, A(n), on); p->held = with(p->held, n, on); break;
    case 40: p->begin = with(p->begin, B_(n), ends_left(table, n, truth, hits, bit(p->begin, n))); break;
    case 41:
        on = ends_left(table, n, truth, hits, bit(p->begin, n));
        p->begin = with(p->begin, B_(n), bit(was | (p->begin & hits.empty), n));
        p->held = with(p->held, n, on);
        break;
    default:
        on = bit(p->begin | was, n);
        p->held = with(p->held, n, on);
        p->broken |= ends_left(table, n, truth, hits, on);
    }
}

static Pass properties_down(const uint8_t *table, uint64_t first, uint64_t leaves, uint64_t was, uint64_t truth, Hits hits) {
    Pass p = {first, 0, 0};
    uint64_t left = (p.begin | was | hits.ends) & ~leaves;
    while (left) {
        int n = highest(left);
        property_row(table, n, was, truth, hits, &p);
        left = (p.begin | was | hits.ends) & ~leaves & below(n);
    }
    return p;
}

/* Left sides and never, downwards. A use: 1 entered now, 2 entered next. */
static uint8_t side_ended(uint8_t a, uint8_t used) { return (a | (a & used & 1) << 1) & 2; }

static uint8_t side_right(uint8_t kind, uint8_t a, uint8_t used) {
    if (kind == 16) {
        if (a == 0) return 0;
        if ((a & 6) == 2) return 2;
        return side_ended(a, used) | (a & 4 ? used : 0);
    }
    return kind == 17 ? side_ended(a, used) >> 1 : used;
}

static void side_handed(int n, uint8_t v, uint8_t used, uint64_t booleans, uint64_t *word, uint8_t uses[64]) {
    if (bit(booleans, v)) *word = with(*word, n, (used & 2) != 0);
    else uses[v] = used;
}

static void sides_down(const uint8_t *table, Plan plan, Pass p, const uint8_t lefts[64], Expected *next) {
    uint8_t uses[64];
    for (uint64_t left = plan.sides; left;) {
        int n = highest(left);
        left &= below(n);
        uint8_t kind = KIND(n), a = lefts[n], used = uses[n];
        if (kind <= 18) side_handed(n, B_(n), side_right(kind, a, used), plan.booleans, &next->b, uses);
        else if (kind < 32) used |= side_ended(a, used);
        else used = bit(kind == 42 ? p.held : p.begin, n);
        side_handed(n, A(n), used, plan.booleans, &next->a, uses);
    }
}

/* Weak sequences, upwards. An act: bits 0 to 5 the cells that end the part, 64 entered now it ends now, 128 it can be empty. */
static uint8_t shifted(uint8_t act, uint8_t k) { return (act & 63) << (k & 7) & 63; }

static uint8_t weak_act(uint8_t kind, uint8_t a, uint8_t b, uint8_t k) {
    switch (kind) {
    case 16:
        if (!((a | b) & 128)) return shifted(b, k);
        return shifted(b, k) | (a & 128 ? b & 64 : 0) | (b & 128 ? a & 127 : 0) | (a & b & 128);
    case 17: return shifted(b, k) | (b & 64 ? a & 127 : 0);
    default: return shifted(b, k) | (b & 192) | a;
    }
}

static void weaks_up(const uint8_t *table, Plan plan, uint64_t truth, uint8_t acts[64], uint8_t counts[64]) {
    for (uint64_t left = plan.booleans; left; left &= left - 1) {
        int n = lowest(left);
        acts[n] = bit(truth, n) ? 65 : 0;
        counts[n] = 1;
    }
    for (uint64_t left = plan.weaks; left; left &= left - 1) {
        int n = lowest(left);
        uint8_t kind = KIND(n), a = acts[A(n)], k = counts[A(n)];
        if (kind <= 18) {
            acts[n] = weak_act(kind, a, acts[B_(n)], k);
            counts[n] = k + counts[B_(n)];
        } else {
            acts[n] = kind == 19 ? a | 128 : a;
            counts[n] = k;
        }
    }
}

/* Weak sequences, downwards. A use: the place of the first cell, the lanes that enter now, those that enter next. */
typedef struct { uint8_t place, into, go; } Use;

static uint8_t weak_ended(uint8_t a, Use u) { return shifted(a, u.place) | (a & 64 ? u.into : 0); }

static Use weak_right(uint8_t kind, uint8_t a, uint8_t k, Use u) {
    uint8_t place = u.place + k;
    if (kind == 16 && a < 64) return (Use){place, 0, shifted(a, u.place)};
    if (kind == 16) return (Use){place, a & 128 ? u.into : 0, weak_ended(a, u) | (a & 128 ? u.go : 0)};
    if (kind == 17) return (Use){place, weak_ended(a, u), 0};
    return (Use){place, u.into, u.go};
}

static void weak_handed(uint8_t v, Use u, uint64_t booleans, Use uses[64], uint8_t leads[256]) {
    if (bit(booleans, v)) leads[u.place] |= u.go;
    else uses[v] = u;
}

static int weaks_down(const uint8_t *table, Plan plan, uint64_t begin, const uint8_t acts[64], const uint8_t counts[64],
                      uint8_t leads[256], uint8_t tops[32]) {
    Use uses[64];
    int w = 0;
    for (uint64_t left = plan.weaks; left;) {
        int n = highest(left);
        left &= below(n);
        uint8_t kind = KIND(n), v = A(n), a = acts[v];
        if (kind == 32) {
            int on = bit(begin, n);
            tops[w] = on ? (a & 127) | 128 : a & 63;
            weak_handed(v, (Use){8 * w, on ? 64 : 0, 0}, plan.booleans, uses, leads);
            w++;
            continue;
        }
        Use u = uses[n];
        if (kind <= 18) weak_handed(B_(n), weak_right(kind, a, counts[v], u), plan.booleans, uses, leads);
        else u.go |= weak_ended(a, u);
        weak_handed(v, u, plan.booleans, uses, leads);
    }
    return w;
}

/* The families: bit s says that some live attempt expects just the cells s. */
static uint64_t without(uint64_t family, uint8_t ends) {
    static const uint64_t without_cell[6] = {0x5555555555555555, 0x3333333333333333, 0x0f0f0f0f0f0f0f0f,
                                             0x00ff00ff00ff00ff, 0x0000ffff0000ffff, 0x00000000ffffffff};
    for (int q = 0; q < 6; q++)
        if (ends >> q & 1) family &= without_cell[q];
    return family;
}

static void images(uint8_t x, uint8_t y, uint8_t z, uint8_t to[8]) {
    uint8_t all[8] = {0, x, y, y | x, z, z | x, z | y, z | y | x};
    memcpy(to, all, 8);
}

static uint64_t family_moved(uint64_t family, uint64_t sets) {
    uint64_t next = 0;
    uint8_t low[8], high[8];
    if (!family) return 0;
    images(sets & 63, sets >> 8 & 63, sets >> 16 & 63, low);
    images(sets >> 24 & 63, sets >> 32 & 63, sets >> 40 & 63, high);
    for (; family; family &= family - 1) {
        int p = lowest(family);
        next |= (uint64_t)1 << (high[p >> 3] | low[p & 7]);
    }
    return next;
}

static uint64_t families_moved(int count, uint64_t families[32], const uint8_t leads[256], const uint8_t tops[32]) {
    uint64_t all = 0;
    for (int w = 0; w < count; w++) {
        uint8_t top = tops[w];
        if (!families[w] && top < 128) continue;
        uint64_t sets = 0; /* byte l: the cells that lane l leads to */
        for (int q = 0; q < 6; q++) sets |= ((leads[8 * w + q] & 127) * 0x2040810204081 & 0x0101010101010101) << q;
        uint64_t next = family_moved(without(families[w], top), sets);
        if ((top & 192) == 128) next |= (uint64_t)1 << (sets >> 48 & 63);
        families[w] = next;
        all |= next;
    }
    return all;
}

static uint64_t weaks_moved(const uint8_t *table, Plan plan, uint64_t begin, uint64_t truth, uint64_t families[32]) {
    uint8_t acts[64], counts[64], leads[256], tops[32];
    if (!plan.weaks) return 0;
    memset(leads, 0, sizeof leads);
    weaks_up(table, plan, truth, acts, counts);
    int count = weaks_down(table, plan, begin, acts, counts, leads, tops);
    return families_moved(count, families, leads, tops);
}

/* One cycle; `first` is the root at the first, else nothing. Answers whether it breaks (1), whether nothing is expected any more (2). */
static int cycle(const uint8_t *table, Plan plan, Expected *e, uint64_t first, uint32_t sample, uint64_t families[32]) {
    uint8_t lefts[64];
    Hits hits = {0, 0, 0};
    uint64_t truth = truths(table, plan.booleans, sample);
    if (plan.sides) hits = sides_up(table, plan, truth, *e, lefts);
    Pass p = properties_down(table, first, plan.booleans | plan.weaks, e->held, truth, hits);
    Expected next = {p.held, 0, 0};
    sides_down(table, plan, p, lefts, &next);
    uint64_t all = weaks_moved(table, plan, p.begin, truth, families);
    *e = next;
    int broken = p.broken | ((p.begin & plan.booleans & ~truth) != 0) | (all & 1);
    return broken | (!(next.held | next.a | next.b | all) << 1);
}
