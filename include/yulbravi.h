/* yulbravi.h: the table check and the judge, for a host in C (C99 or later) or C++ (C++11 or later).
 *
 * Link with the flags of `pkg-config --cflags --libs yulbravi` where `bin/install` put the files, or name libyulbravi.a after the host's
 * own files; in a clone `examples/host/build` does it. The library is for x86-64. docs/host.md is the page for authors of hosts.
 *
 * Both functions only read the bytes that they are lent, for the time of the call; they keep nothing, allocate nothing and call nothing
 * (but memcpy, where a compiler puts one), so threads may call them at once. Any bytes of any length get an answer. A pointer is not
 * null, and points to as many bytes as its length says.
 *
 * An answer is one number of 64 bits:
 *
 *   bits 63..34   0
 *   bits 33..32   kind: 0 refused, 1 broken, 2 settled, 3 pending
 *   bits 31..0    of a verdict: its cycle
 *   bits 31..20   of a refusal: 0
 *   bits 19..16   of a refusal: its number, 1 to 15
 *   bits 15..0    of a refusal: its place
 *
 * 0 alone says that a table is accepted. Only `check` answers 0.
 */
#ifndef YULBRAVI_H
#define YULBRAVI_H

#include <stddef.h>
#include <stdint.h>

#ifdef __cplusplus
extern "C" {
#endif

/* 0 if the table is accepted; else its refusal, number 1 to 11. */
uint64_t yulbravi_check(const uint8_t *table, size_t table_len);

/* The verdict on a property of the table, numbered from 0, after the whole trace; or the first refusal in the order
 * 1 to 11 (table), 12 (property), 15 (trace file), 13 (lowest cycle). */
uint64_t yulbravi_judge(const uint8_t *table, size_t table_len, const uint8_t *trace, size_t trace_len, uint32_t property);

/* The same two functions under their plain names. Define YULBRAVI_PREFIXED_ONLY before this header is included to go without them.
 *
 * Plain names are easily had by somebody else too. A function `check` or `judge` of the host's own, with external linkage, in any of its
 * files: a call of a prefixed name then does not link ("multiple definition of check"), which is what is wanted; a call of a plain name
 * may be given the host's own function without a word. So call the prefixed names. A static function of its own name is no clash where
 * YULBRAVI_PREFIXED_ONLY is defined; where it is not, the compiler tells. */
#ifndef YULBRAVI_PREFIXED_ONLY
uint64_t check(const uint8_t *table, size_t table_len);
uint64_t judge(const uint8_t *table, size_t table_len, const uint8_t *trace, size_t trace_len, uint32_t property);
#endif

/* Kinds of answers. A broken or settled property stays so however the recording goes on; pending is not a pass. */
enum {
    YULBRAVI_REFUSED = 0, /* nothing was judged: see the refusal's number and place */
    YULBRAVI_BROKEN = 1,  /* the first `cycle` samples are the shortest stretch that breaks the property */
    YULBRAVI_SETTLED = 2, /* the first `cycle` samples are the shortest stretch that secures it */
    YULBRAVI_PENDING = 3  /* the trace does neither; `cycle` is the number of samples in it */
};

/* words: refusals */
/* Numbers of refusals: what each says, and what its place is. */
enum {
    YULBRAVI_TABLE_SHORT = 1,        /* the table has fewer than 16 bytes; 0 */
    YULBRAVI_TABLE_VERSION = 2,      /* the table's version is not 1; 0 */
    YULBRAVI_TABLE_COUNTS = 3,       /* signals not 1 to 32, rows not 1 to 64, or properties not 1 to 8; 0 */
    YULBRAVI_TABLE_LENGTH = 4,       /* an offset, the total or the file's length is wrong; 0 */
    YULBRAVI_KIND_UNKNOWN = 5,       /* the row's kind is none of the list; the row */
    YULBRAVI_KIND_STRONG = 6,        /* a strong operator: next!, until!, eventually!; the row */
    YULBRAVI_FIELD_WRONG = 7,        /* an operand names no earlier row, a signal is not declared, or an unused field is not 0; the row */
    YULBRAVI_CLASS_WRONG = 8,        /* an operand of the wrong class, as a property where a Boolean belongs; the row */
    YULBRAVI_ROOT_WRONG = 9,         /* the property's root is no row, or is a sequence; the property */
    YULBRAVI_USED_NOT_ONCE = 10,     /* a sequence or property row is used never or more than once; the row */
    YULBRAVI_CELLS_TOO_MANY = 11,    /* a weak sequence of more than 6 cells; the row */
    YULBRAVI_PROPERTY_UNKNOWN = 12,  /* there is no property of this number; 0 */
    YULBRAVI_SIGNAL_UNDECLARED = 13, /* a sample sets a bit that is no signal of the table; the cycle, from 1 */
    YULBRAVI_CYCLES_TOO_MANY = 14,   /* 4,294,967,295 cycles are read and the property is still pending, or the monitor's opening was refused; 0 */
    YULBRAVI_TRACE_WRONG = 15        /* the trace's header or length is wrong, or it is of another number of signals than the table; 0 */
};

/* What the number of a refusal says; of any other number nothing. */
static inline const char *yulbravi_what(unsigned number)
{
    switch (number) {
    case 1: return "the table has fewer than 16 bytes";
    case 2: return "the table's version is not 1";
    case 3: return "signals not 1 to 32, rows not 1 to 64, or properties not 1 to 8";
    case 4: return "an offset, the total or the file's length is wrong";
    case 5: return "the row's kind is none of the list";
    case 6: return "a strong operator: next!, until!, eventually!";
    case 7: return "an operand names no earlier row, a signal is not declared, or an unused field is not 0";
    case 8: return "an operand of the wrong class, as a property where a Boolean belongs";
    case 9: return "the property's root is no row, or is a sequence";
    case 10: return "a sequence or property row is used never or more than once";
    case 11: return "a weak sequence of more than 6 cells";
    case 12: return "there is no property of this number";
    case 13: return "a sample sets a bit that is no signal of the table";
    case 14: return "4,294,967,295 cycles are read and the property is still pending, or the monitor's opening was refused";
    case 15: return "the trace's header or length is wrong, or it is of another number of signals than the table";
    default: return "";
    }
}

/* What to do about it. */
static inline const char *yulbravi_to_do(unsigned number)
{
    switch (number) {
    case 1: return "copy the file again, or name the right one; one that is missing or cannot be read counts as empty";
    case 2: return "this is no table file, or one of a later kind: ask the kit's author";
    case 3: return "split a large kit into several tables; mend a count of 0";
    case 4: return "the file was cut or grew on its way: copy it again; else write the header anew";
    case 5: return "mend the row; the kinds are in RULES.md";
    case 6: return "these ask for what may come after any recording's end: use the weak form, or a bound, as property 0 of "
                    "examples/handshake has";
    case 7: return "put rows after those that they use; raise the signals in the header";
    case 8: return "only Booleans can be negated, stand before -> or after until; a sequence is made a property by weak {..}";
    case 9: return "name the row of weak {..} or never {..} over the sequence";
    case 10: return "remove it, or copy it: each use needs its own row; Booleans may be shared";
    case 11: return "shorten it; a first part of one length can go before, weak {a ; b} and {a ; b} |=> weak {rest}. Left sides and"
                    " never may be longer";
    case 12: return "numbers go from 0 to one less than the table's count; hosts in C and recorders that open a monitor meet this, "
                    "the commands never";
    case 13: return "the recorder has more wires than the kit declares, or the trace is of another kit: leave those wires out, or "
                    "declare them in the table";
    case 14: return "open a new monitor, or look at that refusal; only monitors that are fed cycle by cycle answer it";
    case 15: return "copy it again, or give the trace that belongs to the table; of more than 16,381 cycles give the first 16,381. "
                    "One that is missing counts as empty";
    default: return "";
    }
}

/* What the place of a refusal names: row, property or cycle; nothing where it is 0. */
static inline const char *yulbravi_place_is(unsigned number)
{
    switch (number) {
    case 5: return "row";
    case 6: return "row";
    case 7: return "row";
    case 8: return "row";
    case 9: return "property";
    case 10: return "row";
    case 11: return "row";
    case 13: return "cycle";
    default: return "";
    }
}

/* What is told, and what to do, of a trace given as a table and of a table given as a trace. */
#define YULBRAVI_TRACE_AS_TABLE "this is a trace, and a table is wanted here"
#define YULBRAVI_TRACE_AS_TABLE_TO_DO "give the table in its place: of two files it is the first, in a folder table.bin"
#define YULBRAVI_TABLE_AS_TRACE "this is a table, and a trace is wanted here"
#define YULBRAVI_TABLE_AS_TRACE_TO_DO "give the trace in its place: of two files it is the second, in a folder trace.bin"
/* end of words: refusals */

/* The most bytes that an accepted table and a trace that is judged have: a host that reads one more sees that a file is too long.
 * The most properties that an accepted table has. */
enum {
    YULBRAVI_TABLE_BYTES = 288,   /* 16 + 4 * 64 rows + 2 * 8 properties */
    YULBRAVI_TRACE_BYTES = 65536, /* 12 + 4 * 16381 cycles */
    YULBRAVI_PROPERTIES = 8
};

/* YULBRAVI_REFUSED, .._BROKEN, .._SETTLED or .._PENDING. Not to be asked of `check`, whose 0 is no refusal. */
static inline unsigned yulbravi_kind(uint64_t answer)
{
    return (unsigned)(answer >> 32);
}

/* The cycle of a verdict: the number of samples in the stretch that it speaks of. */
static inline uint32_t yulbravi_cycle(uint64_t answer)
{
    return (uint32_t)answer;
}

/* The number of a refusal, 1 to 15; 0 for the answer of `check` to an accepted table. */
static inline unsigned yulbravi_number(uint64_t answer)
{
    return (unsigned)(answer >> 16) & 0xFFFFu;
}

/* The place of a refusal. */
static inline unsigned yulbravi_place(uint64_t answer)
{
    return (unsigned)answer & 0xFFFFu;
}

/* Properties of an accepted table: they are numbered from 0 to one less. */
static inline uint32_t yulbravi_properties(const uint8_t *table)
{
    return (uint32_t)table[6] | (uint32_t)table[7] << 8;
}

/* Cycles of a trace that is not refused. */
static inline uint32_t yulbravi_cycles(const uint8_t *trace)
{
    return (uint32_t)trace[4] | (uint32_t)trace[5] << 8 | (uint32_t)trace[6] << 16 | (uint32_t)trace[7] << 24;
}

/* Whether bytes begin as a trace does, and as a table does: to tell files that stand in each other's place. */
static inline int yulbravi_is_trace(const uint8_t *bytes, size_t length)
{
    return length >= 12 && bytes[0] == 1 && bytes[1] == 0 && bytes[8] == 12 && bytes[9] == 0 && bytes[10] == 0 && bytes[11] == 0;
}

static inline int yulbravi_is_table(const uint8_t *bytes, size_t length)
{
    return length >= 16 && bytes[0] == 1 && bytes[1] == 0 && bytes[8] == 16 && bytes[9] == 0 &&
           ((unsigned)bytes[10] | (unsigned)bytes[11] << 8) == 16 + 4 * ((unsigned)bytes[4] | (unsigned)bytes[5] << 8);
}

/* words: statuses */
/* Exit statuses, as the commands have them. */
enum {
    YULBRAVI_EXIT_SETTLED = 0, /* every property is settled; of check, the table is accepted */
    YULBRAVI_EXIT_BROKEN = 1,  /* a property is broken */
    YULBRAVI_EXIT_NOT_RUN = 2, /* not run: used wrongly, a file that is not there or cannot be read, or output that could not be written */
    YULBRAVI_EXIT_PENDING = 3, /* no property is broken and at least one is pending: not a pass */
    YULBRAVI_EXIT_REFUSED = 4  /* refused: nothing is judged */
};
/* end of words: statuses */

/* The exit status for the answers to all properties of a table: refused before all, then broken, then pending; settled only if all are.
 * The refusal of a table is one answer. No answers at all are YULBRAVI_EXIT_REFUSED, since nothing was judged; so is the 0 of a check. */
static inline int yulbravi_status(const uint64_t *answers, size_t count)
{
    size_t broken = 0, pending = 0, settled = 0;
    for (size_t i = 0; i < count; i++) {
        broken += yulbravi_kind(answers[i]) == YULBRAVI_BROKEN;
        pending += yulbravi_kind(answers[i]) == YULBRAVI_PENDING;
        settled += yulbravi_kind(answers[i]) == YULBRAVI_SETTLED;
    }
    if (count == 0 || broken + pending + settled < count) {
        return YULBRAVI_EXIT_REFUSED;
    }
    if (broken > 0) {
        return YULBRAVI_EXIT_BROKEN;
    }
    return pending > 0 ? YULBRAVI_EXIT_PENDING : YULBRAVI_EXIT_SETTLED;
}

#ifdef __cplusplus
}
#endif

#endif
