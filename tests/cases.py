"""tests/cases.py OUT: a folder OUT/NAME for each case, with table.bin, trace.bin and the verdicts that they must get.

The document's own example, every refusal that a file can get, with its place and in its order, the limits on both sides, and left sides that
can be empty. What is expected is written here by hand, from document 01 and ticket 2.
"""
import pathlib
import sys

sys.dont_write_bytecode = True
from made import table, trace  # noqa: E402 (no bytecode is left beside it)

OUT = pathlib.Path(sys.argv[1])

SIGNAL, NOT, THEN, FUSE, ALT, STAR, PLUS = 3, 4, 16, 17, 18, 19, 20
WEAK, ALWAYS, UNTIL, SUFFIX, SUFFIX_NEXT, NEVER = 32, 38, 39, 40, 41, 42


def changed(data, at, *values):
    return data[:at] + bytes(values) + data[at + len(values) :]


def case(name, table_bytes, trace_bytes, *lines):
    folder = OUT / name
    folder.mkdir(parents=True)
    (folder / "table.bin").write_bytes(table_bytes)
    (folder / "trace.bin").write_bytes(trace_bytes)
    (folder / "verdicts.txt").write_text("".join(line + "\n" for line in lines))


# always a; a until b; never {b ; b}: with these the last of many cycles can break, settle or leave pending.
ROWS = [(SIGNAL, 0), (SIGNAL, 1), (ALWAYS, 0), (UNTIL, 0, 1), (THEN, 1, 1), (NEVER, 4)]
THREE = table(2, ROWS, [2, 3, 5])
TWO_CYCLES = trace(2, [1, 1])


def document():
    rows = "03 00 00 00 03 01 00 00 27 00 01 00 26 00 00 00 22 01 00 00"
    example = bytes.fromhex(f"01 00 03 00 05 00 03 00 10 00 24 00 2A 00 00 00 {rows} 02 00 03 00 04 00")
    recording = bytes.fromhex("01 00 03 00 02 00 00 00 0C 00 00 00 01 00 00 00 03 00 00 00")
    case("document", example, recording, "cycles 2", "0 settled 2", "1 pending 2", "2 settled 2")


def refused_headers():
    for length in (0, 15):
        case(f"table-of-{length}", THREE[:length], TWO_CYCLES, "refused 1 0")
    case("table-version", changed(THREE, 0, 2), TWO_CYCLES, "refused 2 0")
    case("signals-0", changed(THREE, 2, 0), TWO_CYCLES, "refused 3 0")
    case("signals-33", changed(THREE, 2, 33), TWO_CYCLES, "refused 3 0")
    case("rows-65", table(1, [(SIGNAL, 0)] * 65, [0]), TWO_CYCLES, "refused 3 0")
    case("properties-9", table(1, [(SIGNAL, 0)], [0] * 9), TWO_CYCLES, "refused 3 0")
    case("table-cut", THREE[:-1], TWO_CYCLES, "refused 4 0")
    case("table-total", changed(THREE, 12, 0), TWO_CYCLES, "refused 4 0")


def refused_rows():
    case("kind-7", table(2, [(SIGNAL, 0), (7, 0)], [0]), TWO_CYCLES, "refused 5 1")
    case("kind-strong", table(2, [(SIGNAL, 0), (49, 0)], [0]), TWO_CYCLES, "refused 6 1")
    case("operand-itself", table(2, [(SIGNAL, 0), (NOT, 1)], [0]), TWO_CYCLES, "refused 7 1")
    case("signal-undeclared", table(2, [(SIGNAL, 0), (SIGNAL, 2)], [0]), TWO_CYCLES, "refused 7 1")
    case("field-unused", table(2, [(SIGNAL, 0), (NOT, 0, 0, 1)], [0]), TWO_CYCLES, "refused 7 1")
    case("class-wrong", table(2, [(SIGNAL, 0), (ALWAYS, 0), (NOT, 1)], [0]), TWO_CYCLES, "refused 8 2")
    case("root-none", table(2, ROWS, [2, 3, 5, 6]), TWO_CYCLES, "refused 9 3")
    case("root-sequence", table(2, ROWS, [2, 4]), TWO_CYCLES, "refused 9 1")
    case("used-never", table(2, ROWS, [2, 5]), TWO_CYCLES, "refused 10 3")
    case("used-twice", table(2, ROWS, [2, 3, 5, 5]), TWO_CYCLES, "refused 10 5")


def refused_traces():
    case("trace-empty", THREE, b"", "refused 15 0")
    case("trace-of-11", THREE, TWO_CYCLES[:11], "refused 15 0")
    case("trace-version", THREE, changed(TWO_CYCLES, 0, 2), "refused 15 0")
    case("trace-signals", THREE, trace(3, [1, 1]), "refused 15 0")
    case("trace-offset", THREE, changed(TWO_CYCLES, 8, 16), "refused 15 0")
    case("trace-short", THREE, TWO_CYCLES[:-1], "refused 15 0")
    case("trace-long", THREE, TWO_CYCLES + b"\0", "refused 15 0")
    case("bit-2", THREE, trace(2, [1, 7, 4]), "refused 13 2")
    case("bit-31", THREE, trace(2, [1, 1, 1 << 31]), "refused 13 3")
    case("bit-before-verdict", THREE, trace(2, [0, 4]), "refused 13 2")
    case("table-before-trace", THREE[:15], b"", "refused 1 0")
    case("trace-before-bit", THREE, trace(2, [4]) + b"\0", "refused 15 0")


def chain(cells):
    """A weak sequence of so many cells, in signal 0."""
    rows = [(SIGNAL, 0)] + [(THEN, i, 0) for i in range(cells - 1)]
    return table(1, rows + [(WEAK, cells - 1)], [cells])


def limits():
    most = [1] * 16380 + [2]
    verdicts = ("cycles 16381", "0 broken 16381", "1 settled 16381", "2 pending 16381")
    case("cycles-16381", THREE, trace(2, most), *verdicts)
    case("cycles-16381-and-a-byte", THREE, trace(2, most) + b"\0", "refused 15 0")
    case("cycles-16382", THREE, trace(2, most + [1]), "refused 15 0")
    case("cycles-50000", THREE, trace(2, [1] * 50000), "refused 15 0")
    case("bit-in-cycle-16381", THREE, trace(2, most[:-1] + [4]), "refused 13 16381")
    full = table(32, [(SIGNAL, i % 32) for i in range(56)] + [(ALWAYS, i) for i in range(8)], list(range(56, 64)))
    ones = trace(32, [(1 << 32) - 1, 0xFFFFFF7F])
    lines = [f"{i} pending 2" for i in range(7)] + ["7 broken 2"]
    case("table-of-288", full, ones, "cycles 2", *lines)
    case("table-of-289", full + b"\0", ones, "refused 4 0")
    case("table-of-100000", full + bytes(99712), ones, "refused 4 0")
    case("cells-6", chain(6), trace(1, [1] * 6), "cycles 6", "0 settled 6")
    case("cells-7", chain(7), trace(1, [1] * 6), "refused 11 7")


def left_sides():
    """Seven properties over a, b, c: where the left side of |=> can be empty, its right side is owed from the first cycle."""
    rows = [(SIGNAL, 0), (SIGNAL, 1), (SIGNAL, 2)]
    rows += [(STAR, 0), (SUFFIX_NEXT, 3, 1)]  # {a[*]} |=> b
    rows += [(STAR, 0), (STAR, 1), (THEN, 5, 6), (SUFFIX_NEXT, 7, 2)]  # {a[*] ; b[*]} |=> c
    rows += [(STAR, 1), (ALT, 0, 9), (SUFFIX_NEXT, 10, 2)]  # {a | b[*]} |=> c
    rows += [(STAR, 0), (PLUS, 12), (SUFFIX_NEXT, 13, 2)]  # {{a[*]}[+]} |=> c
    rows += [(STAR, 0), (STAR, 1), (FUSE, 15, 16), (SUFFIX_NEXT, 17, 2)]  # {a[*] : b[*]} |=> c, which cannot be empty
    rows += [(STAR, 0), (SUFFIX_NEXT, 19, 1), (ALWAYS, 20)]  # always ({a[*]} |=> b)
    rows += [(STAR, 0), (SUFFIX, 22, 1)]  # {a[*]} |-> b, where only matches that are not empty count
    seven = table(3, rows, [4, 8, 11, 14, 18, 21, 23])
    for name, samples, verdicts in (
        ("none", [], ["pending 0"] * 7),
        ("nothing-on", [0], ["broken 1"] * 4 + ["settled 1", "broken 1", "settled 1"]),
        ("abc-then-bc", [7, 6], ["settled 2", "pending 2", "pending 2", "settled 2", "pending 2", "pending 2", "settled 2"]),
        ("abc-then-ac", [7, 5], ["broken 2", "pending 2", "settled 2", "pending 2", "pending 2", "broken 2", "broken 2"]),
    ):
        case(f"left-sides-{name}", seven, trace(3, samples), f"cycles {len(samples)}", *(f"{i} {verdict}" for i, verdict in enumerate(verdicts)))


document()
refused_headers()
refused_rows()
refused_traces()
limits()
left_sides()
