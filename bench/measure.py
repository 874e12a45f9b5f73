"""measure.py WORK LIB: measures with what bench/run has built in WORK, prints the table, puts it into docs/CONTROLLER.md, draws docs/bench.svg.

LIB has the loader and the C library that the proved program runs with. Instructions per sample are those of a trace of 2N cycles less those of
one of N, by N: what is done once for a file falls out.
"""
import functools
import os
import subprocess
import sys

sys.dont_write_bytecode = True
import cases
import plot
import stack
import tables

WORK, LIB = sys.argv[1:3]
HERE = os.path.dirname(os.path.abspath(__file__))
DOCS = os.path.join(os.path.dirname(HERE), "docs")
OURS = (os.path.join(LIB, "ld-linux-x86-64.so.2"), "--library-path", LIB, os.path.join(WORK, "judge"))
TWINS = [(os.path.join(WORK, name),) for name in ("twin-gcc-O2", "twin-gcc-O3", "twin-clang-O3")]
CYCLES = 16381
TURNS = 512  # N: longer than any attempt lives


def run(command, folder):
    """(instructions, what was printed) of one run."""
    out = os.path.join(WORK, "count")
    emulated = ["qemu-x86_64", "-plugin", os.path.join(WORK, "count.so") + ",out=" + out, *command]
    # no environment: the C library's start reads it
    printed = subprocess.run(emulated, cwd=folder, env={"PATH": os.environ["PATH"]}, check=True, stdout=subprocess.PIPE, text=True).stdout
    with open(out) as f:
        return int(f.read()), printed


def prepared(case, cycles):
    folder = os.path.join(WORK, "files")
    os.makedirs(folder, exist_ok=True)
    with open(os.path.join(folder, "table.bin"), "wb") as f:
        f.write(case.table.bytes())
    with open(os.path.join(folder, "trace.bin"), "wb") as f:
        f.write(tables.trace_bytes(case.table.signals, case.turn, cycles))
    return folder


@functools.lru_cache(None)
def start(command):
    """Instructions of a run on no files: the loader, the C library's start, the refusal."""
    none = os.path.join(WORK, "none")
    os.makedirs(none, exist_ok=True)
    return run(command, none)[0]


def whole(command, case, cycles):
    """Instructions of judging a file, beyond those of a run on no files. All properties must be pending at its end."""
    count, printed = run(command, prepared(case, cycles))
    wanted = "cycles %d\n" % cycles + "".join("%d pending %d\n" % (p, cycles) for p in range(case.properties))
    if printed != wanted:
        sys.exit("%s: printed\n%swhere this was expected:\n%s" % (case.name, printed, wanted))
    return count - start(command)


def per_sample(command, case):
    """Instructions per sample and property."""
    return (whole(command, case, 2 * TURNS) - whole(command, case, TURNS)) / TURNS / case.properties


def both(measured, *args):
    """(ours, the best of the C programs)."""
    return measured(OURS, *args), min(measured(twin, *args) for twin in TWINS)


def number(x):
    return "{:,}".format(round(x))


def told(met):
    return "met" if met else "**missed**"


def compared(name, case, ours, twin):
    goal = (number(case.goal), told(round(ours) <= case.goal)) if case.goal else ("", "")
    return [name, len(case.table.rows), number(ours), *goal, number(twin), "%.2f" % (ours / twin), told(ours <= 1.25 * twin)]


def full_row():
    """Nine families of 63 sets, which no trace reaches: what nine cost, and for each set more what it costs where a trace does reach it."""
    nine, full, sparse = (both(per_sample, c) for c in (cases.NINE, cases.FULLEST, cases.SPARSE))
    reckoned = [n + cases.FULL_SETS * (f - s) / cases.MORE_SETS for n, f, s in zip(nine, full, sparse)]
    return compared(cases.FULL.name, cases.FULL, *reckoned)


def file_rows():
    case = cases.WHOLE_FILE
    ours, twin = both(whole, case, CYCLES)
    samples = CYCLES * case.properties
    yield compared(case.name + ", in all", case, ours, twin)
    yield compared("the same file, per sample and property", case, ours / samples, twin / samples)


def size_rows():
    """State and stack."""
    # its parameters are the result's place, the table as a place and a length, the monitor, the sample
    rows = [("bytes of state: `Monitor`", stack.bytes_copied(os.path.join(WORK, "step.ll"), "monitor::step", 3), 320)]
    for file, name in ("step", "monitor::step"), ("advance", "monitor::entry::advance"):
        deepest = stack.deepest(stack.frames(os.path.join(WORK, file + ".o")), name)[0]
        rows.append(("bytes of stack: `%s` with all it calls" % file, deepest, 2048))
    return [[name, "", number(ours), number(goal), told(ours <= goal), "", "", ""] for name, ours, goal in rows]


def lines(heads, rows):
    """A table in Markdown, its columns aligned."""
    cells = [[str(c).replace("|", "\\|") for c in row] for row in [heads] + rows]
    width = [max(len(row[k]) for row in cells) for k in range(len(heads))]
    texts = ["| " + " | ".join([row[0].ljust(width[0])] + [c.rjust(w) for c, w in zip(row[1:], width[1:])]) + " |" for row in cells]
    rule = "|" + "|".join(["-" * (width[0] + 2)] + ["-" * (w + 1) + ":" for w in width[1:]]) + "|"
    return "\n".join([texts[0], rule] + texts[1:]) + "\n"


def series(name, points):
    """(name, [(x, ours, C)]) along cases."""
    return name, [(x,) + both(per_sample, case) for x, case in points]


def growth():
    """The panels of the plot."""
    in_all = ((n, both(whole, cases.WHOLE_FILE, n)) for n in (0, 4096, 8192, 12288, CYCLES))
    return [
        ("rows of a property", "always over (s0 -> next s1), 1 to 20 times", "per sample", [series("next", cases.rows())]),
        ("cells, all of them live", "one never; weak sequences of six", "per sample",
         [series("never", cases.never_cells()), series("weak", cases.weak_cells())]),
        ("live attempts", "at a never of 61 cells; at eight weak sequences of six", "per sample",
         [series("never", cases.never_attempts()), series("weak", cases.weak_attempts())]),
        ("cycles of a file", "eight properties, 35 rows", "millions in all",
         [("eight properties", [(n, ours / 1e6, twin / 1e6) for n, (ours, twin) in in_all])]),
    ]


def put_in_page(text):
    """Between the two marks of docs/CONTROLLER.md."""
    page = os.path.join(DOCS, "CONTROLLER.md")
    with open(page) as f:
        before, rest = f.read().split("<!-- bench -->\n", 1)
    after = rest.split("<!-- /bench -->\n", 1)[1]
    with open(page, "w") as f:
        f.write(before + "<!-- bench -->\n" + text + "<!-- /bench -->\n" + after)


def main():
    rows = [compared(c.name, c, *both(per_sample, c)) for c in cases.STANDARD] + [full_row(), *file_rows(), *size_rows()]
    table = lines(["Instructions per sample and property", "Rows", "Ours", "Goal", "", "In C", "Ours / C", "At most 1.25"], rows)
    print(table, end="")
    put_in_page(table)
    with open(os.path.join(DOCS, "bench.svg"), "w") as f:
        f.write(plot.drawn(growth()))
    print("How cost grows: docs/bench.svg")


if __name__ == "__main__":
    main()
