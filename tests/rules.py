"""tests/rules.py OUT: a folder OUT/rules-.. for each run in docs/RULES.md, with table.bin, trace.bin and the verdicts that the page says.

A run is a row of the page that has a property, a trace and a verdict; what the words beside it add for another trace of the property is a run
too, and so is each number in the table of limits. A folder is named by the rule of the property, a count and the line of the page. The exit
status is 1, and the line is named, where a row cannot be read or where too few are found; it is 2 where the folders cannot be written.
"""
import pathlib
import re
import sys

sys.dont_write_bytecode = True
from made import table, trace  # noqa: E402 (no bytecode is left beside it)

PAGE = pathlib.Path(__file__).resolve().parent.parent / "docs" / "RULES.md"
NAMED = "docs/RULES.md"
FEWEST_RUNS, FEWEST_LIMITS = 40, 6

LETTERS = "abc"
TRUE, FALSE, SIGNAL, NOT, THEN, STAR = 1, 2, 3, 4, 16, 19
WEAK, ALWAYS, OR_BOOLEAN, NEVER = 32, 38, 37, 42
CONSTANTS = {"true": TRUE, "false": FALSE}
REPEATS = {"[*]": STAR, "[+]": 20}
BRACED = {"weak": WEAK, "never": NEVER}
WIDE = {"next": 34, "always": ALWAYS}
ARROWS = {"|->": 40, "|=>": 41}
BETWEEN = {"and": 5, "or": 6, ";": THEN, ":": 17, "|": 18, "->": 36, "until": 39}
FIRST_PROPERTY, RULE_BEFORE_KIND = 32, 29  # kind 32 is rule P3, kind 42 rule P13; a Boolean is P2

VERDICT = r"(?:broken|settled|pending) \d+"
TOKEN = re.compile(r"\s*(\|->|\|=>|->|\[\*\]|\[\+\]|[a-z]+|[{}();:|])")
NUMBER = re.compile(r"\d+(?:,\d{3})*")


class Unread(Exception):
    """What is wrong with a row."""


class Reader:
    """Reads a property into rows, a row for each occurrence. The page puts parentheses wherever two operators meet, so none binds closer."""

    def __init__(self, text):
        self.rows = []
        self.tokens = []
        at = 0
        while at < len(text):
            found = TOKEN.match(text, at)
            if not found:
                raise Unread(f"no word of the notation: {text[at:]}")
            self.tokens.append(found.group(1))
            at = found.end()
        self.property()
        if self.tokens:
            raise Unread(f"more than a property: {' '.join(self.tokens)}")

    def peek(self):
        return self.tokens[0] if self.tokens else "the end"

    def take(self, *wanted):
        if not self.tokens or wanted and self.tokens[0] not in wanted:
            raise Unread(f"{self.peek()} stands where {' or '.join(wanted) or 'an operand'} should")
        return self.tokens.pop(0)

    def row(self, *fields):
        self.rows.append(fields)
        return len(self.rows) - 1

    def property(self):
        if self.peek() in WIDE:
            return self.row(WIDE[self.take()], self.operand())
        if self.peek() == "{":
            left = self.within("{", "}")
            return self.row(ARROWS[self.take(*ARROWS)], left, self.operand())
        left = self.operand()
        between = self.peek()
        while between in BETWEEN and self.peek() == between:
            self.take()
            kind = BETWEEN[between]
            if between == "or" and self.rows[left][0] >= FIRST_PROPERTY:
                kind = OR_BOOLEAN
            left = self.row(kind, left, self.operand())
        return left

    def within(self, opening, closing):
        self.take(opening)
        inner = self.property()
        self.take(closing)
        return inner

    def operand(self):
        row = self.single()
        while self.peek() in REPEATS:
            row = self.row(REPEATS[self.take()], row)
        return row

    def single(self):
        if self.peek() == "(":
            return self.within("(", ")")
        word = self.take()
        if word in BRACED:
            return self.row(BRACED[word], self.within("{", "}"))
        if word == "not":
            return self.row(NOT, self.single())
        if word in CONSTANTS:
            return self.row(CONSTANTS[word])
        if len(word) == 1 and word in LETTERS:
            return self.row(SIGNAL, LETTERS.index(word))
        raise Unread(f"{word} is no signal and no operand")


def samples_of(text):
    """The samples of a trace in the page's words: letters that are on, or -, parted by commas."""
    samples = []
    for cycle in text.split(","):
        letters = cycle.strip()
        if letters != "-" and not re.fullmatch(f"[{LETTERS}]+", letters) or len(set(letters)) < len(letters):
            raise Unread(f"no sample: {letters or 'nothing'}")
        samples.append(sum(1 << LETTERS.index(letter) for letter in letters if letter != "-"))
    return samples


def quoted(cell):
    if not re.fullmatch("`[^`]+`", cell):
        raise Unread(f"not in backquotes: {cell or 'nothing'}")
    return cell[1:-1]


def further(words, samples):
    """The runs that the words beside a row add: a trace of their own, or one that goes on from the row's."""
    runs = [(samples + samples_of(more), verdict) for more, verdict in re.findall(rf"with `([^`]+)` after it, ({VERDICT})", words)]
    runs += [(samples_of(own), verdict) for own, verdict in re.findall(rf"`([^`]+)`(?: it is)? ({VERDICT})", words)]
    if len(runs) != len(re.findall(VERDICT, words)):
        raise Unread(f"a verdict without its trace: {words}")
    return runs


def signals(n):
    return table(n, [(SIGNAL, max(n, 1) - 1)], [0]), trace(n, [(1 << n >> 1) & 0xFFFFFFFF]), ["settled 1"], 0


def rows(n):
    return table(1, [(SIGNAL, 0)] * n, [0]), trace(1, [1]), ["settled 1"], 0


def properties(n):
    return table(1, [(SIGNAL, 0)], [0] * n), trace(1, [1]), ["settled 1"] * n, 0


def cycles(n):
    return table(1, [(SIGNAL, 0), (ALWAYS, 0)], [1]), trace(1, [1] * n), [f"pending {n}"], 0


def cells(n, verdict, *kinds):
    """A sequence of so many cells in signal 0, under rows of these kinds, on the recording that matches it once."""
    made = [(SIGNAL, 0)] + [(THEN, i, 0) for i in range(n - 1)]
    for kind in kinds:
        made.append((kind, len(made) - 1))
    return table(1, made, [len(made) - 1]), trace(1, [1] * n), [f"{verdict} {n}"], len(made) - 1


# What a row of the limits is about, with N for its numbers: a name and how files of N are made, for each that it speaks of.
LIMITS = {
    "N and N signals": {"signals": signals},
    "N and N rows": {"rows": rows},
    "N and N properties": {"properties": properties},
    "a weak sequence of N cells, also with `[*]` over it": {
        "weak": lambda n: cells(n, "settled", WEAK),
        "weak-star": lambda n: cells(n, "settled", STAR, WEAK),
    },
    "`never` of N cells": {"never": lambda n: cells(n, "broken", NEVER)},
    "N and N cycles in a file": {"cycles": cycles},
    "N single cycles": {},  # not of a file
}


def numbers_in(text):
    return [int(number.replace(",", "")) for number in NUMBER.findall(text)]


class Page:
    def __init__(self, out):
        self.out = out
        self.line = 0
        self.runs = 0
        self.limits = 0
        self.counts = {}

    def write(self, name, table_bytes, trace_bytes, *lines):
        folder = self.out / f"rules-{name}-line-{self.line}"
        folder.mkdir(parents=True)
        (folder / "table.bin").write_bytes(table_bytes)
        (folder / "trace.bin").write_bytes(trace_bytes)
        (folder / "verdicts.txt").write_text("".join(line + "\n" for line in lines))

    def run(self, cells_by_name):
        """A row that has a property, a trace and a verdict."""
        made = Reader(quoted(cells_by_name["Property"])).rows
        shown = cells_by_name["Trace"]
        samples = [] if shown == "none" else samples_of(quoted(shown))
        if not re.fullmatch(VERDICT, cells_by_name["Verdict"]):
            raise Unread(f"no verdict: {cells_by_name['Verdict'] or 'nothing'}")
        rule = f"P{made[-1][0] - RULE_BEFORE_KIND}" if made[-1][0] >= FIRST_PROPERTY else "P2"
        if rule not in cells_by_name.get("Of", rule).split(", "):
            raise Unread(f"the property is of {rule}, and the row says {cells_by_name['Of'] or 'nothing'}")
        for ran, verdict in [(samples, cells_by_name["Verdict"])] + further(cells_by_name.get("Why", ""), samples):
            self.counts[rule] = self.counts.get(rule, 0) + 1
            files = table(len(LETTERS), made, [len(made) - 1]), trace(len(LETTERS), ran)
            self.write(f"{rule}-{self.counts[rule]}", *files, f"cycles {len(ran)}", f"0 {verdict}")
        self.runs += 1

    def limit(self, passes, refused):
        """A row of the limits: numbers that pass, and numbers that are refused, with the refusal after a colon."""
        about = NUMBER.sub("N", passes)
        if about not in LIMITS:
            raise Unread(f"no limit that is known here: {passes}")
        beyond, _, number = refused.partition(": ")
        if LIMITS[about] and refused and not (NUMBER.fullmatch(number) and NUMBER.sub("N", beyond) in ("N", "N and N")):
            raise Unread(f"not numbers and a refusal: {refused}")
        for name, make in LIMITS[about].items():
            for n in numbers_in(passes):
                table_bytes, trace_bytes, verdicts, _ = make(n)
                lines = [f"cycles {(len(trace_bytes) - 12) // 4}"] + [f"{i} {verdict}" for i, verdict in enumerate(verdicts)]
                self.write(f"L2-{name}-{n}", table_bytes, trace_bytes, *lines)
            for n in numbers_in(beyond):
                table_bytes, trace_bytes, _, place = make(n)
                self.write(f"L2-{name}-{n}-refused", table_bytes, trace_bytes, f"refused {number} {place}")
        self.limits += bool(LIMITS[about])

    def row(self, header, row):
        if len(row) != len(header):
            raise Unread(f"{len(row)} cells under {len(header)} headings")
        if header == ["Passes", "Is refused"]:
            self.limit(*row)
        elif {"Property", "Trace", "Verdict"} <= set(header):
            self.run(dict(zip(header, row)))
        elif any(re.fullmatch(VERDICT, cell) for cell in row):
            raise Unread("a verdict in a table without the headings Property, Trace and Verdict")

    def read(self, text):
        header = None
        for self.line, line in enumerate(text.split("\n"), 1):
            if not line.startswith("|"):
                if header and line.strip():
                    raise Unread("a row of a table that does not begin with |")
                header = None
                continue
            row = [cell.strip().replace("\\|", "|") for cell in re.split(r"(?<!\\)\|", line.strip())[1:-1]]
            if header is None:
                header = row
            elif not re.fullmatch(r"[|: -]+", line):
                self.row(header, row)
        for found, fewest, what in ((self.runs, FEWEST_RUNS, "runs"), (self.limits, FEWEST_LIMITS, "limits")):
            if found < fewest:
                raise Unread(f"the page ends with {found} {what} found, and has {fewest} at least")


def main(words):
    if words in (["-h"], ["--help"]):
        print(__doc__.strip())
        return 0
    if len(words) != 1 or words[0].startswith("-"):
        print("tests/rules.py takes a folder to write to: see tests/rules.py --help", file=sys.stderr)
        return 2
    page = Page(pathlib.Path(words[0]))
    try:
        page.read(PAGE.read_text(encoding="utf-8"))
    except Unread as what:
        print(f"{NAMED}:{page.line}: {what}", file=sys.stderr)
        return 1
    except OSError as what:
        print(f"tests/rules.py: {what}", file=sys.stderr)
        return 2
    return 0


if __name__ == "__main__":
    sys.exit(main(sys.argv[1:]))
