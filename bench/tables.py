"""Table and trace bytes from a readable notation.

Properties are written as in document 01: `always (s0 -> next s1)`, `{s0; s1[*]; s2} |=> s3`, `s0 until s1`, `weak {..}`, `never {..}`,
`if s0 then f else g`, `f or s1`, and `f and g` for both. A Boolean is `s7`, `!s7`, `true` or `false`; equal Booleans share a row.
Traces are cycles parted by commas, each the signals that are on (`-` for none), repeated as often as it takes.
"""
import re
import struct

TOKEN = re.compile(r"\s*(\|->|\|=>|->|\[\*\]|\[\+\]|[a-z]+\d*|[(){};:|!])")
PAIRS = {"and": 33, "or": 37, "until": 39}
ONES = {"next": 34, "always": 38}
OVER_SEQUENCE = {"weak": 32, "never": 42}


class Table:
    """The rows of properties that are read one after the other."""

    def __init__(self, *properties):
        self.rows, self.shared, self.roots, self.signals = [], {}, [], 1
        for text in properties:
            self.left = TOKEN.findall(text)
            if "".join(self.left) != re.sub(r"\s", "", text):
                raise ValueError("no property: " + text)
            self.roots.append(self.property())
            if self.left:
                raise ValueError("left over in %s: %s" % (text, " ".join(self.left)))

    def row(self, kind, *fields):
        self.rows.append((kind,) + fields + (0,) * (3 - len(fields)))
        return len(self.rows) - 1

    def boolean_row(self, *row):
        if row not in self.shared:
            self.shared[row] = self.row(*row)
        return self.shared[row]

    def next_is(self, *words):
        return bool(self.left) and self.left[0] in words

    def take(self, *words):
        if not self.left or words and self.left[0] not in words:
            raise ValueError("expected %s before: %s" % (" or ".join(words) or "more", " ".join(self.left)))
        return self.left.pop(0)

    def boolean(self):
        word = self.take()
        if word == "!":
            return self.boolean_row(4, self.boolean())
        if word in ("true", "false"):
            return self.boolean_row(1 if word == "true" else 2)
        if not re.fullmatch(r"s\d+", word):
            raise ValueError("no Boolean: " + word)
        self.signals = max(self.signals, int(word[1:]) + 1)
        return self.boolean_row(3, int(word[1:]))

    def braced(self):
        self.take("{")
        inner = self.chain(0)
        self.take("}")
        return inner

    def chain(self, level):
        """a | b over a ; b over a : b, each from the left."""
        if level == 3:
            inner = self.braced() if self.next_is("{") else self.boolean()
            while self.next_is("[*]", "[+]"):
                inner = self.row(19 if self.take() == "[*]" else 20, inner)
            return inner
        mark, kind = (("|", 18), (";", 16), (":", 17))[level]
        inner = self.chain(level + 1)
        while self.next_is(mark):
            self.take()
            inner = self.row(kind, inner, self.chain(level + 1))
        return inner

    def property(self):
        f = self.prefixed()
        while self.next_is(*PAIRS):
            word = self.take()
            f = self.row(PAIRS[word], f, self.prefixed() if word == "and" else self.boolean())
        return f

    def prefixed(self):
        if self.next_is("("):
            self.take()
            f = self.property()
            self.take(")")
            return f
        if self.next_is(*ONES):
            return self.row(ONES[self.take()], self.prefixed())
        if self.next_is(*OVER_SEQUENCE):
            return self.row(OVER_SEQUENCE[self.take()], self.braced())
        if self.next_is("{"):
            side = self.braced()
            return self.row(40 if self.take("|->", "|=>") == "|->" else 41, side, self.prefixed())
        if self.next_is("if"):
            return self.choice()
        b = self.boolean()
        if self.next_is("->"):
            self.take()
            return self.row(36, b, self.prefixed())
        return b

    def choice(self):
        self.take("if")
        b = self.boolean()
        self.take("then")
        f = self.prefixed()
        self.take("else")
        return self.row(35, b, f, self.prefixed())

    def bytes(self):
        n, p = len(self.rows), len(self.roots)
        head = struct.pack("<6HI", 1, self.signals, n, p, 16, 16 + 4 * n, 16 + 4 * n + 2 * p)
        return head + b"".join(bytes(r) for r in self.rows) + struct.pack("<%dH" % p, *self.roots)


def samples(text):
    """The samples of one turn of a trace."""
    return [sum(1 << int(s[1:]) for s in cycle.split() if s != "-") for cycle in text.split(",")]


def trace_bytes(signals, turn, cycles):
    """A trace of so many cycles that repeats the samples of a turn."""
    words = [turn[k % len(turn)] for k in range(cycles)]
    return struct.pack("<2H2I", 1, signals, cycles, 12) + struct.pack("<%dI" % cycles, *words)
