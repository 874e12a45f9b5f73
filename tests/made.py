"""The bytes of a table and of a trace, for cases.py and rules.py beside this file: from rows and roots, and from samples."""


def little(width, *numbers):
    return b"".join(n.to_bytes(width, "little") for n in numbers)


def table(signals, rows, roots):
    rows = [bytes((tuple(row) + (0, 0, 0))[:4]) for row in rows]
    end = 16 + 4 * len(rows)
    return little(2, 1, signals, len(rows), len(roots), 16, end) + little(4, end + 2 * len(roots)) + b"".join(rows) + little(2, *roots)


def trace(signals, samples):
    return little(2, 1, signals) + little(4, len(samples), 12, *samples)
