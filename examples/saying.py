"""What rows say: the PSL that stands in a listing beside the bytes of a row, and what of a row the judge refuses."""

# How a row's text stands in another's: a name or what ends in a brace, a negation, another Boolean, a repetition, another property. A
# sequence of two parts has its sign.
ATOM, NOT, BOOLEAN, LOOP, PROPERTY = "atom", "not", "boolean", "loop", "property"
SIGNAL = 3
OPERANDS = {
    **{1: 0, 2: 0, SIGNAL: 1, 4: 1, 5: 2, 6: 2, 16: 2, 17: 2, 18: 2, 19: 1, 20: 1},
    **{32: 1, 33: 2, 34: 1, 35: 3, 36: 2, 37: 2, 38: 1, 39: 2, 40: 2, 41: 2, 42: 1},
}
STRONG = {48: "next!", 49: "until!", 50: "eventually!"}


def in_boolean(said):
    return f"({said[0]})" if said[1] == BOOLEAN else said[0]


def in_sequence(said, sign):
    if said[1] in (ATOM, NOT, LOOP, sign):
        return said[0]
    return f"({said[0]})" if said[1] == BOOLEAN else "{" + said[0] + "}"


def in_loop(said):
    if said[1] == ATOM:
        return said[0]
    return f"({said[0]})" if said[1] in (NOT, BOOLEAN) else "{" + said[0] + "}"


def in_property(said):
    return said[0] if said[1] in (ATOM, NOT) else f"({said[0]})"


def boolean(kind, a, b):
    if kind == 4:
        return "!" + in_boolean(a), NOT
    return f"{in_boolean(a)} {'&' if kind == 5 else '|'} {in_boolean(b)}", BOOLEAN


def sequence(kind, a, b):
    if kind in (19, 20):
        return in_loop(a) + ("[*]" if kind == 19 else "[+]"), LOOP
    sign = {16: ";", 17: ":", 18: "|"}[kind]
    return f"{in_sequence(a, sign)} {sign} {in_sequence(b, None)}", sign


def prop(kind, a, b, c):
    forms = {
        32: lambda: f"weak {{{a[0]}}}",
        33: lambda: f"{in_property(a)} and {in_property(b)}",
        34: lambda: f"next {in_property(a)}",
        35: lambda: f"if {in_boolean(a)} then {in_property(b)} else {in_property(c)}",
        36: lambda: f"{in_boolean(a)} -> {in_property(b)}",
        37: lambda: f"{in_property(a)} or {in_boolean(b)}",
        38: lambda: f"always {in_property(a)}",
        39: lambda: f"{in_property(a)} until {in_boolean(b)}",
        40: lambda: f"{{{a[0]}}} |-> {in_property(b)}",
        41: lambda: f"{{{a[0]}}} |=> {in_property(b)}",
        42: lambda: f"never {{{a[0]}}}",
    }
    return forms[kind](), ATOM if kind in (32, 42) else PROPERTY


def row_at(rows, number):
    """What a row says by its number, also one that is not there."""
    return rows[number] if number < len(rows) else (f"row {number}", ATOM)


def row_says(row, above, names):
    """The text of a row and how it stands in others; None where a row that it uses could not be read."""
    kind, fields = row[0], row[1:]
    if kind not in OPERANDS:
        return f"kind {kind}", PROPERTY
    if kind == SIGNAL:
        return names.get(fields[0], f"signal {fields[0]}"), ATOM
    operands = [row_at(above, field) for field in fields[: OPERANDS[kind]]]
    if None in operands:
        return None
    a, b, c = operands + [None] * (3 - len(operands))
    if kind < SIGNAL:
        return ("true" if kind == 1 else "false"), ATOM
    if kind < 16:
        return boolean(kind, a, b)
    return sequence(kind, a, b) if kind < 32 else prop(kind, a, b, c)


def row_refused(row, place, signals):
    """What the judge refuses in a row by itself, as (number, words): its kind, an operand out of range, a field that is not used."""
    kind, fields = row[0], row[1:]
    if kind in STRONG:
        return [(6, f"kind {kind}, {STRONG[kind]}, is strong")]
    if kind not in OPERANDS:
        return [(5, f"kind {kind} is none of the list in docs/RULES.md")]
    used = OPERANDS[kind]
    if kind == SIGNAL:
        found = [f"signal {fields[0]} is not below the header's {signals} signals"] if signals is not None and fields[0] >= signals else []
    else:
        found = [f"row {field} does not stand above row {place}" for field in fields[:used] if field >= place]
    found += [f"kind {kind} does not use field {name}, and it is not 0" for name, field in zip("abc"[used:], fields[used:]) if field]
    return [(7, words) for words in found]
