#!/usr/bin/env python3
"""Spells this repository's own definitions and lemmas in snake case, as the kit's library spells its own.

usage: python3 tools/respell.py [--list]      at the top of the repository, once, after the kit's port.py

A name is ours where a file of specs/ or of proofs/ (not of a function's folder) defines or binds it and no file imports it from the kit's library. `byteAt` and
`byte-at` become `byte_at`, `first?` becomes `first_test`, a prime becomes an apostrophe; types, facts and modules keep their capitals. Code of src/, strings and
outputs keep their names. Names that would fall together in one file stop it, and nothing is written. With --list it writes the names alone.
"""

import os
import re
import sys

WORD = r"[^\s(){}\[\],;.|`λ⟨⟩]+"
OURS = {"psl", "lanes", "words", "little", "table", "accepted", "engine", "monitor", "trace", "host", "table_runs", "vectors", "standing", "files", "console", "judge", "yulbravi"}
# Names that the rule alone would spell badly or bring together with another of the same file.
LEMMAS = "row-at bit-and bit-or bit-xor is-weak no-mark taken-apart class-ok field-ok fields-ok kind-rule operands-ok use-rule boolean-by cells-by boolean-row property-row sequence-row cell-rule"
SPECIAL = {n: n.replace("-", "_") + "_lem" for n in LEMMAS.split()} | {"use-code": "use_code_of", "isF": "is_f_test"}
# How the names of goals and of steps begin, which the check makes.
MADE = ("in-", "then-", "else-", "loop-", "if-", "returns-")
# Names that are English words too, as comments have them.
ENGLISH = ("non-empty", "per-cycle", "so-far")
PLAIN = re.compile(r"^[A-Za-z0-9_'?\u2032-]+$")


def files(root, endings):
    for folder, dirs, names in os.walk(root):
        dirs[:] = sorted(d for d in dirs if d not in ("out", ".git"))
        for n in sorted(names):
            if n.endswith(endings):
                yield os.path.join(folder, n)


def read(path):
    with open(path, encoding="utf-8") as f:
        return f.read()


def is_walk(path):
    """Whether a file lies in a function's folder of proofs/."""
    parts = path.split(os.sep)
    return "proofs" in parts and len(parts) - parts.index("proofs") > 2


def snake(name):
    if name in SPECIAL:
        return SPECIAL[name]
    n = name.replace("\u2032", "'")
    if n.startswith(("T-is", "T-not")):
        return n.replace("-", "_")
    n = re.sub(r"([a-z0-9])([A-Z])", r"\1_\2", n)
    if not n[0].isupper() or "-" in n:
        n = n.lower()
    return re.sub(r"\?$", "_test", n.replace("-", "_"))


def is_old(name):
    if not PLAIN.match(name) or name[0] in "-'":
        return False
    return bool(re.search(r"[A-Za-z0-9'?]-[A-Za-z0-9]", name) or re.match(r"^[a-z][a-z0-9]*[A-Z]", name) or name.endswith("?") and len(name) > 1)


def uncommented(text):
    return re.sub(r"--.*", "", text)


def imports(text):
    """Each imported name with its module."""
    for m in re.finditer(r"^(?:ghost )?use (\S+?)\.\{(.*?)\};?$", text, re.M):
        for n in m.group(2).split(","):
            yield n.strip(), m.group(1)


def own_module(module):
    parts = module.split(".")
    return parts[0] == "Rattle" and len(parts) > 1 and parts[1] in OURS


def binders(text):
    """The names that a text defines or binds by a signature."""
    for m in re.finditer(r"(?:^|[({])[ ]*((?:[^\s(){}:,;=.]+ )+):(?= |$)", text, re.M):
        yield from m.group(1).split()


def renames(root):
    library, found = set(), set()
    for path in files(os.path.join(root, "crates"), (".antt", ".rt")):
        text = uncommented(read(path)) if path.endswith(".antt") else read(path)
        for name, module in imports(text):
            (found if own_module(module) else library).add(name)
        if path.endswith(".antt") and not is_walk(path):
            found |= set(binders(text))
    return {n: snake(n) for n in found - library if is_old(n) and snake(n) != n}


def replaced(text, names):
    return re.sub(WORD, lambda m: names.get(m.group(0), m.group(0)), text)


def antt(text, names):
    """Names of a .antt file, in comments too, but for the words there that are plain English."""
    prose = {n: s for n, s in names.items() if n not in ENGLISH}
    lines = []
    for line in text.split("\n"):
        at = line.find("--")
        lines.append(replaced(line, names) if at < 0 else replaced(line[:at], names) + replaced(line[at:], prose))
    return "\n".join(lines)


def in_code_spans(text, names):
    return re.sub(r"`[^`\n]*`", lambda m: replaced(m.group(0), names), text)


def rust(text, names):
    """Names of a .rt file: outside of strings everywhere, in comments between backticks."""
    out = []
    for line in text.split("\n"):
        m = re.search(r"//.*$", line)
        code, note = (line[: m.start()], line[m.start() :]) if m else (line, "")
        pieces = re.split(r'("(?:[^"\\]|\\.)*")', code)
        out.append("".join(p if p.startswith('"') else replaced(p, names) for p in pieces) + in_code_spans(note, names))
    return "\n".join(out)


def of_walk(text, names):
    """What of the names a function's proof may mean: those that begin as goals and steps do only where the file imports them."""
    imported = {n for n, _ in imports(text)}
    return {n: s for n, s in names.items() if n in imported or not n.startswith(MADE)}


def clashes(root, names):
    """Files in which two names would fall together."""
    for path in files(os.path.join(root, "crates"), (".antt", ".rt")):
        words = set(re.findall(WORD, uncommented(read(path))))
        by = {}
        for w in words:
            by.setdefault(names.get(w, w), set()).add(w)
        for new, old in sorted(by.items()):
            if len(old) > 1:
                yield path, new, sorted(old)


def main(argv):
    if argv not in ([], ["--list"]):
        print(__doc__)
        return 0 if argv[:1] in (["--help"], ["-h"]) else 2
    root = "."
    names = renames(root)
    if argv == ["--list"]:
        for old, new in sorted(names.items()):
            print(old, new)
        return 0
    bad = [c for c in clashes(root, names) if c[0].endswith(".antt") and not is_walk(c[0])]
    for path, new, old in bad:
        print(f"{path}: {' and '.join(old)} would both be {new}")
    if bad:
        return 1
    count = 0
    for path in files(os.path.join(root, "crates"), (".antt", ".rt", ".edit")):
        old = read(path)
        here = of_walk(old, names) if is_walk(path) else names
        new = rust(old, here) if path.endswith(".rt") else antt(old, here) if path.endswith(".antt") else replaced(old, here)
        if new != old:
            with open(path, "w", encoding="utf-8") as f:
                f.write(new)
            count += 1
    print(f"respell: {len(names)} names in {count} files")
    return 0


if __name__ == "__main__":
    raise SystemExit(main(sys.argv[1:]))
