"""Reads a listing: the lines with bytes below each heading. What is no such line is told, and reading goes on."""
import collections
import difflib
import re

# A line below a heading: where it stands, its number, its bytes and its words. Bytes that cannot be read are None.
Line = collections.namedtuple("Line", "at number data words")
# What a listing has: its headings in order, and the width and the words of each field of the header.
Shape = collections.namedtuple("Shape", "name headings fields")

TABLE = Shape(
    "a table",
    ("Signals", "Header", "Rows", "Properties"),
    (
        *((2, "version {}"), (2, "{} signals"), (2, "{} rows"), (2, "{} properties")),
        *((2, "rows from byte {}"), (2, "property rows from byte {}"), (4, "{} bytes in all")),
    ),
)
TRACE = Shape("a trace", ("Header", "Samples"), ((2, "version {}"), (2, "{} signals"), (4, "{} cycles"), (4, "samples from byte {}")))

WIDTHS = {"Header": (2, 4), "Rows": (4,), "Properties": (2,), "Samples": (4,)}
PARTS = {"Signals": "a signal", "Header": "a field of the header", "Rows": "a row", "Properties": "a property", "Samples": "a sample"}
FORMS = {"Signals": "NUMBER  NAME  WORDS", "Header": "BYTES  WORDS"}
NUMBERED = "NUMBER  BYTES  WORDS"
NAME = re.compile(r"([0-9]{1,9})( +)(\w+)(?:( +)(.*))?")
NUMBER = re.compile(r"[0-9]{1,9}")
BYTE = re.compile(r"[0-9A-Fa-f]{2}")
BYTES = re.compile(r" *(?:[0-9]+ +)?[0-9A-Fa-f]{2}(?: [0-9A-Fa-f]{2})+(?: .*)?")
REMARK = re.compile(r"(?:^| +)#(?: .*)?$")
CONTROL = re.compile(r"[\x00-\x1f\x7f-\x9f]")
NEAR = 0.7


def shown(text):
    """A text in quotes, with what cannot be seen spelt out."""
    return "'" + (text if text.isprintable() else repr(text)[1:-1]) + "'"


def lines_of(data, tell):
    """The lines of a file as text. What is not UTF-8 and control characters are told."""
    lines = data.split(b"\n")
    for at, raw in enumerate(lines if lines[-1] else lines[:-1], 1):
        raw = raw[:-1] if raw.endswith(b"\r") else raw
        try:
            text = raw.decode()
        except UnicodeDecodeError as wrong:
            tell(at, f"not UTF-8: byte {raw[wrong.start]:02X} in column {len(raw[:wrong.start].decode()) + 1}")
            text = raw.decode(errors="replace")
        odd = CONTROL.search(text)
        if odd:
            what = "a tab" if odd[0] == "\t" else f"the control character {ord(odd[0]):02X}"
            tell(at, f"{what} in column {odd.start() + 1}: write spaces")
        yield at, CONTROL.sub("  ", text.lstrip("\ufeff") if at == 1 else text).rstrip(" ")


class Listing:
    """The lines of each heading, the lines that the headings stand in, and the signals' names."""

    def __init__(self, path, shape, told):
        self.path, self.shape, self.told = path, shape, told
        self.headings, self.sections, self.names = {}, {}, {}
        self.column, self.named = None, True
        with open(path, "rb") as file:
            self.read(list(lines_of(file.read(), self.tell)))

    def all_named(self):
        """Whether every name that is given could be read."""
        return self.named and "Signals" in self.sections

    def tell(self, at, text):
        self.told.wrong(self.path, at, text)

    def read(self, lines):
        if not any(text for _, text in lines):
            return self.tell(1, "the listing is empty")
        exact = {text for _, text in lines}
        section, early = None, []
        for at, text in lines:
            heading = self.heading(at, text, exact)
            if heading:
                section = heading
            elif section is None:
                early += [at] if BYTES.fullmatch(text) else []
            elif section in self.shape.headings and text and not text.lstrip().startswith("#"):
                self.line(section, at, text)
        self.missing(len(lines))
        if self.shape.headings[0] in self.headings:
            for at in early:
                self.tell(at, "bytes before the first heading")

    def heading(self, at, text, exact):
        """The heading that a line is, or is meant as: one word that is nearly a heading which is not there."""
        if text not in TABLE.headings + TRACE.headings:
            word = text.strip(" :").capitalize()
            near = [] if " " in word else difflib.get_close_matches(word, self.shape.headings, 1, NEAR)
            if not near or near[0] in exact:
                return None
            self.tell(at, f"{shown(text)} is no heading: write '{near[0]}'")
            text = near[0]
        elif text not in self.shape.headings:
            self.tell(at, f"{self.shape.name} has no heading '{text}', it has {', '.join(self.shape.headings)}")
            return text
        self.ordered(at, text)
        return text

    def ordered(self, at, name):
        if name in self.headings:
            return self.tell(at, f"the heading '{name}' stands in line {self.headings[name]} already")
        after = self.shape.headings[self.shape.headings.index(name) + 1 :]
        later = [heading for heading in self.headings if heading in after]
        if later:
            self.tell(at, f"the heading '{name}' belongs before '{later[0]}' (line {self.headings[later[0]]})")
        self.headings[name] = at
        self.sections[name] = []

    def missing(self, last):
        """A heading that is not there is told where the next one stands, or else at the end."""
        order = self.shape.headings
        if not self.headings:
            return self.tell(last, f"no heading: {self.shape.name} has {', '.join(order)}")
        for i, name in enumerate(order):
            if name not in self.headings:
                after = [self.headings[other] for other in order[i + 1 :] if other in self.headings]
                self.tell(min(after, default=last), f"the heading '{name}' is missing before this line" if after else f"the heading '{name}' is missing")

    def line(self, section, at, text):
        if section == "Properties" and self.explains(text):
            return
        if section == "Properties":
            self.column = len(re.match(r" *(?:[0-9]+ +)?", text)[0]) or 1
        bare = REMARK.sub("", text).strip(" ")
        if section == "Signals":
            return self.signal(at, bare)
        fields = re.split(" {2,}", bare)
        counts = NUMBER.fullmatch(fields[0]) and section != "Header" and len(fields) > 1
        if not counts and not any(BYTE.fullmatch(word) for field in fields[:2] for word in field.split(" ")):
            return self.neither(at, section, bare)
        number, bare = (None, bare) if section == "Header" else self.number(at, bare, WIDTHS[section][0])
        self.sections[section].append(Line(at, number, *self.bytes(at, bare, WIDTHS[section])))

    def neither(self, at, section, text):
        part = PARTS[section]
        more = ", words on one begin no further left than its bytes (see --help)" if section == "Properties" else ""
        self.tell(at, f"{shown(text)} is neither {part} nor a remark: {part} is '{FORMS.get(section, NUMBERED)}'{more}, a remark begins with '#'")

    def explains(self, text):
        """Whether a line is words on the property above it."""
        words = text.lstrip(" ")
        likely = self.column and len(text) - len(words) >= self.column
        return likely and "  " not in words and not re.match(r"[0-9]|[0-9A-F]{2}(?: |$)", words)

    def signal(self, at, text):
        named = NAME.fullmatch(text)
        if not named:
            self.named = False
            return self.neither(at, "Signals", text)
        if named[2] == " ":
            self.tell(at, "one space between the number and the name: write two")
        if named[4] == " ":
            self.tell(at, f"one space after the name '{named[3]}': write two")
        number, name = int(named[1]), named[3]
        for line in self.sections["Signals"]:
            if number == line.number:
                self.tell(at, f"signal {number} is named in line {line.at} already")
            if name == line.words:
                self.tell(at, f"the name '{name}' is given in line {line.at} already")
        if number in self.names or name in self.names.values():
            self.named = False
        else:
            self.names[number] = name
        self.sections["Signals"].append(Line(at, number, None, name))

    def number(self, at, text, width):
        """The number that a line begins with, and the rest of it."""
        field, _, rest = text.partition("  ")
        words = field.split(" ")
        if NUMBER.fullmatch(field) and rest:
            return int(field), rest.lstrip(" ")
        if len(words) == 1 and rest and not BYTE.fullmatch(field):
            self.tell(at, f"{shown(field)} is no number")
            return None, rest.lstrip(" ")
        pairs = next((i for i, word in enumerate(words) if not BYTE.fullmatch(word)), len(words))
        if NUMBER.fullmatch(words[0]) and len(words) > 1 and (len(words[0]) != 2 or len(words) > width and pairs != width):
            self.tell(at, "one space between the number and the bytes: write two")
            return int(words[0]), text[len(words[0]) + 1 :]
        self.tell(at, "no number before the bytes")
        return None, text

    def bytes(self, at, text, widths):
        """The bytes that a line goes on with, None where they cannot be read, and its words."""
        field, _, words = text.partition("  ")
        pairs = field.split(" ")
        good = next((i for i, pair in enumerate(pairs) if not BYTE.fullmatch(pair)), len(pairs))
        if good < len(pairs) and good not in widths:
            self.tell(at, f"{shown(pairs[good])} is no byte: write two digits, 0 to 9 or A to F, and a space between bytes")
            return None, words.lstrip(" ")
        if good < len(pairs):
            self.tell(at, "one space between the bytes and the words: write two")
            words = text[3 * good :]
        low = [pair.upper() for pair in pairs[:good] if pair != pair.upper()]
        if low:
            self.tell(at, f"lower-case digits: write {' '.join(low)}")
        return bytes.fromhex("".join(pairs[:good])), words.lstrip(" ")
