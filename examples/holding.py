"""Holds a listing to its bytes: the words beside them, the numbers of the lines, and the header against the lines below it.

Mistakes are told of lines that say other than the bytes; notes of bytes that the judge refuses, which may be meant.
"""
from saying import SIGNAL, row_at, row_refused, row_says

SIGNALS, ROWS, PROPERTIES, ROWS_FROM, PROPERTIES_FROM, BYTES = 1, 2, 3, 4, 5, 6  # fields of a table's header
CYCLES, SAMPLES_FROM = 2, 3  # fields of a trace's header, after version and signals
TABLE_HEADER, TRACE_HEADER, ROW, ROOT, SAMPLE = 16, 12, 4, 2, 4  # bytes
LIMITS = {SIGNALS: (1, 32, "signals"), ROWS: (1, 64, "rows"), PROPERTIES: (1, 8, "properties")}
MOST_CYCLES = 16381


def little(data):
    return int.from_bytes(data, "little")


class Told:
    """Mistakes and notes as (file, line, words), and what could not be read or written."""

    def __init__(self):
        self.mistakes, self.notes, self.unread = [], [], []

    def wrong(self, path, at, words):
        self.mistakes.append((path, at, words))

    def note(self, path, at, number, words):
        self.notes.append((path, at, f"note: {words}: the judge refuses this with {number}"))

    def lines(self):
        """Everything by file and line; a line of 0 is a file as a whole."""
        found = sorted(self.mistakes + self.notes, key=lambda told: told[:2])
        return [f"{path}:{at}: {words}" if at else f"{path}: {words}" for path, at, words in found]


class Holder:
    """A listing that is held, and where that is told. A refusal by the number `meant` is meant, and not told."""

    def __init__(self, listing, told, meant=None):
        self.listing, self.told, self.meant = listing, told, meant
        self.values = self.header()

    def lines(self, section):
        return self.listing.sections.get(section, [])

    def wrong(self, at, words):
        self.told.wrong(self.listing.path, at, words)

    def note(self, at, number, words):
        if number != self.meant:
            self.told.note(self.listing.path, at, number, words)

    def says(self, line, *texts):
        """The words of a line are one of the texts, the first of which the bytes say."""
        if line.words not in texts:
            beside = f"the words say '{line.words}'" if line.words else "no words stand beside them"
            self.wrong(line.at, f"the bytes say '{texts[0]}', {beside}")

    def sized(self, line, width, what):
        """The bytes of a line where they are as many as they should be, else None."""
        if line.data is None or len(line.data) == width:
            return line.data
        self.wrong(line.at, f"{what} has {width} bytes, here are {len(line.data)}")
        return None

    def header(self):
        """The fields' values, None where there is none."""
        fields, lines = self.listing.shape.fields, self.lines("Header")
        if len(lines) != len(fields):
            if "Header" in self.listing.headings:
                parts = ", ".join(form.format("N") for _, form in fields)
                self.wrong(self.listing.headings["Header"], f"the header has {len(fields)} lines, here are {len(lines)}: {parts}")
            return [None] * len(fields)
        values = []
        for line, (width, form) in zip(lines, fields):
            data = self.sized(line, width, f"'{form.format('N')}'")
            values.append(None if data is None else little(data))
            if data is not None:
                self.says(line, form.format(values[-1]))
        return values

    def counted(self, section, field, what):
        """As many lines as the header says."""
        said, found = self.values[field], len(self.lines(section))
        if section in self.listing.headings and said not in (None, found):
            self.wrong(self.listing.headings[section], f"here are {found} {what}, the header says {said} (line {self.lines('Header')[field].at})")

    def placed(self, field, should):
        """A place or the total in the header is what the lines below make it."""
        said, form = self.values[field], self.listing.shape.fields[field][1]
        if said not in (None, should) and set(self.listing.shape.headings) <= set(self.listing.headings):
            at = self.lines("Header")[field].at
            self.wrong(at, f"the header says '{form.format(said)}', the lines of this listing make it '{form.format(should)}'")

    def numbered(self, section, what, first):
        """Lines count upwards; where they are out of step, the first such line is told."""
        off = 0
        for place, line in enumerate(self.lines(section), first):
            if line.number is not None and line.number - place not in (0, off):
                self.wrong(line.at, f"the bytes say {what} {place}, the words say {what} {line.number}")
            off = off if line.number is None else line.number - place


def hold_rows(holder, names):
    """What each row says. A row's words may also be over the words of rows that are told already: each mistake is told once."""
    read, worded = [], []
    for place, line in enumerate(holder.lines("Rows")):
        data = holder.sized(line, ROW, "a row")
        if data and data[0] == SIGNAL and line.words and not holder.listing.all_named():
            names.setdefault(data[1], line.words)  # that its name could not be read is told already
        says = None if data is None else row_says(data, read, names)
        read.append(says)
        worded.append(says and (line.words, says[1]))
        if data is not None:
            for number, words in row_refused(data, place, holder.values[SIGNALS]):
                holder.note(line.at, number, words)
        if says:
            holder.says(line, says[0], row_says(data, worded[:-1], names)[0])
    return read, worded


def hold_roots(holder, read, worded):
    for line in holder.lines("Properties"):
        data = holder.sized(line, ROOT, "a property")
        if data is None:
            continue
        root = little(data)
        if root >= len(read):
            holder.note(line.at, 9, f"row {root} is none of the table's")
        if row_at(read, root):
            holder.says(line, row_at(read, root)[0], row_at(worded, root)[0])


def hold_table(listing, told):
    """Holds a table; the number of its signals, None where that cannot be read."""
    holder = Holder(listing, told)
    hold_version(holder, 2)
    for field, (least, most, what) in LIMITS.items():
        if holder.values[field] is not None and not least <= holder.values[field] <= most:
            holder.note(holder.lines("Header")[field].at, 3, f"{what} are {least} to {most}")
    signals = holder.values[SIGNALS]
    for line in holder.lines("Signals"):
        if signals is not None and line.number >= signals:
            holder.wrong(line.at, f"signal {line.number} is not below {signals}, the signals in the header (line {holder.lines('Header')[SIGNALS].at})")
    hold_roots(holder, *hold_rows(holder, listing.names))
    holder.counted("Rows", ROWS, "rows")
    holder.counted("Properties", PROPERTIES, "properties")
    holder.numbered("Rows", "row", 0)
    holder.numbered("Properties", "property", 0)
    roots_from = TABLE_HEADER + ROW * len(holder.lines("Rows"))
    holder.placed(ROWS_FROM, TABLE_HEADER)
    holder.placed(PROPERTIES_FROM, roots_from)
    holder.placed(BYTES, roots_from + ROOT * len(holder.lines("Properties")))
    return signals


def hold_version(holder, number):
    if holder.values[0] not in (None, 1):
        holder.note(holder.lines("Header")[0].at, number, "the version is not 1")


def hold_sample(holder, line, table, signals):
    data = holder.sized(line, SAMPLE, "a sample")
    if data is None:
        return
    bits = [k for k in range(32) if little(data) >> k & 1]
    if table.all_named() or set(bits) <= set(table.names):
        holder.says(line, " ".join(table.names.get(k, f"bit {k}") for k in bits) or "-")
    if signals is not None and bits and bits[-1] >= signals:
        holder.note(line.at, 13, f"bit {bits[-1]} is no signal of the table")


def hold_trace(listing, told, table, signals, meant):
    """Holds a trace to the names of a table's listing and to the number of its signals."""
    holder = Holder(listing, told, meant)
    hold_version(holder, 15)
    said = holder.values[SIGNALS]
    if None not in (said, signals) and said != signals and meant != 15:
        holder.wrong(
            holder.lines("Header")[SIGNALS].at,
            f"the header says {said} signals, the table has {signals} ({table.path}:{table.sections['Header'][SIGNALS].at});"
            " where the judge is to refuse it, have verdicts.txt beside it say 'refused 15 0'",
        )
    for line in holder.lines("Samples"):
        hold_sample(holder, line, table, signals)
    if holder.values[CYCLES] is not None and holder.values[CYCLES] > MOST_CYCLES:
        holder.note(holder.lines("Header")[CYCLES].at, 15, f"cycles are 0 to {MOST_CYCLES}")
    holder.counted("Samples", CYCLES, "samples")
    holder.numbered("Samples", "cycle", 1)
    holder.placed(SAMPLES_FROM, TRACE_HEADER)


def bytes_of(listing):
    """The bytes of a listing that is right, line after line."""
    return b"".join(line.data for name in listing.shape.headings if name != "Signals" for line in listing.sections[name])
