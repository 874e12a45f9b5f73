"""What is measured: the standard tables with their goals, and the series that show how cost grows.

Every trace keeps its properties pending to its end and works them: left sides match, attempts begin on every cycle and stay alive.
"""
from tables import Table, samples


class Case:
    def __init__(self, name, properties, turn, goal=None):
        self.name, self.goal, self.table, self.turn = name, goal, Table(*properties), samples(turn)
        self.properties = len(properties)


# Every kind of property in 35 rows; none has more than five rows of its own beside the signals.
EIGHT = [
    "always (s0 -> next s1)",
    "always ({s0; s1} |=> s2)",
    "always (s3 until s4)",
    "never {s5; !s6}",
    "always (if s0 then next s1 else s7)",
    "always (s0 -> next next s2)",
    "always ((s1 -> next s2) and (s6 or s4))",
    "always (s0 -> weak {s1; s2})",
]
EIGHT_TURN = "s0 s1 s2 s3 s5 s6 s7"


def all_of(properties):
    return "always (" + " and ".join(properties) + ")"


def never(cells):
    """All cells but the last hold on every cycle, so all are expected; the last never does."""
    return "never {" + "; ".join(["s0"] * (cells - 1) + ["s1"]) + "}"


SIX = "weak {s0; s0; s0; s0; s0; s0}"

# Six cells whose family a trace can fill with 16 sets, the most that a search found: while s0 is on, an attempt sends one more cell after the
# other round the loop, and s0 goes off before the attempts become alike. Nine sequences in 64 rows leave no row for a loop: an attempt at one
# of them lives five cycles, so that its family has five sets at most.
LOOPING = "weak {s0[*]; {s1; s1; s1; s1}[*]; false}"
PLAIN = "weak {s1; s1; s1; s1; s1; s1}"
SEVEN = [all_of([LOOPING] * 6 + [PLAIN])]
LOOPING_TURN = ", ".join(["s1"] + ["s0 s1"] * 12)

NINE = Case("`always` over nine weak of six cells, 5 sets each", [all_of([SIX] * 9)], "s0", 6000)
FULLEST = Case("`always` over seven weak of six cells, 16 sets in six", SEVEN, LOOPING_TURN, 12000)
# With s0 off a looping family has a set for each place in the loop.
SPARSE = Case("the same, 4 sets in six", SEVEN, "s1")
# A turn of FULLEST has 202 sets in its 13 cycles, in each of six families.
MORE_SETS = 6 * (202 / 13 - 4)
FULL = Case("nine weak, 63 sets each: reckoned, no trace does it", [all_of([SIX] * 9)], "s0", 12000)
FULL_SETS = 9 * (63 - 5)

STANDARD = [
    Case("`always (s0 -> next s1)`", EIGHT[:1], "s0 s1", 250),
    Case("`always ({s0;s1[*];s2} |=> s3)`", ["always ({s0; s1[*]; s2} |=> s3)"], "s0 s1 s2 s3", 600),
    Case("`always ({s0} |=> weak {s1;s2})`", ["always ({s0} |=> weak {s1; s2})"], "s0 s1 s2", 600),
    Case("eight small properties, each", EIGHT, EIGHT_TURN, 300),
    Case("`never` of 62 cells, 61 of them live", [never(62)], "s0", 4000),
    NINE,
    FULLEST,
]
WHOLE_FILE = Case("a file of 16,381 cycles, eight properties", EIGHT, EIGHT_TURN)


def every(period, on, always):
    """A turn of so many cycles; the signal `on` is set in the first of them only."""
    return ", ".join([on + " " + always] + [always] * (period - 1))


def rows():
    for k in (1, 3, 5, 8, 11, 14, 17, 20):
        case = Case("rows", [all_of(["(s0 -> next s1)"] * k)], "s0 s1")
        yield len(case.table.rows), case


def never_cells():
    for k in (2, 8, 16, 24, 32, 40, 48, 56, 62):
        yield k, Case("cells of never", [never(k)], "s0")


def weak_cells():
    for k in range(1, 10):
        yield 6 * k, Case("cells of weak sequences", [all_of([SIX] * k)], "s0")


def never_attempts():
    """One attempt in so many cycles, each alive for 60."""
    text = "never {" + "; ".join(["s2"] + ["s0"] * 59 + ["s1"]) + "}"
    for alive in (1, 2, 5, 10, 15, 20, 30, 60):
        yield alive, Case("live attempts of never", [text], every(60 // alive, "s2", "s0"))


def weak_attempts():
    """Attempts at eight sequences on some of every five cycles, each alive for five."""
    text = "always (s1 -> (" + " and ".join([SIX] * 8) + "))"
    for alive in (0, 1, 2, 3, 4, 5):
        turn = ", ".join(["s0 s1"] * alive + ["s0"] * (5 - alive))
        yield 8 * alive, Case("live attempts of weak sequences", [text], turn)
