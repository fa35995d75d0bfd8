"""Lawful offices as rows, and what the program has to answer about each, all written by hand."""

from dataclasses import dataclass

from foreign.tables import Row, Rows

LONG_KEY = "k" * 64
LIST = b"room\nV\nW\n"
LABEL = "rooms-2026"

# H1, H2 and H3 have tenants, S is shut, V and W are vacant. Nobody lives with N1 and N2.
ROOMS: list[Row] = [("H1", 0), ("H2", 0), ("H3", 0), ("S", 1), ("V", 0), ("W", 0)]
NAMES = {"A": "Ann Ash", "B": "Bo Ødegård", "C": "王小明", "N1": 'O\'Neill, "Nan"', "N2": "Nia Noor"}
KEYS = {"A": "key000000000000a", "B": "key000000000000b", "C": "key000000000000c", "N1": "key00000000000n1", "N2": LONG_KEY}

# The first round: A and C passed their rooms to one another, B left W for H2, and X9, who is gone since, moved into W. The second
# round was given up.
MOVES: list[Row] = [(1, "A", "H3", "H1", None), (1, "B", "W", "H2", 1), (1, "C", "H1", "H3", None), (1, "X9", None, "W", 2)]
LISTS: list[Row] = [(LABEL, "rooms", LIST, 2)]
GRADES: list[Row] = [("B", 9)]

# The third round, from which C has withdrawn: so H3 takes no part, and C's list counts for nothing. S takes none either.
CHOICES: list[Row] = [("A", 0, "H2"), ("A", 1, "V"), ("B", 0, "H1"), ("C", 0, "V"), ("N1", 0, "H3"), ("N1", 1, "H1"),
                      ("N1", 2, "V"), ("N2", 0, "V"), ("N2", 1, "S")]
WORDS: list[Row] = [("A", "00000000000000ab"), ("B", "ffffffffffffffff"), ("N1", "0000000000000001"), ("N2", "0000000000000002")]

# The drawn order is N1, N2, A, B, the last also by the grade. A asks for H2, where B lives, and B for H1, where A lives: they are
# a cycle, and leave with each other's rooms. N1 cannot have H3, and H1 is gone then: so N1 asks for V, which points to N1, the
# first who is left. For N2 V is gone and S shut, and nothing else is listed.
RESULTS: list[Row] = [("A", "H2"), ("B", "H1"), ("N1", "V"), ("N2", None)]

ROOMS_TABLE = """\
room      state     tenant
H1        occupied  A
H2        occupied  B
H3        occupied  C
S         shut      none
V         free      none
W         free      none"""
PEOPLE_TABLE = """\
person        home      name
A             H1        Ann Ash
B             H2        Bo Ødegård
C             H3        王小明
N1            none      O'Neill, "Nan"
N2            none      Nia Noor"""
MOVES_TABLE = """\
wave  person        from      to
1     B             W         H2
2     X9            none      W
swap  A             H3        H1
swap  C             H1        H3"""
ORDER_TABLE = """\
   1 0000000000000001 N1
   2 0000000000000002 N2
   3 00000000000000ab A
   4 ffffffffffffffff B grade 9"""
RESULTS_TABLE = """\
person        room
A             H2
B             H1
N1            V
N2            none"""
PEOPLE_EXPORT = '''\
person,name,home
A,Ann Ash,H1
B,Bo Ødegård,H2
C,王小明,H3
N1,"O'Neill, ""Nan""",
N2,Nia Noor,'''
MOVES_EXPORT = """\
round,wave,person,from,to
1,swap,A,H3,H1
1,1,B,W,H2
1,swap,C,H1,H3
1,2,X9,,W"""


@dataclass(frozen=True)
class Office:
    """An office as rows, lines that ask for what it holds, and a command that it accepts, with the tables that change by it."""

    rows: Rows
    told: dict[str, str]
    command: str
    answer: str
    changed: Rows
    then: str
    has_list: bool = True


def people(homes: dict[str, str], withdrawn: tuple[str, ...] = ()) -> list[Row]:
    """The rows of the people."""
    return [(person, name, KEYS[person], homes.get(person), int(person in withdrawn)) for person, name in NAMES.items()]


HOMES = {"A": "H1", "B": "H2", "C": "H3"}


def in_round(phase: str, withdrawn: tuple[str, ...] = ("C",), **tables: list[Row]) -> Rows:
    """The rows of the third round in this phase."""
    none: Rows = {"word": [], "result": [], "going": []}
    return {"room": ROOMS, "person": people(HOMES, withdrawn), "round": [(1, 3, 3, phase)], **none, "move": MOVES, "list": LISTS,
            "choice": CHOICES, "grade": GRADES, **tables}


def me(person: str, home: str, phase: str, choices: str, withdrawn: str, result: str, going: str = "no") -> str:
    """What a person sees by the key in the third round."""
    listed = f"choices {choices}".rstrip()
    return f"""\
person {person}
name {NAMES[person]}
home {home}
round 3 {phase}
{listed}
withdrawn {withdrawn}
going {going}
result {result}"""


EMPTY = Office(
    rows={"room": [], "person": [], "round": [(1, 3, 0, "idle")], "word": [], "result": [], "move": [], "list": [], "choice": [],
          "grade": [], "going": []},
    told={
        "do round": "round 0 idle people 0 withdrawn 0",
        "do rooms": "room      state     tenant",
        "do people": "person        home      name",
        "do moves 1": "refused 17 NoSuchRound",
        "do results": "refused 1 BadPhase idle",
        "export moves": "round,wave,person,from,to",
    },
    command="do room Z9",
    answer="ok",
    changed={"room": [("Z9", 0)]},
    then="round 0 idle people 0 withdrawn 0",
    has_list=False,
)

IDLE = Office(
    rows={"room": ROOMS, "person": people(HOMES), "round": [(1, 3, 2, "idle")], "word": [], "result": [], "move": MOVES,
          "list": LISTS, "choice": [], "grade": GRADES, "going": []},
    told={
        "do round": "round 2 idle people 5 withdrawn 0",
        "do rooms": ROOMS_TABLE,
        "do people": PEOPLE_TABLE,
        "do moves 1": MOVES_TABLE,
        "do moves 2": "wave  person        from      to",
        "do moves 3": "refused 17 NoSuchRound",
        f"do me {LONG_KEY}": "person N2\nname Nia Noor\nhome none\nround 2 idle\nchoices\nwithdrawn no\ngoing no\nresult hidden",
        "do room H1": "refused 4 DuplicateRoom",
        "export people": PEOPLE_EXPORT,
        "export moves": MOVES_EXPORT,
    },
    command="do room Z9",
    answer="ok",
    changed={"room": [*ROOMS, ("Z9", 0)]},
    then="round 2 idle people 5 withdrawn 0",
)

OPEN = Office(
    rows=in_round("open"),
    told={
        "do round": "round 3 open people 5 withdrawn 1",
        "do rooms": ROOMS_TABLE,
        "do people": PEOPLE_TABLE,
        "do moves 1": MOVES_TABLE,
        "do moves 3": "refused 17 NoSuchRound",
        "do order": "refused 1 BadPhase open",
        "do me key00000000000n1": me("N1", "none", "open", "H3 H1 V", "no", "hidden"),
        "do me key000000000000c": me("C", "H3", "open", "V", "yes", "hidden"),
        "do choose C W": "refused 11 Withdrawn",
    },
    command="do choose N2 W V",
    answer="chosen W V",
    changed={"choice": [*CHOICES[:-2], ("N2", 0, "W"), ("N2", 1, "V")]},
    then="round 3 open people 5 withdrawn 1",
)

ALL_OPEN = Office(
    rows=in_round("open", withdrawn=(), choice=[]),
    told={
        "do round": "round 3 open people 5 withdrawn 0",
        "do me key00000000000n1": me("N1", "none", "open", "", "no", "hidden"),
        "do results": "refused 1 BadPhase open",
    },
    command="do close",
    answer="closed 5",
    changed={"round": [(1, 3, 3, "closed")]},
    then="round 3 closed people 5 withdrawn 0",
)

CLOSED = Office(
    rows=in_round("closed"),
    told={
        "do round": "round 3 closed people 5 withdrawn 1",
        "do me key00000000000n1": me("N1", "none", "closed", "H3 H1 V", "no", "hidden"),
        "do order": "refused 1 BadPhase closed",
        "do draw 0000000000000001": "refused 12 WrongWordCount want 4 got 1",
        "do room Z9": "refused 1 BadPhase closed",
    },
    command="do draw 00000000000000AB ffffFFFFffffFFFF 0000000000000001 0000000000000002",
    answer="drawn 4",
    changed={"round": [(1, 3, 3, "drawn")], "word": WORDS},
    then="round 3 drawn people 5 withdrawn 1",
)

DRAWN = Office(
    rows=in_round("drawn", word=WORDS),
    told={
        "do round": "round 3 drawn people 5 withdrawn 1",
        "do order": ORDER_TABLE,
        "do results": "refused 1 BadPhase drawn",
        "do me key000000000000a": me("A", "H1", "drawn", "H2 V", "no", "hidden"),
    },
    command="do run",
    answer="ran 4",
    changed={"round": [(1, 3, 3, "ran")], "result": RESULTS},
    then="round 3 ran people 5 withdrawn 1",
)

RAN = Office(
    rows=in_round("ran", word=WORDS, result=RESULTS),
    told={
        "do round": "round 3 ran people 5 withdrawn 1",
        "do order": ORDER_TABLE,
        "do results": RESULTS_TABLE,
        "do me key000000000000a": me("A", "H1", "ran", "H2 V", "no", "hidden"),
        "do whatif N2 W": "would get W",
        "do whatif N1 H2": "would get none",
        "do whatif C W": "refused 16 NotInRound",
    },
    command="do publish",
    answer="published 4",
    changed={"round": [(1, 3, 3, "published")]},
    then="round 3 published people 5 withdrawn 1",
)

PUBLISHED = Office(
    rows=in_round("published", word=WORDS, result=RESULTS),
    told={
        "do round": "round 3 published people 5 withdrawn 1",
        "do results": RESULTS_TABLE,
        "do me key000000000000a": me("A", "H1", "published", "H2 V", "no", "H2"),
        f"do me {LONG_KEY}": me("N2", "none", "published", "V S", "no", "none"),
        "do me key000000000000c": me("C", "H3", "published", "V", "yes", "hidden"),
        "do cancel": "refused 1 BadPhase published",
    },
    command="do settle",
    answer="settled 3",
    changed={
        "person": people({"A": "H2", "B": "H1", "C": "H3", "N1": "V"}),
        "round": [(1, 3, 3, "idle")],
        "move": [*MOVES, (3, "A", "H1", "H2", None), (3, "B", "H2", "H1", None), (3, "N1", None, "V", 1)],
        "word": [], "result": [], "choice": [],
    },
    then="round 3 idle people 5 withdrawn 0",
)

# As many rooms, people, rounds and lists as there may be, one of the lists as long as one may be.
FULL_HOMES: list[Row] = [(f"P{number:04d}", "Full House", f"key{number:013d}", f"R{number:04d}", 0) for number in range(2000)]
FULL = Office(
    rows={
        "room": [(f"R{number:04d}", 0) for number in range(2000)],
        "person": FULL_HOMES,
        "round": [(1, 3, 9999, "idle")],
        "word": [], "result": [], "grade": [("P0000", 1)], "going": [],
        "move": [(9999, "P0000", None, "R0000", 1)],
        "list": [("long", "people", b"x" * 262144, 10000), *((f"l{number}", "choices", b"", 0) for number in range(199))],
        "choice": [],
    },
    told={
        "do round": "round 9999 idle people 2000 withdrawn 0",
        "do moves 9999": "wave  person        from      to\n1     P0000         none      R0000",
        "do room Z9": "refused 13 LimitReached",
        "do person Z9 key000000000000z9 Zoe Zimt": "refused 13 LimitReached",
        "do open": "refused 13 LimitReached",
    },
    command="do leave P0000",
    answer="ok",
    changed={"person": [(*FULL_HOMES[0][:3], None, 0), *FULL_HOMES[1:]]},
    then="round 9999 idle people 2000 withdrawn 0",
    has_list=False,
)

# B leaves the college: so H2 is in the round without a tenant, and B's list counts for nothing.
LEAVING = Office(
    rows=in_round("open", going=[("B",)]),
    told={
        "do round": "round 3 open people 5 withdrawn 1 going 1",
        "do me key000000000000b": me("B", "H2", "open", "H1", "no", "hidden", "yes"),
        "do choose B V": "refused 24 Going",
        "do withdraw B": "refused 24 Going",
        "do going C": "refused 11 Withdrawn",
        "do going N1": "refused 10 NoHome",
        "export grades": "person,grade\nA,0\nB,9\nC,0\nN1,0\nN2,0",
    },
    command="do going A",
    answer="going",
    changed={"going": [("A",), ("B",)]},
    then="round 3 open people 5 withdrawn 1 going 2",
)

OFFICES = {"empty": EMPTY, "idle": IDLE, "open": OPEN, "open, nobody has withdrawn": ALL_OPEN,
           "open, somebody leaves": LEAVING, "closed": CLOSED, "drawn": DRAWN, "ran": RAN, "published": PUBLISHED, "full": FULL}
