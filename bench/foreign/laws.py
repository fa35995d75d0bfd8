"""Offices in which sqlite3 has changed some rows: by each of these changes one law of an office is broken, or not quite."""

from dataclasses import dataclass

from foreign.program import NOT_AN_OFFICE
from foreign.tables import Value

Step = tuple[str, tuple[Value, ...]]

CODE = "INSERT INTO room VALUES (CAST(? AS TEXT), 0)"
PERSON = "INSERT INTO person VALUES (CAST(? AS TEXT), 'Eve Ede', 'key000000000000e', NULL, 0)"
NAME = "UPDATE person SET name = CAST(? AS TEXT) WHERE id = 'A'"
KEY = "UPDATE person SET passkey = CAST(? AS TEXT) WHERE id = 'A'"
HEX = "UPDATE word SET hex = CAST(? AS TEXT) WHERE person = 'N2'"
PHASE = "UPDATE round SET phase = CAST(? AS TEXT)"
NUMBER = "UPDATE round SET number = ?"
PLACE = "UPDATE choice SET place = ? WHERE person = 'B'"
LABEL = "INSERT INTO list VALUES (CAST(? AS TEXT), 'rooms', x'', 0)"
KIND = "UPDATE list SET kind = CAST(? AS TEXT)"
ADDED = "UPDATE list SET added = ?"
BODY = "UPDATE list SET body = zeroblob(?)"
MOVE = "INSERT INTO move VALUES (?, CAST(? AS TEXT), CAST(? AS TEXT), CAST(? AS TEXT), ?)"
NO_SWAP = "UPDATE result SET room = NULL WHERE person IN ('A', 'B')"
GREATEST = 2**63 - 1
IN_ROUND = ("open", "closed", "drawn", "ran", "published")


@dataclass(frozen=True)
class Changed:
    """An office of this name, what sqlite3 does to its rows, and what the program answers to `round` then."""

    office: str
    steps: tuple[Step, ...]
    answer: str = NOT_AN_OFFICE


Changes = dict[str, Changed]


def step(sql: str, *values: Value) -> Step:
    """A statement with its values; texts are handed over as bytes, and may so be no UTF-8."""
    return sql, tuple(value.encode() if isinstance(value, str) else value for value in values)


def each(office: str, what: str, sql: str, values: list[Value], answer: str = NOT_AN_OFFICE) -> Changes:
    """The same statement with one value after the other."""
    return {f"{office}: {what} {str(value)[:70]!r}": Changed(office, (step(sql, value),), answer) for value in values}


def plain(office: str, what: str, *statements: str, answer: str = NOT_AN_OFFICE) -> Changes:
    """Statements without values."""
    return {f"{office}: {what}": Changed(office, tuple(map(step, statements)), answer)}


def in_each(offices: tuple[str, ...], what: str, *statements: str) -> Changes:
    """The same statements in one office after the other."""
    return {name: changed for office in offices for name, changed in plain(office, what, *statements).items()}


def many(office: str, count: int, answer: str = NOT_AN_OFFICE) -> Changes:
    """A list of so many rooms, which are there."""
    rooms = [step(CODE, f"Q{number}") for number in range(count)]
    listed = [step("INSERT INTO choice VALUES ('N2', ?, CAST(? AS TEXT))", number, f"Q{number}") for number in range(count)]
    steps = (*rooms, step("DELETE FROM choice WHERE person = 'N2'"), *listed)
    return {f"{office}: {count} rooms in a list": Changed(office, steps, answer)}


def move(what: str, office: str, *row: Value, answer: str = NOT_AN_OFFICE) -> Changes:
    """One more recorded move."""
    return {f"{office}: a move {what}": Changed(office, (step(MOVE, *row),), answer)}


GRAMMARS: Changes = {
    **each("idle", "the code", CODE, ["", "ABCDEFGHI", "h9", "-A", "A B", "A_B", "É", "A\n", "A\0", b"A\xff"]),
    **each("idle", "the identifier", PERSON, ["", "A1B2C3D4E5F6G", "n9", "A-1", "A 1", "Ä", b"\xc3"]),
    **each("idle", "the name", NAME, ["", "a" * 61, "é" * 31, " Tim", "Tim ", "Tim  Tan", "Tim\nTan", "Tim\tTan", "Tim\0",
                                      "Tim\x7f", "Tim\x85", b"Tim\xff", b"\xed\xa0\x80", b"\xc0\xaf"]),
    **each("idle", "the key", KEY, ["", "k" * 15, "k" * 65, "KEY000000000000A", "key-000000000000", "key 000000000000",
                                    "ké" * 8]),
    **each("idle", "the label", LABEL, ["", "a" * 33, "Rooms", "-a", "a_b", "a b", "ä"]),
    **each("idle", "the kind", KIND, ["", "Rooms", "room", "moves", "rooms "]),
    **each("drawn", "the word", HEX, ["", "000000000000000A", "00000000000000b", "00000000000000002", "000000000000000g",
                                      "0x00000000000002", " 00000000000000b", "000000000000000\0"]),
    **each("idle", "the phase", PHASE, ["", "Idle", "IDLE", "done", "opened", " idle", "idle ", "idle\0"]),
}

REGISTER: Changes = {
    **plain("idle", "a home that is shut", "UPDATE person SET home = 'S' WHERE id = 'N1'"),
    **plain("idle", "the room of a tenant is shut", "UPDATE room SET shut = 1 WHERE code = 'H1'"),
    **plain("full", "2,001 rooms", "INSERT INTO room VALUES ('Z9', 0)"),
    **plain("full", "2,001 people", "INSERT INTO person VALUES ('Z9', 'Zoe Zimt', 'key000000000000z9', NULL, 0)"),
}

LISTS: Changes = {
    **each("open", "the only place is", PLACE, [1, 2, -1, 2**32, GREATEST, -GREATEST]),
    **plain("open", "a gap between places", "UPDATE choice SET place = 3 WHERE person = 'N1' AND place = 2"),
    **plain("open", "places from -1 on", "UPDATE choice SET place = -1 WHERE person = 'N2' AND place = 1"),
    **many("open", 41),
    **plain("idle", "a list between rounds", "INSERT INTO choice VALUES ('N2', 0, 'V')"),
    **plain("idle", "somebody has withdrawn between rounds", "UPDATE person SET withdrawn = 1 WHERE id = 'C'"),
    **plain("idle", "somebody leaves between rounds", "INSERT INTO going VALUES ('A')"),
    **in_each(IN_ROUND, "somebody leaves who has withdrawn", "INSERT INTO going VALUES ('C')"),
    **plain("drawn", "a participant leaves, whose word stays", "INSERT INTO going VALUES ('A')"),
    **plain("published", "a participant leaves, whose result stays", "INSERT INTO going VALUES ('A')"),
    **plain("published", "a grade is given after the run", "INSERT INTO grade VALUES ('N1', 9)"),
}

ROUND: Changes = {
    **plain("idle", "no row of the round", "DELETE FROM round"),
    **plain("empty", "no row of the round", "DELETE FROM round"),
    **in_each(IN_ROUND, "the number 0", "DELETE FROM move", "UPDATE round SET number = 0"),
    **plain("idle", "the number -1", "DELETE FROM move", "UPDATE round SET number = -1"),
    **each("idle", "the number", NUMBER, [10000, 65536 + 2, 2**32 + 2, GREATEST]),
    **each("open", "the number", NUMBER, [10000, 65536 + 3]),
}

WORDS: Changes = {
    **plain("idle", "a word", "INSERT INTO word VALUES ('N1', '0000000000000001')"),
    **plain("open", "a word", "INSERT INTO word VALUES ('N1', '0000000000000001')"),
    **plain("closed", "a word", "INSERT INTO word VALUES ('N1', '0000000000000001')"),
    **plain("closed", "a word for each", "INSERT INTO word SELECT id, '00000000000000ab' FROM person WHERE withdrawn = 0"),
    **plain("drawn", "no word", "DELETE FROM word"),
    **in_each(IN_ROUND[2:], "a word is missing", "DELETE FROM word WHERE person = 'N1'"),
    **in_each(IN_ROUND[2:], "a word of somebody who has withdrawn", "INSERT INTO word VALUES ('C', '0000000000000003')"),
}

RESULTS: Changes = {
    **in_each(("idle", "open", "closed", "drawn"), "a result", "INSERT INTO result VALUES ('N2', NULL)"),
    **plain("drawn", "all results before the run", "INSERT INTO result VALUES ('A', 'H2'), ('B', 'H1'), ('N1', 'V'), ('N2', NULL)"),
    **plain("ran", "no results", "DELETE FROM result"),
    **plain("ran", "a result is missing", "DELETE FROM result WHERE person = 'A'"),
    **plain("published", "a result without a room is missing", "DELETE FROM result WHERE person = 'N2'"),
    **plain("ran", "a result of somebody who has withdrawn", "INSERT INTO result VALUES ('C', NULL)"),
    **plain("published", "the home of somebody who has withdrawn, as a result", "INSERT INTO result VALUES ('C', 'H3')"),
    **plain("ran", "a swap that did not happen", NO_SWAP, "UPDATE result SET room = 'H1' WHERE person = 'A'",
            "UPDATE result SET room = 'H2' WHERE person = 'B'"),
    **plain("published", "two tenants lose their homes", NO_SWAP),
    **plain("ran", "a newcomer has another free room", "UPDATE result SET room = 'W' WHERE person = 'N1'"),
    **plain("ran", "a newcomer has a room who gets none", "UPDATE result SET room = 'W' WHERE person = 'N2'"),
    **plain("published", "the second in the order has the room of the first", "UPDATE result SET room = NULL WHERE person = 'N1'",
            "UPDATE result SET room = 'V' WHERE person = 'N2'"),
    **plain("ran", "a newcomer has a room that is shut", "UPDATE result SET room = 'S' WHERE person = 'N2'"),
    **plain("ran", "a newcomer has a room that takes no part", "UPDATE result SET room = 'H3' WHERE person = 'N1'"),
    **plain("published", "a list is changed after the run", "DELETE FROM choice WHERE person = 'A'"),
    **plain("ran", "a word is changed after the run", "UPDATE word SET hex = '0000000000000003' WHERE person = 'N1'"),
    **plain("ran", "a room is opened after the run", "UPDATE room SET shut = 0 WHERE code = 'S'"),
    **plain("published", "a room is shut after the run", "UPDATE room SET shut = 1 WHERE code = 'V'"),
    **plain("ran", "a tenant has left after the run", "UPDATE person SET home = NULL WHERE id = 'B'"),
    **plain("published", "somebody takes part after the run", "UPDATE person SET withdrawn = 0 WHERE id = 'C'",
            "INSERT INTO word VALUES ('C', '00000000000000fe')", "INSERT INTO result VALUES ('C', 'H3')"),
}

MOVES: Changes = {
    **move("of round 0", "idle", 0, "A", None, "V", 1),
    **move("of round -1", "idle", -1, "A", None, "V", 1),
    **move("of round 65,537", "idle", 65536 + 1, "Z1", None, "V", 1),
    **move("of a round to come", "idle", 3, "A", None, "V", 1),
    **move("of a round, where there was none", "empty", 1, "A", None, "V", 1),
    **move("of the round under way", "open", 3, "A", None, "V", 1),
    **move("of the round under way", "published", 3, "A", "H1", "H2", None),
    **move("of a round to come", "open", 4, "A", None, "V", 1),
    **move("into no room, in wave 1", "idle", 2, "A", "H1", None, 1),
    **move("into no room, as a swap", "idle", 2, "A", "H1", None, None),
    **move("into a bad code", "idle", 2, "A", None, "v", 1),
    **move("into an empty code", "idle", 2, "A", None, "", 1),
    **move("from a bad code", "idle", 2, "A", "ABCDEFGHI", "V", 1),
    **move("from an empty code", "idle", 2, "A", "", "V", 1),
    **move("of a bad identifier", "idle", 2, "a", None, "V", 1),
    **move("of an empty identifier", "idle", 2, "", None, "V", 1),
    **move("of wave -1", "idle", 2, "A", None, "V", -1),
    **move("of wave 65,536", "idle", 2, "A", None, "V", 65536),
    **move("of wave 65,537", "idle", 2, "A", None, "V", 65536 + 1),
}

KEPT: Changes = {
    **each("idle", "a kept list added", ADDED, [10001, -1, 65536 + 2, GREATEST]),
    **each("idle", "a kept list, of bytes", BODY, [262145, 1 << 20]),
    **plain("full", "201 labels", "INSERT INTO list VALUES ('one-more', 'rooms', x'', 0)"),
}

LAWS: Changes = {**GRAMMARS, **REGISTER, **LISTS, **ROUND, **WORDS, **RESULTS, **MOVES, **KEPT}

IDLE_ROUND = "round 2 idle people 5 withdrawn 0"
ONE_MORE = "round 2 idle people 6 withdrawn 0"
OPEN_ROUND = "round 3 open people 5 withdrawn 1"

# What no law forbids.
LAWFUL: Changes = {
    **each("idle", "the code", CODE, ["A", "9", "ABCDEFGH", "0-------"], IDLE_ROUND),
    **each("idle", "the identifier", PERSON, ["Z", "0", "A1B2C3D4E5F6"], ONE_MORE),
    **each("idle", "the name", NAME, ["-", "a" * 60, "王" * 20, "a\u00a0b", "a\U0001f600"], IDLE_ROUND),
    **each("idle", "the key", KEY, ["0" * 16, "z" * 64], IDLE_ROUND),
    **each("idle", "the label", LABEL, ["a", "0-", "a" * 32], IDLE_ROUND),
    **each("idle", "the kind", KIND, ["rooms", "people", "choices", "grades"], IDLE_ROUND),
    **each("idle", "somebody has grade", "UPDATE grade SET value = ?", [1, 9], IDLE_ROUND),
    **plain("open", "somebody leaves who has no home", "INSERT INTO going VALUES ('N1')", answer=f"{OPEN_ROUND} going 1"),
    **each("drawn", "the word", HEX, ["0" * 16, "f" * 16, "00000000000000ab"], "round 3 drawn people 5 withdrawn 1"),
    **each("idle", "a kept list added", ADDED, [0, 10000], IDLE_ROUND),
    **each("idle", "a kept list, of bytes", BODY, [0, 262144], IDLE_ROUND),
    **plain("idle", "round 9,999", "UPDATE round SET number = 9999", answer="round 9999 idle people 5 withdrawn 0"),
    **plain("idle", "no round yet", "DELETE FROM move", "UPDATE round SET number = 0", answer="round 0 idle people 5 withdrawn 0"),
    **plain("open", "the own room in a list", "INSERT INTO choice VALUES ('B', 1, 'H2')", answer=OPEN_ROUND),
    **many("open", 40, OPEN_ROUND),
    **move("of wave 65,535", "idle", 2, "Z1", "GONE", "GONE-2", 65535, answer=IDLE_ROUND),
    **move("out of the college", "idle", 2, "A", "H1", None, 0, answer=IDLE_ROUND),
    **move("of wave 0, into a room", "idle", 2, "A", None, "V", 0, answer=IDLE_ROUND),
    **move("of a round that was given up", "open", 2, "A", None, "V", 1, answer=OPEN_ROUND),
}
