"""Offices in which sqlite3, with its checks off, broke a reference or a check of the documented tables, or stated a version."""

from foreign.laws import GREATEST, Changes, each, plain
from foreign.program import UNAVAILABLE

BROKEN: Changes = {
    **plain("idle", "a home that is not there", "UPDATE person SET home = 'X1' WHERE id = 'N1'", answer=UNAVAILABLE),
    **plain("idle", "a home with a bad code", "UPDATE person SET home = 'x1' WHERE id = 'N1'", answer=UNAVAILABLE),
    **plain("idle", "the room of a tenant is gone", "DELETE FROM room WHERE code = 'H1'", answer=UNAVAILABLE),
    **plain("open", "a list with a room that is not there", "UPDATE choice SET room = 'X1' WHERE person = 'B'", answer=UNAVAILABLE),
    **plain("open", "a list of somebody who is not there", "INSERT INTO choice VALUES ('X1', 0, 'V')", answer=UNAVAILABLE),
    **plain("drawn", "a word of somebody who is not there", "INSERT INTO word VALUES ('X1', '0000000000000001')",
            answer=UNAVAILABLE),
    **plain("ran", "a result of somebody who is not there", "INSERT INTO result VALUES ('X1', NULL)", answer=UNAVAILABLE),
    **plain("ran", "a result with a room that is not there", "UPDATE result SET room = 'X1' WHERE person = 'N2'",
            answer=UNAVAILABLE),
    **each("idle", "a room is shut by", "UPDATE room SET shut = ? WHERE code = 'V'", [2, -1], answer=UNAVAILABLE),
    **each("open", "somebody has withdrawn by", "UPDATE person SET withdrawn = ? WHERE id = 'C'", [2, -1], answer=UNAVAILABLE),
    **each("idle", "somebody has grade", "UPDATE grade SET value = ?", [0, 10, -1], answer=UNAVAILABLE),
    **plain("idle", "a grade of somebody who is not there", "INSERT INTO grade VALUES ('X1', 1)", answer=UNAVAILABLE),
    **plain("open", "somebody leaves who is not there", "INSERT INTO going VALUES ('X1')", answer=UNAVAILABLE),
    **plain("idle", "the row of the round is the second", "UPDATE round SET one = 2", answer=UNAVAILABLE),
    **plain("idle", "two rows of the round", "INSERT INTO round VALUES (2, 3, 2, 'idle')", answer=UNAVAILABLE),
}


def version(office: str, number: int, *more: str) -> Changes:
    """Another version, which is reported first, whatever else is there."""
    return plain(office, f"version {number}" + " and an unknown phase" * bool(more), f"UPDATE round SET version = {number}", *more,
                 answer=f"refused 22 OtherVersion {number}")


VERSIONS: Changes = {
    **version("idle", 9),
    **version("published", 9),
    **version("idle", 9, "UPDATE round SET phase = 'settled'"),
    **version("idle", 0),
    **version("idle", 1),
    **version("idle", 2),
    **version("idle", 4),
    **version("idle", -1),
    **version("idle", 65536 + 1),
    **version("idle", GREATEST),
    **version("idle", -GREATEST - 1),
}
