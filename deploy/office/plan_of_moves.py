"""The plan of moves as the program prints it: a line for each move, below a line with the names of its columns."""

from typing import NamedTuple

NONE = "none"                # in the place of a room that somebody does not have; so the program calls it everywhere
LEAVES, SWAP = "0", "swap"   # in the place of a wave: who leaves the college, and who exchanges rooms


class Move(NamedTuple):
    """A move: its wave, who moves, and from where to where."""

    wave: str
    person: str
    old: str
    new: str


def moves_in(plan: str) -> list[Move]:
    """The moves of a plan."""
    return [Move(*line.split()) for line in plan.splitlines()[1:]]
