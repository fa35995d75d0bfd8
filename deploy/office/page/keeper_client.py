"""Asks the keeper for the page, and says in words of the clerk's language what went wrong."""

import os
from typing import Any, NamedTuple

from asking import Kind, answer_to, kind_of
from house_places import here
from languages import _, spoken

SOCKET = os.environ.get("ROOMS_SOCKET", str(here().socket))
# The keeper gives up earlier than this, and says so itself.
PATIENCE = 110


class KeeperFault(Exception):
    """The keeper did not answer, or could not do what it was asked to do. The text is for the clerk."""


class Unsure(KeeperFault):
    """Nobody knows whether what the keeper was asked for was carried out. `is_over` if at least nothing more comes of it."""

    def __init__(self, why: str, is_over: bool) -> None:
        super().__init__(why)
        self.is_over = is_over


class WasAnothers(KeeperFault):
    """People would come under identifiers that were somebody else's: `former` has each of these, with the name that it stood for,
    or none. The clerk may say that they are the same people."""

    def __init__(self, why: str, former: list[tuple[str, str]]) -> None:
        super().__init__(why)
        self.former = tuple(former)


class Answer(NamedTuple):
    """What the program printed for one line, and its exit status."""

    text: str
    status: int


def ask(question: str, who: str, patience: float = PATIENCE, **fields: Any) -> dict[str, Any]:
    """Asks in the name of a clerk, who waits for so many seconds and reads faults in the language that is spoken, and gives
    the keeper's reply."""
    try:
        reply = answer_to({"ask": question, "who": who, "speaks": spoken(), **fields}, SOCKET, patience)
    except (OSError, ValueError) as fault:
        raise Unsure(_("The keeper of the office's file does not answer. Nobody knows whether the last step was carried out. Wait "
                       "a minute. Then look at the overview and in the journal before you try again."), False) from fault
    kind = kind_of(reply)
    if kind is Kind.ENDED:
        raise Unsure(_("The keeper of the office's file ended during this step. Nobody knows whether it was carried out. Look at "
                       "the overview and in the journal before you try again."), True)
    if kind is Kind.FORMER:
        raise WasAnothers(str(reply["fault"]), reply["former"])
    if kind is Kind.UNSURE:
        raise Unsure(str(reply["fault"]), True)
    if kind is not Kind.DONE:
        raise KeeperFault(str(reply["fault"]))
    return dict(reply)


def answers_of(reply: dict[str, Any]) -> list[Answer]:
    """The program's answers in a reply."""
    return [Answer(text, status) for text, status in reply["answers"]]
