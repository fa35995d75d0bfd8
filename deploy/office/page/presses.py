"""One outcome for each form: who presses a button twice, as by a double click, gets what the first press gave.

A browser drops the answer to the first press, and shows the one to the second. So a second press of the same form, with all its
fields as before, is not carried out: it waits for the first one, and gets its answer and its news. That holds for some seconds
after the first one has ended: a clerk who sends an old page again later reads what is so then.
"""

import contextvars
import threading
import time
from dataclasses import dataclass, field as own
from typing import Any

from memory import News

SECONDS = 5.0     # after an answer, in which the same form gets it again
PATIENCE = 120.0  # for which a second press waits for the answer to the first one

_news: contextvars.ContextVar[list[News] | None] = contextvars.ContextVar("news", default=None)


@dataclass
class Outcome:
    """What came of the first press: its answer, once there is one, and the news that it told."""

    answer: Any = None
    news: list[News] = own(default_factory=list)
    ended: float | None = None
    done: threading.Event = own(default_factory=threading.Event)

    def end(self, answer: Any) -> None:
        """Lets those go on who wait for the answer."""
        self.answer, self.ended = answer, time.monotonic()
        self.done.set()

    def is_old(self) -> bool:
        """Whether a further press is one of its own."""
        return self.ended is not None and self.ended + SECONDS < time.monotonic()


class Presses:  # pylint: disable=too-few-public-methods  # there is one question
    """The forms that were sent in the last seconds."""

    def __init__(self) -> None:
        self._lock = threading.Lock()
        self._outcomes: dict[str, Outcome] = {}

    def first(self, form: str) -> tuple[Outcome, bool]:
        """The outcome of a form, and whether this is its first press, which has to end it."""
        with self._lock:
            self._outcomes = {name: one for name, one in self._outcomes.items() if not one.is_old()}
            is_first = form not in self._outcomes
            return self._outcomes.setdefault(form, Outcome()), is_first


def collect(news: list[News] | None) -> None:
    """Keeps the news of this thread's request in this list, too, or in none."""
    _news.set(news)


def note(kind: str, text: str) -> None:
    """Keeps a piece of news for a second press."""
    if (news := _news.get()) is not None:
        news.append(News(kind, text))
