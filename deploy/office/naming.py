"""Where a text that clerks have written has a person's name: in what residents read, and in the texts of mails.

A name is found as a whole, in large or small letters, with other spaces and another apostrophe. What a picture shows, and a part of
a name, is found by nobody but who looks.
"""

import unicodedata
from collections.abc import Iterable
from typing import Any, NamedTuple

from mail_book import Book
from mail_words import ALL, KINDS
from told import FIELDS

LEAST_WORDS = 2  # of a name: one word alone may be the name of a house
DESCRIPTION, PICTURE, NOTICE, CONTACT, MAIL, SENT = "description", "picture", "notice", "contact", "mail", "sent"


class Place(NamedTuple):
    """A text that has a name: what it is, of which room or kind of message, and in which language."""

    what: str
    of: str = ""
    language: str = ALL


def alike(text: str) -> str:
    """A text as it is compared with names."""
    return " ".join(unicodedata.normalize("NFKC", text).casefold().replace("’", "'").split())


class Names:
    """Names that are looked for."""

    def __init__(self, names: Iterable[str]) -> None:
        self.names = {alike(name) for name in names if len(name.split()) >= LEAST_WORDS}

    def __bool__(self) -> bool:
        return bool(self.names)

    def are_in(self, *texts: str) -> bool:
        """Whether one of the names is in a text."""
        text = alike(" ".join(texts))
        return any(name in text for name in self.names)

    def are_said_of(self, room: dict[str, Any]) -> bool:
        """Whether one of the names is in the description of a room."""
        return self.are_in(*(str(room.get(name, "")) for name in FIELDS))


def in_told(told: dict[str, Any], names: Names) -> list[Place]:
    """Where what residents read has one of the names."""
    found = [Place(DESCRIPTION, code) for code, room in told["rooms"].items() if names.are_said_of(room)]
    found += [Place(PICTURE, code) for code, pictures in told["pictures"].items()
              if any(names.are_in(one["shows"]) for one in pictures)]
    found += [Place(NOTICE, language=language) for language, text in told["notice"].items() if names.are_in(text)]
    return found + ([Place(CONTACT)] if names.are_in(told["contact"]) else [])


def in_mails(book: Book, names: Names) -> list[Place]:
    """Which texts of mails have one of the names: those that clerks have written, and those of the messages that were sent last."""
    found = [Place(MAIL, kind, language) for kind in KINDS for language, text in book.texts(kind).items() if names.are_in(*text)]
    run = book.run()
    sent = [run.text, *book.run_texts().values()] if run else []
    return found + [Place(SENT, run.kind) for run in [run] if run and any(names.are_in(*text) for text in sent)]
