"""The languages of what people read: the office's page, slips, letters and mails.

A text stands in English where it is used, inside `_`, `ngettext` or `N_`, or as the text of a template (page/views). A
catalogue has it in another language. It is one file in the format of GNU gettext, whose name is the language's code:
languages/de.po. An office adds a language by one more file in ROOMS_LANGUAGES. A text that a catalogue lacks is in English.

A thread speaks one language at a time, which `speak` sets, and `speaking` for a while.
"""

import contextlib
import contextvars
import functools
import gettext
import io
import os
import re
import string
import sys
from collections.abc import Iterable, Iterator
from pathlib import Path
from typing import Any, NamedTuple

try:
    import polib
except ImportError:  # without python3-polib everything is in English
    polib = None  # type: ignore[assignment]

ENGLISH = "en"
FOLDERS = (Path(__file__).resolve().parent / "languages", Path(os.environ.get("ROOMS_LANGUAGES", "/etc/rooms/languages")))
NAME = "X-Language-Name"     # the field of a catalogue's head that has the name of the language in itself
DIRECTION = "X-Direction"    # and the one that is `rtl` where the language is written from right to left
CODE = re.compile("[a-z]{2,3}(-[A-Za-z0-9]{2,8})*")

_spoken: contextvars.ContextVar[str] = contextvars.ContextVar("language", default=ENGLISH)


class Language(NamedTuple):
    """A language: its name in itself, its texts, and `rtl` where it is written from right to left."""

    name: str
    texts: gettext.NullTranslations
    direction: str = "ltr"


Value = tuple[str, str | None, str | None]
COUNT: Value = ("count", "", None)


def values_in(text: str) -> set[Value]:
    """The values that a text has in braces, each with its form. It raises ValueError if braces do not fit."""
    return {(name, form, conversion) for _, name, form, conversion in string.Formatter().parse(text) if name is not None}


def fits(text: str, other: str, counts: bool) -> bool:
    """Whether a translation has no value in braces that its text has not. A text that counts always gets its values."""
    try:
        wanted = values_in(text)
    except ValueError:  # braces that are no values, as in a text of which nothing is filled in
        return not counts
    try:
        return values_in(other) <= (wanted | {COUNT} if counts else wanted)
    except ValueError:
        return not wanted and not counts


def catalogue_of(file: Path) -> Language:
    """The language of a catalogue. A translation with a value that its text has not is left out."""
    entries = polib.pofile(str(file), encoding="utf-8")
    for entry in list(entries):
        plural: Any = entry.msgstr_plural  # by number; its types say otherwise
        given = [entry.msgstr, *plural.values()]
        if not all(fits(entry.msgid_plural or entry.msgid, text, bool(entry.msgid_plural)) for text in given):
            print(f"{file.name}: other values in braces: {entry.msgid!r}", file=sys.stderr, flush=True)
            entries.remove(entry)
    entries.metadata["Content-Type"] = "text/plain; charset=UTF-8"
    direction = "rtl" if entries.metadata.get(DIRECTION) == "rtl" else "ltr"
    return Language(entries.metadata.get(NAME) or file.stem, gettext.GNUTranslations(io.BytesIO(entries.to_binary())), direction)


@functools.cache
def languages() -> dict[str, Language]:
    """The languages that there are, English first, by code."""
    found = {ENGLISH: Language("English", gettext.NullTranslations())}
    for file in [file for folder in FOLDERS for file in sorted(folder.glob("*.po"))] if polib else []:
        try:
            if not CODE.fullmatch(file.stem):
                raise ValueError("its name is no language's code")
            found[file.stem] = catalogue_of(file)
        except (OSError, ValueError, IndexError, KeyError) as fault:  # a catalogue of no use does not end the page
            print(f"{file}: this language is left out: {fault}", file=sys.stderr, flush=True)
    return found


def spoken() -> str:
    """The code of the language that this thread speaks."""
    return _spoken.get()


def speak(code: str) -> None:
    """Lets this thread speak a language, or English if there is no such one."""
    _spoken.set(code if code in languages() else ENGLISH)


@contextlib.contextmanager
def speaking(code: str) -> Iterator[None]:
    """Lets this thread speak a language until the block ends."""
    before = spoken()
    speak(code)
    try:
        yield
    finally:
        speak(before)


def accepted(header: str) -> list[str]:
    """The codes in a browser's field Accept-Language, the dearest first."""
    found = []
    for part in header.split(",")[:20]:
        code, _, rest = part.strip().partition(";")
        weight = re.fullmatch(r"q=([01](?:\.[0-9]{0,3})?)", rest.strip()) if rest else None
        if code and (not rest or weight):
            found.append((-float(weight[1]) if weight else -1.0, code.strip()))
    return [code for weight, code in sorted(found, key=lambda one: one[0]) if weight]


def first_of(wanted: Iterable[str]) -> str:
    """The first of the codes that there is a language for, or English. `de-AT` is content with `de`."""
    for code in wanted:
        for known in languages():
            if known.lower() in (code.lower(), code.lower().split("-")[0]):
                return known
    return ENGLISH


class Said(str):
    """A text with its values in a language, which knows what it is in English, and can be said again in another language."""

    text: str
    values: dict[str, object]

    @property
    def english(self) -> str:
        """In English."""
        return filled(self.text, {name: in_english(one) if is_said(one) else one for name, one in self.values.items()})


def is_said(value: object) -> bool:
    """Whether a value may be in a language: a text that was said, or a fault that says one."""
    return isinstance(value, (Said, Exception))


def what_says(said: object) -> str:
    """A text, or what a fault says."""
    text = said.args[0] if isinstance(said, Exception) and len(said.args) == 1 else said
    return text if isinstance(text, str) else str(text)


def in_english(said: object) -> str:
    """A text, or what a fault says, in English."""
    text = what_says(said)
    return text.english if isinstance(text, Said) else text


def again(said: object) -> str:
    """A text, or what a fault says, in the language that is spoken now. One that counts is in English."""
    text = what_says(said)
    if not isinstance(text, Said):
        return text
    return _(text.text, **{name: again(one) if is_said(one) else one for name, one in text.values.items()})


def said_of(text: str, other: str, values: dict[str, object]) -> str:
    """A translation with its values."""
    said = Said((Filler().format(other, **values) if values else other) if other != text else filled(text, values))
    said.text, said.values = text, values
    return said


def filled(text: str, values: dict[str, object]) -> str:
    """A text with its values, in English."""
    return text.format(**values) if values else text


class Filler(string.Formatter):
    """Fills values into a text of the language that is spoken. A number whose form has a comma gets the signs of that language."""

    def format_field(self, value: Any, format_spec: str) -> str:
        """A value in its form."""
        return numeral(value, format_spec) if "," in format_spec else str(super().format_field(value, format_spec))


def _(text: str, /, **values: object) -> str:
    """A text in the language that is spoken, with its values."""
    return said_of(text, languages()[spoken()].texts.gettext(text), values) if text else ""


def ngettext(one: str, many: str, count: int, /, **values: object) -> str:
    """The text for one thing or for several, with `{count}` and its other values."""
    english = one if count == 1 else many
    try:
        other = languages()[spoken()].texts.ngettext(one, many, count)
    except ArithmeticError:  # of a catalogue's rule for plurals
        other = english
    return said_of(english, other, {"count": count, **values})


def N_(text: str) -> str:  # pylint: disable=invalid-name  # as it is called with gettext
    """Marks a text that is translated where it is shown."""
    return text


# How a language writes this number says with which signs it writes every one.
NUMBER = N_("1,000.5")
SIGNS = re.compile(r"1(\D*)000(\D+)5")


def numeral(value: object, form: str = ",") -> str:
    """A number in the form of the language that is spoken. The form is that of English."""
    found = SIGNS.fullmatch(_(NUMBER)) or SIGNS.fullmatch(NUMBER)
    assert found
    return format(value, form).translate(str.maketrans({",": found[1], ".": found[2]}))
