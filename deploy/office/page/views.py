"""The page's templates, in each language.

What a template says is not marked in it: its texts are read off. A text reaches from one block of HTML, or line of code,
to the next. In a catalogue it has no code and no attribute: a value is `{name}` or `{1}`, and a tag `<1>..</1>`. So a
translation can move these, and cannot bring any in.
"""

import functools
import html
import re
from collections.abc import Callable, Iterator
from pathlib import Path
from typing import Any, NamedTuple

import bottle  # type: ignore[import]  # Debian's bottle has no types

from languages import ENGLISH, _, languages, ngettext, numeral, spoken

FOLDER = Path(__file__).resolve().parent / "views"
# Lines and blocks of code, as bottle's own parser finds them.
CODE = re.compile(r"(?m)^[ \t]*%.*\n?|<%(?s:.*?)%>")
VALUE = bottle.StplParser("").re_inl
# A value is one sign of this kind while HTML is looked at, so that no sign of its code is taken for HTML.
FIRST_STAND_IN = 0xE000
STAND_IN = re.compile("[\ue000-\uf8ff]")
TAG = re.compile(r"<!--.*?-->|</?[A-Za-z!][^>]*>", re.S)
# Tags inside a sentence. Every other one begins or ends a text.
INLINE = re.compile(r"</?(?:a|abbr|b|br|code|em|i|kbd|small|span|strong|time)\b", re.I)
VOID = re.compile(r"<br\b", re.I)
AROUND = re.compile(r"<(?!br\b)[A-Za-z][^>]*>(.*)</[A-Za-z]+>", re.S)
ATTRIBUTE = re.compile(r"""(?<=\s)((?:aria-label|placeholder|title|alt)=")([^"]*)(")""")
LETTER = re.compile(r"[^\W\d_\ue000-\uf8ff]")
NAME = re.compile(r"[A-Za-z_][\w.]*")
# The parts of a text in a catalogue.
PART = re.compile(r"\{(?P<value>[\w.]+)\}|<(?P<tag>/?\d+/?)>")

Translate = Callable[[str], str]


class Text(NamedTuple):
    """A text of a template as a catalogue has it, and what its values and tags stand for."""

    told: str
    stands: dict[str, str]

    def other(self, translation: str) -> str | None:
        """The HTML of a translation; nothing if it does not have exactly the values and tags of the text."""
        if sorted(found[0] for found in PART.finditer(translation)) != sorted(found[0] for found in PART.finditer(self.told)):
            return None
        parts, at = [], 0
        for found in PART.finditer(translation):
            parts += [quoted(translation[at:found.start()]), self.stands[found[0]]]
            at = found.end()
        return "".join([*parts, quoted(translation[at:])])


PutText = Callable[[Text, str], str]


def quoted(text: str) -> str:
    """A text as HTML in which a template finds no code."""
    return html.escape(" ".join(text.split("\n"))).replace("{", "&#123;").replace("%", "&#37;")


def text_of(source: str, values: list[str], tag_of: Callable[[str], str]) -> Text:
    """The text of a piece of HTML in which stand-ins are in the place of values. `tag_of` gives a tag as it is shown."""
    stands: dict[str, str] = {}
    opened: list[int] = []
    count = 0

    def label(found: re.Match[str]) -> str:
        nonlocal count
        if found[0][0] != "<":
            code = values[ord(found[0]) - FIRST_STAND_IN]
            inner = code[2:-2].strip()
            if not NAME.fullmatch(inner):
                inner = next((name for name, other in stands.items() if other == code and name[1:-1].isdigit()), "")[1:-1]
                inner = inner or str(1 + sum(1 for name in stands if name[1:-1].isdigit() and name[0] == "{"))
            stands["{" + inner + "}"] = code
            return "{" + inner + "}"
        if VOID.match(found[0]):
            count += 1
            name = f"<{count}/>"
        elif found[0][1] == "/":
            name = f"</{opened.pop()}>"
        else:
            count += 1
            opened.append(count)
            name = f"<{count}>"
        stands[name] = tag_of(found[0])
        return name

    marked = re.sub(f"{TAG.pattern}|{STAND_IN.pattern}", label, source, flags=re.S)
    return Text(" ".join(html.unescape(marked).split()), stands)


def is_balanced(source: str) -> bool:
    """Whether each inline tag of a piece of HTML is closed in it."""
    opened = 0
    for found in TAG.finditer(source):
        if not VOID.match(found[0]):
            opened += -1 if found[0][1] == "/" else 1
            if opened < 0:
                return False
    return opened == 0


def bare(source: str) -> str:
    """A piece of HTML without the tags that are around all of it."""
    while (found := AROUND.fullmatch(source)) and is_balanced(found[1]):
        source = found[1].strip()
    return source


def pieces(source: str) -> Iterator[str]:
    """A part of a template without code, cut at the tags that are in no sentence."""
    run = ""
    for part in re.split(f"({TAG.pattern})", source, flags=re.S):
        if part.startswith("<") and TAG.fullmatch(part) and not INLINE.match(part):
            yield from cut(run)
            yield part
            run = ""
        else:
            run += part
    yield from cut(run)


def cut(run: str) -> Iterator[str]:
    """A run of words and inline tags: one text, or cut at its tags if one of them is closed elsewhere."""
    if is_balanced(run):
        yield run
    else:
        yield from re.split(f"({TAG.pattern})", run, flags=re.S)


def put(source: str, put_text: PutText) -> str:
    """A template, with each of its texts as `put_text` gives it: it gets the text and its HTML."""
    parts, at = [], 0
    for code in [*CODE.finditer(source), None]:
        part = Part(put_text)
        pieces_of = pieces(VALUE.sub(part.stand_in, source[at:code.start() if code else len(source)]))
        parts += [part.tag_of(piece) if TAG.fullmatch(piece) else part.put(piece) for piece in pieces_of]
        if code:
            parts.append(code[0])
            at = code.end()
    return "".join(parts)


class Part:
    """A part of a template without lines of code. While its HTML is looked at, stand-ins are in the place of its values."""

    def __init__(self, put_text: PutText) -> None:
        self.put_text = put_text
        self.values: list[str] = []

    def stand_in(self, found: re.Match[str]) -> str:
        """What is in the place of a value."""
        self.values.append(found[0])
        return chr(FIRST_STAND_IN + len(self.values) - 1)

    def back(self, text: str) -> str:
        """A piece with its values."""
        return STAND_IN.sub(lambda sign: self.values[ord(sign[0]) - FIRST_STAND_IN], text)

    def tag_of(self, tag: str) -> str:
        """A tag, with those of its attributes that people read."""
        return self.back(ATTRIBUTE.sub(lambda found: found[1] + self.put(found[2]) + found[3], tag))

    def tags_in(self, piece: str) -> str:
        """A piece whose text stays as it is."""
        return self.back(TAG.sub(lambda found: self.tag_of(found[0]), piece))

    def put(self, piece: str) -> str:
        """A piece with its text as it is put, if it has one."""
        inner = piece.strip()
        if not LETTER.search(html.unescape(TAG.sub("", inner))):
            return self.tags_in(piece)
        inner = bare(inner)
        begin = piece.index(inner)
        text = text_of(inner, self.values, self.tag_of)
        return self.tags_in(piece[:begin]) + self.put_text(text, self.tags_in(inner)) + self.tags_in(piece[begin + len(inner):])


def texts_of(source: str) -> list[str]:
    """The texts of a template, as a catalogue has them."""
    found: list[str] = []
    put(source, lambda text, own: found.append(text.told) or own)  # type: ignore[func-returns-value]
    return found


def translated(source: str, translate: Translate) -> str:
    """A template in another language."""
    def put_text(text: Text, own: str) -> str:
        other = translate(text.told)
        return own if other == text.told else text.other(other) or own
    return put(source, put_text)


class View(bottle.SimpleTemplate):  # type: ignore[misc]
    """A template in the language that was spoken when it was made."""

    @bottle.cached_property
    def code(self) -> str:
        """The template as Python."""
        source = Path(self.filename).read_text(encoding="utf-8")
        if spoken() != ENGLISH:
            source = translated(source, _)
        return str(bottle.StplParser(source).translate())


@functools.cache
def view(name: str, language: str) -> View:
    """A template in a language, made once. The language is the one that is spoken."""
    assert language == spoken()
    return View(name=name, lookup=[str(FOLDER)])


def render(name: str, **values: Any) -> str:
    """The page of a template in the language that is spoken."""
    return str(view(name, spoken()).render(_=_, ngettext=ngettext, numeral=numeral, spoken=spoken, languages=languages, **values))
