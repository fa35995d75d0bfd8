"""Slips: the keys that residents get on paper, each with a link and its picture, and in the language of its resident; and the
page that shows them once.

The link has the key behind `#`. A browser sends nothing of that to a server, so the key is in no request and in no log.
"""

import collections
import datetime
import threading
from dataclasses import dataclass, field as own
from typing import NamedTuple, NoReturn

import times
from languages import _, languages, speaking

import views
from app import app, clerk, go_to, memory, office_now, residents_page, show, tell
from resident_languages import residents

try:
    import segno
except ImportError:  # without python3-segno the slips have no picture
    segno = None  # type: ignore[assignment]

# One of the eight masks of a QR code. Readers take any; to find the best one for each slip takes four times as long.
MASK = 3
# Seconds for which a second press of the button that made keys can show their slips once more.
AGAIN = 15.0

Key = tuple[str, str, str]  # identifier, name and key


class Slip(NamedTuple):
    """What stands on a slip: whose it is, the key in groups, and the picture of the link, as SVG, or nothing."""

    ident: str
    name: str
    key: str
    picture: str


class Sheet(NamedTuple):
    """Slips as HTML, how many are in each language, and why languages are not known, if so."""

    slips: list[str]
    spoken: dict[str, int]
    fault: str


@dataclass
class Waiting:
    """Keys that wait to be shown, and where the clerk goes on from there. For some seconds it has those that were shown: a browser
    may have dropped the page at a second press of the button."""

    keys: list[Key]
    onward: str
    shown: list[Key] = own(default_factory=list)

    def take(self) -> list[Key]:
        """Gives the keys, once."""
        keys, self.keys = self.keys, []
        self.shown = keys
        end = threading.Timer(AGAIN, self.forget)
        end.daemon = True
        end.start()
        return keys

    def again(self) -> None:
        """Lets the keys be shown once more, if they were shown just now."""
        self.keys, self.shown = self.keys or self.shown, []

    def forget(self) -> None:
        """Forgets keys that were shown."""
        self.shown = []


def picture_of(link: str) -> str:
    """The QR code of a link."""
    if segno is None:
        return ""
    return segno.make_qr(link, error="m", mask=MASK).svg_inline(omitsize=True, light="#fff", svgclass=None, lineclass=None)


def sheet_of(keys: list[Key], at: datetime.datetime | None = None) -> Sheet:
    """The slips of these keys. They say when they were made, which is now if nothing else is said: it tells one print from
    another."""
    address, made, spoken_by = residents_page(), at or datetime.datetime.now(datetime.timezone.utc), residents()
    slips = []
    for ident, name, key in keys:
        slip = Slip(ident, name, " ".join(key[at:at + 4] for at in range(0, len(key), 4)),
                    picture_of(f"{address}#{key}") if address else "")
        with speaking(spoken_by.of(ident)):
            slips.append(views.render("slip", slip=slip, address=address, made=times.in_words(made)))
    spoken = collections.Counter(languages()[spoken_by.of(ident)].name for ident, *_rest in keys)
    return Sheet(slips, dict(spoken) if len(languages()) > 1 else {}, spoken_by.fault)


def show_once(keys: list[Key], onward: str) -> NoReturn:
    """Leads to the page of these slips. It is a page of its own, so that loading it again makes no other key."""
    go_to(f"/office/slips/{memory.hold(clerk(), Waiting(keys, onward))}")


@app.get("/office/slips/<name>")
def waiting_slips(name: str) -> str:
    """The slips that were made last, once."""
    waiting = memory.held(clerk(), name)
    if not isinstance(waiting, Waiting):
        tell("bad", _("The page no longer has these slips. If a key was made just now, it works, and its slip is lost: make a new "
                      "key."))
        go_to("/office/register")
    office = office_now()  # first: if the keeper does not answer, the slips are shown when it does
    keys = waiting.take()
    if not keys:
        tell("bad", _("These slips were shown already, and the page no longer has them. Their keys work. If a slip was not "
                      "printed, make a new key."))
        go_to(waiting.onward)
    return show("key", office=office, keys=keys, onward=waiting.onward, back="")
