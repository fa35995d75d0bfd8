"""The draw: a seed comes into the journal, may be struck out there, and the order is drawn with it."""

import hashlib
import re
import secrets
from typing import NamedTuple, NoReturn

from journal import masked
from languages import N_, _, ngettext
from lines import SEED, on_one_line
from seeds import OF_TEXT, STRUCK, UNEXPLAINED, Noted, Seeds
from seen import why_stale

import plain
from app import app, ask, change, clerk, drawn_order, field, go_to, memory, office_now, show, tell, text_of
from office_view import Office
from questions import Question, put_question

# Throws of a die, with anything between them that is no letter and no other digit.
THROWS = re.compile(r"(?:[1-6]|[^\w])+")
ENOUGH = 50  # throws of a die are 129 bits
SHORTEST_TEXT, LONGEST_TEXT = 8, 400
BACK = "/office/draw"
# How a seed came about: as the journal has it, and as the page shows it.
BY_MACHINE, AS_IT_IS = "made by the machine", "entered as it is"
SOURCES = {BY_MACHINE: N_("Made by the machine"), AS_IT_IS: N_("Entered as it is"),
           UNEXPLAINED: N_("Without a word on how it came about")}


class Pending(NamedTuple):
    """A note that waits for the clerk's yes, what the clerk is asked, and what the clerk entered."""

    line: str
    question: Question
    text: str = ""


class Entered(NamedTuple):
    """What the witnesses saw, or a seed, which gave no seed yet: the clerk mends it, and does not enter all of it anew."""

    text: str
    way: str = "text"


def seeds_of(office: Office) -> Seeds:
    """The seeds of this round, and that of its draw."""
    if office.phase == "idle":
        return Seeds([], "", "")
    reply = ask("seeds")
    return Seeds([Noted(*one) for one in reply["found"]], reply["drawn"], reply["since"])


def throws_in(text: str) -> int | None:
    """How many throws of a die a text has; nothing if it is something else."""
    return sum(sign in "123456" for sign in text) if THROWS.fullmatch(text) else None


def source_of(noted: Noted) -> str:
    """How a seed came about, with the number of throws."""
    text = noted.source.removeprefix(OF_TEXT)
    if text == noted.source:  # it may be in a clerk's own words
        return _(SOURCES[text]) if text in SOURCES else plain.begun(text)
    throws = throws_in(text)
    if not throws:
        return _("SHA-256 of {source}", source=text)
    return ngettext("SHA-256 of {source} ({count} throw)", "SHA-256 of {source} ({count} throws)", throws, source=text)


@app.get("/office/draw")
@app.get("/office/draw/<name:re:[0-9a-f]{32}>")
def draw_page(name: str = "") -> str:
    """The forms for a seed, or the drawn order. After a no, or a text that gives no seed, the form has what the clerk entered."""
    held = memory.held(clerk(), name) if name else None
    office, entered = office_now(), held if isinstance(held, Entered) else Entered(pending(name).text if name else "")
    order = drawn_order() if office.may("order") else []
    seeds = seeds_of(office)
    return show("draw", office=office, order=order, seeds=seeds.found, drawn=seeds.drawn, since=seeds.since,
                source_of=source_of, entered=entered, shortest=SHORTEST_TEXT, longest=LONGEST_TEXT)


class NoSeed(Exception):
    """What was entered gives no seed. The text says why."""


def seed_of(way: str, text: str) -> tuple[str, str]:
    """The seed of what was entered, and how it came about."""
    if way == "machine":
        return secrets.token_hex(32), BY_MACHINE
    if way == "seed":
        seed = "".join(text.split()).lower()
        if SEED.fullmatch(seed):
            return seed, AS_IT_IS
        raise NoSeed(_("A seed has 64 signs out of 0 to 9 and a to f. You entered {count} signs.", count=len(seed)))
    text = " ".join(on_one_line(text).split())  # as the journal has it, or the noted text would have another hash
    if not SHORTEST_TEXT <= len(text) <= LONGEST_TEXT:
        raise NoSeed(_("Enter {least} to {most} signs: the throws of the dice, or the public number.",
                       least=SHORTEST_TEXT, most=LONGEST_TEXT))
    if masked(text) != text:
        raise NoSeed(_("Write a space between two throws or numbers. Sixteen letters and digits in a row look like a key, and "
                       "the journal takes no keys."))
    return hashlib.sha256(text.encode()).hexdigest(), OF_TEXT + text


def doubt_of(text: str) -> list[str]:
    """What to ask about the text of a seed before it is noted; nothing about enough throws of a die."""
    throws = throws_in(text)
    if throws is None:
        return [_("You entered: {source}", source=text),
                _("These are no throws of a die, which are numbers from 1 to 6. Go on if this is a public number that the "
                  "witnesses had agreed on before the round was closed, and that nobody could know then.")]
    if throws < ENOUGH:
        return [ngettext("You entered {count} throw: {source}", "You entered {count} throws: {source}", throws, source=text),
                _("{count} throws are needed. With fewer, somebody can try all orders that may come out, and know beforehand "
                  "what suits them. Go back, throw on, and enter all throws together.", count=ENOUGH)]
    return []


def go_back_if_stale(office: Office, place: str = BACK) -> None:
    """Leads back from a form of another round: what the witnesses of that one saw is no seed of this one."""
    if why := why_stale(office.view, field("seen"), None):
        tell("bad", plain.begun(why))
        go_to(place)


@app.post("/office/seed")
def note_seed() -> None:
    """Writes a seed into the journal before anything is drawn with it, so that nobody can try seeds in secret."""
    office = office_now()
    if not office.may("draw"):
        tell("bad", _("There is nothing to draw now. {phase}.", phase=_(plain.PHASES[office.phase].title)))
        go_to(BACK)
    go_back_if_stale(office)
    try:
        seed, source = seed_of(field("way"), text_of("text"))
    except NoSeed as why:
        tell("bad", str(why))
        kept = len(text_of("text")) <= LONGEST_TEXT
        go_to(f"{BACK}/{memory.hold(clerk(), Entered(text_of('text'), field('way')))}" if kept else BACK)
    doubt = doubt_of(source.removeprefix(OF_TEXT)) if source.startswith(OF_TEXT) else []
    if doubt:
        asked = Question(_("Note this seed?"), doubt, _("Yes: note the seed of this text"), BACK)
        put_off(Pending(f"seed {seed} {source}", asked, source.removeprefix(OF_TEXT)))
    ask("note", line=f"seed {seed} {source}")
    go_to(BACK)


# --- notes that wait for a yes

def put_off(waits: Pending) -> NoReturn:
    """Leads to the question before something is noted."""
    go_to(f"/office/seed/{memory.hold(clerk(), waits)}")


def pending(name: str) -> Pending:
    """What waits for this clerk's yes."""
    found = memory.held(clerk(), name)
    if not isinstance(found, Pending):
        tell("bad", _("The page no longer holds this. Nothing was noted."))
        go_to(BACK)
    return found


@app.get("/office/seed/<name:re:[0-9a-f]{32}>")
def ask_note(name: str) -> str:
    """Asks before something is noted."""
    waits = pending(name)
    return put_question(office_now(), waits.question._replace(back=f"{BACK}/{name}" if waits.text else BACK))


@app.post("/office/seed/<name:re:[0-9a-f]{32}>")
def note(name: str) -> None:
    """Notes it."""
    waits, office = pending(name), office_now()
    if not office.may("draw"):
        memory.let_go(clerk(), name)
        tell("bad", _("Nothing was noted. {phase}.", phase=_(plain.PHASES[office.phase].title)))
        go_to(BACK)
    go_back_if_stale(office, f"{BACK}/{name}" if waits.text else BACK)
    memory.let_go(clerk(), name)
    ask("note", line=waits.line)
    tell("good", _("The seed is struck out.") if waits.line.endswith(STRUCK) else _("The seed is noted."))
    go_to(BACK)


@app.post("/office/seed/strike")
def strike() -> None:
    """Asks before a seed that was noted by mistake is struck out."""
    office, seed = office_now(), text_of("seed")
    found = [noted for noted in seeds_of(office).found if noted.seed == seed and not noted.struck]
    if not office.may("draw") or not found:
        tell("bad", _("There is no such seed to strike out."))
        go_to(BACK)
    says = [_("The seed {seed} stays in the journal and in the public record, marked as struck out. Nothing is drawn with it.",
              seed=seed),
            _("Strike out only what was noted by mistake, such as a typing error, and only if the witnesses agree. It cannot be "
              "undone, but the same seed can be noted again.")]
    put_off(Pending(f"seed {seed} {STRUCK}", Question(_("Strike this seed out?"), says, _("Yes: strike it out"), BACK)))


# --- the draw itself

@app.post("/office/draw")
def draw() -> None:
    """Draws with a seed that is in the journal."""
    seed = text_of("seed")
    if seed not in [noted.seed for noted in seeds_of(office_now()).found if noted.counts]:
        tell("bad", _("This seed was not noted after the round was closed, or was struck out. Enter it first."))
    else:
        change("draw", seed=seed)
    go_to(BACK)
