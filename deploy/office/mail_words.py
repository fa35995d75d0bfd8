"""The kinds of messages, their texts with placeholders in each language, and what is an address. The keeper and the office's
page use it."""

import re
from typing import NamedTuple

from languages import ENGLISH, N_, _, languages, speaking

# An address as nearly all are. Quoted names, names of letters beyond ASCII, and addresses of machines without a name are none
# here. The first sign is no sign that begins a formula in a spreadsheet.
ATOM, LABEL = "[A-Za-z0-9!#$%&'*+/=?^_`{|}~-]+", "[A-Za-z0-9](?:[A-Za-z0-9-]*[A-Za-z0-9])?"
ADDRESS = re.compile(rf"(?=[A-Za-z0-9_]){ATOM}(?:\.{ATOM})*@{LABEL}(?:\.{LABEL})+")
LONGEST_ADDRESS, LONGEST_NAME = 254, 64

PLACEHOLDER = re.compile(r"\{([^{}]*)\}")
LONGEST_SUBJECT, LONGEST_BODY = 150, 4000
RECEIPT = "receipt"  # this kind is sent by itself (mail_receipts.py)
ALL = ""  # stands for the language of a text that a clerk wrote for everybody, before there were languages

# What stands in the place of each placeholder.
OF_ALL = {
    "name": N_("the person's name"),
    "person": N_("the person's identifier"),
    "room": N_("the room where the person lives, or: none"),
    "round": N_("the number of the round"),
    "link": N_("the address of the residents' page"),
}


class Text(NamedTuple):
    """The subject and the body of a message, with placeholders."""

    subject: str
    body: str


class Kind(NamedTuple):
    """A kind of message: its title, its name within a sentence, to whom it goes, what is said while it cannot be sent by a clerk,
    the phase in which it can be, its own placeholders, and its text until the clerk writes another."""

    title: str
    name: str
    goes_to: str
    not_now: str
    phase: str
    placeholders: dict[str, str]
    text: Text

    @property
    def known(self) -> dict[str, str]:
        """All placeholders that its text may have."""
        return {**OF_ALL, **self.placeholders}


KINDS = {
    "invitation": Kind(
        N_("Invitation"), N_("invitation"), N_("everybody who takes part in the round"),
        N_("This message goes to everybody who takes part in the round, and can be sent while the round is open."), "open", {},
        Text(N_("Room exchange: hand in your list of rooms"),
             N_("Dear {name},\n\nround {round} of the room exchange is open. Hand in the list of the rooms that you would take, "
                "the best first, on this page:\n\n{link}\n\nSign in with the key on your slip. If you have lost it, ask us for a "
                "new one. Your room now: {room}. Without a list you keep your room; if you have none, you get none.\n\nYour "
                "housing office\n"))),
    "reminder": Kind(
        N_("Reminder"), N_("reminder"), N_("everybody who takes part and has no list on record, or an empty one"),
        N_("This message goes to everybody who takes part and has no list on record, or an empty one, and can be sent while the "
           "round is open."),
        "open", {},
        Text(N_("Room exchange: there is no room on your list"),
             N_("Dear {name},\n\nthere is no room on your list for round {round} of the room exchange: the list is empty, or there "
                "is none. You can hand one in on this page until we close the round:\n\n{link}\n\nSign in with the key on your "
                "slip. If you have lost it, ask us for a new one. Your room now: {room}. Without a list, or with an empty one, you "
                "keep your room; if you have none, you get none.\n\nYour housing office\n"))),
    RECEIPT: Kind(
        N_("Receipt"), N_("receipt"),
        N_("everybody whose list on record has changed, or who has withdrawn, some minutes after the last change"), "", "open",
        {"list": N_("a sentence: how many rooms are on the list, or that the person has withdrawn; and since about when. After a "
                    "way back another one before it says if a withdrawal no longer counts. They name no room.")},
        Text(N_("Room exchange: what is on record of you"),
             N_("Dear {name},\n\n{list}\n\nThis page shows what is on record, and what you can change:\n\n{link}\n\nIf this was "
                "not you, and you have not asked us for it, tell us at once: somebody else may have your key, and you need a new "
                "one.\n\nYour housing office\n"))),
    "results": Kind(
        N_("Results"), N_("results"), N_("everybody who took part"),
        N_("This message goes to everybody who took part, and can be sent while the results are published."), "published",
        {"result": N_("a sentence: Your new room is N-101. You keep your room N-102. You get no room in this round."),
         "new": N_("the room alone that the person gets or keeps, or: none")},
        Text(N_("Room exchange: your result"),
             N_("Dear {name},\n\nthe results of round {round} of the room exchange are published.\n\n{result}\n\nYou find it on "
                "this page, too:\n\n{link}\n\nYour housing office\n"))),
    "moves": Kind(
        N_("Plan of moves"), N_("plan of moves"), N_("everybody who moves"),
        N_("This message goes to everybody who moves, and can be sent while the results are published."), "published",
        {"move": N_("a sentence that says from where to where, and when"),
         "new": N_("the room alone into which the person moves, or: none")},
        Text(N_("Room exchange: your move"), N_("Dear {name},\n\n{move}\n\nYour housing office\n"))),
}


class Texts(NamedTuple):
    """The texts of a kind of message by language, and the language of everybody who wants none of these. `own` has the languages
    in which a clerk has written one, and ALL if one was written for everybody."""

    each: dict[str, Text]
    default: str
    own: frozenset[str]

    def language_for(self, wanted: str) -> str:
        """In which language somebody gets the message who wants this one."""
        return wanted if wanted in self.each else self.default


def proposed(kind: str, language: str) -> Text | None:
    """The text of a kind of message that no clerk has written, if there is one in this language."""
    with speaking(language):
        text = Text(*map(_, KINDS[kind].text))
    return text if language == ENGLISH or text.body != KINDS[kind].text.body else None


def texts_of(kind: str, written: dict[str, Text], default: str) -> Texts:
    """The texts of a kind of message: in each language that which clerks have written, or which the program proposes. A text
    that was written for everybody counts where there is no other one."""
    found = {language: written.get(language) or written.get(ALL) or proposed(kind, language) for language in languages()}
    each = {language: text for language, text in found.items() if text}
    return Texts(each, default if default in each else ENGLISH, frozenset(written))


def is_address(text: str) -> bool:
    """Whether a text is one address, and nothing besides."""
    return (len(text) <= LONGEST_ADDRESS and len(text.partition("@")[0]) <= LONGEST_NAME
            and ADDRESS.fullmatch(text) is not None)


def faults_of(kind: str, text: Text) -> list[str]:
    """What is wrong with a text, in sentences."""
    subject, body = text
    found = []
    if not subject.strip() or not body.strip():
        found.append(_("A message has a subject and a text."))
    if len(subject) > LONGEST_SUBJECT or len(body) > LONGEST_BODY:
        found.append(_("A subject has at most {subject} signs, and a text {body:,}.", subject=LONGEST_SUBJECT, body=LONGEST_BODY))
    if not subject.isprintable() or not all(sign.isprintable() or sign in "\n\t" for sign in body):
        found.append(_("There is a sign that cannot be shown, or a line break in the subject."))
    for name in dict.fromkeys(PLACEHOLDER.findall(subject + "\n" + body)):
        if name not in KINDS[kind].known:
            found.append(_("There is no placeholder {name} in this kind of message.", name=f"{{{' '.join(name.split())[:40]}}}"))
    if set("{}") & set(PLACEHOLDER.sub("", subject) + PLACEHOLDER.sub("", body)):
        found.append(_("A brace {begin} or {end} stands alone. A placeholder stands between two.", begin="{", end="}"))
    return found


def filled(text: Text, values: dict[str, str]) -> Text:
    """A text with a person's values in the place of its placeholders. What stands in a value stays as it is."""
    return Text(*(PLACEHOLDER.sub(lambda found: values[found[1]], part) for part in text))
