"""Mail to residents: texts, a look at one message, and the run. Without the administrator's settings the keeper refuses all of
it, and no page shows it.
"""

import datetime
from typing import Any

import times
from languages import N_, _, languages, ngettext, spoken
from mail_words import KINDS, LONGEST_BODY, LONGEST_SUBJECT, RECEIPT, Text
from seen import stamp_of
from told import mark_of

import explaining
import plain
from app import app, ask, field, go_to, is_done, office_now, residents_page, show, tell, text_of
from keeper_client import KeeperFault
from office_view import Office
from people_pages import person_of
from questions import Fact, Question, put_question

HOME = "/office/mail"
RECEIPTS = f"{HOME}/{RECEIPT}"
CHANGED = N_("The text was changed, or begun once more, after you looked. Nothing was changed: look again.")


def address_of_kind(kind: str) -> str:
    """The address of the page of a kind of message. One that is none leads back."""
    if kind not in KINDS:
        go_to(HOME)
    return f"{HOME}/{kind}"


def in_words(at: str) -> str:
    """A time of the keeper's within a sentence."""
    return times.in_words(datetime.datetime.fromisoformat(at))


def waiting_in(run: dict[str, Any] | None, office: Office, kind: str) -> int:
    """How many messages of this kind wait in a run of this round that is under way or was stopped. No other run sends these."""
    if not run or run["state"] == "ended" or (run["kind"], run["round"]) != (kind, office.number):
        return 0
    return int(run["waiting"])


def since(office: Office, run: dict[str, Any]) -> str:
    """Where the office is since a run began: at the same step, or `back` before it; `on` behind it, if the results of that round
    count; or behind it with nothing that would still be worth telling: the round is closed, or was given up."""
    number, phase, order = run["round"], KINDS[run["kind"]].phase, list(plain.PHASES)
    if office.stamp == stamp_of(number, phase):
        return ""
    if office.number < number or office.number == number and "idle" != office.phase and (
            order.index(office.phase) < order.index(phase)):
        return "back"
    found = ask("given-up")
    given_up = [*(one for _copy, one, _phase in found["rounds"]), *found["gone"]]
    return "on" if phase == "published" and number not in given_up else "over"


@app.get(HOME)
def mail() -> str:
    """Who has an address, what is being sent, and the kinds of messages."""
    office, mail_now = office_now(), ask("mail")
    run = mail_now["run"]
    return show("mail", office=office, mail=mail_now, kinds=KINDS, in_words=in_words, waiting_in=waiting_in,
                gone=since(office, run) if run and run["state"] == "paused" else "")


# --- a kind of message

def text_of_form() -> Text:
    """The text that the clerk has written. A browser ends its lines with two signs."""
    return Text(text_of("subject"), field("body").replace("\r\n", "\n").strip() + "\n")


def shown_to(state: dict[str, Any], office: Office) -> str:
    """For whom a message is shown, unless the clerk chooses: the first person who would get it, or has got it, or anybody."""
    return next(iter([*state["to"], *(one for one, *_rest in state["sent"]), *office.people]), "")


def name_of(language: str) -> str:
    """What a language is called in itself."""
    known = languages().get(language)
    return known.name if known else language


def kind_page(kind: str, language: str = "", ident: str = "", written: Text | None = None) -> str:
    """The page of a kind of message: its text in a language, one message, and who gets it. A text that was just written is not
    kept yet, and its form has the mark of the one that its clerk saw."""
    address_of_kind(kind)
    office, mail_now = office_now(), ask("mail")
    state = mail_now["kinds"][kind]
    language = language if language in languages() else spoken() if spoken() in state["texts"] else state["default"]
    text, ident = written or Text(*state["texts"].get(language, state["texts"][state["default"]])), ident or shown_to(state, office)
    shown: dict[str, Any] = {"faults": [], "to": ""}
    if ident in office.people:
        shown = ask("mail-show", kind=kind, language=language, person=ident, link=residents_page(), subject=text.subject,
                    body=text.body)
    return show("mail_kind", office=office, mail=mail_now, kind=kind, of=KINDS[kind], state=state, text=text, chosen=ident,
                waiting_in=waiting_in, shown=shown, language=language, name_of=name_of, back=f"{HOME}/{kind}/in/{language}",
                erased=erased, most_subject=LONGEST_SUBJECT, most_body=LONGEST_BODY,
                saw=field("saw") if written else mark_of(state["texts"].get(language)))


@app.get(f"{HOME}/<kind>")
def one_kind(kind: str) -> str:
    """A kind of message."""
    return kind_page(kind)


@app.get(f"{HOME}/<kind>/in/<language>")
def one_text(kind: str, language: str) -> str:
    """A kind of message in a language."""
    return kind_page(kind, language)


@app.get(f"{HOME}/<kind>/in/<language>/to/<ident>")
def one_message(kind: str, language: str, ident: str) -> str:
    """A message as one person would get it."""
    person_of(office_now(), ident)
    return kind_page(kind, language, ident)


@app.post(f"{HOME}/<kind>")
def write(kind: str) -> str:
    """Keeps a text that has no fault, and shows the message."""
    place, text, ident, language = address_of_kind(kind), text_of_form(), text_of("person").upper(), text_of("language")
    if ident and ident not in office_now().people:
        tell("bad", _("Nobody has this identifier. The text is not kept yet."))
        return kind_page(kind, language, "", text)
    try:
        ask("mail-text", kind=kind, language=language, subject=text.subject, body=text.body, saw=field("saw"))
    except KeeperFault as fault:
        tell("bad", _("The text is not kept. {why}", why=fault))
        return kind_page(kind, language, ident, text)
    tell("good", _("The text is kept. Nothing is sent yet.") if kind != RECEIPT else
         _("The text is kept. Receipts have it from now on."))
    go_to(f"{place}/in/{language}" + (f"/to/{ident}" if ident else ""))


# --- sending

def minutes(count: int, per_minute: int) -> str:
    """How long a run takes."""
    if count <= per_minute:
        return _("The machine sends {count} messages a minute at most, so this takes less than a minute.", count=per_minute)
    return _("The machine sends {count} messages a minute at most, so this takes some {minutes} minutes.", count=per_minute,
             minutes=-(-count // per_minute))


def fact_of(office: Office, title: str, idents: list[str]) -> Fact:
    """People by name."""
    return Fact(title, [f"{ident} {office.people[ident].name}" for ident in idents if ident in office.people])


def subjects(state: dict[str, Any]) -> list[str]:
    """How many get the text of which language."""
    return [ngettext("{count} person gets the text in {language}: “{subject}”.",
                     "{count} people get the text in {language}: “{subject}”.", count, language=name_of(language),
                     subject=state["texts"][language][0])
            for language, count in state["gets"].items()]


def go_back_if_wrong(office: Office, kind: str) -> None:
    """Nobody gets results that the audit does not find."""
    if KINDS[kind].phase == "published" and explaining.faults_of(office):
        tell("bad", _("The audit finds other results. Send no messages, and call the administrator."))
        go_to("/office/results")


def erased(state: dict[str, Any], number: int) -> list[str]:
    """Says that the office may have sent this before it went back to a copy, if nobody knows that any more."""
    return [_("The record of who has got this message in round {round} was erased two rounds later. Messages were sent before the "
              "office went back to a copy: these people may have one already.", round=number)] if state["erased"] else []


def who_else(state: dict[str, Any]) -> list[str]:
    """Who gets it although they have got one, and who gets nothing now."""
    sent, absent = len(state["sent"]), len(state["no_address"])
    changed = len(set(state["to"]).intersection(person for person, *_rest in state.get("changed", ())))
    says = []
    if changed:
        says.append(ngettext("{count} of these people has got an earlier one, which is no longer right. Say in the text that "
                             "this message replaces it.",
                             "{count} of these people have got an earlier one, which is no longer right. Say in the text that "
                             "this message replaces it.", changed))
    if sent:
        says.append(ngettext("{count} person has got it already, and gets nothing now.",
                             "{count} have got it already, and get nothing now.", sent))
    if absent:
        says.append(ngettext("{count} person has no mail address, and gets nothing: tell them in another way.",
                             "{count} have no mail address, and get nothing: tell them in another way.", absent))
    return says


@app.get(f"{HOME}/<kind>/send")
def ask_send(kind: str) -> str:
    """Asks before messages are sent."""
    place, office, mail_now = address_of_kind(kind), office_now(), ask("mail")
    state = mail_now["kinds"][kind]
    go_back_if_wrong(office, kind)
    if not state["to"]:
        tell("bad", _("Nobody is left who has an address and has not got this message."))
        go_to(place)
    count = len(state["to"])
    says = [" ".join([*subjects(state), minutes(count, mail_now["per_minute"]),
                      _("A message that was sent cannot be taken back.")]), *erased(state, office.number), *who_else(state)]
    title = ngettext("Send {kind} to {count} person?", "Send {kind} to {count} people?", count, kind=_(KINDS[kind].name))
    return put_question(office, Question(title, says, _("Yes: send the messages"), place, saw=state["mark"], facts=(
        fact_of(office, _("Who gets it"), state["to"]),)))


@app.post(f"{HOME}/<kind>/send")
def send(kind: str) -> None:
    """Begins to send, if text and turn are those that the clerk saw."""
    place, state = address_of_kind(kind), ask("mail")["kinds"][kind]
    go_back_if_wrong(office_now(), kind)
    if state["mark"] != field("saw"):
        tell("bad", _("The text was changed, or begun once more, after you looked. Nothing was sent: look again."))
        go_to(place)
    if is_done("mail-send", kind=kind, mark=state["mark"], link=residents_page(), seen=field("seen")):
        tell("good", _("The messages are being sent. This page shows how far that is: load it again."))
        go_to(HOME)
    go_to(place)


@app.post(f"{HOME}/run")
def steer() -> None:
    """Stops the run, goes on with it, or gives up the rest."""
    is_done("mail-run", act=text_of("act"))
    go_to(HOME)


# --- receipts

@app.get(f"{RECEIPTS}/begin")
def ask_begin() -> str:
    """Asks before receipts are sent by themselves."""
    state = ask("mail")["kinds"][RECEIPT]
    says = [_("Whoever has a mail address gets a message some minutes after their list on record has changed, or they have "
              "withdrawn, by themselves or by you. Several changes in a row make one message. It names no room. This goes on in "
              "later rounds, until you end it."),
            _("Lists that are on record already bring no message. If the office goes back to a copy of the same round, everybody "
              "gets one whose list is another one then, or whose withdrawal no longer counts."),
            " ".join(subjects(state)), *who_else({**state, "sent": []})]
    return put_question(office_now(), Question(_("Send receipts of lists?"), list(filter(None, says)), _("Yes: send receipts"),
                                               RECEIPTS, saw=state["mark"]))


@app.post(f"{RECEIPTS}/begin")
def begin() -> None:
    """Begins with receipts, if the texts are those that the clerk saw."""
    if ask("mail")["kinds"][RECEIPT]["mark"] != field("saw"):
        tell("bad", _(CHANGED))
    elif is_done("mail-receipts", act="on", mark=field("saw"), link=residents_page()):
        tell("good", _("From now on residents get receipts of their lists."))
    go_to(RECEIPTS)


@app.post(f"{RECEIPTS}/steer")
def steer_receipts() -> None:
    """Ends with receipts, or lets them go on."""
    act = text_of("act")
    if is_done("mail-receipts", act=act) and act == "off":
        tell("good", _("No more receipts are sent."))
    go_to(RECEIPTS)


# --- once more

@app.get(f"{HOME}/<kind>/again")
def ask_again(kind: str) -> str:
    """Asks before everybody can get a message of this kind once more."""
    place, state = address_of_kind(kind), ask("mail")["kinds"][kind]
    says = [ngettext("{count} person has got this message. If you go on, they can get another one: a second reminder, for example. "
                     "Nothing is sent yet: write the text first.",
                     "{count} have got this message. If you go on, they can get another one: a second reminder, for example. "
                     "Nothing is sent yet: write the text first.",
                     len(state["sent"]) + len(state.get("changed", ())))]
    return put_question(office_now(), Question(_("{kind}: begin another message?", kind=_(KINDS[kind].title)), says,
                                               _("Yes: begin another message"), place, saw=state["mark"]))


@app.get(f"{HOME}/<kind>/uncertain")
def ask_uncertain(kind: str) -> str:
    """Asks before messages count as not sent of which nobody knows whether they were sent."""
    place, office, state = address_of_kind(kind), office_now(), ask("mail")["kinds"][kind]
    says = [_("Nobody knows whether these messages were sent. If you go on, they count as not sent, and these people may get the "
              "message twice. Nothing is sent yet.") if kind != RECEIPT else
            _("Nobody knows whether these receipts were sent. If you go on, they are sent again, and these people may get them "
              "twice.")]
    fact = fact_of(office, _("These people"), [one for one, *_rest in state["uncertain"]])
    return put_question(office, Question(_("Count these messages as not sent?"), says, _("Yes: they may come twice"), place,
                                         saw=state["mark"], facts=(fact,)))


@app.post(f"{HOME}/<kind>/again")
def again(kind: str) -> None:
    """Lets everybody get a message of this kind once more."""
    once_more(kind, "")


@app.post(f"{HOME}/<kind>/uncertain")
def count_uncertain(kind: str) -> None:
    """Counts uncertain messages as not sent."""
    once_more(kind, "uncertain")


def once_more(kind: str, only: str) -> None:
    """Lets people get a message once more, if the message is the one that the clerk saw."""
    place, state = address_of_kind(kind), ask("mail")["kinds"][kind]
    if state["mark"] != field("saw"):
        tell("bad", _(CHANGED))
    elif is_done("mail-again", kind=kind, turn=state["turn"], only=only):
        tell("good", _("Nothing is sent yet. Look at the message, and send it.") if kind != RECEIPT else
             _("They count as not sent."))
    go_to(place)
