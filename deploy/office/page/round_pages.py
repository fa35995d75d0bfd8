"""How far the round is, and its steps."""

from languages import N_, _, ngettext
from lines import ACCEPTED, NOT_TAKEN
from mail_words import KINDS
from meanings import Meaning

import coming_back
import explaining
import plain
from app import app, ask, attempt, change, go_to, office_now, show, tell
from keeper_client import KeeperFault
from office_view import Office
from questions import Question, away_facts, put_question

# What a clerk may want to export before a step that deletes it.
BEFORE = {
    "settle": (("/office/record", N_("The public record, letters and plans")),),
    "cancel": (("/office/export/choices.csv", N_("The lists of choices of this round, ready to be imported again")),
               ("/office/export/withdrawn.csv", N_("Who has withdrawn, as CSV")),
               ("/office/export/leavers.csv", N_("Who leaves the college, as CSV"))),
}
# The question before each step, and its yes. The draw has a page of its own.
ASKED = {
    "open": (N_("Open the next round?"), N_("Yes: open the next round")),
    "close": (N_("Close the round?"), N_("Yes: close the round")),
    "run": (N_("Give the rooms?"), N_("Yes: give the rooms")),
    "publish": (N_("Publish the results?"), N_("Yes: publish the results")),
    "settle": (N_("Settle the round?"), N_("Yes: settle the round")),
    "cancel": (N_("Give the round up?"), N_("Yes: give the round up")),
}


@app.get("/office")
def without_slash() -> None:
    """The page's address without its slash."""
    go_to("/office/")


@app.get("/office/")
def overview() -> str:
    """How far the round is, what comes next, and who has no list."""
    office = office_now()
    given_up = coming_back.rounds(office) if office.may("open") else []
    stopped = None if office.serves else why_stopped(office.ended)
    return show("overview", office=office, faults=explaining.faults_of(office), stopped=stopped, given_up=given_up,
                missing=coming_back.all_missing(office),
                without_copy=coming_back.without_copy(office) if office.may("open") else [])


def why_stopped(status: int | None) -> Meaning:
    """Why the residents' server does not run, by the status with which it ended, and what to do. The program says what it has
    against the file."""
    if status is None:
        return plain.STARTING.translated()
    if status not in NOT_TAKEN:  # after these the keeper does not start it again
        return plain.FAILED.translated()
    answer = attempt("round")[0]
    if answer.status == ACCEPTED:
        return plain.ENDED.translated()
    meaning = plain.meaning(answer.text)
    return meaning._replace(says=_("The program does not take the office's file: it says \"{answer}\". {meaning}",
                                   answer=answer.text.strip(), meaning=meaning.says))


@app.get("/office/step/<name>")
def ask_step(name: str) -> str:
    """Asks before a step."""
    office = office_now()
    step = plain.STEPS.get(name)
    if step is None or not office.may(name):
        tell("bad", _("This step does not come now. {phase}.", phase=_(plain.PHASES[office.phase].title)))
        go_to("/office/")
    if name == "draw":
        go_to("/office/draw")
    says = [*warnings(office, name), _(step.does), _(step.undo), *plain.copy_first(name)]
    title, yes = map(_, ASKED[name])
    links = tuple((place, _(text)) for place, text in BEFORE.get(name, ()))
    facts = away_facts(office) if name == "cancel" else ()
    return put_question(office, Question(title, says, yes, "/office/", links, facts=facts))


def warnings(office: Office, step: str) -> list[str]:
    """What a clerk has to know of the office before a step."""
    says = []
    if step == "open" and office.left:
        says.append(ngettext("One person who left the college in round {number} is in the register still, and would take part, as "
                             "somebody without a room. The overview offers to remove this person first.",
                             "{count} people who left the college in round {number} are in the register still. They would take "
                             "part, as people without a room. The overview offers to remove them first.",
                             len(office.left), number=office.number))
    for given_up, missing in coming_back.all_missing(office) if step == "close" else ():
        says.append(_("From round {number}, which was given up: {missing}. The overview leads to it.",
                      number=given_up.number, missing=missing) if given_up.copy else
                    _("From round {number}, which was given up: {missing}.", number=given_up.number, missing=missing))
    if step == "close" and office.without_list:
        says.append(ngettext("{count} of {all} participants has no list on record, or an empty one.",
                             "{count} of {all} participants have no list on record, or an empty one.", len(office.without_list),
                             all=len(office.participants)))
    if step in ("open", "close") and not office.participants:
        says.append(_(plain.NOBODY[step]))
    if step in ("publish", "settle") and explaining.faults_of(office):
        says.append(_(plain.OTHER_RESULTS))
    if step == "cancel" and office.has_date:
        says.append(_("The date until which lists are taken goes with the round. Set one again in the next round."))
    return [*says, *mails_that_wait(office)]


def mails_that_wait(office: Office) -> list[str]:
    """What a clerk has to know of mails that cannot be sent any more once the round goes on."""
    try:
        run = ask("mail")["run"] if office.view.get("mail") else None
    except KeeperFault as fault:
        return [_("Whether mails wait to be sent is not known: {why}", why=fault)]
    if not run or run["state"] == "ended" or not run["waiting"] or KINDS[run["kind"]].phase != office.phase:
        return []
    return [ngettext("{count} mail is not sent yet ({title}). After this step it cannot be sent any more: see page Mail first.",
                     "{count} mails are not sent yet ({title}). After this step they cannot be sent any more: see page Mail "
                     "first.", run["waiting"], title=_(KINDS[run["kind"]].title))]


@app.post("/office/step/<name>")
def take_step(name: str) -> None:
    """Takes a step."""
    if name in plain.STEPS and name != "draw":
        change("do", lines=[name])
    go_to("/office/")
