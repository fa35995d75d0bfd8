"""Messages of results that have changed since: /usr/bin/python3 deploy/trial/mail_changed.py PROGRAM.

The office goes back behind a round that was published, corrects a list, and publishes again. Those whose message is no longer
right are counted as without one, and get another; nobody else does; and the page names those for whom there is none any more. Two
rounds later the record of the messages is erased, and the page says so.
"""

import sys
from pathlib import Path

# The repository stays as it is.
sys.dont_write_bytecode = True

# pylint: disable=wrong-import-position  # nothing may be written before
from mail_server import MailServer
from office_forms import flat
from office_mail import FORM, kind_of, logs_of, mail_of, press, rest, settle_mail
from office_requests import Page
from stand import Stand, check

PEOPLE = ["T01", "T02", "T03", "T04"]
SEED = "5" * 64


def idents(rows):
    """Whom rows of a state are about."""
    return [row[0] for row in rows]


def publish(stand):
    """From the open round to its results."""
    stand.office("close")
    stand.ask(ask="draw", who="anna", seed=SEED)
    stand.office("run")
    return stand.office("publish")


def sent_by(page, stand, server, kind):
    """Sends a kind of message. Who got it, and what."""
    server.forget()
    press(page, kind)
    rest(stand)
    return {recipients[0]: message.get_content() for _, _, recipients, message in server.got}


def counts(page, kind):
    """The page of a kind of message as a reader has it, and what the page of mail says of it."""
    name = {"results": "Results", "moves": "Plan of moves"}[kind]
    return flat(page.get(f"{FORM}/{kind}")[2]), flat(page.get(FORM)[2]).partition("Who gets it Now")[2].partition(name)[2]


def try_first(stand, page, server):
    """The first results."""
    publish(stand)
    got = sent_by(page, stand, server, "results")
    check("everybody reads the first results", set(got) == set(map(mail_of, PEOPLE))
          and "Your new room is A-3." in got[mail_of("T01")] and "You keep your room A-2." in got[mail_of("T04")], got)
    got = sent_by(page, stand, server, "moves")
    check("and the one who moves reads when", list(got) == [mail_of("T01")], got)
    shown, said = counts(page, "results")
    check("the page counts them", "Have got it 4 Get it now 0" in shown and "4 sent, 0 to send" in said, (shown, said))


def try_same(stand, page, before):
    """The office goes back and publishes the same results again."""
    stand.ask(ask="back", name=before)
    check("while nothing is published, the page counts nobody", "Have got it 4 Get it now" not in counts(page, "results")[0])
    publish(stand)
    shown, said = counts(page, "results")
    check("who was told the same counts as told", "Have got it 4 Get it now 0" in shown and "4 sent, 0 to send" in said, shown)
    check("and nobody gets another one", kind_of(stand, "results")["to"] == kind_of(stand, "moves")["to"] == [])


def try_changed(stand, page, server, before):
    """T01 keeps the old room after all, and T04 moves in the place of T01."""
    stand.ask(ask="back", name=before)
    stand.office("choose T01")
    stand.office("choose T04 A-3")
    publish(stand)
    state = kind_of(stand, "results")
    check("who was told what is not so any more counts as not told", (state["people"], idents(state["sent"]), state["to"],
          idents(state["changed"]), state["others"]) == (4, ["T02", "T03"], ["T01", "T04"], ["T01", "T04"], []), state)
    shown, said = counts(page, "results")
    check("the page counts so", "Have got it 2 Get it now 2" in shown and "2 sent, 2 to send" in said, (shown, said))
    check("and names those who know another result", "no longer right, and get it again: 2 T01" in shown, shown)
    shown = flat(page.get(f"{FORM}/results/send")[2])
    check("the question says how many have another one", "2 of these people have got an earlier one" in shown
          and "2 have got it already, and get nothing now" in shown, shown)
    got = sent_by(page, stand, server, "results")
    check("only they get it", set(got) == {mail_of("T01"), mail_of("T04")}
          and "You keep your room A-1." in got[mail_of("T01")] and "Your new room is A-3." in got[mail_of("T04")], got)
    shown, said = counts(page, "results")
    check("then all have got it", "Have got it 4 Get it now 0" in shown and "4 sent, 0 to send" in said
          and "no longer right" not in shown, (shown, said))


def try_moves(stand, page, server):
    """The message about a move that is none any more cannot be corrected by another one: the page says who has it."""
    state = kind_of(stand, "moves")
    check("who moves gets the message, and who does not is set apart", (state["people"], idents(state["sent"]), state["to"],
          idents(state["others"])) == (1, [], ["T04"], ["T01"]), state)
    shown, said = counts(page, "moves")
    check("the page counts those whom it is for", "Have got it 0 Get it now 1" in shown
          and "0 sent, 1 to send" in said, (shown, said))
    check("and names who has it although it is not for them", "Have got it, though it is not for them any more: 1 T01" in shown
          and "Tell them in another way" in shown, shown)
    got = sent_by(page, stand, server, "moves")
    check("the one who moves reads when", list(got) == [mail_of("T04")], got)
    shown = flat(page.get(f"{FORM}/moves/in/en/to/T01")[2])
    check("who gets no such message reads no message", "gets no such message now. It goes to everybody who moves." in shown
          and "not known yet" not in shown, shown)
    shown = flat(page.get(f"{FORM}/moves/again")[2])
    check("and another one can be begun", "1 person has got this message. If you go on, they can get another one" in shown, shown)
    shown = flat(page.get("/office/about/T04")[2])
    check("all about this person calls the message by its name", "plan of moves of round 1, sent" in shown, shown)
    shown, said = counts(page, "moves")
    check("and counts", "Have got it 1 Get it now 0" in shown and "1 sent, 0 to send" in said, (shown, said))


def try_given_up(stand, page, server, before):
    """The results change once more, and the clerk gives the messages up, since the mail server is away."""
    stand.ask(ask="back", name=before)
    publish(stand)
    had = kind_of(stand, "results")["changed"]
    check("T01 moves again, and T04 does not", idents(had) == ["T01", "T04"], had)
    server.stop()
    press(page, "results")
    run = rest(stand)
    check("the messages to both wait", (run["state"], run["waits"]) == ("paused", ["T01", "T04"]), run)
    page.form(f"{FORM}/run", {"act": "give-up"}, page=FORM)
    state, shown = kind_of(stand, "results"), flat(page.get(f"{FORM}/results")[2])
    check("once the clerk gives them up, both have the wrong message still, and the page says so", state["changed"] == had
          and state["to"] == ["T01", "T04"] and "no longer right, and get it again: 2 T01" in shown, (state, shown))
    kept = stand.ask(ask="about", person="T01")["mail"]["sent"]
    check("and all about one of them names it", ["results", 1, "sent"] in [one[:3] for one in kept], kept)
    server.start()
    got = sent_by(page, stand, server, "results")
    check("then they get the right one", set(got) == {mail_of("T01"), mail_of("T04")}
          and "Your new room is A-3." in got[mail_of("T01")] and kind_of(stand, "results")["changed"] == [], got)


def try_erased(stand, page, server):
    """Two rounds later the record of a round's messages is erased. The page says so, in the place of numbers, and again after a way
    back to that round, before anybody gets a message a second time."""
    shown = flat(page.get(FORM)[2])
    check("the page says how many messages of the last run were sent",
          "Results, round 1: over Handed to the mail server 4" in shown, shown)
    copy = stand.ask(ask="backup")["name"]
    for line in ("settle", "open", "cancel", "open"):
        stand.office(line)
    stand.ask(ask="mail-receipts", act="on", mark=kind_of(stand, "receipt")["mark"], link="https://x/")
    shown = flat(page.get(FORM)[2])
    check("once they are erased, it says that", "Results, round 1: over" in shown and "Handed to the mail server" not in shown
          and "How many messages were sent is not on record any more" in shown, shown)
    stand.ask(ask="back", name=copy)
    for place in ("results", "results/send"):
        shown = flat(page.get(f"{FORM}/{place}")[2])
        check(f"after a way back to that round, {place} says that people may have the message already",
              "The record of who has got this message in round 1 was erased" in shown, shown)
    check("and it goes to all", idents([[one] for one in kind_of(stand, "results")["to"]]) == PEOPLE, kind_of(stand, "results"))
    got = sent_by(page, stand, server, "results")
    shown = flat(page.get(f"{FORM}/results")[2])
    check("if the clerk sends it", set(got) == set(map(mail_of, PEOPLE)) and "was erased" not in shown, (got, shown))
    for line in ("settle", "open"):
        stand.office(line)
    shown = flat(page.get(f"{FORM}/invitation")[2])
    check("of a round whose messages are on record no page says so", "Get it now 4" in shown and "was erased" not in shown, shown)


def try_ended_late(stand, page, server):
    """Messages wait that are to replace earlier ones, until the record of their round is erased. Then the clerk gives them up."""
    before = stand.ask(ask="backup")["name"]
    publish(stand)
    sent_by(page, stand, server, "results")
    stand.ask(ask="back", name=before)
    stand.office("choose T02 A-1")
    publish(stand)
    server.stop()
    press(page, "results")
    run = rest(stand)
    check("a message to T02 waits, and the others are sent", (run["round"], run["waits"], run["sent"]) == (2, ["T02"], 3), run)
    for line in ("settle", "open", "cancel", "open"):
        stand.office(line)
    page.form(f"{FORM}/run", {"act": "give-up"}, page=FORM)
    last = stand.ask(ask="journal", last=1)["journal"][0]
    check("if they are given up once they are erased, the journal says that nobody knows how many were sent",
          last["line"].startswith("mail results of round 2 ends") and "not on record any more" in last["answer"], last)
    kept = [one[:3] for person in PEOPLE for one in stand.ask(ask="about", person=person)["mail"]["sent"]]
    check("and what was erased does not come back", not [one for one in kept if one[:2] == ["results", 2]], kept)


def stopped(page):
    """What the page of mail says of a run that was stopped."""
    return flat(page.get(FORM)[2]).partition(": stopped ")[2].partition(" Begun by ")[0]


def try_step_gone(stand, page, server):
    """Messages wait while the mail server is away, and the office goes on, goes back, or gives the round up: what the page says of
    what waits is so."""
    before = stand.ask(ask="backup")["name"]
    publish(stand)
    server.stop()
    press(page, "results")
    check("messages of results wait", rest(stand)["state"] == "paused" and "Nothing is lost" in stopped(page), stopped(page))
    copy, told = stand.ask(ask="backup")["name"], "Tell these people in another way"
    for how, act, said in (
            ("back before the results", lambda: stand.ask(ask="back", name=before), "does not count now. Tell it to nobody"),
            ("given up then", lambda: stand.office("cancel"), "not at this step any more. What waits cannot be sent any more, and"),
            ("back at the results", lambda: stand.ask(ask="back", name=copy), "Nothing is lost: what waits is not sent yet."),
            ("settled", lambda: stand.office("settle"), f"has gone on since: what waits cannot be sent any more. {told}")):
        act()
        shown = stopped(page)
        check(f"{how} the page says so", said in shown and (how == "settled") == (told in shown), shown)
    page.form(f"{FORM}/run", {"act": "give-up"}, page=FORM)
    stand.office("open")
    press(page, "reminder")
    check("reminders wait", rest(stand)["state"] == "paused", rest(stand))
    stand.office("close")
    check("nobody is told to hand in a list once the round is closed", "and is of no use. Give it up." in stopped(page)
          and told not in stopped(page), stopped(page))
    page.form(f"{FORM}/run", {"act": "give-up"}, page=FORM)
    server.start()


def try_mail_changed(program):
    """All of it."""
    with MailServer() as server, Stand(program) as stand:
        stand.fill(["A-1", "A-2", "A-3"], PEOPLE)
        settle_mail(stand, server)
        stand.start()
        stand.start_page()
        stand.start_proxy()
        page = Page(stand)
        stand.ask(ask="mail-addresses", addresses={one: mail_of(one) for one in PEOPLE})
        for line in ("home T01 A-1", "home T04 A-2", "open", "choose T01 A-3"):
            stand.office(line)
        before = stand.ask(ask="backup")["name"]
        try_first(stand, page, server)
        try_same(stand, page, before)
        try_changed(stand, page, server, before)
        try_moves(stand, page, server)
        try_given_up(stand, page, server, before)
        try_erased(stand, page, server)
        try_ended_late(stand, page, server)
        try_step_gone(stand, page, server)
        check("no address, name or key is in a log or in the journal", not logs_of(stand), logs_of(stand))


if __name__ == "__main__":
    if len(sys.argv) != 2 or not Path(sys.argv[1]).exists():
        sys.exit("usage: /usr/bin/python3 deploy/trial/mail_changed.py PROGRAM")
    try_mail_changed(sys.argv[1])
