"""What comes in between a page and its form, and what goes with a step: /usr/bin/python3 deploy/trial/office_between.py PROGRAM.

A list of people again leaves the addresses of known people. A question names the lists and the mails that are lost by a yes.
"""

import datetime
import html
import re
import sys
from pathlib import Path

# The repository stays as it is.
sys.dont_write_bytecode = True

# pylint: disable=wrong-import-position  # nothing may be written before
from mail_server import MailServer
from office_mail import FORM, mail_of, press, rest, settle_mail
from office_requests import Page, hand_in
from stand import Stand, check, key_of

ROOMS = ["A-1", "A-2", "A-3"]
PEOPLE = ["T01", "T02", "T03"]
NEWER = "newer@college.example"
STALE = "was changed after you looked"


def flat(text):
    """A page as a reader has it."""
    return " ".join(html.unescape(re.sub(r"<[^>]*>", " ", text)).split())


def addresses(stand):
    """The addresses that the keeper has."""
    return stand.ask(ask="mail-list")["addresses"]


def try_known_people(stand, page):
    """A list of people again, with older addresses, and one new person. What it says of those who are known comes in after it, if
    the clerk says so."""
    stand.ask(ask="mail-addresses", addresses={"T01": NEWER})
    rows = [("T01", "", mail_of("T01")), ("T04", key_of("T04"), mail_of("T04"))]
    body = "person,name,key,email,language\n" + "".join(f"{one},Person {one},{key},{mail},de\n" for one, key, mail in rows)
    shown = page.form("/office/lists", {"kind": "people", "label": "people-again"}, files={"list": body.encode()})[2]
    says = ("1 mail address comes in with the list", "For 1 person who is in the register already, the list has a new mail address",
            "Once it is in, the page shows what they change, and asks.")
    check("of a list of people again only new people's addresses come in, and the page says so",
          all(one in flat(shown) for one in says), flat(shown))
    held = re.findall(r'name="held" value="(\w+)"', shown)[0]
    next_page = page.form("/office/lists/bring", {"held": held})[1]["location"].partition("/office/")[2]
    kept = addresses(stand)
    check("and who is known keeps theirs", kept.get("T01") == NEWER and kept.get("T04") == mail_of("T04"), kept)
    shown = page.get(f"/office/{next_page}")[2]
    place = "".join(re.findall(r'href="(/office/mail/addresses/\w+)"', shown))
    said = "were in the register already: one person. These are not in yet."
    check("then the page offers the others", place and said in flat(shown), flat(shown))
    shown = flat(page.get(place)[2])
    check("and shows what would change", f"T01 {NEWER} {mail_of('T01')}" in shown
          and "1 person gets another language." in shown, shown)
    page.form("/office/mail/addresses/bring", page=place)
    check("then these are in, too", addresses(stand).get("T01") == mail_of("T01")
          and stand.ask(ask="languages")["residents"] == {"T01": "de", "T04": "de"}, addresses(stand))
    stand.ask(ask="mail-addresses", addresses={"T01": NEWER})
    stand.ask(ask="set-languages", languages={"T01": "", "T04": ""})


def try_in_already(stand, page, other):
    """A list that two clerks have tried comes in by one of them. Once an address was changed, and an identifier given to somebody
    else, the other one says yes, too."""
    people = {one: f"{one.lower()}@college.example" for one in ("T05", "T06", "T07")}
    body = "person,name,key,email\n" + "".join(f"{one},Person {one},{key_of(one)},{mail}\n" for one, mail in people.items())
    first, second = (re.findall(r'name="held" value="(\w+)"', clerk.form(
        "/office/lists", {"kind": "people", "label": "people-twice"}, files={"list": body.encode()})[2])[0]
        for clerk in (page, other))
    page.form("/office/lists/bring", {"held": first})
    check("a list comes in with its addresses", people.items() <= addresses(stand).items(), addresses(stand))
    stand.ask(ask="mail-addresses", addresses={"T05": NEWER, "T07": ""}, who="anna")
    stand.ask(ask="do", lines=["remove T06", f"person T06 {key_of('else')} Somebody Else"], again=["T06"], who="anna")
    before = addresses(stand)
    place = "/office/" + other.form("/office/lists/bring", {"held": second})[1]["location"].partition("/office/")[2]
    check("a yes to a list that is in brings in no address", addresses(stand) == before, addresses(stand))
    shown = flat(other.get(place)[2])
    check("the clerk reads that it is in, and what would change", "The list people-twice is in." in shown
          and "1 person gets an address, and 1 gets another one." in shown and f"T05 {NEWER} {people['T05']}" in shown, shown)
    other.form("/office/mail/addresses/bring", page=place)
    after = addresses(stand)
    check("and nobody gets the address of who had the identifier before", after == {
        **before, "T05": people["T05"], "T07": people["T07"]}, after)
    stand.ask(ask="do", lines=[f"remove {one}" for one in people], who="anna")


def try_many(stand, page):
    """Somebody hands in a list after the clerk has named who is to withdraw."""
    form = {**page.hidden("/office/many"), "act": "withdraw", "text": "T01 T02"}
    hand_in(stand, key_of("T01"), ["A-2"])
    shown = flat(page.post("/office/many", form)[2])
    check("the question about many people names their lists", "T01 Person T01 A-1 A-2 T02 Person T02 none none" in shown, shown)


def try_way_back(stand, page):
    """Somebody hands in a list after the clerk has read the question about a copy."""
    name = stand.ask(ask="backup")["name"]
    place = f"/office/copies/{name}/back"
    form = page.hidden(place, place)
    hand_in(stand, key_of("T03"), ["A-3"])
    shown = page.get(place)[2]
    check("the button beside yes says what it does: its question is about going back", "No: leave the office as it is now" in shown
          and "No, go back" not in shown, shown)
    page.post(place, form)
    shown = flat(page.get("/office/")[2])
    check("going back names whose list is lost", "had another list before, which does not count now: T03" in shown, shown)


def asked(page, name):
    """The question about a copy: its address, and what its form carries."""
    place = f"/office/copies/{name}/back"
    return place, page.hidden(place, place)


def read_after(page, place, form):
    """What the clerk reads after a yes: the page to which it leads."""
    answer = page.post(place, form)
    led = answer[1].get("location", "")
    return led, flat(page.get(led)[2] if led else answer[2])


def state_of(stand):
    """People, rooms, grades, lists and keys of now."""
    view = stand.ask(ask="view")
    return [view[part] for part in ("people", "rooms", "grades", "choices", "key_marks")]


def try_yes_to_less(stand, page, bert, act, says, name=""):
    """Another clerk does something after the clerk has read the question about a copy: a yes undoes none of it, and the question
    comes again, with it. Gives the form of the new question."""
    place, form = asked(page, name or stand.ask(ask="backup")["name"])
    act(bert)
    before = state_of(stand)
    led, shown = read_after(page, place, form)
    check(f"a yes does not undo what the question did not name ({says[0]})", state_of(stand) == before, shown)
    check("the question comes again, and says why", led == place and STALE in shown, (led, shown))
    check("and names it", all(one in shown for one in says), (says, shown))
    return place, page.hidden(place, place)


def try_clerks_work(stand, page, bert):
    """A new person, a new key, a name and a grade, by another clerk between question and yes."""
    def act(clerk):
        clerk.form("/office/person", {"ident": "T09", "name": "Just Come"}, page="/office/register")
        clerk.form("/office/person/T03/key", page="/office/person/T03/key")
        clerk.form("/office/person/T02/name", {"name": "Right Name"}, page="/office/person/T02")
        clerk.form("/office/person/T01/grade", {"grade": "2"}, page="/office/person/T01")
    before, copy = state_of(stand), stand.ask(ask="backup")["name"]
    place, form = asked(page, copy)
    says = ("T09 Just Come", "another key now than then 1 person T03", "Keep the newer keys", "T02: Person T02, now Right Name",
            "again what it was 1 person T01")
    again = try_yes_to_less(stand, page, bert, act, says, copy)
    check("the old form stays stale", read_after(page, place, form)[0] == place)
    after = state_of(stand)
    shown = read_after(page, again[0], {**again[1], "newer": "yes"})[1]
    check("the yes to the new question goes through", "The office is back at the copy" in shown, shown)
    check("and keeps the newer key alone", state_of(stand)[:4] == before[:4] and state_of(stand)[4]["T03"] == after[4]["T03"])
    forth = stand.ask(ask="backups")["backups"][-1][0]
    again = try_yes_to_less(stand, page, bert, lambda clerk: clerk.form("/office/person/T01/grade", {"grade": "3"},
                                                                        page="/office/person/T01"), ("again what it was",), forth)
    read_after(page, *again)
    check("so it is with the undoing of a way back", state_of(stand) == after, state_of(stand))
    stand.ask(ask="back", name=copy)


def try_keys_of_all(stand, page, bert):
    """The question has no box for newer keys, since there is none: then keys are made for everybody."""
    def act(clerk):
        shown = clerk.form("/office/many", {"act": "keys", "everybody": "yes"}, page="/office/many")[2]
        clerk.form("/office/many/do", {"held": re.findall(r'name="held" value="(\w+)"', shown)[0]}, page="/office/many")
    copy = stand.ask(ask="backup")["name"]
    try_yes_to_less(stand, page, bert, act, ("Keep the newer keys",), copy)
    stand.ask(ask="back", name=copy)


def try_date(stand, page, bert):
    """A date is set between question and yes, and the way back would forget it; the question says so then."""
    copy = stand.ask(ask="backup")["name"]
    stand.office("open")
    soon = f"{datetime.datetime.now() + datetime.timedelta(days=7):%Y-%m-%dT%H:%M}"
    again = try_yes_to_less(stand, page, bert, lambda _clerk: stand.ask(ask="set-until", at=soon, closes=False, who="bert"),
                            ("The date until which lists are taken is forgotten",), copy)
    hand_in(stand, key_of("T03"), ["A-3"])
    shown = read_after(page, *again)[1]
    check("a list that was handed in meanwhile is lost with the round, and named", "does not count now: T03." in shown
          and "hand it in again" not in shown and stand.ask(ask="view")["phase"] == "idle", shown)


def try_other_person(stand, page, bert):
    """Another clerk gives an identifier to somebody else, with an address."""
    def act(_clerk):
        stand.ask(ask="do", lines=["remove T02", f"person T02 {key_of('other')} Other T02"], again=["T02"], who="bert")
        stand.ask(ask="mail-addresses", addresses={"T02": NEWER}, who="bert")
    said = "may be of another person than that of the copy: this is erased, and does not come back 1 person T02"
    place, form = try_yes_to_less(stand, page, bert, act, (said,))
    stand.ask(ask="mail-addresses", addresses={"T02": f"another-{NEWER}"}, who="bert")
    led, shown = read_after(page, place, form)
    check("nor is an address erased that was set meanwhile", led == place and addresses(stand)["T02"] == f"another-{NEWER}", shown)
    shown = read_after(page, *asked(page, place.split("/")[3]))[1]
    check("going back names whose address was erased", "of other people than those of the copy, and was erased: T02" in shown
          and "T02" not in addresses(stand), (shown, addresses(stand)))
    stand.ask(ask="mail-addresses", addresses={"T02": mail_of("T02")})


def try_paper_list(stand, page, bert):
    """Another clerk puts a list on record."""
    try_yes_to_less(stand, page, bert, lambda clerk: clerk.form("/office/person/T02/choose", {"text": "A-2"},
                                                               page="/office/person/T02"), ("again what they were 1 person T02",))


def try_second(stand, page):
    """Two people with a room hand in between the page of a second round, its question, and the yes."""
    more = ["T11", "T12", "T13"]
    stand.ask(ask="do", lines=[line for one in more for line in
                               (f"room B-{one}", f"person {one} {key_of(one)} Person {one}", f"home {one} B-{one}")])
    stand.office("open")
    form = page.hidden("/office/second", "/office/many")
    check("T12 hands in", hand_in(stand, key_of("T12"), ["A-2"]) == 200)
    shown = page.post("/office/many", form)[2]
    rows = re.findall(r"<td>(T[0-9]+)</td>", shown)
    check("who has handed in is left out of the question, and named", rows == ["T01", "T11", "T13"]
          and "Left out, since a list of theirs is on record now: T12." in flat(shown), flat(shown))
    check("T11 hands in", hand_in(stand, key_of("T11"), ["A-3"]) == 200)
    held = re.findall(r'name="held" value="(\w+)"', shown)[0]
    led = page.form("/office/many/do", {"held": held, "sure": "yes"}, page="/office/many")[1]["location"]
    away = {row[0] for row in stand.ask(ask="view")["people"] if row[3]}
    shown = flat(page.get(led)[2])
    check("and who hands in before the yes is not withdrawn by it, and named", away == {"T01", "T13"} and
          "Left out, since a list of theirs is on record now: T11." in shown and "Done for 2 people." in shown, (away, shown))
    check("their lists are there", {"T11", "T12"} <= set(stand.recorded()), stand.recorded())
    for line in ("cancel", *(f"{verb} {one}" for one in more for verb in ("leave", "remove"))):
        stand.office(line)


def try_giving_up(stand, page):
    """The date goes with the round."""
    said = "The date until which lists are taken goes with the round"
    check("without a date the question says nothing of one", said not in flat(page.get("/office/step/cancel")[2]))
    soon = datetime.datetime.now() + datetime.timedelta(days=7)
    answer = stand.ask(ask="set-until", at=f"{soon:%Y-%m-%dT%H:%M}", closes=False, who="anna")
    check("a date is set", "fault" not in answer, answer)
    for path in ("/office/step/cancel", "/office/undo/T02"):
        if "undo" in path:
            stand.office("withdraw T02")
        check(f"{path} says that the date goes", said in flat(page.get(path)[2]), flat(page.get(path)[2]))


def try_settling(stand, page, server):
    """Results wait for the mail server when the round is to be settled."""
    for line in ("close", f"draw {' '.join(['0123456789abcdef'] * 3)}", "run", "publish"):
        stand.office(line)
    server.stop()
    press(page, "results")
    run = rest(stand)
    check("without a mail server the results wait", run["state"] == "paused" and run["waiting"] == 3, run)
    shown = flat(page.get("/office/step/settle")[2])
    check("the question before settling says so", "3 mails are not sent yet" in shown and "cannot be sent any more" in shown, shown)
    stand.office("settle")
    shown = flat(page.get(FORM)[2])
    check("once it is settled the page says that they cannot be sent", "what waits cannot be sent any more" in shown
          and "Nothing is lost" not in shown, shown)
    shown = page.get(FORM)[2]
    names = shown.partition("Have not got it: 3")[2].partition("</details>")[0]
    check("and to whom, and offers nothing but to give them up", all(f"Person {one}" in names for one in ("T01", "T03", "T04"))
          and 'value="give-up"' in shown and 'value="go-on"' not in shown, shown)
    for person, count, said in (("T03", 2, "It waited for 1 person, too, who is out of the register since: the name is erased."),
                                ("T04", 1, "It waited for 2 people, too, who are out of the register since: their names are"),
                                ("T01", 0, "and nothing waits. Give it up. It waited for 3 people, too,")):
        home = next(row[2] for row in stand.ask(ask="view")["people"] if row[0] == person)
        stand.ask(ask="do", lines=[*([f"leave {person}"] if home else []), f"remove {person}"])
        shown = flat(page.get(FORM)[2])
        check(f"once {person} is removed it says whose names are erased", said in shown
              and (f"Have not got it: {count}" in shown) == ("Tell these people in another way" in shown) == bool(count), shown)


def try_strangers(stand, page):
    """Addresses of people whom the clerk has not seen stay."""
    check("nobody is a stranger, so there is no form", f'action="{FORM}/strangers"' not in page.get(FORM)[2])
    token = page.hidden("/office/rooms")
    page.post(f"{FORM}/strangers", [*token.items(), ("person", "T01"), ("sure", "yes")])
    check("a form erases no address of somebody in the register", addresses(stand).get("T01") == NEWER, addresses(stand))


def try_office_between(program):
    """All of it."""
    with MailServer() as server, Stand(program) as stand:
        for line in [*(f"room {code}" for code in ROOMS), *(f"person {one} {key_of(one)} Person {one}" for one in PEOPLE),
                     "home T01 A-1"]:
            stand.tell(line)
        settle_mail(stand, server)
        stand.start()
        stand.start_page()
        stand.start_proxy()
        page = Page(stand)
        try_known_people(stand, page)
        stand.ask(ask="mail-addresses", addresses={one: mail_of(one) for one in PEOPLE[1:]})
        try_strangers(stand, page)
        bert = Page(stand, "bert")
        try_in_already(stand, page, bert)
        for between in (try_clerks_work, try_keys_of_all, try_date, try_other_person):
            between(stand, page, bert)
        try_second(stand, page)
        stand.office("open")
        try_many(stand, page)
        try_paper_list(stand, page, bert)
        try_way_back(stand, page)
        try_giving_up(stand, page)
        try_settling(stand, page, server)
        check("the page has noted no fault of its own", "rooms-page:" not in stand.log("page"), stand.log("page"))


if __name__ == "__main__":
    if len(sys.argv) != 2 or not Path(sys.argv[1]).exists():
        sys.exit("usage: /usr/bin/python3 deploy/trial/office_between.py PROGRAM")
    try_office_between(sys.argv[1])
