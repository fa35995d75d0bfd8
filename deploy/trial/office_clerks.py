"""Two clerks on the office's page: nothing that one does is lost by the other, or hidden, without a word:
/usr/bin/python3 deploy/trial/office_clerks.py PROGRAM.

Lists that wait for a yes, forms that somebody else has made stale, and the seeds of a draw.
"""

import json
import re
import sys
import threading
import time
from concurrent.futures import ThreadPoolExecutor
from pathlib import Path

# The repository stays as it is.
sys.dont_write_bytecode = True

# pylint: disable=wrong-import-position  # nothing may be written before
from between import Between
from office_forms import flat
from office_requests import Page, hand_in
from stand import Stand, check, key_of, until

ROOMS = [f"A-{number}" for number in range(101, 121)]
PEOPLE = [f"T{number:02}" for number in range(1, 14)]
STALE = "was changed after you looked"
SEEDS = {name: name * 64 for name in "abc"}


def person_of(stand, ident):
    """Name, room, list and grade of a person."""
    view = stand.ask(ask="view")
    row = next((row for row in view["people"] if row[0] == ident), [None] * 4)
    return row[1], row[2], view["choices"].get(ident), dict(view["grades"]).get(ident, 0), row[3]


def upload(page, label):
    """Sends a list of one room, and gives the name under which the page holds it."""
    body = f"room\n{label.upper()}\n".encode()
    return held_in(page.form("/office/lists", {"kind": "rooms", "label": label}, files={"list": body})[2])


def held_in(shown, number=0):
    """The name under which the page holds what it shows."""
    return re.findall(r'name="held" value="(\w+)"', shown)[number]


def try_held(stand, anna, bert):
    """The lists that one clerk has sent do not take the place of another clerk's."""
    own = upload(anna, "anna-1")
    for number in range(25):
        upload(bert, f"bert-{number}")
    anna.form("/office/lists/bring", {"held": own})
    rooms = {row[0] for row in stand.ask(ask="view")["rooms"]}
    check("a list waits while another clerk sends 25", "ANNA-1" in rooms, anna.get("/office/lists")[2][:1500])
    own = upload(anna, "anna-2")
    bert.form("/office/lists/bring", {"held": own})
    check("a held list is its clerk's own", "no longer holds this list" in bert.get("/office/lists")[2])
    for number in range(20):
        upload(anna, f"anna-0{number}")
    anna.form("/office/lists/bring", {"held": own})
    check("of 21 lists of one clerk the first is gone, and the page says so",
          "no longer holds this list" in anna.get("/office/lists")[2])


def stale(stand, clerks, act, forms, page="/office/person/T01"):
    """Both clerks open a form. The first one's takes effect, and the other, who sends theirs afterwards, reads so."""
    first, later = clerks
    path = f"/office/person/T01/{act}"
    old = later.hidden(page, path)
    first.form(path, forms[0], page=page)
    between = person_of(stand, "T01"), stand.ask(ask="view")["key_marks"]["T01"]
    shown = later.post(path, {**old, **forms[1]})[2] + later.get("/office/register")[2]
    after = person_of(stand, "T01"), stand.ask(ask="view")["key_marks"]["T01"]
    check(f"the later of two clerks at {act} changes nothing", after == between, (between, after))
    check("and reads so, and gets no slip", STALE in shown and "Your key" not in shown, shown[:2500])


def try_people(stand, anna, bert):
    """Name, grade, room, key, and removal."""
    stale(stand, (bert, anna), "name", ({"name": "Bert's Word"}, {"name": "Anna's Word"}))
    check("the first clerk's word stands", person_of(stand, "T01")[0] == "Bert's Word", person_of(stand, "T01"))
    stale(stand, (bert, anna), "grade", ({"grade": "2"}, {"grade": "3"}))
    stale(stand, (bert, anna), "key", ({}, {}), page="/office/person/T01/key")
    anna.form("/office/person/T02/home", {"text": "A-101"}, page="/office/person/T02")
    old = anna.hidden("/office/person/T02/remove")
    bert.form("/office/person/T02/leave", page="/office/person/T02/leave")
    bert.form("/office/person/T02/home", {"text": "A-102"}, page="/office/person/T02")
    anna.post("/office/person/T02/remove", old)
    check("nobody is removed who has moved since",
          person_of(stand, "T02")[1] == "A-102" and STALE in anna.get("/office/")[2], person_of(stand, "T02"))
    old = anna.hidden("/office/rooms/A-102/shut")
    bert.form("/office/person/T02/leave", page="/office/person/T02/leave")
    bert.form("/office/person/T03/home", {"text": "A-102"}, page="/office/person/T03")
    anna.post("/office/rooms/A-102/shut", old)
    check("no room is taken from somebody whom the question did not name", person_of(stand, "T03")[1] == "A-102")
    status, fields, _ = anna.form("/office/rooms", {"change": "shut A-102"}, page="/office/rooms")
    check("nor without a question", status == 303 and fields["location"].endswith("/office/rooms/A-102/shut"), fields)
    check("and no change of one person makes the form of another stale",
          anna.form("/office/person/T04/name", {"name": "Dee Day"}, page="/office/person/T04")[0] == 303
          and person_of(stand, "T04")[0] == "Dee Day")


def try_settings(stand, anna, bert):
    """The days of copies, and the language of everybody without one, from forms of before another clerk set them."""
    days, old = "/office/copies/days/", anna.hidden("/office/copies/days/300", "/office/copies/days/300")
    shown = anna.get(f"{days}300")[2]
    check("the question about days says how many they are now", "400 days" in shown and "300 days" in shown, shown)
    bert.form(f"{days}200", page=f"{days}200")
    anna.post(f"{days}300", old)
    shown = anna.get("/office/copies")[2]
    check("the later of two clerks at the days of copies changes nothing, and reads so",
          stand.ask(ask="backups")["days"] == 200 and STALE in shown, shown[:2500])
    anna.form(f"{days}300", page=f"{days}300")
    check("and sets them after a look", stand.ask(ask="backups")["days"] == 300)
    languages = "/office/languages"
    old = anna.hidden(languages, f"{languages}/office")
    bert.form(f"{languages}/office", {"language": "de"}, page=languages)
    anna.post(f"{languages}/office", {**old, "language": "en"})
    shown = anna.get(languages)[2]
    check("so it is with the language of everybody without one",
          stand.ask(ask="languages")["office"] == "de" and STALE in shown, shown[:2500])
    anna.form(f"{languages}/office", {"language": "en"}, page=languages)
    check("which a look lets the clerk set, too", stand.ask(ask="languages")["office"] == "en")


def try_at_once(stand, anna, bert):
    """Of forms that arrive at the same time, one takes effect."""
    pages, told = [anna, bert] * 4, []
    forms = [page.hidden("/office/person/T05", "/office/person/T05/name") for page in pages]

    def send(number):
        pages[number].post("/office/person/T05/name", {**forms[number], "name": f"Name {number}"})
        told.append(number)

    threads = [threading.Thread(target=send, args=(number,)) for number in range(len(pages))]
    for thread in threads:
        thread.start()
    for thread in threads:
        thread.join()
    journal = stand.ask(ask="journal", last=100)["journal"]
    begun = [entry for entry in journal if entry.get("line") == "correct T05: name"]
    check("of eight forms at once exactly one takes effect", len(begun) == 1 and len(told) == 8, begun)


def try_lists(stand, anna, bert, between):
    """Lists that are put on record, or come in, after the resident has handed in another one."""
    bert.form("/office/step/open", page="/office/step/open")
    path = "/office/person/T06/choose"
    old = anna.hidden("/office/person/T06", path)
    check("a resident hands in meanwhile", hand_in(stand, key_of("T06"), ["A-103"]) == 200)
    anna.post(path, {**old, "text": "a-104 a-105"})
    shown = anna.get("/office/person/T06")[2]
    check("a resident's list is not replaced unseen", person_of(stand, "T06")[2] == ["A-103"], person_of(stand, "T06"))
    check("and the clerk reads both",
          all(part in shown for part in (STALE, "A-104 A-105", 'value="A-103"')), shown[:2500])
    old = anna.hidden("/office/person/T06/withdraw")
    bert.form(path, {"text": "A-106"}, page="/office/person/T06")
    anna.post("/office/person/T06/withdraw", {**old, "sure": "yes"})
    check("nobody is withdrawn whose list another clerk has put on record since",
          person_of(stand, "T06")[2] == ["A-106"] and STALE in anna.get("/office/")[2], person_of(stand, "T06"))
    body = b"person,choices\nT07,A-110\nT08,A-111\n"
    shown = anna.form("/office/lists", {"kind": "choices", "label": "paper"}, files={"list": body})[2]
    check("nobody's list is replaced when the list is tried", "on record already" not in shown, shown[:2500])
    held = held_in(shown)
    check("a resident hands in before it comes in", hand_in(stand, key_of("T07"), ["A-112"]) == 200)
    shown = anna.form("/office/lists/bring", {"held": held})[2]
    check("then nothing comes in", stand.recorded().get("T07") == ["A-112"] and "T08" not in stand.recorded())
    check("and the page says whose list would be replaced", "1 of these people has another list on record" in shown
          and "has changed since you tried it" in shown and re.search(r"\bT07\b", shown), shown[:2500])
    held = held_in(shown, 1)
    anna.form("/office/lists/bring", {"held": held})
    check("the others alone can come in", stand.recorded().get("T07") == ["A-112"]
          and stand.recorded().get("T08") == ["A-111"], stand.recorded())
    try_between(stand, anna, between)
    try_back_between(stand, anna, between)
    try_many(stand, anna, bert, between)


def waiting(stand):
    """How many connections wait for the keeper's answer."""
    lines = Path("/proc/net/unix").read_text(encoding="utf-8").splitlines()
    return sum(line.split()[5] == "03" and line.endswith(" " + stand.environment["ROOMS_SOCKET"]) for line in lines)


def looked(stand):
    """Whether two steps wait at the keeper, and go on waiting: a page that still looks has a question there, which ends."""
    since = time.monotonic()
    while waiting(stand) == 2 and time.monotonic() < since + 1.5:
        time.sleep(0.05)
    return waiting(stand) == 2


def try_between(stand, anna, between):
    """A list that is replaced after the page has looked, and before the keeper brings the others in."""
    shown = anna.form("/office/lists", {"kind": "choices", "label": "late"}, files={"list": b"person,choices\nT03,A-110\n"})[2]
    may_go = stand.folder / "may-go"
    between.before_next(f"while [ ! -e {may_go} ]; do sleep 0.1; done")
    with ThreadPoolExecutor() as both:
        both.submit(stand.ask, ask="do", lines=["choose T03 A-115"], who="bert")
        until(lambda: stand.server() is None, 60, "the other clerk's turn")
        page = both.submit(anna.form, "/office/lists/bring", {"held": held_in(shown)})
        until(lambda: looked(stand), 60, "the page's step beside the other clerk's")
        may_go.touch()
        shown = page.result()[2]
    check("a list that somebody replaces in between stays", stand.recorded().get("T03") == ["A-115"], stand.recorded())
    check("and the page works out again what comes in",
          STALE in shown and "1 of these people has another list on record" in shown, shown[:2500])


def try_back_between(stand, anna, between):
    """A grade that is set after the keeper has looked at a yes to a way back, and before the turn of the way back."""
    copy, may_go = stand.ask(ask="backup")["name"], stand.folder / "may-go-back"
    place = f"/office/copies/{copy}/back"
    form = anna.hidden(place, place)
    between.before_next(f"while [ ! -e {may_go} ]; do sleep 0.1; done")
    with ThreadPoolExecutor() as both:
        both.submit(stand.ask, ask="do", lines=["grade T03 4"], who="bert")
        until(lambda: stand.server() is None, 60, "the other clerk's turn")
        led = both.submit(anna.post, place, form)
        until(lambda: looked(stand), 60, "the way back beside the other clerk's turn")
        may_go.touch()
        shown = anna.get(led.result()[1]["location"])[2]
    check("no way back undoes what somebody does just before it", person_of(stand, "T03")[3] == 4 and STALE in shown, shown[:2500])
    copies = stand.ask(ask="backups")["backups"]
    check("and none was made, nor a copy for it", not [why for _, _, why in copies if f"back {copy}" in why], copies)
    form = anna.hidden(place, place)
    stand.stop_keeper()
    stand.start()
    shown = anna.get(anna.post(place, form)[1]["location"])[2]
    check("after a start of the keeper the page asks again, and says that nothing was changed but that",
          "was started anew" in shown and STALE not in shown and "<form" in shown, shown[:2500])


def try_many(stand, anna, bert, between):
    """Many people at once, one of whom somebody else has changed meanwhile."""
    shown = anna.form("/office/many", {"act": "withdraw", "text": "T09 T10"}, page="/office/many")[2]
    held = held_in(shown)
    bert.form("/office/person/T10/choose", {"text": "A-120"}, page="/office/person/T10")
    anna.form("/office/many/do", {"held": held, "sure": "yes"}, page="/office/many")
    shown = anna.get("/office/register")[2]
    check("many people are not changed if somebody has changed one of them",
          STALE in shown and not person_of(stand, "T09")[4], shown[:2500])
    check("who that is the page says", "Changed since you looked: T10." in shown, shown[:2500])
    held = held_in(anna.form("/office/many", {"act": "withdraw", "text": "T11 T03 T13"}, page="/office/many")[2])
    between.before_next(between.by_hand("going T03"))
    anna.form("/office/many/do", {"held": held, "sure": "yes"}, page="/office/many")
    shown = flat(anna.get("/office/register")[2])
    check("a refusal of one of many names whose it is", "done for the first 1 of 3 people" in shown
          and "The line withdraw T03 is refused: This person leaves the college at the end of the round." in shown, shown[:2500])


def try_gone_back(stand, anna, bert):
    """A clerk says yes to a question of before the office went back to a copy, in which the round is as far as it was."""
    copy = stand.ask(ask="backup")["name"]
    check("a resident hands in after a copy", hand_in(stand, key_of("T05"), ["A-119"]) == 200)
    old = anna.hidden("/office/step/close")
    bert.form(f"/office/copies/{copy}/back", page=f"/office/copies/{copy}/back")
    for when in ("", ", also after the keeper was started again"):
        anna.post("/office/step/close", old)
        shown = anna.get("/office/")[2]
        check(f"a yes of before the way back closes no round{when}", stand.ask(ask="view")["phase"] == "open"
              and "went back to a copy after you looked" in shown, shown[:2500])
        name = anna.hidden("/office/person/T05", "/office/person/T05/name")
        stand.stop_keeper()
        stand.start()
    anna.post("/office/person/T05/name", {**name, "name": "Eve Ear"})
    shown = anna.get("/office/")[2]
    check("a start of the keeper alone makes no form stale", person_of(stand, "T05")[0] == "Eve Ear", shown[:2500])


def seeds_shown(page):
    """The seeds that the page shows, and those that it offers to draw with."""
    text = page.get("/office/draw")[2]
    seen = {found.replace(" ", "") for found in re.findall(r'<code class="seed">([0-9a-f ]+)</code>', text)}
    return seen, set(re.findall(r'name="seed" value="(\w+)"', text)), text


def try_seeds(stand, anna, bert):
    """No note, and no way back, hides a seed that was noted."""
    first, second, third = SEEDS.values()
    stand.ask(ask="note", line=f"seed {first} before the end")
    bert.form("/office/step/close", page="/office/step/close")
    bert.form("/office/seed", {"way": "seed", "text": second}, page="/office/draw")
    for line in ("close", "settle", "cancel", "back 20000101T000000Z", f"draw $(rooms words --seed {first} --count 2)"):
        stand.ask(ask="note", line=line)
    bert.form("/office/seed", {"way": "seed", "text": third}, page="/office/draw")
    seen, offered, _ = seeds_shown(anna)
    check("a note hides no seed", seen == set(SEEDS.values()), seen)
    check("nothing is drawn with a seed of before the end of the round", offered == {second, third}, offered)
    anna.form("/office/draw", {"seed": first}, page="/office/draw")
    check("not even if asked for", stand.ask(ask="view")["phase"] == "closed")
    before_close = next(name for name, _, why in stand.ask(ask="backups")["backups"] if "before close" in why)
    bert.form(f"/office/copies/{before_close}/back", page=f"/office/copies/{before_close}/back")
    bert.form("/office/step/close", page="/office/step/close")
    seen, offered, _ = seeds_shown(anna)
    check("nor does going back and closing once more", seen == set(SEEDS.values()) and offered >= {second, third}, seen)
    bert.form("/office/step/cancel", page="/office/step/cancel")
    bert.form("/office/step/open", page="/office/step/open")
    bert.form("/office/step/close", page="/office/step/close")
    check("the next round has none of them", seeds_shown(anna)[0] == set(), seeds_shown(anna)[0])
    before_cancel = next(name for name, _, why in stand.ask(ask="backups")["backups"] if "before cancel" in why)
    bert.form(f"/office/copies/{before_cancel}/back", page=f"/office/copies/{before_cancel}/back")
    check("a round that is back has its seeds", seeds_shown(anna)[0] == set(SEEDS.values()), seeds_shown(anna)[0])
    bert.form("/office/draw", {"seed": second}, page="/office/draw")
    stand.ask(ask="note", line=f"draw $(rooms words --seed {third} --count 2)")
    seen, _, text = seeds_shown(anna)
    used = re.search(r"The seed of this draw:\s*<code class=\"seed\">([0-9a-f ]+)", text)
    check("and after the draw all are there", seen == set(SEEDS.values()), seen)
    check("with the one that was drawn by", used and used[1].replace(" ", "") == second, text[:2500])
    check("the journal shows what was only noted", 'Noted: <code>settle</code>' in anna.get("/office/journal")[2])


def try_flood(stand, anna):
    """So much is noted that the seeds are older than what can be read of the journal."""
    with open(stand.data / "journal", "a", encoding="utf-8") as journal:
        for _ in range(5):
            entry = {"at": "2027-01-01T00:00:00+00:00", "who": "bert", "line": "x" * 1_000_000}
            journal.write(json.dumps(entry) + "\n")
    seen, _, text = seeds_shown(anna)
    check("a journal that is too long to be read hides no seed without a word",
          seen.isdisjoint(SEEDS.values()) and "are not shown" in text, text[:2500])


def try_office_clerks(program):
    """All of it."""
    with Stand(program) as stand:
        stand.fill(ROOMS, PEOPLE)
        between = Between(stand)
        stand.start()
        stand.start_page()
        stand.start_proxy()
        anna, bert = Page(stand), Page(stand, "bert")
        try_held(stand, anna, bert)
        try_people(stand, anna, bert)
        try_settings(stand, anna, bert)
        try_at_once(stand, anna, bert)
        try_lists(stand, anna, bert, between)
        try_gone_back(stand, anna, bert)
        try_seeds(stand, anna, bert)
        try_flood(stand, anna)
        check("the page has noted no fault of its own", "rooms-page:" not in stand.log("page"), stand.log("page"))


if __name__ == "__main__":
    if len(sys.argv) != 2 or not Path(sys.argv[1]).exists():
        sys.exit("usage: /usr/bin/python3 deploy/trial/office_clerks.py PROGRAM")
    try_office_clerks(sys.argv[1])
