"""New keys on the office's page: /usr/bin/python3 deploy/trial/office_keys.py PROGRAM.

A slip is shown once, loading its page again makes no other key, and many people get new keys in one step.
"""

import re
import sys
import time
from concurrent.futures import ThreadPoolExecutor
from pathlib import Path

# The repository stays as it is.
sys.dont_write_bytecode = True

# pylint: disable=wrong-import-position  # nothing may be written before
from office_requests import Page, hand_in
from stand import HOST, Stand, check, key_of

PEOPLE = [f"T{number:03}" for number in range(1, 41)]
SLIP = re.compile(
    r'\((T\d+)\) <span class="soft">[^<]*</span></p>\s*<p>Your key for the room exchange: <code class="key">([0-9a-f ]+)</code>')


def slips_in(shown):
    """The keys on the slips of a page, by person."""
    return {person: key.replace(" ", "") for person, key in SLIP.findall(shown)}


def works(stand, key):
    """Whether the server knows a key. With a room that is in no office, nothing is handed in."""
    return hand_in(stand, key, ["NONE"]) != 403


def marks(stand):
    """The marks of all keys, by person."""
    return stand.ask(ask="view")["key_marks"]


def changes(stand, beginning):
    """The changes in the journal whose lines begin so."""
    journal = stand.ask(ask="journal", last=1000)["journal"]
    return [entry["line"] for entry in journal if str(entry.get("line")).startswith(beginning)]


def try_one(stand, page, bert):
    """One person gets another key, and the page with the slip is loaded again."""
    old = marks(stand)
    status, fields, shown = page.form("/office/person/T001/key", page="/office/person/T001/key")
    place = fields.get("location", "")
    check("a new key leads to a page of its own", status == 303 and place.startswith("/office/slips/"), (status, fields))
    check("which another clerk cannot open", bert.get(place)[0] == 303)
    shown = page.get(place)[2]
    keys = slips_in(shown)
    check("which shows the slip", list(keys) == ["T001"], shown)
    check("with the address of the residents' page", f"<strong>https://{HOST}/</strong>" in shown, shown)
    check("when it was made, and a picture", re.search(r"made on \d{4}-\d\d-\d\d at [\d:]{8}", shown) and "<svg" in shown)
    check("the key is in no address", keys["T001"] not in place)
    made = marks(stand)
    check("the new key works, and the old one does not", works(stand, keys["T001"]) and not works(stand, key_of("T001")))
    check("and nobody else has another key", {one for one in old if old[one] != made[one]} == {"T001"})
    status, fields, shown = page.get(place)
    check("loaded again, the page leads to the person", (status, fields.get("location")) == (303, "/office/person/T001"))
    shown = page.get("/office/person/T001")[2]
    check("which says why", "These slips were shown already" in shown and not slips_in(shown), shown[:2000])
    check("and there is no other key", marks(stand) == made and len(changes(stand, "correct T001")) == 1)
    check("a page of slips that never was leads on", page.get("/office/slips/" + "0" * 32)[0] == 303)
    page.get("/office/register")


def try_unseen(stand, page):
    """The keeper is away when a slip is to be shown, and then the page has lost a slip."""
    place = page.form("/office/person/T014/key", page="/office/person/T014/key")[1]["location"]
    stand.stop_keeper()
    check("no slip is shown while the keeper is away", not slips_in(page.get(place)[2]))
    stand.start()
    check("and the slip is shown when it is back", list(slips_in(page.get(place)[2])) == ["T014"])
    page.get("/office/slips/" + "0" * 32)
    check("of a slip that is lost the page says what is so", "If a key was made just now, it works, and its slip is lost"
          in page.get("/office/register")[2])


def try_twice(stand, page):
    """A double click: a browser drops the answer to the first press, and shows that to the second."""
    place = "/office/person/T013/key"
    form = page.hidden(place, place)
    with ThreadPoolExecutor(2) as pool:
        places = {led.get("location") for _status, led, _text in pool.map(lambda _: page.post(place, form), range(2))}
    check("both presses lead to one slip", len(places) == 1 and "/office/slips/" in str(places), places)
    key = slips_in(page.get(places.pop())[2])["T013"]
    check("whose key works", works(stand, key) and len(changes(stand, "correct T013")) == 1)
    again = page.post(place, form)[1]["location"]
    check("a slower second press shows the slip that the browser dropped", slips_in(page.get(again)[2]) == {"T013": key})
    check("which is not there a third time", page.get(again)[1].get("location") == "/office/person/T013")
    time.sleep(6)
    page.post(place, form)
    check("and later on the same form makes no key", works(stand, key) and len(changes(stand, "correct T013")) == 1)
    shown = page.form("/office/many", {"act": "keys", "text": "T014 T015"}, page="/office/many")[2]
    fields = dict(re.findall(r'type="hidden" name="(token|seen|press|held)" value="([^"]*)"', shown))
    with ThreadPoolExecutor(2) as pool:
        answers = pool.map(lambda _: page.post("/office/many/do", fields), range(2))
        places = {led.get("location") for _status, led, _text in answers}
    keys = slips_in(page.get(places.pop())[2])
    check("two presses for many keys lead to their slips", not places and list(keys) == ["T014", "T015"]
          and all(works(stand, key) for key in keys.values()), keys)


def try_newcomer(stand, page):
    """A person who is added gets one key, too."""
    fields = page.form("/office/person", {"ident": "T900", "name": "New Comer"}, page="/office/register")[1]
    keys = slips_in(page.get(fields["location"])[2])
    check("somebody who is added has a slip", list(keys) == ["T900"] and works(stand, keys["T900"]), fields)
    again = page.get(fields["location"])
    check("once", again[1].get("location") == "/office/person/T900" and len(changes(stand, "person T900")) == 1)


def asked(page, form):
    """Sends identifiers for new keys, and gives the question with the name of what it holds."""
    shown = page.form("/office/many", {"act": "keys", **form}, page="/office/many")[2]
    held = re.search(r'name="held" value="(\w+)"', shown)
    return shown, held[1] if held else ""


def yes(page, shown, held):
    """Says yes in a question, as it was shown."""
    fields = dict(re.findall(r'type="hidden" name="(token|seen)" value="([^"]*)"', shown))
    return page.post("/office/many/do", {**fields, "held": held})


def try_many(stand, page):
    """Many people get other keys."""
    before, copies = marks(stand), len(stand.ask(ask="backups")["backups"])
    shown, held = asked(page, {"text": "T002 t003, T004"})
    check("the question says how many, and that the old keys stop working",
          all(part in shown for part in ("3 people", "The 3 old keys stop working at once", "one copy of the office")), shown)
    check("and nothing has changed before the answer", marks(stand) == before)
    status, fields, _ = yes(page, shown, held)
    keys = slips_in(page.get(fields["location"])[2])
    after = marks(stand)
    check("all of them get slips", status == 303 and list(keys) == ["T002", "T003", "T004"], keys)
    check("and other keys, and nobody else", {one for one in before if before[one] != after[one]} == set(keys))
    check("which work", all(works(stand, key) for key in keys.values()) and not works(stand, key_of("T003")))
    check("there is one copy more", len(stand.ask(ask="backups")["backups"]) == copies + 1)
    line = changes(stand, "new keys (3)")
    check("and one line in the journal, which names them", line == ["new keys (3): T002 T003 T004"], line)
    yes(page, shown, held)
    check("the same answer again changes nothing", marks(stand) == after and len(changes(stand, "new keys (3)")) == 1)
    shown, held = asked(page, {"text": "T005 T006 NOBODY"})
    check("an identifier of nobody is named", not held and "No person has the identifier NOBODY" in shown, shown[:2000])


def try_stale(stand, page, bert):
    """Another clerk has made a key for one of them since."""
    shown, held = asked(page, {"text": "T007 T008"})
    fields = bert.form("/office/person/T008/key", page="/office/person/T008/key")[1]
    key = slips_in(bert.get(fields["location"])[2])["T008"]
    before = marks(stand)
    led = yes(page, shown, held)[1]["location"]
    check("a slip that another clerk has made since stays good", marks(stand) == before and works(stand, key))
    shown = page.get(led)[2]
    check("and the clerk reads so, in a form that still names the people",
          "was changed after you looked" in shown and ">T007\nT008</textarea>" in shown, shown[:2500])


def try_restarted(stand, page):
    """The keeper was started anew since a form was shown: it does not say that somebody changed a key."""
    place = "/office/person/T017/key"
    one, (shown, held) = page.hidden(place, place), asked(page, {"text": "T018 T019"})
    leave = "/office/person/T020/withdraw"
    leaves, name = page.hidden(leave, leave), page.hidden("/office/person/T021", "/office/person/T021/name")
    before = marks(stand)
    check("this trial has a form for each", one.get("saw") and held and leaves.get("saw") and name.get("saw"), (one, leaves, name))
    stand.stop_keeper()
    stand.start()
    again = marks(stand)
    presses = {"a new key": lambda: page.post(place, one), "new keys for many": lambda: yes(page, shown, held),
               "a withdrawal": lambda: page.post(leave, {**leaves, "sure": "yes"})}
    for what, press in presses.items():
        said = page.get(press()[1]["location"])[2]
        check(f"{what}: the page says that the keeper was started anew, and nothing of a change",
              "was started anew after you looked" in said and "was changed after you looked" not in said, said)
    check("and nothing has changed", marks(stand) == again and not before.items() & again.items())
    page.post("/office/person/T021/name", {**name, "name": "After All"})
    check("a form that has no key in it is good as before", ["T021", "After All"] in
          [row[:2] for row in stand.ask(ask="view")["people"]])
    key = slips_in(page.get(page.form(place, page=place)[1]["location"])[2])["T017"]
    check("and so is a form for a key once the clerk has looked again", works(stand, key))


def try_everybody(stand, page):
    """Everybody gets another key, while the round is closed."""
    page.form("/office/step/close", page="/office/step/close")
    before = marks(stand)
    shown, held = asked(page, {"everybody": "yes", "text": ""})
    check("everybody is asked about by number", f"{len(before)} people" in shown, shown[:1500])
    keys = slips_in(page.get(yes(page, shown, held)[1]["location"])[2])
    after = marks(stand)
    check("everybody has a slip", list(keys) == list(before) and len(set(keys.values())) == len(before), len(keys))
    check("and another key", not [one for one in before if before[one] == after[one]])
    check("in one step", len(changes(stand, f"new keys ({len(before)})")) == 1)
    return keys


def change_after(stand, page, copy):
    """After a copy was made: a new key, a name, a list, somebody who comes, and somebody who goes. Gives the new key."""
    fields = page.form("/office/person/T010/key", page="/office/person/T010/key")[1]
    key = slips_in(page.get(fields["location"])[2])["T010"]
    page.form("/office/person/T011/name", {"name": "Other Name"}, page="/office/person/T011")
    page.form("/office/person", {"ident": "T901", "name": "Just Come"}, page="/office/register")
    page.form("/office/person/T012/remove", page="/office/person/T012/remove")
    stand.ask(ask="forget", person="T016", who="anna")
    found = {part: one for part, one in stand.ask(ask="compare", name=copy).items() if part != "mark"}
    check("the keeper says what comes back, without a key", found == {
        "round": [0, "idle"], "keys": ["T010"], "names": [["T011", "Person T011", "Other Name"]], "lists": [], "part": [],
        "come": [["T012", "Person T012"], ["T016", "Person T016"]], "go": [["T901", "Just Come"]], "forgotten": ["T016"],
        "grades": [], "rooms": [], "others": [], "gone": [], "newer_now": ["T010"], "newer_then": [], "newest": [],
        "lost": [], "date": False}, found)
    return key


def try_back(stand, page):
    """The office goes back to a copy from before a new key."""
    copy = stand.ask(ask="backup")["name"]
    place = f"/office/copies/{copy}/back"
    check("with nothing in between the question names nobody", "another key now" not in page.get(place)[2])
    key = change_after(stand, page, copy)
    shown = page.get(place)[2]
    said = ("People who have another key now than then", "Keep the newer keys", "<li>T010</li>",
            "<li>T011: Person T011, now Other Name</li>", "<li>T012 Person T012</li>", "Of these, people who were forgotten",
            "<li>T901 Just Come</li>", "no round is under way",
            "the language of slips, letters and mails does not come back, nor does their mail address")
    check("before going back the page says whose keys, which names and which people", all(one in shown for one in said), shown)
    fields = page.form(place, page=place)[1]
    shown = page.get(fields["location"])[2]
    check("afterwards the page says that an old key works again", "One person has the key of the copy again" in shown, shown)
    check("and who was forgotten, and comes back", "and are in the register again: T016. Forget them again." in shown, shown)
    check("which is so", works(stand, key_of("T010")) and not works(stand, key))
    check("and proposes a new key for them", re.search(r"<textarea[^>]*>T010</textarea>", shown) and "checked" in shown, shown)
    keys = slips_in(page.get(yes(page, *asked(page, {"text": "T010"}))[1]["location"])[2])
    check("which replaces it", works(stand, keys["T010"]) and not works(stand, key_of("T010")))
    new = keys["T010"]
    page.form(place, {"newer": "yes"}, page=place)
    shown = page.get("/office/")[2]
    check("with the box ticked the newer key stays", works(stand, new) and not works(stand, key_of("T010"))
          and "key of the copy" not in shown, shown)
    told = stand.command("back", copy)
    check("the clerk's command says it, too", told[0] == 0 and "the key of the copy again" in told[2] and "T010" in told[2], told)
    stand.until_listening(stand.server_port)
    try_reused(stand, page)
    check("a copy that is not there is named", "there is no copy" in stand.ask(ask="compare", name="../x")["fault"])


def try_reused(stand, page):
    """An identifier goes to another person, whose key does not open the record of the person of the copy."""
    copy = stand.ask(ask="backup")["name"]
    place, old, new = f"/office/copies/{copy}/back", key_of("T010"), "0123456789abcdef"
    stand.script("rooms-office", "lines", "--again", "T010", given=f"remove T010\nperson T010 {new} Somebody Else\n")
    check("the identifier has another key", works(stand, new) and not works(stand, old))
    shown = page.get(place)[2]
    check("the question says that the newer key of it is not kept", "may be another person" in shown
          and "Keep the newer keys" not in shown, shown)
    page.form(place, {"newer": "yes"}, page=place)
    shown = page.get("/office/")[2]
    check("with the tick, too, the person of the copy has their own key again", works(stand, old) and not works(stand, new))
    check("and the page says so", "One person has the key of the copy again" in shown, shown)


def try_keeper(stand):
    """What the keeper itself refuses."""
    before, key = marks(stand), "0123456789abcdef"
    for keys, said in (({}, "not understood"), ({"T001": 1}, "not understood"), ({"T001": "Short"}, "does not take"),
                       ({"T001": key, "NOBODY": key + "0"}, "No person has"), ({"T001": key, "T002": key}, "Another person")):
        answer = stand.ask(ask="keys", keys=keys)
        check(f"the keeper refuses {keys}: {said}", said in answer.get("fault", "") and marks(stand) == before, answer)


def try_office_keys(program):
    """All of it."""
    with Stand(program) as stand:
        stand.fill(["A-1", "A-2"], PEOPLE)
        stand.start()
        stand.start_page()
        stand.start_proxy()
        page, bert = Page(stand), Page(stand, "bert")
        try_back(stand, page)
        page.form("/office/step/open", page="/office/step/open")
        try_one(stand, page, bert)
        try_unseen(stand, page)
        try_twice(stand, page)
        try_newcomer(stand, page)
        try_many(stand, page)
        try_stale(stand, page, bert)
        try_restarted(stand, page)
        keys = try_everybody(stand, page)
        try_keeper(stand)
        logs = "".join([stand.proxy_log(), stand.log("page"), stand.log("keeper"), (stand.data / "journal").read_text()])
        check("no key is in a log or in the journal", not [key for key in keys.values() if key in logs])


if __name__ == "__main__":
    if len(sys.argv) != 2 or not Path(sys.argv[1]).exists():
        sys.exit("usage: /usr/bin/python3 deploy/trial/office_keys.py PROGRAM")
    try_office_keys(sys.argv[1])
