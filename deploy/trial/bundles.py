"""Bundles of lines: one run of the program has all of them, and where an answer of several lines ends is known. What was
answered stands, also if the keeper is killed in the middle, or if somebody has changed the office by hand.

This run alone: /usr/bin/python3 deploy/trial/bundles.py PROGRAM
"""

import re
import sys
import threading
from concurrent.futures import ThreadPoolExecutor
from pathlib import Path

from beside import copies_of
from between import Between
from kills import servers_of
from office_requests import Page
from stand import Stand, check, key_of, until
from watcher import Watcher

# pylint: disable-next=wrong-import-order  # it is in the folder that the import of `beside` has added
from rows import rows_of

MANY = [f"P{number:04}" for number in range(2_000)]
AWAY = MANY[100:400]

SEED_WORD = "0123456789abcdef"
# A year with each query between its lines, and the first line of each answer.
YEAR = (
    ("rooms", "room      state     tenant"),
    ("room A", "ok"),
    (f"person P1 {key_of('P1')} Ann refused", "ok"),
    ("people", "person        home      name"),
    ("open", "round 1 open"),
    ("choose P1 A", "chosen A"),
    (f"me {key_of('P1')}", "person P1"),
    ("round", "round 1 open people 1 withdrawn 0"),
    ("close", "closed 1"),
    (f"draw {SEED_WORD}", "drawn 1"),
    ("order", f"   1 {SEED_WORD} P1"),
    ("run", "ran 1"),
    ("whatif P1 A", "would get A"),
    ("results", "person        room"),
    ("publish", "published 1"),
    ("settle", "settled 1"),
    ("moves 1", "wave  person        from      to"),
    ("room B", "ok"),
    ("open", "round 2 open"),
    ("withdraw P1", "withdrawn"),
    ("close", "closed 0"),
    ("draw", "drawn 0"),
    ("order", ""),
    ("rooms", "room      state     tenant"),
)


def try_answers(stand, between):
    """Each answer belongs to its line, and one run has all of them."""
    starts, reply = between.during(lambda: stand.ask(ask="try", lines=[line for line, _ in YEAR]))
    texts = [text for text, _status in reply["answers"]]
    wrong = [(line, text) for (line, first), text in zip(YEAR, texts) if text.partition("\n")[0] != first]
    check(f"{len(YEAR)} lines with queries between them are each answered by their own answer", len(texts) == len(YEAR)
          and not wrong, wrong or texts)
    tables = {line.split()[0]: text.count("\n") for (line, _), text in zip(YEAR, texts)}
    sizes = {name: tables[name] for name in ("me", "people", "results", "moves", "rooms")}
    check("and by all of it", list(sizes.values()) == [8, 2, 2, 2, 3], sizes)
    check("by one run of the program", starts == ["lines"], starts)
    reply = stand.ask(ask="try", lines=["# a comment", "", "  ", "room A\r", "moves 7", "room B"])
    check("a line that is skipped has no answer, and a query that is refused ends it", reply["answers"] ==
          [["", 0], ["", 0], ["", 0], ["ok\n", 0], ["refused 17 NoSuchRound\n", 1]], reply)
    for line in ("room \ud800", "room \udcff", "room A\nroom B", f"person P1 {key_of('P1')} Ann {key_of('P2')}"):
        reply = stand.ask(ask="try", lines=["room A", line, "room B"])
        wanted = [["ok\n", 0], ["not understood\n", 2]]
        check("what is no line is not understood, and ends it", reply.get("answers") == wanted, reply)
    reply = stand.ask(ask="try", lines=["room A", "room " + "A" * 70_000, "room B"])
    check("a line that is too long ends the program, and the clerk reads so", "ended before it had answered" in reply["fault"]
          and "Nothing was changed" in reply["fault"], reply)


def withdrawn(stand):
    """Who has withdrawn, as the file says it."""
    with copies_of(stand).copied() as copy:
        return [row[0] for row in rows_of(copy)["people"] if row[3]]


def noted(stand, count):
    """The last changes of the journal: the line, the answer and the status of each."""
    entries: dict[object, dict] = {}
    for entry in stand.ask(ask="journal", last=100)["journal"]:
        entries.setdefault(entry["n"] if "n" in entry else len(entries), {}).update(entry)
    return [tuple(one.get(part) for part in ("line", "answer", "status")) for one in entries.values()][-count:]


def rooms_in(stand):
    """The rooms of the office, as the file says it."""
    with copies_of(stand).copied() as copy:
        return [row[0] for row in rows_of(copy)["rooms"]]


def try_by_hand(stand, between):
    """Somebody sends a line by hand after a bundle was tried on a copy. What was carried out before stands."""
    between.before_next(between.by_hand("room K3"))
    reply = stand.ask(ask="do", lines=[f"room K{number}" for number in range(1, 6)])
    check("a line that is refused in the office ends a bundle", not reply.get("done") and reply.get("answers") ==
          [["ok\n", 0], ["ok\n", 0], ["refused 4 DuplicateRoom\n", 1]], reply)
    check("the lines before it stand, and the answer says how many", reply["made"] == 2
          and rooms_in(stand) == ["A-6", "A-7", "A-8", "K1", "K2", "K3"], (reply, rooms_in(stand)))
    last = noted(stand, 2)
    check("the journal has what was done, and what was refused", last == [
        ("room K1; room K2", "ok", 0), ("room K3", "refused 4 DuplicateRoom", 1)], last)
    stand.ask(ask="back", name=reply["copy"])
    check("and the copy of before brings all back", rooms_in(stand) == ["A-6", "A-7", "A-8"])
    between.before_next(between.by_hand("room K2"))
    told = stand.command("lines", given="room K1\n\nroom K2\nroom K3\n")
    check("the clerk's command says so", told[:2] == (1, "ok\nrefused 4 DuplicateRoom\n")
          and "line 3 is not accepted" in told[2] and "lines before it are in effect" in told[2], told)
    told = stand.command("lines", given="room K3\nroom K1\n")
    check("and of lines that a copy refuses that nothing was changed", "nothing of all this was changed" in told[2]
          and rooms_in(stand) == ["A-6", "A-7", "A-8", "K1", "K2"], told)
    page = Page(stand)
    held = held_by(page, {"act": "leave", "text": "P6 P7 P8"})
    form = {**page.hidden("/office/many", "/office/many"), "held": held}
    between.before_next(between.by_hand("leave P7"))
    page.post("/office/many/do", form)
    shown = page.get("/office/register")[2]
    check("the page says for whom it was done", "for the first 1 of 3 people" in shown and "This person has no room." in shown,
          shown[:3000])
    homes = {row[0]: row[2] for row in stand.ask(ask="view")["people"] if row[2]}
    check("which is so", homes == {"P8": "A-8"}, homes)


def try_at_once(stand, between):
    """Three clerks close the round at once, and then somebody takes a room away by hand just before a clerk does it."""
    copies = names_of_copies(stand)
    between.before_next("sleep 2")
    with ThreadPoolExecutor(3) as pool:
        asked = [pool.submit(stand.command, "do", "close")]
        until(lambda: Path(f"{between.act}.done").exists(), 30, "the first of three lines")
        asked += [pool.submit(stand.command, "do", "close") for _ in range(2)]
        first, *others = [one.result() for one in asked]
    check("of three lines at once the first is carried out, after a copy", first[0] == 0 and "is kept" in first[2], first)
    check("the others are refused, and nothing is said of a copy", others == [(1, "refused 1 BadPhase closed\n", "")] * 2, others)
    made = [why for name, why in names_of_copies(stand).items() if name not in copies]
    check("only the first has kept one", made == ["before close, by root"], made)
    check("and is in the journal", [one[0] for one in noted(stand, 2)].count("close") == 1, noted(stand, 2))
    stand.office("cancel")
    copies = names_of_copies(stand)
    between.before_next(between.by_hand("leave P8"))
    told = stand.command("do", "leave", "P8")
    check("a line that is refused in the office itself has no copy either", told[0] == 1 and not told[2]
          and names_of_copies(stand) == copies, (told, names_of_copies(stand)))
    check("nor does the journal name one", "(before: " not in stand.command("journal", "1")[1], stand.command("journal", "1"))


def names_of_copies(stand):
    """The kept copies, and why each is kept."""
    return {name: why for name, _size, why in stand.ask(ask="backups")["backups"]}


def held_by(page, form):
    """Asks the page to do something to many people. The name under which it holds that."""
    shown = page.form("/office/many", form, page="/office/many")[2]
    held = re.search('name="held" value="([0-9a-f]+)"', shown)
    check(f"{form['act']} is asked about", held, shown[:3000])
    return held[1] if held else ""


def try_ended(stand, between):
    """The program dies in the middle, in the office's file."""
    stand.office("open")
    between.before_next("kill -9 $REAL", after=2)
    answer = stand.ask(ask="do", lines=["withdraw P10", "withdraw P11", "withdraw P12", "withdraw P13"])
    check("a program that dies in the middle is a fault, which says what stands", "ended before it" in answer["fault"]
          and "2 of 4 lines were carried out before" in answer["fault"], answer)
    last = noted(stand, 2)
    check("and so does the journal", last[0] == ("withdraw P10; withdraw P11", "withdrawn", 0) and last[1][0] == "withdraw P12"
          and last[1][1].startswith("fault: the program ended") and last[1][2] == 3, last)
    check("which is so", withdrawn(stand)[-2:] == ["P10", "P11"] or withdrawn(stand)[-1] == "P12", withdrawn(stand))
    stand.until_listening(stand.server_port)


def try_replaced(stand, between):
    """A line that puts a list on record waits for another clerk's, for the same person, which comes first."""
    between.before_next("sleep 2")
    first = threading.Thread(target=stand.ask, kwargs={"ask": "do", "lines": ["choose P19 A-6"], "who": "anna"})
    first.start()
    until(lambda: not between.act.exists(), 60, "the first line begins")
    reply = stand.ask(ask="do", lines=["choose P19 A-7"], who="bert")
    first.join()
    check("of two lists at the same time the second one counts", stand.recorded()["P19"] == ["A-7"], stand.recorded())
    check("and the first one is in a copy", reply["copy"], reply)
    stand.ask(ask="back", name=reply["copy"])
    check("which brings it back", stand.recorded()["P19"] == ["A-6"], stand.recorded())
    stand.until_listening(stand.server_port)


def try_keys(stand, between):
    """New people come by a bundle. Their keys are in no process, log or journal."""
    keys = [key_of(f"N{number}") for number in range(40)]
    lines = [f"person N{number} {key} New Papadimitrakopoulos" for number, key in enumerate(keys)]
    with Watcher(*keys, "Papadimitrakopoulos") as watcher:
        starts, reply = between.during(lambda: stand.ask(ask="do", lines=[*lines, f"persn N99 {keys[0]} Ann"]))
        check("a bundle with a slip is refused as a whole", reply["answers"][-1] == ["not understood\n", 2]
              and not reply["made"] and starts == ["lines"], reply)
        check("and without it 40 people come", stand.ask(ask="do", lines=lines)["made"] == 40)
    unseen = watcher.looks > 5 and not watcher.seen
    check(f"no process had a key or a name, seen at {watcher.looks} looks", unseen, watcher.seen)
    said = "".join(place.read_text(encoding="utf-8") for place in (stand.data / "journal", stand.folder / "keeper.log"))
    check("nor has the journal or the log", not [key for key in keys if key in said] and "Papadimitrakopoulos" not in said)
    told = stand.command("do", "-", given=f"me {keys[39]}\n")
    check("and each has their own key and name", told[1].startswith("person N39\nname New Papadimitrakopoulos\n"), told)


def try_killed(stand, between):
    """The keeper is killed in the middle of a bundle of 300 withdrawals."""
    between.before_next("sleep 60", after=100)
    clerk = threading.Thread(target=lambda: ended(stand))
    clerk.start()
    until(lambda: len(withdrawn(stand)) == 100, 120, "a hundred withdrawals")
    stand.kill_keeper()
    clerk.join()
    until(lambda: not servers_of(stand), 30, "the end of what the keeper had started")
    stand.start()
    found = withdrawn(stand)
    check("what was answered before the keeper was killed stands, and nothing else", found == AWAY[:100], found[-3:])
    line, answer, status = noted(stand, 1)[0]
    check("the journal says that nobody knows how far the bundle came", "not known" in answer and status == 3
          and line == "; ".join(f"withdraw {one}" for one in AWAY), (line[-100:], answer))
    reply = stand.ask(ask="do", lines=[f"withdraw {one}" for one in AWAY[100:]])
    check("and the office takes the others", reply.get("made") == 200, reply)


def ended(stand):
    """Sends the bundle to a keeper that does not live to answer it."""
    try:
        answer = stand.ask(ask="do", lines=[f"withdraw {one}" for one in AWAY])
        check("the keeper is killed before it answers", False, answer)
    except ValueError:
        pass


def try_large(program, housed):
    """300 of 2,000 people are withdrawn on the page: the program opens the file as often as for one line."""
    with Stand(program) as stand:
        rooms = [f"R-{number}" for number in range(len(MANY))]
        stand.fill(rooms, MANY)
        if housed:
            stand.fill_homes(dict(zip(MANY, rooms)))
        between = Between(stand)
        stand.tell("open")
        stand.start()
        stand.start_page()
        stand.start_proxy()
        if housed:
            try_killed(stand, between)
        stand.until_listening(stand.server_port)
        one, _ = between.during(lambda: (stand.office(f"withdraw {MANY[0]}"), stand.until_listening(stand.server_port)))
        page, people = Page(stand), MANY[1_000:1_300]
        tried, held = between.during(lambda: held_by(page, {"act": "withdraw", "text": " ".join(people)}))
        form = {**page.hidden("/office/many", "/office/many"), "held": held, "sure": "yes"}
        many, _ = between.during(lambda: (page.post("/office/many/do", form), stand.until_listening(stand.server_port)))
        what = "all housed" if housed else "nobody housed"
        check(f"2,000 people, {what}: 300 withdrawals are tried by one run", tried == ["lines"], tried)
        check("and done by one run on a copy and one in the office, as one line is", many == one == ["lines", "lines", "serve"],
              (many, one))
        check("all of them", set(people) <= set(withdrawn(stand)))
        last, all_of_them = noted(stand, 1)[0], "; ".join(f"withdraw {one}" for one in people)
        check("the journal names each", last == (all_of_them, "withdrawn", 0), last)


def try_bundles(program, sizes=(True, False)):
    """All of it, with 2,000 people who are all housed, or not."""
    with Stand(program) as stand:
        stand.fill(["A-6", "A-7", "A-8"], [f"P{number}" for number in range(1, 20)])
        stand.fill_homes({"P6": "A-6", "P7": "A-7", "P8": "A-8"})
        between = Between(stand)
        stand.start()
        stand.start_page()
        stand.start_proxy()
        try_by_hand(stand, between)
        try_ended(stand, between)
        try_replaced(stand, between)
        try_keys(stand, between)
        try_at_once(stand, between)
    with Stand(program) as stand:
        between = Between(stand)
        stand.start()
        try_answers(stand, between)
    for housed in sizes:
        try_large(program, housed)


if __name__ == "__main__":
    if len(sys.argv) != 2 or not Path(sys.argv[1]).exists():
        sys.exit("usage: /usr/bin/python3 deploy/trial/bundles.py PROGRAM")
    try_bundles(sys.argv[1])
