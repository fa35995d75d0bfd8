"""A list of people that comes again, the same or that of the next year: /usr/bin/python3 deploy/trial/office_again.py
PROGRAM.

Who is in the register already gets no new key and is no fault. The new ones come in. Who is not on the list is shown,
and stays.
"""

import csv
import io
import re
import sys
from pathlib import Path

# The repository stays as it is.
sys.dont_write_bytecode = True

# pylint: disable=wrong-import-position  # nothing may be written before
from office_requests import Page
from stand import Stand, check

HEADER = ["person", "name", "key", "home"]
ROOMS = [f"A-{number}" for number in range(101, 141)]
FIRST = [[f"P{number:02}", f"Person {number}", "", ROOMS[number] if number < 20 else ""] for number in range(30)]
# Four have gone, and one has another name and another room on the new list.
STAYED = [["P04", "Person Four", "", "A-139"], *FIRST[5:]]
NEW = [[f"N{number:02}", f"New {number}", "", ""] for number in range(70)]
MADE = r"The page made (\d+) key"


def listed(rows, header=None):
    """A list as a spreadsheet writes it."""
    text = io.StringIO(newline="")
    csv.writer(text).writerows([header or HEADER, *rows])
    return text.getvalue().encode()


def send(page, label, rows, keys="1"):
    """Sends a list of people, and gives the page that follows."""
    fields = {"kind": "people", "label": label, "keys": keys}
    return flat(page.form("/office/lists", fields, files={"list": listed(rows)})[2])


def flat(text):
    """A page with one space in place of line ends."""
    return re.sub(r"\s*\n\s*", " ", text)


def bring(page, shown):
    """Brings in what a page offers. The answer, and the page that comes next."""
    held = re.findall(r'name="held" value="(\w+)"', shown)
    check("the page offers to bring the list in", held, shown[:2500])
    status, fields, text = page.form("/office/lists/bring", {"held": held[0]})
    return flat(page.get(fields["location"].split("example.org", 1)[-1].lstrip(":0123456789"))[2] if status == 303 else text)


def register(stand):
    """The people with their names and rooms, and the marks of their keys."""
    view = stand.ask(ask="view")
    return {row[0]: row[1:3] for row in view["people"]}, view["key_marks"]


def try_same(stand, page):
    """The same list again, under its label and under another one."""
    bring(page, send(page, "people-1", FIRST))
    before = register(stand)
    check("the first list has come in", len(before[0]) == 30)
    for label in ("people-1", "people-2"):
        shown = send(page, label, FIRST)
        check(f"the same people under {label} are known", "All 30 people of this list are in the register" in shown
              and "no key was made" in shown, shown[:2500])
        check("and no slip is shown", "Your key" not in shown and "<table" not in shown)
    own = [[*row[:2], f"key0000000000{row[0].lower()}", row[3]] for row in NEW[:2]]
    bring(page, send(page, "own-keys", own))
    check("a list with keys of its own is known as it is", "came in before under the label own-keys"
          in send(page, "own-keys", own))
    page.form("/office/many", {"act": "remove", "text": "N00 N01"}, page="/office/many")
    shown = page.form("/office/many", {"act": "remove", "text": "N00 N01"}, page="/office/many")[2]
    page.form("/office/many/do", {"held": re.findall(r'name="held" value="(\w+)"', shown)[0]}, page="/office/many")
    check("nothing was changed by it", register(stand) == before)


def try_faults(page):
    """Faults of the new people are all shown, and nobody who is in the register is one."""
    wrong = [list(row) for row in NEW]
    for row in wrong[:60]:
        row[3] = "Z-999"
    wrong[60][0], wrong[61][1], wrong[62][0], wrong[63][3], wrong[64][3] = "N-60", "", "N65", "A-105", "A-130"
    wrong[66][3] = "A-130"
    shown = send(page, "people-2", STAYED + wrong)
    rows = [int(row) for row in re.findall(r'<td class="number">(\d+)</td>', shown)]
    first = 2 + len(STAYED)
    expected = [*range(first, first + 62), first + 63, first + 65, first + 66]
    check("all faults are shown at once, with their rows", rows == expected, (rows, expected))
    check("and nobody who is in the register", "26 people of this list" in shown and "P05" not in shown, shown[:2500])
    check("nor who is not on the list: the list may still change", "not on this list" not in shown and "P00" not in shown, shown)
    for text in (f"This person is in row {first + 62} of this list already", "No room has this code",
                 f"This room is in row {first + 64} of this list already", "Another person lives in this room"):
        check(f"a fault reads: {text}", text in shown, shown[-6000:])
    shown = send(page, "people-1", STAYED + NEW)
    check("under a label that is taken the page names one that is not", "under the label people-2" in shown
          and "under the label people-1" not in shown, shown[:2500])


def try_next_year(stand, page):
    """The list of the next year: the new ones alone come in, and the departed are shown."""
    names, marks = register(stand)
    shown = send(page, "people-2", STAYED + NEW)
    check("the page says who is new", "26 people of this list" in shown and "70 are new" in shown, shown[:2500])
    check("keys are made for the new ones alone", re.findall(MADE, shown) == ["70"] and "(P05)" not in shown)
    check("and it calls no slip of the others void", "Of all slips for these people only those work whose list" in shown)
    for text in ("Person Four", "A-139", "2 fields differ"):
        check(f"and where the list differs: {text}", text in shown, shown[:3500])
    check("it says how many are not on the list", "4 people of the register are not" in shown, shown[:2500])
    shown = bring(page, shown)
    after, new_marks = register(stand)
    check("the new ones are in", set(after) == set(names) | {row[0] for row in NEW})
    check("and nothing else has changed", all(after[one] == names[one] for one in names)
          and all(new_marks[one] == marks[one] for one in marks))
    check("then the page shows the departed", "Who is not on the list" in shown
          and all(f"/office/person/P0{number}" in shown for number in range(4)) and "person/P04" not in shown, shown[:3500])
    text = re.findall(r"<textarea[^>]*>([^<]*)</textarea>", shown)[0]
    check("and offers them, but no new keys for them", text.split() == ["P00", "P01", "P02", "P03"]
          and "Remove them from the register" in shown and "new keys" not in shown, text)
    shown = page.form("/office/many", {"act": "remove", "text": "P00 P01"}, page="/office/many")[2]
    check("it asks before it removes any", "Remove them from the register: 2 people" in shown and register(stand)[0] == after)
    page.form("/office/many/do", {"held": re.findall(r'name="held" value="(\w+)"', shown)[0]}, page="/office/many")
    check("those are removed whom the clerk has left in the field", set(after) - set(register(stand)[0]) == {"P00", "P01"})


def try_meanwhile(stand, anna, bert):
    """Another clerk brings in one of the new people between the try and the yes."""
    people = [["M01", "Mia", "", ""], ["M02", "Mo", "", ""]]
    shown = send(anna, "people-3", people + [["P04", "Person 4", "", ""]])
    keys = dict(re.findall(r"\((M\d\d)\).*?<code class=\"key\">([0-9a-f ]+)</code>", shown, re.DOTALL))
    bert.form("/office/person", {"ident": "M01", "name": "Mia"}, page="/office/register")
    again = bring(anna, shown)
    check("the count of those who were known is that of the whole list",
          "2 people of this list are in the register already" in again, again[:2500])
    check("nobody comes in, and the clerk reads whose slip is void", "M02" not in register(stand)[0]
          and "Meanwhile these people came into the register: M01" in again, again[:2500])
    check("the page shows no key again", "Your key" not in again)
    final = bring(anna, again)
    check("the other one comes in, with the key of the printed slip", "M02" in register(stand)[0]
          and "is in, with 1 line." in final, final[:2500])
    answer = stand.ask(ask="try", lines=[f"me {keys['M02'].replace(' ', '')}"])["answers"][0]
    check("which opens their page", answer[1] == 0, answer)
    check("and the departed are those of the whole list", "/office/person/P05" in final and "person/P04" not in final
          and "person/M01" not in final, final[:3500])


def try_same_label(anna, bert):
    """Two clerks send the same new people under the label that the page proposes, and both print slips."""
    people = [["L01", "Lea", "", ""], ["L02", "Lou", "", ""]]
    shown = send(anna, "people-4", people)
    newer = send(bert, "people-4", people)
    made = [set(re.findall(r"made on ([^<]+)</span>", one)) for one in (shown, newer)]
    check("the slips of each try have a time of their own", [len(one) for one in made] == [1, 1] and made[0] != made[1], made)
    (first,), (second,) = made
    check("the page of the second try names the first one", f"for these people that were made on {first} by anna" in newer, newer)
    came = bring(bert, newer)
    check("whose list comes in reads which slips work", f"work: those that were made on {second}." in came, came)
    check("and which do not", f"do not work: destroy them. They were made on {first} by anna." in came, came)
    again = bring(anna, shown)
    check("the second one reads that the slips are void", "Meanwhile these people came into the register: L01, L02" in again
          and f"which were made on {first}, do not work: destroy these" in again, again[:2500])
    check("and not that no key was made", "no key was made" not in again and "the keys that they have stay good" in again, again)


def try_earlier_tab(stand, page):
    """One clerk tries a list in two tabs, and brings in that of the first: its slips work, and not the later ones."""
    people = [["T01", "Tea", "", ""]]
    first, later = send(page, "people-tabs", people), send(page, "people-tabs", people)
    held = re.findall(r'name="held" value="(\w+)"', first)[0]
    again = flat(page.get(f"/office/lists/tried/{held}")[2])
    slips = [re.findall(r'<div class="slip".*?</div></div>', one, re.DOTALL) for one in (first, again)]
    check("loaded again, the page of a try has the same slips", slips[0] and slips[0] == slips[1], slips)
    keys = [re.findall(r"<code class=\"key\">([0-9a-f ]+)</code>", one)[0].replace(" ", "") for one in (first, later)]
    times = [re.findall(r"made on ([^<]+)</span>", one)[0] for one in (first, later)]
    came = bring(page, first)
    works = [stand.ask(ask="try", lines=[f"me {key}"])["answers"][0][1] == 0 for key in keys]
    check("the clerk reads so", works == [True, False] and f"those that were made on {times[0]}." in came
          and f"destroy them. They were made on {times[1]} by anna." in came, (works, times, came))


def try_twice(stand, page):
    """Two presses of "Bring in the list", the second one after the list is in."""
    shown = send(page, "people-twice", [["W01", "Wim", "", ""], ["W02", "Wera", "", ""]])
    fields = dict(re.findall(r' name="(token|seen|press|held)" value="([^"]*)"', shown))
    for _ in range(2):
        status, answer, _text = page.post("/office/lists/bring", fields)
        check("the page leads on", status == 303, answer)
    seen = flat(page.get(answer["location"].split("example.org", 1)[-1])[2])
    check("the clerk reads that the list is in, and nothing else", "The list is in, with 2 lines." in seen
          and "news bad" not in seen and {"W01", "W02"} <= set(register(stand)[0]), seen[:2500])


def try_without_rooms(page):
    """People who live in rooms come before the list of rooms: that is one fault, and not one a person."""
    send(page, "people-early", FIRST)
    shown = flat(page.get("/office/lists")[2])
    check("the page says to bring in the rooms first", "Bring in the list of rooms first" in shown, shown)


def try_rooms(stand, page):
    """A list of rooms again, with new ones."""
    def send_rooms(label, *more):
        fields = {"kind": "rooms", "label": label}
        return flat(page.form("/office/lists", fields, files={"list": listed([[one] for one in (*ROOMS, *more)], ["room"])})[2])
    shown = send_rooms("rooms-again")
    said = f"All {len(ROOMS)} rooms of this list are in the register already"
    check("a list of rooms that are all known is no fault", said in shown and 'name="held"' not in shown, shown)
    shown = send_rooms("rooms-new", "B-201", "B-202")
    check("with two new ones it fits", "<strong>2 are new.</strong>" in shown and "stay as they are" in shown, shown)
    bring(page, shown)
    there = {row[0] for row in stand.ask(ask="view")["rooms"]}
    check("and they come in", there == {*ROOMS, "B-201", "B-202"}, there)


def try_german(page):
    """A German clerk reads of rooms, and not of people, where a list of rooms fits and where it does not."""
    page.form("/office/language", {"language": "de"}, page="/office/")
    for more, says in ((["C-1"], "<strong>1 ist neu.</strong>"), (["C-1", "C-2"], "<strong>2 sind neu.</strong>"),
                       (["C-1", "C-1"], "Was schon im Verzeichnis steht, darf in der Liste bleiben")):
        fields = {"kind": "rooms", "label": "rooms-german"}
        shown = flat(page.form("/office/lists", fields, files={"list": listed([[one] for one in (*ROOMS, *more)], ["room"])})[2])
        about = shown.partition("<main")[2]
        check(f"a German clerk reads: {says}", says in about and "Person" not in about, about)
    sample = page.get("/office/sample/descriptions.csv")[2]
    check("a sample has its rents as a German office writes them", '"412,50 €"' in sample and "412.50" not in sample, sample)
    shown = flat(page.form("/office/told/rooms", page="/office/told", files={"list": sample.encode()})[2])
    check("and is understood so", ">412,50</td>" in shown and ">455,00</td>" in shown, shown)
    shown = page.get("/office/copies")[2]
    check("and why a copy was made", "Liste rooms-new (Zimmer) eingelesen" in shown and "(rooms)" not in shown, shown)


def try_sum(page):
    """A line with a sum below the people, as a spreadsheet has it."""
    shown = send(page, "people-sum", [["Q01", "Person Q", "", ""], ["Total", "301", "", ""]])
    check("a name without a letter is named", "In row 3 the name has no letter" in shown, shown)
    check("the page says in which language the slips are", "The language of these slips: English (2)" in shown, shown)


def served(stand):
    """Starts all that the page needs."""
    stand.start()
    stand.start_page()
    stand.start_proxy()


def try_office_again(program):
    """All of it."""
    with Stand(program) as stand:
        served(stand)
        try_without_rooms(Page(stand))
    with Stand(program) as stand:
        stand.fill(ROOMS, [])
        served(stand)
        anna, bert = Page(stand), Page(stand, "bert")
        try_same(stand, anna)
        try_faults(anna)
        try_next_year(stand, anna)
        try_meanwhile(stand, anna, bert)
        try_same_label(anna, bert)
        try_earlier_tab(stand, anna)
        try_twice(stand, anna)
        try_sum(anna)
        try_rooms(stand, anna)
        try_german(anna)
        check("the page has noted no fault of its own", "rooms-page:" not in stand.log("page"), stand.log("page"))


if __name__ == "__main__":
    if len(sys.argv) != 2 or not Path(sys.argv[1]).exists():
        sys.exit("usage: /usr/bin/python3 deploy/trial/office_again.py PROGRAM")
    try_office_again(sys.argv[1])
