"""The page of a list of people that was tried, loaded again once it is too late: /usr/bin/python3 deploy/trial/office_tried.py
PROGRAM.

The list is in, or somebody else has brought its people in, or it cannot come in any more. The page then says which slips work,
and asks nobody to print others.
"""

import base64
import re
import sys
from pathlib import Path

# The repository stays as it is.
sys.dont_write_bytecode = True

# pylint: disable=wrong-import-position  # nothing may be written before
from office_again import bring, flat, listed, send
from office_requests import Page
from stand import Stand, check

SLIP = re.compile(r'</strong> \((\w+)\) <span class="soft">made on ([^<]*)</span>.*?<code class="key">([0-9a-f ]+)</code>')
PRINT = "Print this page now"
AWAY = "no longer holds this list"


def people(*idents):
    """Lines of a list, with neither key nor room."""
    return [[ident, f"Person {ident}", "", ""] for ident in idents]


def held_in(shown):
    """The name under which the page holds a list."""
    return re.findall(r'name="held" value="(\w+)"', shown)[0]


def slips_in(shown):
    """The time and the key of each slip, by person."""
    return {ident: (made, key.replace(" ", "")) for ident, made, key in SLIP.findall(shown)}


def loaded_again(page, held):
    """The page of a try as it is now, or the one to which it leads, and the address of that."""
    place = f"/office/lists/tried/{held}"
    for _ in range(3):
        status, fields, shown = page.get(place)
        if status != 303:
            return flat(shown), place
        place = "/office/" + fields["location"].partition("/office/")[2]
    return "", place


def works(stand, key):
    """Whether a key opens its person's record."""
    return stand.ask(ask="try", lines=[f"me {key}"])["answers"][0][1] == 0


def try_in(stand, page):
    """Back, and F5, once the list is in."""
    shown = send(page, "people-in", people("A01", "A02"))
    slips, held = slips_in(shown), held_in(shown)
    check("the page says how long it has them", "until the list is in, but for an hour at most." in flat(shown), shown)
    bring(page, shown)
    check("the slips work", all(works(stand, key) for _, key in slips.values()) and len(slips) == 2, slips)
    for times in ("once", "twice"):
        again, place = loaded_again(page, held)
        said = ("The list people-in is in.", f"The slips of this list work: those that were made on {slips['A01'][0]}.",
                "make a new key")
        check(f"loaded again {times}, the page says that the list is in, which slips work, and where new keys are made",
              place == "/office/lists" and all(one in again for one in said), again)
        check("and shows no slip, and calls none void", not slips_in(again) and AWAY not in again and "destroy" not in again
              and "news bad" not in again, again)
    page.form("/office/lists/bring", {"held": held})
    shown = flat(page.get("/office/lists")[2])
    check("so does the button of an old page", "The list people-in is in." in shown and AWAY not in shown, shown)
    check("it came in once", [row[0] for row in stand.ask(ask="view")["lists"]].count("people-in") == 1)


def try_answer_lost(stand, page):
    """The list came in, and the page has not read the answer: the slips of the try work all the same."""
    text = "person,name,key,home\nB01,Person B01,{},\n"
    fields = {"kind": "people", "label": "people-lost", "keys": "1"}
    shown = flat(page.form("/office/lists", fields, files={"list": text.format("").encode()})[2])
    slips, held = slips_in(shown), held_in(shown)
    body = base64.b64encode(text.format(slips["B01"][1]).encode()).decode()
    check("the list comes in", stand.ask(ask="import", kind="people", label="people-lost", body=body)["done"])
    page.form("/office/lists/bring", {"held": held})
    shown = flat(page.get("/office/lists")[2])
    check("the clerk reads that it is in, and that the slips work", "The list people-lost is in." in shown
          and f"those that were made on {slips['B01'][0]}." in shown and "do not work" not in shown, shown)
    check("and loaded again the page says so, too", "The list people-lost is in." in loaded_again(page, held)[0])


def try_blanked(stand, page):
    """A list came in, and somebody blanked it before the page had read the answer: if it was this one, its slips work."""
    for ident, is_own in (("B02", True), ("B03", False)):
        label = f"people-{ident.lower()}"
        shown = send(page, label, people(ident))
        slips, held = slips_in(shown), held_in(shown)
        text = f"person,name,key,home\n{ident},Person {ident},{slips[ident][1] if is_own else 'another0key0of0them'},\n"
        came = stand.ask(ask="import", kind="people", label=label, body=base64.b64encode(text.encode()).decode())["done"]
        check("the list comes in, and is blanked", came and "fault" not in stand.ask(ask="blank", label=label))
        shown = flat(page.form("/office/lists/bring", {"held": held})[2] + page.get("/office/lists")[2])
        says = (f"The list {label} is in." in shown, f"those that were made on {slips[ident][0]}." in shown, "do not work" in shown)
        check("the clerk reads whether the slips work", says == ((True, True, False) if is_own else (False, False, True)), shown)


def try_overtaken(stand, anna, bert):
    """Another clerk brings in one of two people, and then the other one, too."""
    shown = send(anna, "people-two", people("C01", "C02"))
    slips, held = slips_in(shown), held_in(shown)
    check("the page of a try asks to print it", PRINT in shown and list(slips) == ["C01", "C02"], shown)
    bert.form("/office/person", {"ident": "C01", "name": "Person C01"}, page="/office/register")
    again, place = loaded_again(anna, held)
    check("loaded again, it has only slips that can still work, and they are the same", slips_in(again) == {"C02": slips["C02"]}
          and PRINT in again, again)
    check("and names whose slip is void", "Meanwhile these people came into the register: C01." in again
          and f"made on {slips['C01'][0]}, do not work: destroy these" in again, again)
    check("it says how many are new", "<strong>1 is new.</strong>" in again, again)
    bring(bert, send(bert, "people-theirs", people("C02")))
    last = loaded_again(anna, place.rpartition("/")[2])[0]
    check("once nobody on it is new, the page says so", "All 2 people of this list are in the register already" in last, last)
    check("and asks to print nothing, and has no slip", PRINT not in last and not slips_in(last), last)
    check("and says that the last one is void, too", "Meanwhile these people came into the register: C02." in last, last)
    check("which is so", not works(stand, slips["C02"][1]))


def try_part_comes(stand, anna, bert):
    """The rest of a list that somebody has overtaken comes in with the slips of its first page."""
    shown = send(anna, "people-rest", people("D01", "D02"))
    slips, held = slips_in(shown), held_in(shown)
    bert.form("/office/person", {"ident": "D01", "name": "Person D01"}, page="/office/register")
    came = bring(anna, loaded_again(anna, held)[0])
    check("the rest comes in", "is in, with 1 line." in came, came)
    check("with the key of the slip that was printed first",
          works(stand, slips["D02"][1]) and not works(stand, slips["D01"][1]))


def try_label(anna, bert):
    """Another list came in under the label of a try."""
    shown = send(anna, "people-label", people("E01"))
    bring(bert, send(bert, "people-label", people("E02")))
    again, place = loaded_again(anna, held_in(shown))
    check("the page of the try says that the label is taken", place == "/office/lists"
          and "imported under the label people-label meanwhile" in again, again)
    check("and that its slips do not work", "do not work: destroy them" in again and PRINT not in again, again)


def try_phase(anna):
    """The round was closed after a try: no list of people can come in."""
    anna.form("/office/step/open", page="/office/step/open")
    shown = send(anna, "people-late", people("F01"))
    check("in an open round it can come in", PRINT in shown, shown)
    anna.form("/office/step/close", page="/office/step/close")
    again, place = loaded_again(anna, held_in(shown))
    check("after the close the page asks to print nothing", place == "/office/lists" and PRINT not in again
          and not slips_in(again), again)
    check("and says that the slips do not work", "This list cannot come in now" in again and "do not work" in again, again)


def try_other_kinds(stand, page):
    """A list without keys says nothing of slips, even if the languages of residents are not known."""
    languages = stand.data / "languages"
    kept = languages.read_bytes() if languages.exists() else None
    languages.write_text("none")
    fields = {"kind": "rooms", "label": "rooms-2"}
    shown = flat(page.form("/office/lists", fields, files={"list": listed([["A-2"]], ["room"])})[2])
    check("a list of rooms that fits says nothing of slips", "Bring in the list as rooms-2" in shown
          and "slips" not in shown, shown)
    shown = send(page, "people-languages", people("G01"))
    check("a list with new keys does", "All slips are in English" in shown, shown)
    if kept is None:
        languages.unlink()
    else:
        languages.write_bytes(kept)


def try_office_tried(program):
    """All of it."""
    with Stand(program) as stand:
        stand.fill(["A-1"], [])
        stand.start()
        stand.start_page()
        stand.start_proxy()
        anna, bert = Page(stand), Page(stand, "bert")
        try_in(stand, anna)
        try_answer_lost(stand, anna)
        try_blanked(stand, anna)
        try_overtaken(stand, anna, bert)
        try_part_comes(stand, anna, bert)
        try_label(anna, bert)
        try_other_kinds(stand, anna)
        try_phase(anna)
        check("the page has noted no fault of its own", "rooms-page:" not in stand.log("page"), stand.log("page"))


if __name__ == "__main__":
    if len(sys.argv) != 2 or not Path(sys.argv[1]).exists():
        sys.exit("usage: /usr/bin/python3 deploy/trial/office_tried.py PROGRAM")
    try_office_tried(sys.argv[1])
