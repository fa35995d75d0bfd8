"""Whether all that the office's page says can be in another language: /usr/bin/python3 deploy/trial/office_marked.py PROGRAM.

The trial makes a language up (made_up_language.py), and goes through a year in it: each address of the page that a link leads to,
in each phase, and what the page says of good and of bad forms. All words have to be in this language but for data, which has
no Latin letters here.
"""

import base64
import re
import sys
import tempfile
from collections import Counter
from pathlib import Path

# The repository stays as it is.
sys.dont_write_bytecode = True

# pylint: disable=wrong-import-position  # nothing may be written before
from made_up_language import CODE, not_in_it, parts_of, texts_in, write_language
from office_again import listed
from office_mail import settle_mail
from office_requests import Page
from stand import Stand, check, fail

LINK = re.compile(r'href="(/office/[^"#]*)"')
PLACE = re.compile(r"https?://[^/]*(/.*)")
MOST_OF_A_KIND = 3  # addresses that differ by their numbers alone
ROOMS = [f"1-{number}" for number in range(101, 113)]
PEOPLE = [f"24007{number:02}" for number in range(1, 11)]
NAMES = {person: f"Ζωή {person}" for person in PEOPLE}
HOMES = dict(zip(PEOPLE[:7], ROOMS))
LISTS = {PEOPLE[0]: "1-102 1-109", PEOPLE[1]: "1-101", PEOPLE[2]: "1-110 1-103", PEOPLE[7]: "1-111 1-104", PEOPLE[8]: "1-111"}
COLUMNS = ["Matrikelnummer", "Name", "", "Zimmer", "ω", "person", "name", "key", "home"]  # as clerks and the program call them
SEED = "cd" * 32

ONE, OTHER, NEW = f"/office/person/{PEOPLE[0]}", f"/office/person/{PEOPLE[9]}", {"ident": "2400790", "name": "Ω", "room": ""}
LANGUAGES = "/office/languages"
# Forms, each with its page if that has another address.
FORMS = [
    (f"{LANGUAGES}/office", {"language": CODE}, LANGUAGES), (f"{LANGUAGES}/office", {"language": "zz"}, LANGUAGES),
    (f"{ONE}/name", {"name": "Ζωή"}, ONE), (f"{ONE}/name", {"name": "Ω" * 59}, ONE),
    (f"{ONE}/grade", {"grade": "3"}, ONE), (f"{ONE}/grade", {"grade": "x"}, ONE),
    (f"{OTHER}/home", {"text": "1-101"}, OTHER), (f"{OTHER}/home", {"text": "9-9"}, OTHER),
    (f"{OTHER}/home", {"text": "1-112"}, OTHER), (f"{OTHER}/leave", {}, ""), (f"{ONE}/key", {}, ""),
    (f"{ONE}/remove", {}, f"{OTHER}/remove"), ("/office/register", {"text": "2400"}, ""),
    ("/office/person", NEW, "/office/register"), ("/office/person", NEW, "/office/register"),
    ("/office/person", {**NEW, "ident": "24.1"}, "/office/register"), ("/office/person/2400790/remove", {}, ""),
    ("/office/about", {"about": PEOPLE[0]}, "/office/register"), ("/office/about", {"about": "1.1"}, "/office/register"),
    ("/office/rooms", {"code": "1-199"}, ""), ("/office/rooms", {"code": "1-101"}, ""), ("/office/rooms", {"code": "1.1"}, ""),
    ("/office/rooms/1-112/shut", {}, ""),
    (f"{LANGUAGES}/many", {"text": " ".join(PEOPLE[:2]), "language": "en"}, LANGUAGES),
    (f"{LANGUAGES}/many", {"text": "77", "language": "en"}, LANGUAGES),
    (f"{LANGUAGES}/many", {"text": "", "language": "en"}, LANGUAGES),
    (f"{LANGUAGES}/person/{PEOPLE[1]}", {"language": ""}, f"/office/person/{PEOPLE[1]}"),
    ("/office/copies", {}, ""), ("/office/copies/days", {"days": "x"}, "/office/copies"),
    ("/office/copies/days", {"days": "300"}, "/office/copies"), ("/office/copies/days/300", {}, ""),
]
# Addresses of nothing.
STRANGE = ("person/77", "none", "forget/1.1", "copies/20270101T000000Z/back", "moves/77", "slips/77", "many/77", "departed/77",
           "undo/77", "given-up/20270101T000000Z")


class Reader:
    """Reads pages, and keeps what is not in the made-up language."""

    def __init__(self, stand, page):
        self.stand, self.page = stand, page
        self.faults, self.texts, self.count = {}, set(), 0

    def look(self, where, text):
        """Looks at a page."""
        self.count += 1
        self.texts.update(texts_in(text))
        for fault in not_in_it(text):
            if not (where.startswith("/office/lists") and fault in COLUMNS):
                self.faults.setdefault(fault, where)

    def get(self, path):
        """Gets a page, and looks at it. A page that is none is data."""
        status, fields, text = self.page.get(path)
        if status == 500:
            fail(f"{path}: {status} {text}{self.stand.log('page')}")
        if fields.get("content-type", "").startswith("text/html") and not path.endswith("check-draw.html"):
            self.look(path, text)
            return text
        return ""

    def follow(self, where, answer):
        """Looks at what an answer is, or leads to."""
        status, fields, text = answer
        if status == 303:
            return self.get(PLACE.sub(r"\1", fields["location"]))
        if status == 500:
            fail(f"{where}: {status} {text}{self.stand.log('page')}")
        self.look(where, text)
        return text

    def form(self, path, form=None, page=None, files=None):
        """Sends a form, and looks at the page that comes then."""
        return self.follow(path, self.page.form(path, form, page=page or path, files=files))

    def crawl(self, start="/office/"):
        """Follows all links, of each kind a few."""
        waiting, known = [start], {start}
        kinds: Counter[str] = Counter()
        while waiting:
            path = waiting.pop(0)
            for link in LINK.findall(self.get(path)):
                kind = re.sub(r"\d[-\dTZ]*", "#", link)
                if link not in known and kinds[kind] < MOST_OF_A_KIND and not link.endswith((".csv", ".xlsx", ".css", ".py")):
                    kinds[kind] += 1
                    known.add(link)
                    waiting.append(link)


def bring(reader, kind, label, rows, header, **more):
    """Sends a list, and brings it in if the page offers that."""
    shown = reader.form("/office/lists", {"kind": kind, "label": label, "keys": "1", **more}, files={"list": listed(rows, header)})
    held = re.findall(r'name="held" value="(\w+)"', shown)
    return reader.form("/office/lists/bring", {"held": held[0]}, page="/office/lists") if held else shown


def lists(reader):
    """Lists: good ones, the same again, some with each kind of fault, and files that are none."""
    bring(reader, "rooms", "1", [[room] for room in ROOMS], ["room"])
    people = [[person, NAMES[person], "", HOMES.get(person, "")] for person in PEOPLE]
    bring(reader, "people", "2", people, None)
    bring(reader, "people", "2", people, None)
    bring(reader, "people", "3", people[2:], None)
    wrong = [["", "", "", ""], ["2400799", "", "x", "9"], ["2400798", "Ω", "", "1.1"], ["2400798", "Ω", "", "1-101"], ["24"],
             ["25", "Ω  Ω", "", ""]]
    bring(reader, "people", "4", [*people, *wrong], None)
    bring(reader, "people", "1", [["2400797", "Ω", "", ""]], None)
    bring(reader, "people", "KEY", [["2400797", "Ω", "", ""]], None)
    bring(reader, "people", "key0123456789abcdef", [["2400797", "Ω", "", ""]], None)
    bring(reader, "people", "5", [["2400797", "Ω", "", "", "ω"]], COLUMNS[:5])
    bring(reader, "grades", "6", [[PEOPLE[0], "1"], [PEOPLE[1], "17"], ["777", "1"]], ["person", "grade"])
    bring(reader, "grades", "6", [[PEOPLE[0], "1"], [PEOPLE[1], "2"]], ["person", "grade"])
    bring(reader, "choices", "7", [[PEOPLE[0], "1-101"]], ["person", "choices"])
    bring(reader, "descriptions", "8", [["1-101", "Ω", "2", "12", "450", "ω"], ["9-9", "", "", "", "", ""]],
          ["room", "house", "floor", "size", "rent", "text"])
    picture = base64.b64encode(b"\xff\xd8\xff a picture").decode()
    check("a room has a picture", "file" in reader.stand.ask(ask="add-picture", room="1-101", body=picture, shows="ω"))
    for body in (b"", b"\xff\xfe\x00", b"x" * 262_145, b"PK\x03\x04 none", "Ω\nω\n".encode()):
        reader.form("/office/lists", {"kind": "people", "label": "9"}, page="/office/lists", files={"list": body})


def register(reader):
    """One person, many people, rooms, and languages: what works, and what is refused."""
    for path, form, page in FORMS:
        reader.form(path, form, page=page or path)
    many(reader, ("keys", "leave", "remove"))
    for path in STRANGE:
        reader.get(f"/office/{path}")
    reader.follow("/office/copies", reader.page.post("/office/copies", {"token": "0"}))


def many(reader, acts):
    """Many people at once: nobody, strangers, and people of each kind."""
    for act in acts:
        for text in ("", "77 78", PEOPLE[0], f"{PEOPLE[3]} {PEOPLE[9]}"):
            reader.form("/office/many", {"act": act, "text": text})


def year(reader):
    """A round from its beginning to its end, with all links in each phase."""
    reader.form("/office/step/open")
    for person, rooms in LISTS.items():
        reader.form(f"/office/person/{person}/choose", {"text": rooms}, page=f"/office/person/{person}")
    reader.form(f"/office/person/{PEOPLE[1]}/choose", {"text": "9-9 9-9"}, page=f"/office/person/{PEOPLE[1]}")
    bring(reader, "choices", "11", [[PEOPLE[0], "1-103"], [PEOPLE[4], "1-112"], ["77", "1-101"]], ["person", "choices"])
    bring(reader, "choices", "12", [[PEOPLE[0], "1-103"], [PEOPLE[4], "1-112"]], ["person", "choices"])
    for date, closes in (("2027-05-31", "yes"), ("2027-05-31", "no"), ("2020-01-01", "no"), ("", "no")):
        reader.form("/office/until", {"date": date, "time": "12:00", "closes": closes}, page="/office/")
    reader.crawl()
    reader.form("/office/until/drop", page="/office/")
    many(reader, ("withdraw", "going"))
    for act, person in (("withdraw", PEOPLE[5]), ("going", PEOPLE[6])):
        reader.form(f"/office/person/{person}/{act}")
        reader.form(f"/office/person/{person}/{act}", {"sure": "yes"})
    reader.form("/office/step/close")
    reader.crawl()
    for form in ({"way": "seed", "text": "12"}, {"way": "seed", "text": SEED}, {"way": "throws", "text": "12"},
                 {"way": "throws", "text": "3166254122631662541526341" * 4}):
        reader.form("/office/seed", form, page="/office/draw")
    reader.crawl()
    reader.form("/office/draw", {"seed": "12"}, page="/office/draw")
    reader.form("/office/draw", {"seed": SEED}, page="/office/draw")
    for step in ("run", "publish"):
        reader.crawl()
        reader.form(f"/office/step/{step}")
        reader.form(f"/office/person/{PEOPLE[0]}/whatif", {"text": "1-109"}, page=f"/office/person/{PEOPLE[0]}")
    reader.form("/office/letters", {"closing": "ω"})
    reader.crawl()
    reader.form("/office/step/settle")
    reader.crawl()
    check("the round is settled", reader.stand.ask(ask="view")["settled"] == [1])


def given_up(reader):
    """A round that is given up, and the way back from it and to a copy."""
    stand = reader.stand
    reader.form("/office/step/open")
    for person, rooms in LISTS.items():
        stand.command("do", "choose", person, *rooms.split())
    stand.command("do", "withdraw", PEOPLE[3])
    stand.command("do", "going", PEOPLE[4])
    reader.form(f"/office/undo/{PEOPLE[3]}", {"sure": "yes"})
    reader.crawl()
    reader.form("/office/step/open")
    reader.crawl()
    for place in [path for path in set(LINK.findall(reader.get("/office/"))) if "/given-up/" in path]:
        reader.form(place, {"lists": "yes"})
        reader.form(place, {"lists": "yes", "list": next(iter(LISTS)), "sure": "yes", "going": PEOPLE[4], "withdrawn": PEOPLE[3]})
    reader.crawl()
    reader.form("/office/step/cancel")
    copies = [path for path in LINK.findall(reader.get("/office/copies")) if path.endswith("/back")]
    reader.form(copies[-1], {"sure": "yes"})
    reader.form(f"/office/forget/{PEOPLE[9]}")
    reader.get(f"/office/about/{PEOPLE[9]}")
    for person in (NEW["ident"], PEOPLE[9]):
        shown = reader.form("/office/person", {**NEW, "ident": person, "name": "ω"}, page="/office/register")
        check(f"the page asks who {person} is", 'name="again"' in shown, shown)
    shown = bring(reader, "people", "13", [[NEW["ident"], "ω", "", ""], [PEOPLE[9], "ω", "", ""]], None)
    check("and of a list, who they are", 'name="again"' in shown, shown)
    reader.crawl()


def mail(reader):
    """The pages of mail, with a mail server that is away. A round is open, so that messages can be sent."""
    reader.form("/office/step/open")
    settle_mail(reader.stand, type("Away", (), {"port": 1}), **{"from": "office@college.example"})
    reader.crawl("/office/mail")
    for text in ("", "x", "ω@college.example", "a@college.example"):
        reader.form(f"/office/mail/person/{PEOPLE[0]}", {"email": text}, page=f"/office/person/{PEOPLE[0]}")
    for rows in ([[PEOPLE[1], "b@college.example"], ["77", "c@college.example"], [PEOPLE[2], "d"]], []):
        body = listed(rows, ["person", "email"]) if rows else b""
        reader.form("/office/mail/addresses", {}, page="/office/mail", files={"list": body})
    reader.crawl("/office/mail")


def try_office_marked(program):
    """All texts of the page, in a language that is made up."""
    with tempfile.TemporaryDirectory(prefix="rooms-languages-") as folder:
        catalogue = write_language(Path(folder))
        with Stand(program, ROOMS_LANGUAGES=folder) as stand:
            stand.start()
            stand.start_page()
            stand.start_proxy()
            reader = Reader(stand, Page(stand))
            reader.form("/office/language", {"language": CODE}, page="/office/")
            reader.crawl()
            lists(reader)
            reader.crawl()
            for part in (register, year, given_up, mail):
                part(reader)
            try_faults(reader)
            report(reader, catalogue)
            try_without(stand, Path(folder))


def try_faults(reader):
    """The file of the languages is damaged, and then the keeper is away."""
    (reader.stand.data / "languages").write_text("{", encoding="utf-8")
    reader.form("/office/person", NEW, page="/office/register")
    for path in (LANGUAGES, f"/office/about/{PEOPLE[0]}"):
        reader.get(path)
    reader.stand.stop_keeper()
    reader.follow("/office/", reader.page.get("/office/"))
    (reader.stand.data / "languages").unlink()


def try_without(stand, folder):
    """Texts that no catalogue has are found: one of Python, one of a template, and one of an attribute."""
    missing = {"Overview", "Skip to the content", "The phases of a round"}
    write_language(folder, without=missing)
    stand.end(stand.page)
    Path(stand.environment["ROOMS_PAGE_SOCKET"]).unlink(missing_ok=True)
    stand.start()
    stand.start_page()
    found = not_in_it(Page(stand).get("/office/")[2])
    check("a text that is in no catalogue is found", missing <= set(found), found)


def report(reader, catalogue):
    """Says what was seen."""
    for fault, where in reader.faults.items():
        print(f"      {where}: {fault[:300]}")
    check(f"{reader.count} pages have no word that is in no catalogue", not reader.faults, len(reader.faults))
    shown = "\n".join(reader.texts)
    seen: Counter[str] = Counter()
    all_of: Counter[str] = Counter()
    for parts, places in parts_of(catalogue):
        found = all(part in shown for part in parts)
        for place in places:
            all_of[place] += 1
            seen[place] += found
    unseen = [place for place in all_of if place.endswith(".tpl") and not seen[place]]
    print(f"      of {sum(all_of.values())} texts {sum(seen.values())} were seen")
    check("each template was seen", not unseen, unseen)


if __name__ == "__main__":
    try_office_marked(sys.argv[1])
