"""What residents read of rooms, as clerks put it on their page: /usr/bin/python3 deploy/trial/office_told.py PROGRAM.

Notice and contact, descriptions as a list, pictures. What does not fit is refused by name, and changes nothing. Nothing of it
becomes a script of the residents' page. It also runs over standin.py.
"""

import base64
import gzip
import html
import http.client
import json
import re
import socket
import sys
from pathlib import Path

# The repository stays as it is.
sys.dont_write_bytecode = True

# pylint: disable=wrong-import-position  # nothing may be written before
import some_pictures
from office_again import flat
from office_requests import EDGE, Page
from stand import HOST, Stand, check, unchecked
from told_apart import TOLD, try_separation

ROOMS = ["N-101", "N-102", "N-103", "S-201", "S-202"]
PLACE = "/office/told"
# As an office has it: in German, with semicolons, in the character set of Windows, and with a column too many.
LIST = ("Zimmer;Gebäude;Etage;Größe (m²);Warmmiete;Ausstattung;Hausmeister\r\n"
        "n-101;Nord;1;14;412,50 €;Balkon,  Südseite;Kurt\r\n"
        "N-102;Nord;1;18 m²;1.455 €;;Kurt\r\n"
        "S-201;Süd;EG;;;Ruhig, zum <b>Garten</b>;Kurt\r\n"
        "X-9;Süd;;;EUR 380.-;;\r\n"
        "S-202;;;;;;\r\n").encode("cp1252")
# What residents then read, by the rules of docs/office-page.md.
EXPECTED = {
    "N-101": {"house": "Nord", "floor": "1", "size": "14", "rent": "412,50 €", "amount": 412.5, "text": "Balkon, Südseite"},
    "N-102": {"house": "Nord", "floor": "1", "size": "18 m²", "rent": "1.455 €", "amount": 1455},
    "S-201": {"house": "Süd", "floor": "EG", "text": "Ruhig, zum <b>Garten</b>"},
    "X-9": {"house": "Süd", "rent": "EUR 380.-", "amount": 380},
}
KEY = "abcd1234" * 2


class Resident(Page):
    """Somebody without a key or a password."""

    def __init__(self, stand):
        super().__init__(stand, clerk="")

    def told(self):
        """What residents read."""
        return json.loads(self.get(TOLD)[2])


def told_of(stand):
    """What the keeper says that residents read."""
    return stand.ask(ask="told")["told"]


def packed_of(stand):
    """What is in the folder."""
    path = stand.folder / "told" / "told.json.gz"
    return json.loads(gzip.decompress(path.read_bytes())) if path.exists() else {}


def news(page):
    """What the page says next, as text."""
    shown = page.get(PLACE)[2]
    return [html.unescape(flat(one)) for one in re.findall(r'<p class="news \w+"[^>]*>(.*?)</p>', shown, re.DOTALL)]


def send_list(page, body):
    """Sends a list of descriptions, and gives the page that follows."""
    return html.unescape(flat(page.form(f"{PLACE}/rooms", page=PLACE, files={"list": body})[2]))


def bring(page, shown):
    """Puts descriptions on the residents' page, and gives what the page says next."""
    held = re.findall(r'name="held" value="(\w+)"', shown)
    check("the page offers to put the descriptions on the residents' page", held, shown[:2500])
    page.form(f"{PLACE}/rooms/bring", {"held": held[0]}, page=PLACE)
    return news(page)


# --- before anything, and what a stranger may

def try_nothing(stand, resident):
    """Without an upload nothing is said, and all else is as it was."""
    status, fields, text = resident.get(TOLD)
    check("before anything residents read nothing of rooms", (status, text) == (200, "{}"), text)
    policy = fields["content-security-policy"]
    check("the policy lets in scripts and pictures of this host alone", "script-src 'self';" in policy
          and "img-src 'self' data:;" in policy and "default-src 'none'" in policy, policy)
    check("the keeper has written nothing", not list((stand.folder / "told").iterdir()))
    for path in (f"/told/{'0' * 32}.jpg", "/told/", "/told/told.json.gz", f"/told/{'0' * 32}.js", "/told/../office/"):
        check(f"there is no {path}", resident.get(path)[0] == 404, resident.get(path))
    check("nobody may send anything there", resident.post(TOLD, {"x": "y"})[0] == 405)
    check("not even in the body of a question", resident.ask("GET", TOLD, b"x" * 10)[0] == 413)
    check("who has no password comes to no form", resident.get(PLACE)[0] == 401 and resident.post(f"{PLACE}/words", {})[0] == 401)


# --- notice and contact

def words(page, english, german, contact, saw=None):
    """Sends the form of the notice. The status and the page that follows."""
    form = {"notice-en": english, "notice-de": german, "contact": contact, **({"saw": saw} if saw else {})}
    status, _, text = page.form(f"{PLACE}/words", form, page=PLACE)
    return status, html.unescape(text)


def try_words(stand, page, other, resident):
    """The notice and the contact: as plain text, and not over another clerk's."""
    english, german = "Lists until <31 May>, noon.\r\n\r\nThen & we draw.", "Bis 31. Mai, 12 Uhr."
    check("the notice is taken", words(page, english, german, "rooms@college.example")[0] == 303, news(page))
    told = resident.told()
    check("residents read it as it was written", told["notice"] == {
        "en": "Lists until <31 May>, noon.\n\nThen & we draw.", "de": german} and told["contact"] == "rooms@college.example", told)
    saw = page.hidden(PLACE, f"{PLACE}/words")["saw"]
    words(other, english, "Bis 1. Juni.", "bert")
    status, text = words(page, "Mine", "Meins", "anna", saw)
    check("what another clerk has changed meanwhile is not replaced", status == 200
          and "has changed since you opened the page" in text and told_of(stand)["contact"] == "bert", text[:2000])
    check("and what was written is not lost", ">Mine</textarea>" in text and 'value="anna"' in text, text[:3000])
    status, text = words(page, "Mine", "Meins", "anna", "".join(re.findall(r'name="saw" value="(\w+)"', text)))
    now = flat(text.partition("<form")[0])
    check("what stands there now is shown", "What residents read now" in now and "Bis 1. Juni." in now and "bert" in now, now)
    check("nor is it replaced by a second press", status == 200 and told_of(stand)["contact"] == "bert", text[:2000])
    for what, texts, said in (("a long notice", ("x" * 601, "", ""), "more than 600 signs"),
                              ("a long contact", ("", "", "x " * 150), "more than 200 signs"),
                              ("what may be a key", (f"Use {KEY}", "", ""), "may be a key")):
        status, text = words(page, *texts)
        check(f"{what} is refused, and stays in the form", status == 200 and said in text and texts[0] in text, text[:2000])
    check("none of them changed anything", told_of(stand)["notice"]["de"] == "Bis 1. Juni.")
    saw = page.hidden(PLACE, f"{PLACE}/words")["saw"]
    words(other, "", "", "")
    status, text = words(page, english, "Bis 1. Juni.", "anna", saw)
    now = flat(text.partition("<form")[0])
    check("a notice that another clerk has taken away does not come back, and the page says that there is none", status == 200
          and "There is no notice of the office's." in now and "Bis 1. Juni." not in now and not told_of(stand)["notice"], now)
    words(page, "", "", "")
    check("an empty notice is none", (told_of(stand)["notice"], told_of(stand)["contact"]) == ({}, ""))


# --- descriptions

def try_rooms(stand, page, other, resident):
    """A list as offices have it comes on the residents' page once the clerk has seen what the page understood."""
    shown = send_list(page, LIST)
    for text in ("has a description of 4 rooms", "Nothing was changed yet", "1 room of the list is not in the register",
                 "2 rooms of the register have no description", "N-103, S-202", "<td>Gebäude</td><td>house</td>",
                 "<td>Hausmeister</td><td>left out</td>", "Small letters became capitals", ">1,455.00</td>", ">412.50</td>",
                 "CSV with semicolons, in the character set of Windows"):
        check(f"the page says what it understood: {text}", text in shown, shown[:6000])
    check("but nothing is there before the clerk says so", resident.told()["rooms"] == {})
    late = send_list(other, b"room,text\nN-103,Mine\n")
    said = bring(page, shown)
    check("then the descriptions are there", said == ["The descriptions of 3 rooms are on the residents' page."]
          and resident.told()["rooms"] == EXPECTED, (said, resident.told()["rooms"]))
    check("nor does the page say that residents lose what they do not see",
          "no longer says anything of 3 rooms" in page.get(f"{PLACE}/rooms/drop")[2])
    said = bring(other, late)
    check("a list that was looked at before is refused", "has changed since" in said[0]
          and resident.told()["rooms"] == EXPECTED, said)
    shown = send_list(page, b"room,text\nN-103,In the house of Ann Ash\n")
    check("the page says which rooms lose theirs", "4 rooms have a description now, and have none afterwards" in shown,
          shown[:4000])
    check("and which name of somebody it has", "is in the description of N-103" in shown, shown[:4000])
    check("and escapes what a list has", "<b>Garten</b>" not in page.get(f"{PLACE}/room/S-201")[2])
    check("nothing was changed by looking", packed_of(stand)["rooms"] == EXPECTED)
    check("of one room the page says so", bring(page, send_list(page, b"room,text\nN-101,One\n"))
          == ["The description of 1 room is on the residents' page."])
    bring(page, send_list(page, LIST))


FAULTS = {
    "a room twice": (b"room,text\nN-101,a\nN-101,b\n", "This room is in row 2 of this list already"),
    "a code that is none": (b"room,text\nN 101,a\n", "The field room is not well written"),
    "a long text": (b"room,text\nN-101," + b"a" * 301 + b"\n", "has 301 signs, and may have 300"),
    "a rent that is none": (b"room,rent\nN-101,on request\n", "The rent is no amount"),
    "two rents": (b"room,rent\nN-101,300-400\n", "The rent is no amount"),
    "a field too many": (b"room,text\nN-101,a,b\n", "more or fewer fields"),
    "what may be a key": (f"room,text\nN-101,{KEY}\n".encode(), "may be a key"),
    "a list of rooms": (b"room\nN-101\n", "says nothing of any room"),
    "a list without rooms": (b"house,text\nNorth,a\n", "does not name the columns"),
    "an old workbook": (b"\xd0\xcf\x11\xe0" + bytes(600), "old Excel workbook"),
    "an empty file": (b"\n\n", "This file is empty"),
}


def try_faults(stand, page):
    """What does not fit is refused by name."""
    for what, (body, said) in FAULTS.items():
        shown = send_list(page, body)
        check(f"{what} is refused, and the page says why", said in shown and "Nothing was changed" in shown
              and 'name="held"' not in shown and KEY not in shown, shown[:3000])
    send_list(page, b"room,text\n" + (b"N-101," + b"a" * 40 + b"\n") * 9_000)
    check("a list that is too long is refused, and not to be split: the second half would replace the first one",
          "longer than 262,144 bytes" in (said := news(page)[0]) and "shorten its texts" in said and "plit it" not in said, said)
    many = b"room,text\n" + b"".join(f"R-{n},{n}\n".encode() for n in range(2001))
    said = bring(page, send_list(page, many))
    check("so are more rooms than an office has", "2,000 rooms" in said[0], said)
    check("and all is as it was", packed_of(stand)["rooms"] == EXPECTED)


# --- pictures

def add(page, files, room="", shows=""):
    """Sends pictures, each under a name, and gives what the page says next."""
    fields = {**page.hidden(PLACE, f"{PLACE}/pictures"), "room": room, "shows": shows}
    parts = [f'--{EDGE}\r\nContent-Disposition: form-data; name="{name}"\r\n\r\n{value}\r\n'.encode()
             for name, value in fields.items()]
    parts += [f'--{EDGE}\r\nContent-Disposition: form-data; name="pictures"; filename="{name}"\r\nContent-Type: image/jpeg'
              "\r\n\r\n".encode() + data + b"\r\n" for name, data in files.items()]
    body = b"".join(parts) + f"--{EDGE}--\r\n".encode()
    status, _, text = page.ask("POST", f"{PLACE}/pictures", body, {"Content-Type": f"multipart/form-data; boundary={EDGE}"})
    return news(page) if status == 303 else [f"{status} {text}"]


def begun(page, length):
    """The status and the text of the answer to a picture of which only the beginning was sent."""
    secret = base64.b64encode(f"{page.clerk}:{page.password}".encode()).decode()
    head = (f"POST {PLACE}/pictures HTTP/1.1\r\nHost: {HOST}\r\nAuthorization: Basic {secret}\r\n"
            f"Content-Type: multipart/form-data; boundary={EDGE}\r\nContent-Length: {length}\r\n\r\n")
    raw = socket.create_connection(("127.0.0.1", page.stand.port), 60)
    with unchecked().wrap_socket(raw, server_hostname=HOST) as door:
        door.sendall(head.encode() + bytes(10_000))
        answer = http.client.HTTPResponse(door)
        answer.begin()
        return answer.status, answer.read().decode()


def pictures_of(stand, room):
    """The pictures of a room: what each shows, and its bytes."""
    return [(one["shows"], (stand.folder / "told" / one["file"]).read_bytes())
            for one in told_of(stand)["pictures"].get(room, [])]


def try_pictures(stand, page, resident):
    """Pictures become small, upright, and clean."""
    said = add(page, {"whatever.jpg": some_pictures.of_camera()}, room="n-101", shows="Plan of the floor")
    check("a picture comes in", said == ["1 picture is on the residents' page."], said)
    (shows, data), = pictures_of(stand, "N-101")
    found = some_pictures.seen(data)
    check("it is small, and upright", shows == "Plan of the floor" and len(data) <= 120_000
          and found["size"] == (960, 1280) and found["format"] == "JPEG", (found, len(data)))
    check("its colours are where they were", found["corners"] == some_pictures.UPRIGHT, found)
    check("nothing is left of what a camera writes beside it", not found["beside"]
          and not any(word in data for word in some_pictures.SECRETS), found)
    name = told_of(stand)["pictures"]["N-101"][0]["file"]
    status, fields, _ = resident.get(f"/told/{name}")
    check("residents get it", (status, fields["content-type"]) == (200, "image/jpeg")
          and fields["cache-control"] == "public, max-age=86400", fields)
    said = add(page, {"N-102.png": some_pictures.drawn("PNG"), "n-102 (2).webp": some_pictures.drawn("WEBP", 9),
                      "S-201_plan.jpg": b"no picture", "Z-1.jpg": some_pictures.drawn("JPEG")})
    check("the names of files say of which room they are; what cannot come in is named", said == [
        "S-201_plan.jpg was not added: this is no picture as JPEG, PNG or WebP, or it is damaged. Save it as JPEG.",
        "Z-1.jpg was not added: its name begins with no room code of the register.",
        "2 pictures are on the residents' page."], said)
    check("what has no colour is white", [some_pictures.seen(data)["corners"][0] for _, data in pictures_of(stand, "N-102")]
          == ["white", "white"])
    said = add(page, {f"N-102-{number}.jpg": b"no picture" for number in range(3, 12)})
    check("of many that are none each is named", len(said) == 9 and all(f"N-102-{number}.jpg was not added" in "".join(said)
                                                                        for number in range(3, 12)), said)
    before = told_of(stand)["pictures"]
    for what, data in some_pictures.hostile().items():
        said = add(page, {"S-202.png": data})
        check(f"{what} is refused by name", len(said) == 1 and said[0].startswith("S-202.png was not added: this "), said)
    check("a room without a code in the register gets none", "no room Q-1 is in the register" in add(
        page, {"x.png": some_pictures.drawn("PNG")}, room="Q-1")[0])
    status, text = begun(page, 50_000_000)
    check("50 megabytes are refused before they are here", (status, "5,000,000 bytes. Nothing was changed" in text) == (413, True))
    check("and all is as it was", told_of(stand)["pictures"] == before)
    status = Path(f"/proc/{stand.page.pid}/status").read_text(encoding="ascii")
    used = int(re.findall(r"VmHWM:\s+(\d+)", status)[0]) // 1024
    check(f"the page has taken {used} MB at most", used < 400)


def try_taking_away(stand, page, resident):
    """Four pictures a room; one is taken away, and its file is gone."""
    said = add(page, {f"S-201-{n}.png": some_pictures.drawn("PNG", 20 + n) for n in range(5)})
    check("a room has four pictures", sorted(said) == ["4 pictures are on the residents' page.", "S-201-4.png was not added: "
          "S-201 has 4 pictures already: take one of them away first."], said)
    add(page, {"S-201-0.png": some_pictures.drawn("PNG", 20)}, shows="New words")
    check("the same picture again is no other one", [shows for shows, _ in pictures_of(stand, "S-201")]
          == ["New words", "", "", ""], told_of(stand)["pictures"])
    name = told_of(stand)["pictures"]["S-201"][0]["file"]
    path = f"{PLACE}/room/S-201/{name}/drop"
    check("the page asks before it takes a picture away", "send its file again" in page.get(path)[2])
    page.form(path, page=path)
    check("then it is gone", len(told_of(stand)["pictures"]["S-201"]) == 3 and resident.get(f"/told/{name}")[0] == 404)
    page.form(path, page=path)
    check("a second time changes nothing", "has changed since" in news(page)[-1])
    page.form(f"{PLACE}/rooms/drop", page=f"{PLACE}/rooms/drop")
    check("descriptions can be taken away", resident.told()["rooms"] == {} and len(resident.told()["pictures"]) == 3)


# --- what is left, and what breaks

def try_faulty_folder(stand, page, resident):
    """A keeper that was killed, a file that is damaged, a folder that is missing."""
    folder = stand.folder / "told"
    before, text = resident.told(), (folder / "told.json.gz").read_bytes()
    stand.kill_keeper()
    (folder / ".part").write_bytes(b"half")
    (folder / f"{'e' * 32}.jpg").write_bytes(b"of a keeper that was killed")
    stand.start_keeper()
    check("a killed keeper leaves nothing", sorted(one.name for one in folder.iterdir()) == sorted(
        ["told.json.gz", *{one["file"] for found in before["pictures"].values() for one in found}]))
    (folder / "told.json.gz").write_bytes(text[:40])
    shown = page.get(PLACE)[2]
    check("a damaged file is named", "what residents read of rooms is damaged" in shown.lower() and "told.json.gz" in shown, shown)
    check("and hinders nothing else", page.get("/office/")[0] == 200 and resident.get("/")[0] == 200)
    words(page, "new", "", "")
    check("nor is it replaced", (folder / "told.json.gz").read_bytes() == text[:40])
    (folder / "told.json.gz").write_bytes(text)
    check("put back, all is there again", resident.told() == before and told_of(stand) == before)
    folder.rename(folder.with_name("away"))
    check("without the folder residents read nothing", resident.told() == {})
    text = words(page, "new", "", "")[1]
    check("and the page says what is missing, and keeps what was written", "There is no folder" in text and ">new<" in text, text)
    folder.with_name("away").rename(folder)


def try_traces(stand):
    """The journal has who changed what, and none of the texts; the logs have nothing."""
    lines = [(entry["who"], entry["line"]) for entry in stand.ask(ask="journal", last=1000)["journal"] if "line" in entry]
    for wanted in (("anna", "notice and contact for residents"), ("anna", "descriptions of 4 rooms"),
                   ("anna", "a picture of N-101"), ("anna", "a picture of S-201 taken away")):
        check(f"the journal has {wanted}", wanted in lines, lines)
    journal = (stand.data / "journal").read_text(encoding="utf-8")
    check("and no text", not any(word in journal for word in ("31 May", "Balkon", "college.example", "Plan of")))
    check("the proxy's log has nothing of who reads it", " /told/" not in stand.proxy_log())
    check("no process has noted a fault", not stand.log("page").strip() and not stand.log("told").strip(),
          (stand.log("page")[-2000:], stand.log("told")))


def try_office_told(program):
    """All of it."""
    with Stand(program) as stand:
        stand.fill(ROOMS, [])
        stand.start()
        stand.command("do", "-", given="person P1 key0000000000001 Ann Ash\n")
        stand.start_page()
        stand.start_told()
        stand.start_proxy()
        page, other, resident = Page(stand), Page(stand, "bert"), Resident(stand)
        try_nothing(stand, resident)
        try_separation(stand, resident)
        try_words(stand, page, other, resident)
        try_rooms(stand, page, other, resident)
        try_faults(stand, page)
        try_pictures(stand, page, resident)
        try_taking_away(stand, page, resident)
        try_faulty_folder(stand, page, resident)
        try_traces(stand)


if __name__ == "__main__":
    if len(sys.argv) != 2 or not Path(sys.argv[1]).exists():
        sys.exit("usage: /usr/bin/python3 deploy/trial/office_told.py PROGRAM")
    try_office_told(sys.argv[1])
