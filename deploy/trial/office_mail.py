"""Mail to residents: /usr/bin/python3 deploy/trial/office_mail.py PROGRAM.

Addresses by lists and one by one, texts with placeholders, and results and moves.
"""

import csv
import io
import re
import sys
from pathlib import Path

# The repository stays as it is.
sys.dont_write_bytecode = True

# pylint: disable=wrong-import-position  # nothing may be written before
from mail_server import MailServer
from office_forms import flat
from office_requests import Page, hand_in
from office_sheets import bring_in
from refused import swap
from stand import HOST, Stand, check, key_of, until

SENDER = "Wohnbüro <office@college.example>"
PEOPLE = [f"T{number:02}" for number in range(1, 13)]
NAME = "Zoë {link} Žák"
FORM = "/office/mail"
TIMES = re.compile(rb"\d{4}-?\d\d-?\d\dT\d\d:?\d\d")  # as the journal has them, and in names of copies


def mail_of(person):
    """The address of a person of this trial."""
    return f"{person.lower()}.resident@college.example"


def settle_mail(stand, mail_server, **others):
    """Writes the administrator's settings."""
    values = {"server": f"localhost:{mail_server.port}", "from": SENDER, "bounces-to": "bounces@college.example",
              "reply-to": "help@college.example", "per-minute": "6000", "seconds": "5", **others}
    write_settings(stand, "\n".join(["[mail]", *(f"{name} = {value}" for name, value in values.items() if value), ""]))


def write_settings(stand, text):
    """Puts a file of settings in place at once: the keeper may read it at any moment."""
    part = stand.folder / "mail.part"
    part.write_text(text, encoding="utf-8")
    part.replace(stand.folder / "mail.conf")


def kind_of(stand, kind):
    """How it stands with a kind of message."""
    return stand.ask(ask="mail")["kinds"][kind]


def press(page, kind):
    """The clerk looks at the question, and says yes."""
    place = f"{FORM}/{kind}/send"
    return page.form(place, page=place)


def rest(stand, *states):
    """Waits until the run is over, or stops, and gives it."""
    until(lambda: stand.ask(ask="mail")["run"]["state"] in (states or ("ended", "paused")), 60, "the run of the mail")
    return stand.ask(ask="mail")["run"]


def once_more(page, kind, act="again"):
    """The clerk lets people get a message once more."""
    place = f"{FORM}/{kind}/{act}"
    page.form(place, page=place)


def logs_of(stand):
    """What is in a log or in the journal, and has an address, a name or a key."""
    logs = [stand.proxy_log(), stand.log("page"), stand.log("keeper"), (stand.data / "journal").read_text(encoding="utf-8")]
    return [line for line in "".join(logs).splitlines() if re.search(r"@college|\.resident|Žák|Person T|key0{5}", line)]


def try_off(stand, page):
    """Without settings there is no mail."""
    shown = "".join(page.get(path)[2] for path in ("/office/", "/office/register", "/office/lists", "/office/person/T01"))
    check("without settings no page says a word of mail", not re.search(r"\bmail\b|e-?mail", shown, re.I), shown)
    status, _, shown = page.get(FORM)
    check("and there is no page of it", status == 503 and "this office sends no mail" in shown.lower(), shown)
    shown = bring_in(page, "people", "people-off", ["person", "name", "key", "email"],
                     [["T90", "Tea Off", key_of("T90"), mail_of("T90")]])
    check("a list of people with a column of addresses leaves it out", "left out" in shown, shown)
    check("and no address is kept", stand.ask(ask="mail-list")["addresses"] == {} and not (stand.data / "mail.db").exists())


def try_settings(stand, server):
    """Settings that are none are named."""
    for wrong, said in (({"smtp": "x"}, "no setting smtp"),
                        ({"server": "mail.college.example:25"}, "server is no mail server of this"),
                        ({"from": "the office"}, "from is no address"), ({"per-minute": "0"}, "per-minute is no number"),
                        ({"bounces-to": "a@b.c, d@e.f"}, "bounces-to is no address"),
                        ({"server": "localhost:0"}, "server is no number")):
        settle_mail(stand, server, **wrong)
        answer = stand.ask(ask="mail")
        check(f"the setting {wrong} is refused by name", said in answer.get("fault", ""), answer)
    write_settings(stand, "server\n")
    check("and so is a file that is none", "not written as it should be" in stand.ask(ask="mail")["fault"])
    settle_mail(stand, server)
    check("with good settings there is mail", stand.ask(ask="mail")["from"] == SENDER)


def try_people_list(stand, page):
    """Addresses come in with a list of people, and the program does not get them."""
    shown = " ".join(page.get("/office/lists")[2].split())
    check("the page of lists says that these columns are not left out", "brings the mail addresses in, too, and a column" in shown,
          shown)
    rows = [[person, f"Person {person}", key_of(person), "", mail_of(person)] for person in PEOPLE[:8]]
    rows[1][1], rows[6][4], rows[7][4] = NAME, "t07 at college.example", "T01.Resident@college.example"
    shown = bring_in(page, "people", "people-1", ["person", "name", "key", "home", "E-Mail"], rows)
    said = ("mail address, kept beside the register", "7 mail addresses come in with the list", "1 line with a fault",
            "t07 at college.example", "more than once: T01 T08")
    missing = [one for one in said if one not in " ".join(shown.split())]
    check("the page says which addresses come in, and which do not", not missing, (missing, shown))
    kept = stand.ask(ask="mail-list")["addresses"]
    check("they are kept by identifier", kept == {**{one: mail_of(one) for one in PEOPLE[:6]}, "T08": rows[7][4]}, kept)
    people = [row[0] for row in stand.ask(ask="view")["people"]]
    check("and the program's file has none", not holds(stand, "rooms.db*", "@college") and people == [*PEOPLE, "T90"], people)
    check("this trial finds addresses where they are", holds(stand, "mail.db", mail_of("T01")))
    mode = (stand.data / "mail.db").stat().st_mode & 0o777
    check("that file is for its account alone", mode == 0o600, oct(mode))
    shown = bring_in(page, "people", "people-2", ["person", "name", "email"], [["T07", "Person T07", mail_of("T07")]])
    place = "".join(re.findall(r'href="(/office/mail/addresses/\w+)"', shown))
    check("a list with nobody new offers its addresses", place and "Nobody on this list is new" in shown, shown)
    shown = page.get(place)[2]
    check("and shows what they change", "1 person gets an address, and 0 get another one" in " ".join(shown.split()), shown)
    page.form(f"{FORM}/addresses/bring", page=place)
    check("then they are in", stand.ask(ask="mail-list")["addresses"].get("T07") == mail_of("T07"))
    rows = [["T06", "Person T06", mail_of("T06")], ["T07", "Somebody Else", "else@college.example"]]
    shown = bring_in(page, "people", "people-3", ["person", "name", "email"], rows)
    shown = page.get("".join(re.findall(r'href="(/office/mail/addresses/\w+)"', shown)))[2]
    check("a line with another name than the register's changes no address", "another name for this identifier" in shown
          and "1 stays as it is" in " ".join(shown.split()) and "Bring the addresses in" not in shown, shown)
    try_without_address(page)


def try_without_address(page):
    """Lines of a list of people without an address have no fault of an address, whatever name they have."""
    header, new = ["person", "name", "key", "home", "email", "language"], ["T91", "New Comer", key_of("T91"), "", "", ""]
    shown = page_of(page, "people-4", header, [["T07", "Somebody Else", "", "", "", ""], new])
    check("a line with another name than the register's and no address has no fault of an address", "T91" in shown
          and "with a fault: left out" not in shown and "address may be another" not in shown, shown)
    shown = page_of(page, "people-5", header, [["T07", "Somebody Else", "", "", "", "Deutsch"], new])
    check("and one with a language alone has none of an address, either", "1 line with a fault: left out" in shown
          and "so the language may be another person's" in shown, shown)


def page_of(page, label, header, rows):
    """The page of a list of people that is not brought in, as a reader has it."""
    text = "".join(",".join(row) + "\n" for row in [header, *rows])
    return flat(page.form("/office/lists", {"kind": "people", "label": label}, files={"list": text.encode()})[2])


def holds(stand, pattern, text):
    """Whether one of these files of the keeper has a text. Their times do not count: 2026-12-01T02:30 has T02, too."""
    return any(text.encode() in TIMES.sub(b" ", one.read_bytes()) for one in stand.data.glob(pattern))


def send_file(page, body):
    """Sends a file of addresses, and gives the page that follows."""
    fields = page.form(f"{FORM}/addresses", page=FORM, files={"list": body})[1]
    return fields["location"], page.get(fields["location"])[2]


def try_two_languages(page):
    """Of two languages of one person none counts without a word."""
    shown = send_file(page, f"person,email,language\nT09,{mail_of('T09')},de\nT09,,en\nT08,,de\nT08,,de\n".encode())[1]
    check("a line with another language than one before is a fault", shown.count("with another language already") == 1
          and ">T09</td>" in shown.partition("with another language already")[0][-200:], shown)


def try_address_list(stand, page):
    """Addresses come in alone."""
    rows = "".join(f"{person};Person;{mail_of(person)}\r\n" for person in PEOPLE[7:11])
    wrong = "".join(["T99;Nobody;t99@college.example\r\n", "T12;Two;a@college.example, b@college.example\r\n",
                     "T08;x;t08@college.example\r\n"])
    place, shown = send_file(page, f"Matrikelnummer;Name;E-Mail-Adresse\r\n{rows}{wrong}".encode("cp1252"))
    said = ("3 people get an address, and 1 gets another one", "Nobody has this identifier", "not one mail address",
            "with another address already")
    missing = [one for one in said if one not in " ".join(shown.split())]
    check("a file of addresses is looked at first", not missing, (missing, shown))
    check("and changes nothing before the yes", "T09" not in stand.ask(ask="mail-list")["addresses"])
    page.form(f"{FORM}/addresses/bring", {"held": place.rpartition("/")[2]}, page=place)
    kept = stand.ask(ask="mail-list")["addresses"]
    check("then it is in", kept == {one: mail_of(one) for one in PEOPLE[:11]}, kept)
    exported = page.get(f"{FORM}/addresses.csv")[2]
    wanted = [["person", "email", "language"], *([one, text, ""] for one, text in kept.items())]
    check("all can be downloaded", list(csv.reader(io.StringIO(exported))) == wanted, exported)
    shown = send_file(page, exported.encode())[1]
    same = "11 stay as they are" in shown and "Bring the addresses in" not in shown
    check("and change nothing if they come in again", same, shown)
    place = page.form(f"{FORM}/addresses", page=FORM, files={"list": b"person,name\nT01,Ann\n"})[1]["location"]
    shown = page.get(place)[2]
    check("a file without addresses is refused", "Nothing came in" in shown and "email" in shown, shown)
    page.form(f"{FORM}/addresses", page=FORM, files={"list": b"person,email\n" * 80_000})
    shown = page.get(FORM)[2]
    check("so is one that is too long, which has no label", "longer than 1,000,000 bytes" in shown and "a label each" not in shown,
          shown)


def try_one_address(stand, page):
    """One person's address."""
    def put(was, new):
        form = {**page.hidden("/office/person/T12", f"{FORM}/person/T12"), "email": new, "was": was}
        page.post(f"{FORM}/person/T12", form)
        return page.get("/office/person/T12")[2]
    for wrong in ("t12", "a@b", "a b@c.de", "=a@c.de", "a@c.de\r\nBcc: e@c.de", "x" * 65 + "@c.de", "a@c.de,b@c.de", "<a@c.de>"):
        shown = put("", wrong)
        kept = stand.ask(ask="mail-list")["addresses"]
        check(f"{wrong[:30]!r} is no address", "is no mail address" in shown and "T12" not in kept, shown)
    shown = put("", mail_of("T12"))
    check("a person's page sets an address, and shows it", f'value="{mail_of("T12")}"' in shown, shown)
    shown = put("", "other@college.example")
    check("an old form changes nothing", "was changed after you looked" in shown and mail_of("T12") in shown, shown)


def try_texts(stand, page):
    """A clerk writes a text, and sees one message."""
    place, old = f"{FORM}/invitation", kind_of(stand, "invitation")["texts"]
    shown = page.form(place, {"language": "en", "subject": "For {nmae}", "body": "Dear {name}, {result} {link", "person": "T02"},
                      page=place)[2]
    said = ("There is no placeholder {nmae}", "There is no placeholder {result}", "A brace { or } stands alone", "For {nmae}")
    check("a placeholder that is none is refused by name", all(one in shown for one in said), shown)
    check("and the text stays what it was", kind_of(stand, "invitation")["texts"] == old)
    body = "Dear {name} ({person}), room {room}, round {round}:\r\n{link}\r\n\r\n.\r\nŽ\r\n"
    text = {"language": "en", "subject": "Räume für {name}", "body": body}
    fields = page.form(place, {**text, "person": "t02"}, page=place)[1]
    check("a good text leads to the message", fields.get("location") == f"{place}/in/en/to/T02", fields)
    shown = page.get(fields["location"])[2]
    parts = (f"Dear {NAME} (T02), room none, round 1:\nhttps://{HOST}/", f"Räume für {NAME}", mail_of("T02"))
    check("which is shown as that person gets it", all(one in shown for one in parts), shown)
    old = page.hidden(place, place)
    stand.ask(ask="mail-text", who="bert", kind="invitation", language="en", subject="By Bert", body="x\n")
    for person in ("T99", "T02"):
        shown = page.post(place, {**old, "language": "en", "subject": "By Anna", "body": "y", "person": person})[2]
    kept = kind_of(stand, "invitation")["texts"]["en"]
    check("a text that another clerk has written meanwhile stays", kept == ["By Bert", "x\n"], kept)
    check("the page says so, and still has the other one", "Another clerk has changed this text" in shown and "By Anna" in shown,
          shown)
    page.form(place, {**text, "person": "T02"}, page=place)
    check("after another look it is kept", kind_of(stand, "invitation")["texts"]["en"][0] == text["subject"])
    for subject in ("a\r\nBcc: eve@college.example", "a\nb", "a\0b", ""):
        answer = stand.ask(ask="mail-text", kind="invitation", language="en", subject=subject, body="x")
        check(f"the keeper takes no subject {subject!r}", "fault" in answer, answer)


def try_languages(stand, page):
    """Each person gets the text of their language, or of the office's."""
    stand.ask(ask="set-languages", languages={"T02": "de", "T03": "de"})
    place, kind = f"{FORM}/invitation", kind_of(stand, "invitation")
    check("German has a text without a clerk", kind["texts"]["de"][0].startswith("Zimmertausch: Geben Sie"), kind["texts"])
    check("the office says how many get which", kind["gets"] == {"en": 10, "de": 2}, kind["gets"])
    text = {"language": "de", "subject": "Für {name}", "body": "Guten Tag {name}, Zimmer: {room}.\n"}
    fields = page.form(place, {**text, "person": "T03"}, page=f"{place}/in/de")[1]
    check("a clerk writes another one", fields.get("location") == f"{place}/in/de/to/T03", fields)
    check("and the English one stays", kind_of(stand, "invitation")["texts"]["en"] == kind["texts"]["en"])
    shown = page.get(f"{place}/in/de/to/T03")[2]
    check("a message is shown in the language that is written", "Guten Tag Person T03, Zimmer: kein Zimmer." in shown, shown)
    shown = page.get(f"{place}/in/en/to/T03")[2]
    check("the page says if a person gets another one", "another language: Deutsch" in " ".join(shown.split()), shown)
    shown = page.get(f"{place}/send")[2]
    said = ("10 people get the text in English: “Räume für {name}”.", "2 people get the text in Deutsch: “Für {name}”.")
    check("and the question how many get which", all(one in shown for one in said), shown)
    old = page.hidden(f"{place}/send", f"{place}/send")
    stand.ask(ask="mail-text", kind="invitation", language="de", subject="Andere", body="x")
    page.post(f"{place}/send", old)
    check("a text that was changed since is not sent", stand.ask(ask="mail")["run"] is None
          and "Nothing was sent: look again" in page.get(place)[2])
    stand.ask(ask="set-languages", office="de")
    check("who has said nothing gets the office's language", kind_of(stand, "invitation")["gets"] == {"de": 12})
    stand.ask(ask="set-languages", office="en")


def try_two_clerks(stand, page):
    """Another clerk corrects what a file of addresses would change, after the first one has looked at it."""
    old, newer = mail_of("T08"), "t08.newer@college.example"
    def kept():
        return stand.ask(ask="mail-list")["addresses"]["T08"], stand.ask(ask="languages")["residents"].get("T08", "")

    for what, by_hand, wanted in (("mail-addresses", {"addresses": {"T08": newer}, "was": old}, (newer, "")),
                                  ("set-languages", {"languages": {"T08": "de"}, "was": ""}, (newer, "de"))):
        place, _ = send_file(page, b"person,email,language\nT08,t08.again@college.example,en\n")
        form = page.hidden(place, f"{FORM}/addresses/bring")
        check("another clerk corrects one", stand.ask(ask=what, who="bert", **by_hand).get("changed") == 1)
        page.post(f"{FORM}/addresses/bring", form)
        shown = " ".join(page.get(place)[2].split())
        check(f"{what}: what the other clerk entered stays, and the page says so", kept() == wanted
              and "Nothing came in: look again" in shown, (kept(), shown))
    page.form(f"{FORM}/addresses/bring", page=place)
    check("after another look it comes in", kept() == ("t08.again@college.example", "en"), kept())
    answer = stand.ask(ask="mail-addresses", addresses={"T07": old, "T08": old}, was=[mail_of("T07"), newer]).get("fault", "")
    check("the keeper compares each address, too", "changed after you looked" in answer, answer)
    stand.ask(ask="mail-addresses", addresses={"T08": old})
    stand.ask(ask="set-languages", languages={"T08": ""})


def try_language_list(stand, page):
    """Languages come in with a list of addresses."""
    try_two_clerks(stand, page)
    rows = f"T09,{mail_of('T09')},Deutsch\nT10,{mail_of('T10')},\nT11,,de\nT12,{mail_of('T12')},xx\nT08,,yy\n"
    place, shown = send_file(page, f"person,email,language\n{rows}".encode())
    said = ("0 people get an address, and 0 get another one", "2 people get another language", "There is no such language here")
    check("a column of languages is understood", all(one in " ".join(shown.split()) for one in said), shown)
    check("and each that is none is shown", all(f">{one}</code>" in shown for one in ("xx", "yy")), shown)
    page.form(f"{FORM}/addresses/bring", {"held": place.rpartition("/")[2]}, page=place)
    spoken = stand.ask(ask="languages")["residents"]
    check("and then they are in", (spoken.get("T09"), spoken.get("T11"), "T10" in spoken) == ("de", "de", False), spoken)
    exported = page.get(f"{FORM}/addresses.csv")[2]
    check("they are in the list that can be downloaded", f"T09,{mail_of('T09')},de\n" in exported, exported)


def try_results(stand, page, server):
    """Results and moves, each with its own sentence."""
    for line in ("room A-1", "room A-2", "room A-3", "home T02 A-1", "home T01 A-2"):
        stand.office(line)
    stand.office("open")
    for person, wishes in (("T01", ["A-3"]), ("T02", ["A-2"])):
        check(f"{person} hands in", hand_in(stand, key_of(person), wishes) == 200)
    stand.office("close")
    stand.ask(ask="draw", who="anna", seed="0" * 64)
    stand.office("run")
    check("results are not sent before they are published", kind_of(stand, "results")["to"] == [])
    stand.office("publish")
    server.forget()
    press(page, "results")
    rest(stand)
    got = {recipients[0]: message.get_content() for _, _, recipients, message in server.got}
    for person, said in (("T01", "Your new room is A-3."), ("T02", "Ihr neues Zimmer ist A-2."),
                         ("T04", "You get no room in this round.")):
        check(f"{person} reads: {said}", said in got[mail_of(person)], got)
    server.forget()
    press(page, "moves")
    rest(stand)
    got = {recipients[0]: message.get_content() for _, _, recipients, message in server.got}
    for person, said in (("T01", "You move from A-2 to A-3, as one of the first."),
                         ("T02", "Sie ziehen von A-1 nach A-2 um, in Welle 2: sobald die Personen aus Welle 1 umgezogen sind.")):
        check(f"{person}, who moves, reads when", said in got[mail_of(person)] and len(got) == 2, got)
    once_more(page, "results")
    right = dict(stand.ask(ask="view")["results"])
    swap(stand, {**right, "T01": None})
    fields = page.get(f"{FORM}/results/send")[1]
    check("results that the audit does not find are not sent", fields.get("location") == "/office/results", fields)
    swap(stand, right)
    stand.until_listening(stand.server_port)
    stand.office("settle")


def try_office_mail(program):
    """All of it."""
    with MailServer() as server, Stand(program) as stand:
        stand.start()
        stand.start_page()
        stand.start_proxy()
        page = Page(stand)
        bring_in(page, "people", "people-0", ["person", "name", "key", "home"],
                 [[one, f"Person {one}", key_of(one), ""] for one in PEOPLE[8:]])
        page.form("/office/person", {"ident": "T01", "name": "Person T01"}, page="/office/register")
        try_off(stand, page)
        stand.office("remove T01")
        try_settings(stand, server)
        try_people_list(stand, page)
        try_address_list(stand, page)
        try_two_languages(page)
        try_one_address(stand, page)
        page.form("/office/step/open", page="/office/step/open")
        try_texts(stand, page)
        try_languages(stand, page)
        try_language_list(stand, page)
        stand.office("cancel")
        try_results(stand, page, server)
        check("no address, name or key is in a log or in the journal", not logs_of(stand), logs_of(stand))


if __name__ == "__main__":
    if len(sys.argv) != 2 or not Path(sys.argv[1]).exists():
        sys.exit("usage: /usr/bin/python3 deploy/trial/office_mail.py PROGRAM")
    try_office_mail(sys.argv[1])
