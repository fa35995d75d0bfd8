"""Mail of people who go: /usr/bin/python3 deploy/trial/mail_gone.py PROGRAM.

Who is removed or forgotten is gone from the mail, and so is who is in the register no more after a way back. If the file of the
mail is damaged, the office goes on.
"""

import re
import sys
from pathlib import Path

# The repository stays as it is.
sys.dont_write_bytecode = True

# pylint: disable=wrong-import-position  # nothing may be written before
from mail_server import MailServer
from office_forms import flat
from office_mail import FORM, PEOPLE, holds, logs_of, mail_of, press, rest, settle_mail
from office_requests import Page
from office_sheets import bring_in
from stand import Stand, check, key_of

NOTHING = {"address": "", "sent": [], "fault": ""}


def try_removal_question(stand, page):
    """The question before a person is removed names what goes that no copy has, if the person has it."""
    place, said = "/office/person/T04/remove", "and no copy has it: the mail address, which messages were sent to the person."
    shown = page.get(place)[2]
    check("the question before a removal names address and messages, and nothing else", said in shown, shown)
    stand.ask(ask="set-languages", languages={"T04": "de"})
    stand.ask(ask="set-accounts", rule="list", list="person,account\nT04,tea\n")
    said = said.replace(".", ", the language of slips, letters and mails, the account of the college.")
    shown = page.get(place)[2]
    check("and language and account, once there are some", said in shown, shown)
    shown = page.get("/office/forget/T04")[2]
    check("so does the question before a person is forgotten", said in shown, shown)
    stand.ask(ask="mail-addresses", addresses={"T11": ""})
    shown = page.get("/office/person/T11/remove")[2]
    check("of somebody who has no address it names none", "no copy has it" in shown and "the mail address" not in shown, shown)
    shown = " ".join(page.form("/office/many", {"act": "remove", "text": "T06 T07"}, page="/office/many")[2].split())
    check("and the question about many says what goes", "messages were sent, languages and accounts" in shown, shown)
    kept = (stand.data / "accounts").read_bytes()
    (stand.data / "accounts").write_bytes(b"none")
    shown = page.get(place)[2]
    check("a file that is damaged keeps nobody from asking", said in shown and "Yes: remove this person" in shown, shown)
    shown, told = page.get("/office/about/T04")[2], stand.command("about", "T04")
    check("nor from reading the rest", "an account of the college is not known: the file" in shown and mail_of("T04") in shown
          and "\nlanguage de\n" in told[1] and "is damaged" in told[2], (shown, told))
    (stand.data / "accounts").write_bytes(kept)


def try_gone(stand, page):
    """Who is removed or forgotten is gone from the mail."""
    shown = page.get("/office/about/T04")[2]
    there = mail_of("T04") in shown and "results of round 1, sent" in shown
    check("all about one person has the address, and what was sent", there, shown)
    said = stand.command("about", "T04")[1]
    check("and so has the clerk's command", f"mail address {mail_of('T04')}" in said and "results of round 1, sent" in said, said)
    try_removal_question(stand, page)
    numbers = {name: stand.ask(ask="mail")["run"][name] for name in ("sent", "waiting", "refused", "uncertain")}
    stand.office("remove T04")
    check("a person who is removed has no address", not holds(stand, "mail.db*", mail_of("T04"))
          and stand.ask(ask="about", person="T04")["mail"] == NOTHING)
    check("this trial finds the next one", holds(stand, "mail.db", mail_of("T05")) and holds(stand, "mail.db", "T05"))
    shown = page.get("/office/forget/T05")[2]
    check("the question says that the address goes", "and no copy has it: the mail address, " in shown, shown)
    page.form("/office/forget/T05", page="/office/forget/T05")
    check("a person who is forgotten is gone from the mail", not holds(stand, "mail.db*", mail_of("T05"))
          and stand.ask(ask="about", person="T05")["mail"] == NOTHING)
    shown = page.form("/office/many", {"act": "remove", "text": "T06 T07"}, page="/office/many")[2]
    page.post("/office/many/do", dict(re.findall(r'type="hidden" name="(token|seen|held)" value="([^"]*)"', shown)))
    check("so are many", not holds(stand, "mail.db*", mail_of("T06")) and not holds(stand, "mail.db*", mail_of("T07")))
    run = stand.ask(ask="mail")["run"]
    check("the numbers of the run stay what they were", numbers["sent"] == len(PEOPLE) and {name: run[name] for name in numbers}
          == numbers, (numbers, run))
    shown = flat(page.get(f"{FORM}/results")[2])
    check("and the page says whose names it has no more", "Have got it: 12 T01 Person T01, " in shown
          and "4 people who are out of the register since: their names are erased" in shown, shown)
    shown = flat(page.get(FORM)[2])
    check("as the run does", "Handed to the mail server 12 Wait 0 " in shown, shown)
    copy = stand.ask(ask="backup")["name"]
    check("no copy of the office has an address", not holds(stand, f"backups/{copy}/*", "@college.example"))


def try_strangers(stand, page):
    """After a way back, addresses may be of people who are not in the register."""
    copy = stand.ask(ask="backup")["name"]
    page.form("/office/person", {"ident": "T80", "name": "Late Comer"}, page="/office/register")
    stand.ask(ask="mail-addresses", addresses={"T80": mail_of("T80")})
    stand.ask(ask="set-accounts", rule="list", list="person,account\nT80,late-account\n")
    stand.ask(ask="back", name=copy)
    shown = page.get(FORM)[2]
    check("the page names them", "not in the register: T80" in " ".join(shown.split()), shown)
    page.form(f"{FORM}/strangers", page=FORM)
    check("not without a tick", stand.ask(ask="mail")["strangers"] == ["T80"])
    page.form(f"{FORM}/strangers", {"sure": "yes"}, page=FORM)
    check("and erases them", not holds(stand, "mail.db*", mail_of("T80")) and stand.ask(ask="mail")["strangers"] == [])
    shown = page.get("/office/about/T80")[2]
    check("all about somebody who is not in the register has the account", "late-account" in shown, shown)
    check("and offers to forget them", "/office/forget/T80" in shown, shown)
    page.form("/office/forget/T80", page="/office/forget/T80")
    shown = page.get("/office/about/T80")[2]
    check("then nothing is left", "late-account" not in shown and "/office/forget/T80" not in shown, shown)


def try_damaged(stand, page):
    """The file of the mail is damaged: the office goes on."""
    stand.ask(ask="set-accounts", rule="list", list="person,account\nT11,tim\n")
    stand.stop_keeper()
    (stand.data / "mail.db").write_bytes(b"this is no database" * 500)
    stand.start()
    check("a damaged file of the mail is named", "is damaged" in page.get(FORM)[2])
    check("the office goes on", page.get("/office/")[0] == 200 and "ok" in stand.office("room A-9"))
    check("its steps can be asked for", "mails wait to be sent is not known" in page.get("/office/step/open")[2])
    check("and so do the pages of people", page.get("/office/person/T11")[0] == 200
          and "is damaged" in page.get("/office/about/T11")[2])
    told = stand.command("do", "remove", "T11")
    left = "were not erased of T11: the file of the mail, "
    check("who removes a person reads that this is done, and that the address is not erased", told[:2] == (0, "ok\n")
          and left in told[2] and "The keeper tries it again when it starts." in told[2], told)
    check("and the person is out of the register", "T11" not in {row[0] for row in stand.ask(ask="view")["people"]})
    check("and has no account any more, which somebody else could get", stand.ask(ask="accounts")["count"] == 0)
    told = stand.command("lines", given="room A-8\nremove T12\n")
    check("of several lines each answer is there", told[:2] == (0, "ok\nok\n") and "were not erased of T12" in told[2], told)
    page.form("/office/forget/T13", page="/office/forget/T13")
    shown = flat(page.get("/office/about/T13")[2])
    check("who forgets a person reads on the page that this is done, and what is not erased", "T13 is forgotten" in shown
          and "were not erased of T13" in shown and "could not be done" not in shown, shown[:1500])
    shown = page.form("/office/many", {"act": "remove", "text": "T08 T09"}, page="/office/many")[2]
    page.post("/office/many/do", dict(re.findall(r'type="hidden" name="(token|seen|held)" value="([^"]*)"', shown)))
    shown = flat(page.get("/office/register")[2])
    check("and who removes many people", "Done for 2 people." in shown and "were not erased of 2 people" in shown, shown[:1500])
    stand.stop_keeper()
    (stand.data / "mail.db").unlink()
    stand.start()
    files = [one.name for one in stand.data.glob("rooms.db.*")]
    check("the next keeper does it", not files, files)
    try_later(stand, page)


def try_later(stand, page):
    """A list is in, and the languages of its people cannot be written. The clerk reads how they come in later."""
    header = ["person", "name", "key", "email", "language"]
    rows = [["N1", "Newcomer One", key_of("N1"), mail_of("N1"), "de"]]
    in_the_way = stand.data / "languages.part"
    in_the_way.mkdir()
    bring_in(page, "people", "people-mail", header, rows)
    shown = flat(page.get("/office/lists")[2])
    check("of new people whose language does not come in the clerk reads how it can come later", "The list is in" in shown
          and "Not all of the mail addresses and languages came in" in shown and "under another label" in shown, shown[:1500])
    in_the_way.rmdir()
    shown = bring_in(page, "people", "people-again", header, rows)
    place = re.search(r'href="(/office/mail/addresses/[0-9a-f]+)"', shown)
    shown = flat(page.get(place[1])[2]) if place else ""
    check("which is so", "1 person gets another language." in shown, shown[:1500])


def try_mail_gone(program):
    """All of it."""
    with MailServer() as server, Stand(program) as stand:
        stand.fill(["A-1", "A-2", "A-3"], PEOPLE)
        settle_mail(stand, server)
        stand.start()
        stand.start_page()
        stand.start_proxy()
        page = Page(stand)
        stand.ask(ask="mail-addresses", addresses={one: mail_of(one) for one in PEOPLE})
        for line in ("open", "close"):
            stand.office(line)
        stand.ask(ask="draw", who="anna", seed="0" * 64)
        for line in ("run", "publish"):
            stand.office(line)
        press(page, "results")
        rest(stand)
        stand.office("settle")
        try_gone(stand, page)
        try_strangers(stand, page)
        try_damaged(stand, page)
        check("no address, name or key is in a log or in the journal", not logs_of(stand), logs_of(stand))


if __name__ == "__main__":
    if len(sys.argv) != 2 or not Path(sys.argv[1]).exists():
        sys.exit("usage: /usr/bin/python3 deploy/trial/mail_gone.py PROGRAM")
    try_mail_gone(sys.argv[1])
