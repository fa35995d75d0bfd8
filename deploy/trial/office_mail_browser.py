"""Mail to residents in a clerk's browser: /usr/bin/python3 deploy/trial/office_mail_browser.py PROGRAM FOLDER.

A clerk brings addresses in, writes a text, looks at a message, sends, and reads what became of it, in headless Chromium
without scripts. The folder gets the photographs.
"""

import sys
from pathlib import Path

# The repository stays as it is.
sys.dont_write_bytecode = True

# pylint: disable=wrong-import-position  # nothing may be written before
from mail_server import MailServer
from office_browser import Clerk
from office_college import College
from office_mail import FORM, mail_of, rest, settle_mail
from stand import Stand, check, key_of, until

PEOPLE = [f"T{number:02}" for number in range(1, 25)]
LONG = "T05"


def bring_people_in(clerk, college):
    """Rooms, and people with their addresses in one list."""
    clerk.try_list("rooms", college.write("rooms.csv", ["room"], [[f"A-{number}"] for number in range(101, 113)]))
    clerk.press("Bring in the list")
    rows = [[one, f"Person {one}", key_of(one), f"A-{100 + number}" if number < 13 else "", mail_of(one)]
            for number, one in enumerate(PEOPLE, 1)]
    rows[4][4] = f"a.rather-long-name.of-a-resident-{LONG.lower()}@students.accommodation.college.example"
    rows[6][4], rows[9][4] = "t07 at college.example", ""
    clerk.try_list("people", college.write("people.csv", ["person", "name", "key", "home", "E-Mail"], rows))
    clerk.reads("22 mail addresses come in with the list.", "1 line with a fault")
    clerk.reads("mail address, kept beside the register")
    clerk.shot("40-mail-people")
    clerk.tick()
    clerk.press("Bring in the list")
    clerk.reads("22 mail addresses are new or changed.")


def bring_addresses_in(clerk, college):
    """A list of addresses alone, and one person's."""
    clerk.visit(FORM)
    clerk.reads("People with a mail address: 22 of 24.", "2 without an address")
    clerk.shot("41-mail")
    path = college.write("addresses.csv", ["person", "email"], [["T07", mail_of("T07")], ["T01", "new.t01@college.example"],
                                                                ["T99", "nobody@college.example"]])
    clerk.driver.find_element("name", "list").send_keys(str(path))
    clerk.press("Look at the list")
    clerk.reads("1 person gets an address, and 1 gets another one.", "Nobody has this identifier.")
    clerk.shot("42-mail-addresses")
    clerk.press("Bring the addresses in")
    clerk.reads("2 mail addresses are new or changed.")
    clerk.visit("/office/person/T10")
    clerk.put("email", mail_of("T10"))
    clerk.press("Set the mail address")
    clerk.reads("The mail address is changed.")
    clerk.shot("43-mail-person")


def write_a_text(clerk):
    """A text with a fault, and a good one."""
    clerk.visit("/office/step/open")
    clerk.press("Yes: open the next round")
    clerk.press("send them a reminder")
    clerk.put("body", "Dear {nmae}, you live in {room}.")
    clerk.press("Keep the text")
    clerk.reads("There is no placeholder {nmae}")
    clerk.shot("44-mail-fault")
    clerk.put("subject", "Deine Liste für den Zimmertausch fehlt")
    clerk.put("body", "Liebe(r) {name},\n\nin Runde {round} haben wir keine Liste von dir: {link}\n\nDein Zimmer: {room}.")
    clerk.put("person", LONG)
    clerk.press("Keep the text")
    clerk.reads("The text is kept. Nothing is sent yet.", f"Liebe(r) Person {LONG}", "Dein Zimmer: A-105.")
    clerk.shot("45-mail-message")


def send(clerk, stand, server):
    """The messages are sent; the server goes away; it comes back and refuses one."""
    settle_mail(stand, server, **{"per-minute": "120"})
    clerk.press("Send it to 24")
    clerk.reads("Send reminder to 24 people?", "Deine Liste für den Zimmertausch fehlt", "cannot be taken back")
    clerk.shot("46-mail-question")
    clerk.press("Yes: send the messages")
    clerk.reads("Reminder, round 1: is being sent")
    clerk.shot("47-mail-runs")
    until(lambda: len(server.got) > 3, 60, "some messages")
    server.stop()
    rest(stand, "paused")
    clerk.visit(FORM)
    clerk.reads("Reminder, round 1: stopped", "The mail server takes no mail", "Nothing is lost")
    clerk.shot("48-mail-stopped")
    server.refused.add(mail_of("T20"))
    settle_mail(stand, server)
    server.start()
    clerk.press("Go on")
    rest(stand, "ended")
    clerk.visit(FORM)
    clerk.reads("Reminder, round 1: over")
    check("each gets one message, but for the one that is refused", len(server.got) == len(set(server.went())) == 23, server.went())
    clerk.press("See to whom")
    clerk.reads("Refused by the mail server: 1", "no such mailbox", "The message to T20", "Liebe(r) Person T20")
    clerk.shot("49-mail-refused")
    clerk.visit("/office/about/T20")
    clerk.reads("reminder of round 1, refused")
    clerk.shot("50-mail-about")


def send_cut(clerk, stand, server):
    """The connection breaks: one message is uncertain."""
    server.cut = "after"
    clerk.visit(f"{FORM}/invitation")
    clerk.press("Send it to 24")
    clerk.press("Yes: send the messages")
    rest(stand, "paused")
    server.cut = ""
    clerk.visit(FORM)
    clerk.reads("Nobody knows whether the message to T01 was sent")
    clerk.press("Give up what waits")
    clerk.visit(f"{FORM}/invitation")
    clerk.reads("Nobody knows whether these got it: 1")
    clerk.shot("51-mail-uncertain")
    clerk.press("Count them as not sent")
    clerk.reads("these people may get the message twice")
    clerk.shot("52-mail-again")


def try_office_mail_browser(program, shots):
    """All of it."""
    with MailServer() as server, Stand(program) as stand:
        college = College(stand.folder)
        settle_mail(stand, server)
        stand.start()
        stand.start_page()
        stand.start_proxy()
        with Clerk(stand, "anna", shots) as clerk:
            bring_people_in(clerk, college)
            bring_addresses_in(clerk, college)
            write_a_text(clerk)
            send(clerk, stand, server)
            send_cut(clerk, stand, server)
            check("the browser found nothing wrong", not clerk.complaints(), clerk.complaints())
        with Clerk(stand, "bert", shots, text=32) as clerk:
            for page in ("mail", "mail/reminder", "mail/invitation/uncertain"):
                clerk.visit(f"/office/{page}")
                clerk.photograph(f"large-{page.replace('/', '-')}", 360)


def main(words):
    """Runs this trial alone."""
    if len(words) != 2:
        sys.exit("usage: /usr/bin/python3 deploy/trial/office_mail_browser.py PROGRAM FOLDER")
    shots = Path(words[1])
    shots.mkdir(parents=True, exist_ok=True)
    try_office_mail_browser(words[0], shots)


if __name__ == "__main__":
    main(sys.argv[1:])
