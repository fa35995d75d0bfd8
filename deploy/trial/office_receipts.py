"""Receipts of lists by mail: /usr/bin/python3 deploy/trial/office_receipts.py PROGRAM.

A person whose list on record has changed gets one message, once, whatever happens in between: several changes in a row, a mail
server that is away or refuses, a keeper that is killed, the end of the round, and the way back to a copy.
"""

import contextlib
import re
import sqlite3
import sys
import time
from pathlib import Path

# The repository stays as it is.
sys.dont_write_bytecode = True

# pylint: disable=wrong-import-position  # nothing may be written before
from mail_server import MailServer
from office_forms import flat
from office_mail import FORM, holds, kind_of, logs_of, mail_of, settle_mail
from office_requests import Page, hand_in
from stand import Stand, check, key_of, until

PEOPLE = [f"T{number:02}" for number in range(1, 13)]
ROOMS = [f"A-{number}" for number in range(1, 7)]
RECEIPTS = f"{FORM}/receipt"
SECONDS = 3  # after which a receipt is sent here
LONG = SECONDS + 3
NOBODYS = PEOPLE[-1]  # who has no address
NO_ROOM = "There is no room on your list in round {number}, as of about {{time}}: the list is empty, or there is none."


def state(stand):
    """How it stands with receipts."""
    return kind_of(stand, "receipt")


def texts_of(server, person):
    """What a person got."""
    return [message.get_content() for _, _, recipients, message in server.got if recipients == [mail_of(person)]]


def quiet(server, what, count=0):
    """Waits for so long that a receipt would have come."""
    time.sleep(LONG)
    check(what, len(server.got) == count, server.went())


def said(what):
    """A sentence of a receipt, whose time is that of now, or of a minute ago."""
    moments = [time.strftime("%Y-%m-%d %H:%M %Z", time.localtime(time.time() - ago)) for ago in (0, 60)]
    return [what.format(time=moment) for moment in moments]


def says(texts, sentences):
    """Whether there is one text, and it has one of these sentences."""
    return len(texts) == 1 and any(one in texts[0] for one in sentences)


def try_off(stand, page, server):
    """Without the office's yes there is no receipt."""
    hand_in(stand, key_of("T01"), ["A-1"])
    quiet(server, "by itself the office sends no receipt")
    shown = " ".join(page.get(f"{RECEIPTS}/begin")[2].split())
    parts = ("Send receipts of lists?", "10 people get the text in English: “Room exchange: what is on record of you”.",
             "1 person gets the text in Deutsch", "1 person has no mail address", "It names no room",
             "or they have withdrawn", "or whose withdrawal no longer counts")
    check("the question says who gets which text", all(one in shown for one in parts), shown)
    old = page.hidden(f"{RECEIPTS}/begin", f"{RECEIPTS}/begin")
    stand.ask(ask="mail-text", kind="receipt", language="en", subject="What we have", body="Dear {name},\n{list}\n{link}\n")
    page.post(f"{RECEIPTS}/begin", old)
    check("a text that was changed since is looked at again", state(stand)["on"] is False and not server.got)
    page.form(f"{RECEIPTS}/begin", page=f"{RECEIPTS}/begin")
    check("after the yes receipts are sent", state(stand)["on"] is True)
    answer = stand.ask(ask="mail-receipts", act="on", mark=state(stand)["mark"], link="https://x/")
    check("a second yes begins nothing anew", "already" in answer.get("fault", ""), answer)
    quiet(server, "a list that was there before brings none")


def try_changes(stand, page, server):
    """Each change of a list on record, by its owner or by the office, brings one receipt to who has an address."""
    for count in (1, 2, 3, 4, 5):
        check(f"T02 hands in {count} rooms", hand_in(stand, key_of("T02"), ROOMS[:count]) == 200)
        time.sleep(SECONDS / 10)
    hand_in(stand, key_of("T03"), ROOMS[:1])
    stand.office("choose T04 A-2 A-3")
    stand.office("withdraw T05")
    hand_in(stand, key_of("T12"), ROOMS[:2])
    until(lambda: len(server.got) >= 4, 60, "four receipts")
    quiet(server, "four people get a receipt, and nobody two, or one without an address", 4)
    english = said("A list of yours with 5 rooms has been on record in round 1 since about {time}.")
    check("five changes in a row make one receipt, of the last list", says(texts_of(server, "T02"), english), server.went())
    german = ["eine Wunschliste mit 1 Zimmer von Ihnen gespeichert"]
    check("a receipt is in the language of its resident", says(texts_of(server, "T03"), german), texts_of(server, "T03"))
    check("a list that the office puts on record is such a change",
          says(texts_of(server, "T04"), said("A list of yours with 2 rooms has been on record in round 1 since about {time}.")))
    check("and so is a withdrawal",
          says(texts_of(server, "T05"), said("You have withdrawn from round 1, since about {time}.")))
    check("no receipt names a room or has a key", not [text for person in PEOPLE for text in texts_of(server, person)
                                                       if re.search(r"A-\d|key0{5}", text)])
    check("the page counts them", len(state(stand)["sent"]) == 4 and state(stand)["waiting"] == [], state(stand))
    server.forget()
    hand_in(stand, key_of("T02"), ROOMS[:5])
    hand_in(stand, key_of("T04"), ["A-1"])
    hand_in(stand, key_of("T04"), ["A-2", "A-3"])
    quiet(server, "the same list again, and one that was changed back, bring none")
    hand_in(stand, key_of("T04"), [])
    until(lambda: server.got, 60, "a receipt of an empty list")
    check("an empty list after another one brings one", says(texts_of(server, "T04"), said(NO_ROOM.format(number=1))),
          server.went())
    shown = " ".join(page.get(f"{FORM}/reminder/in/en/to/T04")[2].split())
    check("and a reminder says the same", "there is no room on your list for round 1" in shown
          and "the list is empty, or there is none" in shown and "no list from you" not in shown, shown)


def try_bad_days(stand, page, server):
    """The mail server is away, or refuses."""
    server.forget()
    server.stop()
    for person in ("T06", "T07", NOBODYS):
        hand_in(stand, key_of(person), ROOMS[:1])
    until(lambda: state(stand)["why"], 60, "the stop of receipts")
    waiting = state(stand)["waiting"]
    check("without a mail server receipts stop, and those who wait are not lost", waiting == ["T06", "T07"], waiting)
    shown = flat(page.get(RECEIPTS)[2])
    check("who has no address does not wait, and is not counted", "Wait 2 Begun by" in shown, shown)
    shown = page.get(FORM)[2]
    check("the page of mail says why", "No receipts are sent: the mail server takes no mail: it does not answer" in shown, shown)
    server.start()
    quiet(server, "they do not go on by themselves")
    page.form(f"{RECEIPTS}/steer", {"act": "go-on"}, page=RECEIPTS)
    until(lambda: len(server.got) == 2, 60, "two receipts")
    check("and go on after the clerk's word, once for each", sorted(server.went()) == [mail_of("T06"), mail_of("T07")])
    server.forget()
    server.refused = {mail_of(one) for one in PEOPLE}
    for person in ("T06", "T07", "T08", "T09"):
        hand_in(stand, key_of(person), ROOMS[:3])
    until(lambda: state(stand)["why"], 60, "the stop of receipts")
    now = state(stand)
    check("after three refusals in a row they stop", len(now["refused"]) == 3 and len(now["waiting"]) == 1
          and "has refused 3 messages" in now["why"], now)
    server.refused = set()
    page.form(f"{RECEIPTS}/steer", {"act": "go-on"}, page=RECEIPTS)
    until(lambda: server.got, 60, "the last receipt")
    quiet(server, "then the one who waits gets it", 1)


def try_ended(stand, page, server):
    """The keeper is killed while a receipt waits, and while one is on its way."""
    server.forget()
    hand_in(stand, key_of("T10"), ROOMS[:4])
    time.sleep(1)
    stand.kill_keeper()
    stand.start()
    until(lambda: server.got, 60, "a receipt after a restart")
    quiet(server, "a receipt that waits is sent once after a restart, without a clerk", 1)
    server.forget()
    server.slow = 4
    hand_in(stand, key_of("T10"), ROOMS[:5])
    hand_in(stand, key_of("T11"), ROOMS[:5])
    until(lambda: server.got, 60, "a receipt that is on its way")
    stand.kill_keeper()
    server.slow = 0
    stand.start()
    quiet(server, "a receipt that was on its way is not sent again", 1)
    now = state(stand)
    check("it is uncertain, and receipts stop", len(now["uncertain"]) == 1 and len(now["waiting"]) == 1
          and "nobody knows whether the message to" in now["why"], now)
    page.form(f"{RECEIPTS}/steer", {"act": "go-on"}, page=RECEIPTS)
    until(lambda: len(server.got) == 2, 60, "the other receipt")
    quiet(server, "after the clerk's word the other one goes out", 2)
    check("each of the two got one", sorted(server.went()) == [mail_of("T10"), mail_of("T11")], server.went())
    person = now["uncertain"][0][0]
    try_uncertain_off(stand, page, now["uncertain"])
    page.form(f"{RECEIPTS}/uncertain", page=f"{RECEIPTS}/uncertain")
    until(lambda: len(server.got) == 3, 60, "the uncertain receipt once more")
    check("one that counts as not sent is sent again", server.went()[-1] == mail_of(person), server.went())


def try_uncertain_off(stand, page, uncertain):
    """Without receipts none is sent again, so the page offers it no more, and an old question changes nothing."""
    place = f"{RECEIPTS}/uncertain"
    asked = page.hidden(place, place)
    page.form(f"{RECEIPTS}/steer", {"act": "off"}, page=RECEIPTS)
    shown = flat(page.get(RECEIPTS)[2])
    check("without receipts the page does not offer to send one again", "Nobody knows whether these got it: 1" in shown
          and "Count them as not sent" not in shown and "none of these is sent again" in shown, shown)
    page.post(place, asked)
    shown = flat(page.get(RECEIPTS)[2])
    check("nor does a question of before say so", "none can be sent again" in shown and "They count as not sent" not in shown
          and state(stand)["uncertain"] == uncertain, (state(stand), shown))
    place = f"{RECEIPTS}/begin"
    page.form(place, page=place)


def try_rounds(stand, server):
    """The end of a round, the way back, and the next round."""
    copy = stand.ask(ask="backup")["name"]
    server.forget()
    hand_in(stand, key_of("T02"), ROOMS[:2])
    stand.office("close")
    until(lambda: server.got, 60, "a receipt after the close")
    quiet(server, "a list of the last moment has its receipt, though the round is closed", 1)
    server.forget()
    stand.ask(ask="back", name=copy)
    until(lambda: server.got, 60, "a receipt after the way back")
    quiet(server, "after a way back only those get one whose list is another one", 1)
    check("which is the list that counts now",
          says(texts_of(server, "T02"), said("A list of yours with 5 rooms has been on record in round 1 since about {time}.")))
    server.forget()
    hand_in(stand, key_of("T02"), ROOMS[:1])
    stand.office("cancel")
    quiet(server, "a round that is given up brings none")
    check("and nothing is left of its lists", entries(stand) == [])
    stand.office("open")
    hand_in(stand, key_of("T02"), ROOMS[:1])
    until(lambda: server.got, 60, "a receipt in the next round")
    check("the next round has its own",
          says(texts_of(server, "T02"), said("A list of yours with 1 room has been on record in round 2 since about {time}.")))


def try_withdrawn(stand, server):
    """The office goes back to a copy from before withdrawals. Who has read of theirs reads that it no longer counts."""
    hand_in(stand, key_of("T07"), ROOMS[:2])
    until(lambda: texts_of(server, "T07"), 60, "a receipt of a list")
    copy = stand.ask(ask="backup")["name"]
    server.forget()
    for person in ("T03", "T06", "T07"):
        stand.office(f"withdraw {person}")
    until(lambda: len(server.got) == 3, 60, "three receipts of withdrawals")
    server.forget()
    stand.ask(ask="back", name=copy)
    until(lambda: len(server.got) == 3, 60, "three receipts after the way back")
    again = "Your withdrawal no longer counts: you take part in round 2 again."
    check("who never had a list reads of none, and that the withdrawal no longer counts",
          says(texts_of(server, "T06"), said(f"{again} {NO_ROOM.format(number=2)}")), texts_of(server, "T06"))
    check("who has a list reads of that", says(texts_of(server, "T07"), said(
        f"{again} A list of yours with 2 rooms has been on record in round 2 since about {{time}}.")), texts_of(server, "T07"))
    german = ["Ihr Ausstieg gilt nicht mehr: Sie nehmen wieder an Runde 2 teil. Auf Ihrer Wunschliste in Runde 2 steht"]
    check("each in their language", says(texts_of(server, "T03"), german), texts_of(server, "T03"))
    stand.office("withdraw T06")
    until(lambda: len(server.got) == 4, 60, "a receipt of another withdrawal")
    check("and another withdrawal is one", "You have withdrawn from round 2" in texts_of(server, "T06")[-1], server.went())


def try_back_soon(stand, page, server):
    """The office goes back before receipts of the last changes are due: who made them reads what counts now."""
    hand_in(stand, key_of("T08"), ROOMS[:1])
    until(lambda: texts_of(server, "T08"), 60, "a receipt of a list")
    copy = stand.ask(ask="backup")["name"]
    server.forget()
    settle_mail(stand, server, **{"receipt-seconds": "60"})
    stand.office("withdraw T08")
    hand_in(stand, key_of("T09"), ROOMS[:2])
    stand.office("going T10")
    time.sleep(1)  # the keeper looks at the lists meanwhile
    check("somebody hands in another list just before", hand_in(stand, key_of("T11"), ROOMS[:1]) == 200)
    place = f"/office/copies/{copy}/back"
    page.form(place, page=place)
    shown = flat(page.get("/office/")[2])
    check("the page names whose withdrawal or note does not count", "or the note that they leave the college, is again as it was: "
          "T08, T10. Tell" in shown, shown)
    check("and whose list", "another list before, which does not count now: T09, T11. Tell" in shown, shown)
    check("none of them had a receipt", not server.got, server.went())
    settle_mail(stand, server, **{"receipt-seconds": str(SECONDS)})
    until(lambda: len(server.got) == 3, 60, "three receipts after the way back")
    quiet(server, "after a way back who changed something in the last moment gets a receipt, and nobody else", 3)
    again = "Your withdrawal no longer counts: you take part in round 2 again."
    check("who withdrew reads that it no longer counts", says(texts_of(server, "T08"), said(
        f"{again} A list of yours with 1 room has been on record in round 2 since about {{time}}.")), texts_of(server, "T08"))
    for person in ("T09", "T11"):
        check(f"and who handed in a list reads of none: {person}", says(texts_of(server, person), said(NO_ROOM.format(number=2))),
              texts_of(server, person))


def try_uncertain_elsewhere(stand, page, server):
    """Who may not have got a receipt is named once the next round is open, too."""
    server.forget()
    server.slow = 4
    hand_in(stand, key_of("T10"), ROOMS[:4])
    until(lambda: server.got, 60, "a receipt that is on its way")
    stand.kill_keeper()
    server.slow = 0
    stand.start()
    said_of = r"Nobody knows whether these got it: 1 T10 Person T10, .*Count them as not sent"
    shown = flat(page.get(RECEIPTS)[2])
    check("an uncertain receipt is named in its round", re.search(said_of, shown), shown)
    for line in ("cancel", "open"):
        stand.office(line)
    shown = flat(page.get(RECEIPTS)[2])
    check("and in the next one, where it is not sent again", "got theirs in another round: 1 T10 Person T10, " in shown
          and "none of these is sent again. Ask these people." in shown and "Count them as not sent" not in shown, shown)
    check("but does not count as one of that round", state(stand)["uncertain"] == [], state(stand))


def entries(stand):
    """What the file of the mail has of lists."""
    with contextlib.closing(sqlite3.connect(stand.data / "mail.db")) as database:
        return database.execute("SELECT * FROM receipt").fetchall()


def try_end(stand, page, server):
    """Who is removed is gone from receipts, and the office ends them."""
    server.forget()
    page.form(f"{RECEIPTS}/steer", {"act": "off"}, page=RECEIPTS)
    hand_in(stand, key_of("T03"), ROOMS[:2])
    quiet(server, "no more receipts are sent once the office has ended them")
    check("and nothing of lists is kept", entries(stand) == [] and state(stand)["on"] is False)
    stand.office("cancel")
    check("this trial finds who got a receipt", holds(stand, "mail.db", "T02"))
    stand.office("remove T02")
    check("who is removed is gone from receipts", not holds(stand, "mail.db*", "T02"))


def try_office_receipts(program):
    """All of it."""
    with MailServer() as server, Stand(program) as stand:
        stand.fill(ROOMS, PEOPLE)
        stand.fill_homes({"T10": "A-6"})
        settle_mail(stand, server, **{"receipt-seconds": str(SECONDS)})
        stand.start()
        stand.start_page()
        stand.start_proxy()
        page = Page(stand)
        stand.ask(ask="mail-addresses", addresses={one: mail_of(one) for one in PEOPLE[:-1]})
        stand.ask(ask="set-languages", languages={"T03": "de"})
        stand.office("open")
        try_off(stand, page, server)
        try_changes(stand, page, server)
        try_bad_days(stand, page, server)
        try_ended(stand, page, server)
        try_rounds(stand, server)
        try_withdrawn(stand, server)
        try_back_soon(stand, page, server)
        try_uncertain_elsewhere(stand, page, server)
        try_end(stand, page, server)
        check("no address, name or key is in a log or in the journal", not logs_of(stand), logs_of(stand))


if __name__ == "__main__":
    if len(sys.argv) != 2 or not Path(sys.argv[1]).exists():
        sys.exit("usage: /usr/bin/python3 deploy/trial/office_receipts.py PROGRAM")
    try_office_receipts(sys.argv[1])
