"""Messages to residents on bad days: /usr/bin/python3 deploy/trial/mail_runs.py PROGRAM.

Each person gets one message, whatever happens: the mail server is away, full, slow, refuses people, or breaks off, and the keeper
is killed. Nothing is lost, and what is uncertain is named.
"""

import contextlib
import re
import shutil
import sys
import tempfile
import time
from pathlib import Path

# The repository stays as it is.
sys.dont_write_bytecode = True

# pylint: disable=wrong-import-position,wrong-import-order  # nothing may be written before
from mail_server import MailServer
from office_forms import seen_at
from office_mail import FORM, NAME, PEOPLE, SENDER, kind_of, logs_of, mail_of, once_more, press, rest, settle_mail, write_settings
from office_requests import Page, hand_in
from stand import HOST, OFFICE, Stand, check, key_of, until

sys.path.append(str(OFFICE))

from mail_book import Book


def try_invitation(stand, page, server):
    """Everybody with an address gets one message, and nobody gets another one."""
    place = f"{FORM}/invitation/send"
    shown = page.get(place)[2]
    said = ("Send invitation to 12 people?", "cannot be taken back", "1 person has no mail address")
    check("the question says to how many", all(one in shown for one in said), shown)
    old = page.hidden(place, place)
    check("and nothing is sent before the yes", not server.got)
    press(page, "invitation")
    run = rest(stand)
    check("all get it", run["state"] == "ended" and server.went() == [mail_of(one) for one in PEOPLE], (run, server.went()))
    look_at_messages(server)
    page.post(place, old)
    rest(stand)
    shown = page.get(f"{FORM}/invitation")[2]
    check("a second press sends nothing", len(server.got) == 12 and "Nothing was sent" in shown, shown)
    check("nor does its question come again", "Nobody is left" in page.get(page.get(place)[1]["location"])[2])
    for one in ("T13", "T14"):
        page.form("/office/person", {"ident": one, "name": f"Person {one}"}, page="/office/register")
    stand.ask(ask="mail-addresses", addresses={"T13": mail_of("T13")})
    server.forget()
    press(page, "invitation")
    rest(stand)
    check("somebody new alone gets it later", server.went() == [mail_of("T13")], server.went())


def look_at_messages(server):
    """What a mail server has got."""
    for _, sender, recipients, message in server.got:
        check(f"a message has one recipient: {recipients}", len(recipients) == 1 and message.get_all("To") == recipients
              and not message.get("Cc") and not message.get("Bcc") and sender == "bounces@college.example")
    _, _, _, message = server.got[1]
    check("the sender and the way back are those of the settings", message["From"] == SENDER
          and message["Reply-To"] == "help@college.example" and message["Auto-Submitted"] == "auto-generated", message.items())
    check("subject and text arrive as they were shown", message["Subject"] == f"Räume für {NAME}"
          and message.get_content() == f"Dear {NAME} (T02), room none, round 1:\nhttps://{HOST}/\n\n.\nŽ\n", message.as_string())
    raw = message.as_bytes()
    check("on the way all is ASCII, in plain text", raw.isascii() and message.get_content_type() == "text/plain")
    check("and has no key", not re.search(rb"key0{5}|[a-z0-9]{32}", raw), raw)


def try_reminder(stand, page, server):
    """Who has no list gets a reminder; a list that comes meanwhile is noticed."""
    hand_in(stand, key_of("T01"), ["A-1"])
    settle_mail(stand, server, **{"per-minute": "30"})
    server.forget()
    press(page, "reminder")
    until(lambda: server.got, 20, "the first reminder")
    hand_in(stand, key_of("T12"), ["A-1"])
    shown = page.get(FORM)[2]
    check("a run under way is shown, and can be stopped", "is being sent" in shown and "Stop for now" in shown, shown)
    answer = stand.ask(ask="mail-again", kind="reminder", turn=1)
    check("nothing else goes on beside it", "being sent already" in answer.get("fault", ""), answer)
    page.form(f"{FORM}/run", {"act": "pause"}, page=FORM)
    count = len(server.got)
    time.sleep(3)
    check("a run that is stopped sends nothing", len(server.got) == count < len(PEOPLE) - 1, server.went())
    settle_mail(stand, server, **{"per-minute": "600"})
    page.form(f"{FORM}/run", {"act": "go-on"}, page=FORM)
    run = rest(stand)
    check("and goes on where it was", server.went() == [mail_of(one) for one in [*PEOPLE[1:11], "T13"]], (run, server.went()))
    times = [at for at, *_ in server.got[count:]]
    check("ten messages a second at most", times[-1] - times[0] >= 0.1 * (len(times) - 1) - 0.05, times)


def try_bad_days(stand, page, server):
    """The mail server is away, full, or refuses."""
    settle_mail(stand, server)
    once_more(page, "invitation")
    server.forget()
    server.stop()
    press(page, "invitation")
    run = rest(stand)
    state = (run["state"], run["waiting"], run["sent"])
    check("without a mail server the run stops, and all wait", state == ("paused", 13, 0), run)
    shown = page.get(FORM)[2]
    said = "The mail server takes no mail: it does not answer (Connection refused)" in shown and "Nothing is lost" in shown
    check("and the page says why", said, shown)
    check("its table says that they wait", "0 sent, 13 wait to be sent, 0 to send, 2 without an address" in shown, shown)
    shown = seen_at(page, f"{FORM}/invitation")
    check("and so does the page of the message", "Get it now 0 Wait to be sent 13 Without an address 2" in shown
          and "13 messages wait for the run that was stopped." in shown, shown)
    server.start()
    server.full = True
    page.form(f"{FORM}/run", {"act": "go-on"}, page=FORM)
    run = rest(stand)
    check("so it does if the server is full", run["state"] == "paused" and "452" in run["why"] and run["waiting"] == 13, run)
    server.full = False
    server.refused.add(mail_of("T03"))
    server.not_now.add(mail_of("T05"))
    page.form(f"{FORM}/run", {"act": "go-on"}, page=FORM)
    run = rest(stand)
    others = [mail_of(one) for one in [*PEOPLE, "T13"] if one not in ("T03", "T05")]
    check("then all get it but those who are refused", run["state"] == "ended" and server.went() == others, (run, server.went()))
    shown = " ".join(page.get(f"{FORM}/invitation")[2].split())
    check("who are named, with the server's words", "Refused by the mail server: 2" in shown and "550 5.1.1" in shown
          and "450 4.2.0" in shown and "/office/person/T03" in shown, shown)
    stand.ask(ask="mail-addresses", addresses={"T03": "new.t03@college.example"})
    server.not_now.clear()
    server.forget()
    press(page, "invitation")
    rest(stand)
    check("a further press goes to these two", server.went() == ["new.t03@college.example", mail_of("T05")], server.went())


def try_broken_settings(stand, page, server):
    """Somebody damages the settings while messages are sent. Once they are mended, the page says so."""
    once_more(page, "invitation")
    server.forget()
    settle_mail(stand, server, **{"per-minute": "30"})
    press(page, "invitation")
    write_settings(stand, "server\n")
    time.sleep(6)
    settle_mail(stand, server)
    run = rest(stand)
    check("the run stops", run["state"] == "paused" and "not written as it should be" in run["why"], run)
    shown = " ".join(page.get(FORM)[2].split())
    check("and the page says why, in sentences", "Tell the administrator. Nothing is lost: what waits" in shown, shown)
    page.form(f"{FORM}/run", {"act": "go-on"}, page=FORM)
    check("then it goes on", rest(stand)["state"] == "ended")


def try_words_of_server(stand, page, server):
    """What the mail server says may have an address, which goes with its person."""
    once_more(page, "invitation")
    server.forget()
    server.leaving = {mail_of("T01")}
    press(page, "invitation")
    run, shown = rest(stand), page.get(FORM)[2]
    check("the page says what the mail server answered", run["state"] == "paused" and mail_of("T01") in run["why"]
          and "421 4.3.2" in shown, run)
    with tempfile.TemporaryDirectory() as folder:
        book = Book(Path(shutil.copy(stand.data / "mail.db", folder)))
        check("this trial finds the answer", b"421 4.3.2" in book.path.read_bytes())
        book.erase(["T01"])
        data = book.path.read_bytes()
        check("but it stands with the message, and is erased with its person", mail_of("T01").encode() not in data
              and b"421 4.3.2" not in data, book.run())
    server.leaving = set()
    page.form(f"{FORM}/run", {"act": "go-on"}, page=FORM)
    check("and it goes on", rest(stand)["state"] == "ended" and mail_of("T01") in server.went(), server.went())


def try_all_refused(stand, page, server):
    """If one after the other is refused, that is no fault of addresses."""
    once_more(page, "invitation")
    server.forget()
    server.refused = {mail_of(one) for one in PEOPLE}
    press(page, "invitation")
    run = rest(stand)
    # T01 and T02 are refused, T03 has another address, and then come T04, T05 and T06.
    check("after three refusals in a row the run stops, and not before",
          (run["state"], run["refused"], run["sent"], run["waiting"]) == ("paused", 5, 1, 7), run)
    page.form(f"{FORM}/run", {"act": "give-up"}, page=FORM)
    run = rest(stand)
    check("what waits can be given up", (run["state"], run["waiting"]) == ("ended", 0) and "given up" in run["why"], run)
    server.refused = set()
    press(page, "invitation")
    rest(stand)
    check("and all of them get it later, once", sorted(server.went()) == sorted(
        "new.t03@college.example" if one == "T03" else mail_of(one) for one in [*PEOPLE, "T13"]), server.went())


def try_cut(stand, page, server):
    """The connection breaks after a message has gone."""
    for cut, kept in (("after", 1), ("before", 0)):
        once_more(page, "invitation")
        server.forget()
        server.cut = cut
        press(page, "invitation")
        run = rest(stand)
        check(f"cut {cut} the server has it, one message is uncertain", (run["state"], run["uncertain"], run["waiting"]) ==
              ("paused", 1, 12) and len(server.got) == kept, (run, server.went()))
        check("and the page names it", "T01 was sent" in page.get(FORM)[2])
        server.cut = ""
        page.form(f"{FORM}/run", {"act": "go-on"}, page=FORM)
        rest(stand)
        once = server.went().count(mail_of("T01")) == kept and len(server.got) == 12 + kept
        check("the others get it, and this one not again", once, server.went())
        press(page, "invitation")
        rest(stand)
        check("nor by a further press", len(server.got) == 12 + kept)
    once_more(page, "invitation", "uncertain")
    check("after the clerk's yes it counts as not sent", kind_of(stand, "invitation")["to"] == ["T01"])
    press(page, "invitation")
    rest(stand)
    check("and is sent", server.went().count(mail_of("T01")) == 1 and len(server.got) == 13, server.went())


def try_ended(stand, page, server):
    """The keeper is killed, or ended, while a message is on its way."""
    for end in (stand.kill_keeper, stand.stop_keeper):
        once_more(page, "invitation")
        server.forget()
        server.slow = 4
        press(page, "invitation")
        until(lambda: server.got, 20, "a message")
        commands = [one.read_bytes() for one in Path("/proc").glob("[0-9]*/cmdline") if exists(one)]
        check("no command line has an address", not [one for one in commands if b"@college.example" in one])
        end()
        server.slow = 0
        stand.start()
        run = stand.ask(ask="mail")["run"]
        check(f"after {end.__name__} the run waits for the clerk", run["state"] == "paused" and run["waiting"] == 12, run)
        uncertain = [one for one, *_ in kind_of(stand, "invitation")["uncertain"]]
        check("one message is uncertain, and named", uncertain == ["T01"], uncertain)
        page.form(f"{FORM}/run", {"act": "go-on"}, page=FORM)
        rest(stand)
        check("each of the others gets it once", len(server.got) == 13 == len(set(server.went())), server.went())


def try_other_texts(stand, page, server):
    """A run keeps to the texts with which it began, though they are written anew before it goes on after a restart."""
    stand.ask(ask="set-languages", languages={"T05": "de", "T06": "de"})
    once_more(page, "invitation")
    before = kind_of(stand, "invitation")["texts"]["de"][0]
    server.forget()
    server.slow = 4
    press(page, "invitation")
    until(lambda: server.got, 20, "a message")
    stand.kill_keeper()
    server.slow = 0
    stand.start()
    for language in ("en", "de"):
        stand.ask(ask="mail-text", kind="invitation", language=language, subject=f"Another one in {language}", body="x")
    stand.ask(ask="set-languages", languages={"T06": ""})
    page.form(f"{FORM}/run", {"act": "go-on"}, page=FORM)
    rest(stand)
    got = {recipients[0]: message["Subject"] for _, _, recipients, message in server.got}
    wanted = {"T04": "Räume für Person T04", "T05": before, "T06": "Räume für Person T06"}
    found = {one: got.get(mail_of(one)) for one in wanted}
    check("the others get the texts of before, each in the language of now", found == wanted, (found, wanted))


def exists(path):
    """Whether a process is still there."""
    with contextlib.suppress(OSError):
        return bool(path.read_bytes()) or True
    return False


def try_mail_runs(program):
    """All of it."""
    with MailServer() as server, Stand(program) as stand:
        stand.fill(["A-1"], [*PEOPLE, "T90"])
        settle_mail(stand, server)
        stand.start()
        stand.start_page()
        stand.start_proxy()
        page = Page(stand)
        stand.ask(ask="correct", person="T02", name=NAME)
        stand.ask(ask="mail-addresses", addresses={one: mail_of(one) for one in PEOPLE})
        stand.office("open")
        stand.ask(ask="mail-text", kind="invitation", language="en", subject="Räume für {name}",
                  body="Dear {name} ({person}), room {room}, round {round}:\n{link}\n\n.\nŽ\n")
        for part in (try_invitation, try_reminder, try_bad_days, try_broken_settings, try_words_of_server, try_all_refused,
                     try_cut, try_ended, try_other_texts):
            part(stand, page, server)
        check("no address, name or key is in a log or in the journal", not logs_of(stand), logs_of(stand))


if __name__ == "__main__":
    if len(sys.argv) != 2 or not Path(sys.argv[1]).exists():
        sys.exit("usage: /usr/bin/python3 deploy/trial/mail_runs.py PROGRAM")
    try_mail_runs(sys.argv[1])
