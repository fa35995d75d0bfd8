"""Messages and addresses without an office: /usr/bin/python3 deploy/trial/mail_parts.py.

Whatever a name or a text has in it, a message has one recipient, one subject, and the text as it was. What was sent is on
record for two rounds.
"""

import contextlib
import email
import email.policy
import errno
import shutil
import sqlite3
import sys
import tempfile
from pathlib import Path
from typing import Any
from unittest import mock

# The repository stays as it is.
sys.dont_write_bytecode = True

# pylint: disable=wrong-import-position,wrong-import-order  # nothing may be written before
from stand import OFFICE, check

sys.path.append(str(OFFICE))

import mail_why
from accounts import OFF, Accounts
from journal import Journal
from languages import speaking
from mail import Post
from mail_book import SENT, Book, Run
from mail_send import message_of
from mail_settings import MailSettings, settings_of
from mail_words import ALL, KINDS, Text, faults_of, filled, is_address, texts_of
from settings import Fault

SETTINGS = MailSettings(25, "Zimmerbüro <office@college.example>", "", "bounces@college.example", 60, 30)
TO = "t01@college.example"
NAMES = ["Ann Ash", "Zoë Žák", "a\r\nBcc: eve@evil.example", "a\nTo: eve@evil.example", "a\r\n\r\nText",
         "\u2028Cc: eve@evil.example",
         "eve@evil.example, <eve@evil.example>", "=?utf-8?q?a=0d=0aBcc:_eve@evil.example?=", "{link}", "\\1 \\g<0>", "\0", ". ",
         "名" * 20, "\u202eabc", "x" * 60, "From me"]
GOOD = ["a@b.cd", "ann.ash+rooms@mail.college.example", "a_b-c@x-y.example", "A'b@c.de", "0@1.example"]
BAD = ["", "a", "a@b", "@b.cd", "a@", "a@b..cd", "a@.cd", "a@-b.cd", ".a@b.cd", "a.@b.cd", "a..b@c.de", "a b@c.de", "a@b.cd ",
       "a@b.cd\n", "a@b@c.de", "a@b.cd,e@f.gh", "a@b.cd;e@f.gh", "<a@b.cd>", "Ann <a@b.cd>", "mailto:a@b.cd", "ä@b.cd", "a@ü.de",
       "=a@b.cd", "+a@b.cd", "-a@b.cd", "a@b.cd\r\nBcc: e@f.gh", "x" * 65 + "@b.cd", "a@" + "b." * 130 + "cd", "a@[127.0.0.1]",
       '"a b"@c.de']


# The tables of a version without languages, with a text and a run.
EARLIER = """
CREATE TABLE text(kind TEXT PRIMARY KEY, subject TEXT NOT NULL, body TEXT NOT NULL);
CREATE TABLE message(kind TEXT, round INTEGER, turn INTEGER, person TEXT, state TEXT NOT NULL, at TEXT NOT NULL, why TEXT NOT NULL,
  PRIMARY KEY(kind, round, turn, person));
CREATE TABLE run(one INTEGER PRIMARY KEY, kind TEXT NOT NULL, round INTEGER NOT NULL, turn INTEGER NOT NULL, subject TEXT NOT NULL,
  body TEXT NOT NULL, link TEXT NOT NULL, who TEXT NOT NULL, state TEXT NOT NULL, why TEXT NOT NULL, at TEXT NOT NULL);
INSERT INTO text VALUES ('reminder', 'Alt', 'Text von früher');
INSERT INTO run VALUES (1, 'reminder', 1, 1, 'Alt', 'Text von früher', 'https://x/', 'anna', 'paused', '', '2027');
INSERT INTO message VALUES ('reminder', 1, 1, 'T1', 'waiting', '2027', '');
"""


def try_messages():
    """Each name in the subject and in the text of a message."""
    for name in NAMES:
        text = filled(Text("For {name}", "Dear {name},\n.\nFrom the office\n"), {"name": name})
        raw = message_of(SETTINGS, TO, text)
        message: Any = email.message_from_bytes(raw, policy=email.policy.default)
        fields = sorted(field.lower() for field in message.keys())
        wanted = ["auto-submitted", "content-transfer-encoding", "content-type", "date", "from", "message-id", "mime-version",
                  "subject", "to"]
        check(f"with the name {name!r:.40} a message has its own fields alone", fields == wanted and message.get_all("To") == [TO],
              raw)
        plain = "".join(sign if sign.isprintable() else " " for sign in f"For {name}").replace("=?", "= ?")
        check("the subject is on one line", str(message["Subject"]).split() == plain.split(), message["Subject"])
        body = message.get_content().replace("\r\n", "\n")
        check("and the text is as it was", body == text.body.replace("\r\n", "\n"), body)
        check("in ASCII, with no line longer than mail allows", raw.isascii() and max(map(len, raw.split(b"\r\n"))) <= 998)


def try_addresses():
    """What is an address, and what is none."""
    for one in GOOD:
        check(f"{one} is an address", is_address(one))
    for one in BAD:
        check(f"{one!r:.40} is no address", not is_address(one))


def try_settings():
    """The sender has to be one address in a field of a message, too; and a folder that is closed to the keeper is no fault."""
    good = ("office@college.example", "Housing office <office@college.example>", "Zimmerbüro <office@college.example>",
            '"Haus: Nord" <office@college.example>', "<office@college.example>")
    for one in good:
        check(f"{one} is a sender", settings_of({"from": one}).bounces_to == "office@college.example")
    for one in ("Wohnheim: <office@college.example>", "Wohnheim: office@college.example;",
                "a <office@college.example> b <x@y.example>"):
        try:
            found = str(settings_of({"from": one}))
        except Fault as fault:
            found = str(fault)
        check(f"{one} is none", found == "from is no address", found)
    post = Post.__new__(Post)
    post.path = mock.Mock()
    post.path.exists.side_effect = PermissionError
    check("an office whose settings are in a folder that is closed to the keeper has no mail, and goes on", post.is_on() is False)


def try_texts():
    """The texts that the page proposes have no fault, and others have."""
    for name, kind in KINDS.items():
        check(f"the text of {name} has no fault", not faults_of(name, kind.text))
    for text, said in ((Text("a", "{result}"), "{result}"), (Text("{}", "b"), "{}"), (Text("a", "{ name }"), "{name}"),
                       (Text("a", "{name"), "stands alone"), (Text("a}", "b"), "stands alone"),
                       (Text(" ", "b"), "a subject and a text"), (Text("a", "b" * 4001), "at most"),
                       (Text("a\nb", "c"), "line break"), (Text("a", "b\x07"), "cannot be shown")):
        found = faults_of("reminder", text)
        check(f"a text is refused: {said}", len(found) == 1 and said in found[0], found)


def try_record():
    """How long the file of the mail keeps what was sent, and what it makes of a message that was begun."""
    with tempfile.TemporaryDirectory() as folder:
        book = Book(Path(folder) / "mail.db")
        check("a file that is not there has nothing, and stays away", not book.addresses() and not book.end_begun()
              and not book.path.exists())
        for number in (1, 2, 3):
            book.start(Run("reminder", number, 1, "a", "b", "https://x/", "anna", "running", "", "2027"), {}, ["T1", "T2"])
            book.mark("T1", SENT)
            book.begin_message("T2", {"T1": ["A-1", None], "T2": ["A-2", "A-1"]})
            rounds = [row[1] for row in book.has("T1")["sent"]]
            wanted = [1, 2, 3][max(0, number - 2):number]
            check(f"in round {number} the file has this round and the one before", rounds == wanted, rounds)
        check("what was begun and has no outcome is uncertain", book.end_begun() == []
              and {state for _, _, state, _ in book.has("T2")["sent"]} == {"uncertain"}, book.has("T2"))
        told = {number: book.told("reminder", number, 1) for number in (1, 2, 3)}
        check("what a message told is kept as a mark, as long as the message",
              [list(one) for one in told.values()] == [[], ["T2"], ["T2"]] and b"A-2" not in book.path.read_bytes(), told)
        same, other = book.marks_of({"T2": ["A-2", "A-1"]}), book.marks_of({"T2": ["A-1", "A-1"]})
        check("which is another one for another message", same == told[3] != other, (told, same, other))
        book.set_addresses({"T1": TO, "T2": TO})
        book.erase(["T2"])
        check("who is erased has nothing, and nobody else is", book.has("T2") == {"address": "", "sent": []}
              and not book.told("reminder", 3, 1) and len(book.has("T1")["sent"]) == 2 and book.addresses() == {"T1": TO})


def try_earlier():
    """A file that an earlier version wrote: one text of a kind for everybody, and a run that was begun with one."""
    with tempfile.TemporaryDirectory() as folder:
        book = Book(Path(folder) / "mail.db")
        with contextlib.closing(sqlite3.connect(book.path)) as database:
            database.executescript(EARLIER)
        texts = texts_of("reminder", book.texts("reminder"), "en")
        check("one text of before counts in each language", set(texts.each.values()) == {Text("Alt", "Text von früher")}
              and texts.own == {ALL} and {"en", "de"} <= set(texts.each), texts)
        other = texts_of("invitation", book.texts("invitation"), "de")
        check("another kind has the texts of the program", other.each["de"] != other.each["en"] and not other.own, other)
        book.set_text("reminder", "de", Text("Neu", "n"))
        texts = texts_of("reminder", book.texts("reminder"), "en")
        subjects = (texts.each["de"].subject, texts.each["en"].subject)
        check("until a clerk writes one in a language", subjects == ("Neu", "Alt"), texts)
        check("a language without a text has that of the office", {texts.language_for("xx"), texts.language_for("")} == {"en"})
        run = book.run()
        check("a run that was begun before has its one text", run and run.text == Text("Alt", "Text von früher")
              and book.run_texts() == {} and book.waiting() == "T1")


def try_why():
    """What the file keeps in English is read in the language that is spoken, also what is within it."""
    for kept, english, german in (
            (mail_why.kept(mail_why.RESTARTED), "the keeper was started again", "Der Dienst wurde neu gestartet"),
            (mail_why.kept(mail_why.AWAY, why="it answers 452 full"), "the mail server takes no mail: it answers 452 full",
             "Der Mailserver nimmt keine Mails an: er antwortet 452 full")):
        check(f"the file keeps: {english}", kept == english and mail_why.said(kept) == english)
        with speaking("de"):
            check(f"and a clerk reads: {german}", mail_why.said(kept) == german, mail_why.said(kept))
            check("a server's own words stay as they are", mail_why.said("550 no such mailbox") == "550 no such mailbox")


def try_unwritten():
    """What could not be written is named in the language that is spoken."""
    with tempfile.TemporaryDirectory() as folder, speaking("de"):
        try:
            Accounts(Path(folder) / "none" / "accounts").put(OFF, {})
            found = ""
        except Fault as fault:
            found = str(fault)
        check("a list of accounts that cannot be written is named in German",
              found.startswith("Die Liste der Konten ließ sich nicht schreiben"), found)


def try_full_disk():
    """An address is refused on a full disk, where the journal cannot have the answer either: it says what the keeper knows."""
    with tempfile.TemporaryDirectory() as folder:
        file, office, worker = Path(folder) / "journal", mock.Mock(), mock.Mock()
        journal = office.journal = Journal(file)
        office.settings.mail_book = Path(folder) / "mail.db"
        worker.view.rows.return_value = {"people": [("T1", "Ann Ash", None, 0)]}
        post = Post(office, worker)
        full = mock.patch("journal.os.fsync", side_effect=OSError(errno.ENOSPC, "No space left on device"))

        def refuse(_addresses):
            full.start()
            raise Fault("the disk is full")

        def last_answer(where):
            return str(list(where.entries())[-1].get("answer"))

        with mock.patch.object(post.book, "set_addresses", refuse), contextlib.suppress(Fault):
            post.set_addresses({"addresses": {"T1": TO}, "who": "anna"})
        check("while the disk is full the journal has the answer", last_answer(journal) == "fault: the disk is full",
              list(journal.entries()))
        check("which is not on the disk", last_answer(Journal(file)) == "None", file.read_text())
        journal.write_late()
        check("nor if the keeper is stopped then", last_answer(Journal(file)) == "None", file.read_text())
        full.stop()
        killed = Path(shutil.copy(file, Path(folder) / "killed"))
        journal.write_late()
        check("a keeper that is stopped once there is room writes it down",
              last_answer(Journal(file)) == "fault: the disk is full" and len(list(journal.entries())) == 2, file.read_text())
        again = Journal(killed)
        again.end_unfinished()
        check("after a kill the journal does not say that the keeper was ended at this change", last_answer(again) ==
              "not known: the keeper ended before it had noted the answer. Look whether the line took effect.")


def try_mail_parts():
    """All of it."""
    try_record()
    try_earlier()
    try_full_disk()
    try_why()
    try_unwritten()
    try_addresses()
    try_settings()
    try_texts()
    try_messages()


if __name__ == "__main__":
    try_mail_parts()
