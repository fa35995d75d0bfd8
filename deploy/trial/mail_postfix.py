"""Messages through a real Postfix: /usr/bin/python3 deploy/trial/mail_postfix.py PROGRAM, as root, with Debian's package postfix.

A Postfix of the trial's own, on a port of this machine, with mailboxes in its own folder: a message arrives, an unknown recipient
is named, a report of what could not be delivered goes where the settings say, and nothing is sent twice though Postfix stops in
the middle. A Postfix that the machine has beside it is left alone.
"""

import email
import email.policy
import os
import shutil
import subprocess
import sys
import tempfile
from collections import Counter
from pathlib import Path

# The repository stays as it is.
sys.dont_write_bytecode = True

# pylint: disable=wrong-import-position  # nothing may be written before
from mail_server import MailServer
from office_mail import FORM, kind_of, mail_of, press, rest, settle_mail
from office_requests import Page, hand_in
from stand import HOST, Stand, check, fail, free_ports, key_of, until

PEOPLE = [f"T{number:02}" for number in range(1, 31)]
UNKNOWN, FAR = "T11", "T12"
MASTER = Path("/usr/share/postfix/master.cf.dist")
OWNER = 65534  # of the mailboxes
MAIN = """compatibility_level = 3.6
queue_directory = {folder}/queue
data_directory = {folder}/data
maillog_file = {folder}/log
maillog_file_prefixes = {folder}
inet_interfaces = 127.0.0.1
inet_protocols = ipv4
myhostname = mail.college.example
mydestination =
virtual_mailbox_domains = college.example
virtual_mailbox_base = {folder}/boxes
virtual_mailbox_maps = texthash:{folder}/boxes.map
virtual_uid_maps = static:{owner}
virtual_gid_maps = static:{owner}
relay_domains = far.example
transport_maps = inline:{{ far.example=smtp:[127.0.0.1]:{far} }}
"""


class Postfix:
    """The Postfix of the trial: `far` is the port of the mail server to which it hands mail for far.example."""

    def __init__(self, far):
        self.folder, self.port = Path(tempfile.mkdtemp(prefix="rooms-trial-postfix-")), free_ports(1)[0]
        self.config = self.folder / "config"
        self.folder.chmod(0o755)
        for name in ("config", "queue", "data", "boxes"):
            (self.folder / name).mkdir(mode=0o755)
        shutil.chown(self.folder / "data", "postfix")
        os.chown(self.folder / "boxes", OWNER, OWNER)
        boxes = {mail_of(one): one for one in PEOPLE if one not in (UNKNOWN, FAR)} | {"bounces@college.example": "bounces"}
        (self.folder / "boxes.map").write_text("".join(f"{one} {box}/\n" for one, box in boxes.items()), encoding="utf-8")
        (self.config / "main.cf").write_text(MAIN.format(folder=self.folder, owner=OWNER, far=far), encoding="utf-8")
        (self.config / "master.cf").write_text("".join(map(self.service, MASTER.read_text(encoding="utf-8").splitlines(True))),
                                               encoding="utf-8")

    def service(self, line):
        """A line of master.cf: SMTP is on the trial's port, and nothing runs in a chroot, which this folder is none."""
        words = line.split()
        if line[:1] in ("#", " ", "\t") or len(words) < 8:
            return line
        words[4] = "n"
        if words[:2] == ["smtp", "inet"]:
            words[0] = f"127.0.0.1:{self.port}"
        return " ".join(words) + "\n"

    def __enter__(self):
        self.tell("start")
        return self

    def __exit__(self, *_):
        subprocess.run(["postfix", "-c", str(self.config), "abort"], capture_output=True, check=False)
        shutil.rmtree(self.folder)

    def tell(self, word):
        """Starts it, or ends it."""
        done = subprocess.run(["postfix", "-c", str(self.config), word], capture_output=True, text=True, check=False)
        if done.returncode != 0:
            fail(f"postfix {word}: {done.stdout}{done.stderr}")

    def messages(self, box):
        """What is in a mailbox."""
        return [email.message_from_bytes(one.read_bytes(), policy=email.policy.default)
                for one in sorted((self.folder / "boxes" / box / "new").glob("*"))]

    def subjects(self):
        """How many messages of each subject each mailbox has."""
        return {one: Counter(str(message["Subject"]) for message in self.messages(one)) for one in PEOPLE}


def try_arrival(stand, page, postfix):
    """An invitation arrives; who is unknown is refused by name; what another mail server refuses comes back as a report."""
    press(page, "invitation")
    run = rest(stand)
    outcome = (run["state"], run["sent"], run["refused"])
    check("Postfix takes all but the one whom it does not know", outcome == ("ended", 29, 1), run)
    shown = " ".join(page.get(f"{FORM}/invitation")[2].split())
    said = f"/office/person/{UNKNOWN}" in shown and "550 5.1.1" in shown and "User unknown" in shown
    check("the page names that one, with Postfix's words", said, shown)
    until(lambda: all(postfix.messages(one) for one in PEOPLE if one not in (UNKNOWN, FAR)), 60, "the mailboxes")
    message = postfix.messages("T01")[0]
    check("an invitation is in its mailbox", f"https://{HOST}/" in message.get_content() and message["To"] == mail_of("T01")
          and message["From"] == "Wohnbüro <office@college.example>", message.as_string())
    check("with the sender for reports", message["Return-Path"] == "<bounces@college.example>", message.as_string())
    until(lambda: postfix.messages("bounces"), 60, "the report of a message that cannot be delivered")
    report = postfix.messages("bounces")[0].as_string()
    said = "t12@far.example" in report and "no such mailbox" in report
    check("the report names the address that another mail server refused", said, report)
    state = kind_of(stand, "invitation")
    check("the office does not see this report: it counts the message as sent", FAR in [one for one, *_ in state["sent"]], state)


def try_stop(stand, page, postfix):
    """Postfix stops in the middle of a run, three times."""
    settle_mail(stand, postfix, **{"per-minute": "600", "receipt-seconds": "2"})
    press(page, "reminder")
    for stops, (word, count) in enumerate((("stop", 5), ("abort", 12), ("stop", 20)), 1):
        until(lambda count=count: stand.ask(ask="mail")["run"]["sent"] >= count, 60, "some messages")
        postfix.tell(word)
        run = rest(stand)
        # The one message that was on its way may be uncertain.
        check(f"after postfix {word} the run stops", run["state"] == "paused" and run["uncertain"] <= stops, run)
        postfix.tell("start")
        page.form(f"{FORM}/run", {"act": "go-on"}, page=FORM)
    check("then it goes on to its end", rest(stand)["state"] == "ended")


def try_once(stand, postfix):
    """Each mailbox has each message once."""
    uncertain = [one for one, *_ in kind_of(stand, "reminder")["uncertain"]]
    boxes = [one for one in PEOPLE if one not in (UNKNOWN, FAR, *uncertain)]
    until(lambda: all(len(postfix.messages(one)) == 2 for one in boxes), 60, "the reminders")
    found = postfix.subjects()
    wrong = {one: each for one, each in found.items() if one in boxes and set(each.values()) != {1}}
    check("each mailbox has each message once", not wrong, wrong)
    check("and none has one twice", {count for each in found.values() for count in each.values()} == {1}, found)
    queue = subprocess.run(["postqueue", "-c", str(postfix.config), "-j"], capture_output=True, text=True, check=False).stdout
    check("and nothing is left in Postfix's queue", queue == "", queue)
    check("to send the reminder, nobody is left but the one who was refused", kind_of(stand, "reminder")["to"] == [UNKNOWN])


def try_receipt(stand, page, postfix):
    """A receipt of a list arrives once."""
    page.form(f"{FORM}/receipt/begin", page=f"{FORM}/receipt/begin")
    hand_in(stand, key_of("T02"), ["A-1"])
    until(lambda: len(postfix.messages("T02")) == 3, 60, "a receipt")
    check("a receipt is in its mailbox", "list of 1 room" in postfix.messages("T02")[-1].get_content()
          or any("list of 1 room" in one.get_content() for one in postfix.messages("T02")))


def try_mail_postfix(program):
    """All of it."""
    with MailServer() as far, Postfix(far.port) as postfix, Stand(program) as stand:
        far.refused = {"t12@far.example"}
        stand.fill(["A-1"], PEOPLE)
        settle_mail(stand, postfix, **{"receipt-seconds": "2"})
        stand.start()
        stand.start_page()
        stand.start_proxy()
        page = Page(stand)
        stand.ask(ask="mail-addresses", addresses={one: "t12@far.example" if one == FAR else mail_of(one) for one in PEOPLE})
        stand.office("open")
        try_arrival(stand, page, postfix)
        try_stop(stand, page, postfix)
        try_once(stand, postfix)
        try_receipt(stand, page, postfix)


if __name__ == "__main__":
    if len(sys.argv) != 2 or not Path(sys.argv[1]).exists():
        sys.exit("usage: /usr/bin/python3 deploy/trial/mail_postfix.py PROGRAM")
    if os.geteuid() != 0 or not shutil.which("postfix"):
        sys.exit("mail_postfix.py: to be run by root, with Debian's package postfix")
    try_mail_postfix(sys.argv[1])
