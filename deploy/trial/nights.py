"""What `rooms-backup` keeps, drops and takes along, and what `rooms-restore` does if it is ended, or runs twice.

It needs root and a machine without the units. This run alone, also over standin.py: /usr/bin/python3
deploy/trial/nights.py PROGRAM
"""

import datetime
import fcntl
import os
import shutil
import signal
import subprocess
import sys
from pathlib import Path

from moving import OWN, RUN, all_of, back_up, furnish, machine
from restoring import can_restore, restore
from stand import DEPLOY, PYTHON, check, until

CERTIFICATES = """global
    crt-base /etc/certificates
    # bind :1 ssl crt /etc/haproxy/no.pem
    bind :443 ssl crt /etc/haproxy/rooms.pem crt "/etc/haproxy/second.pem" strict-sni # crt /etc/haproxy/no.pem
    bind :444 ssl crt third.pem crt-list /etc/haproxy/list.txt crt '/srv/other/fourth.pem'
"""
LISTED = "# the second line of it has options\n/etc/haproxy/fifth.pem\nsixth.pem [alpn h2] rooms.example.org\n"
SAVED = ["haproxy/rooms.pem", "haproxy/second.pem", "certificates/third.pem", "haproxy/list.txt", "haproxy/fifth.pem",
         "certificates/sixth.pem"]


def clock_ahead(stand, folder):
    """Backups whose time is to come, as a clock that was ahead for a week leaves them, cost no backup of today."""
    names = [f"203601{day:02}T033000Z" for day in range(1, 8)]
    for name in names:
        (folder / OWN / name).mkdir(parents=True)
        (folder / OWN / name / "about.json").write_text("{}", encoding="utf-8")
    told = back_up(stand)
    made = Path(told[1].strip())
    check("the backup that it names is there", told[0] == 0 and (made / "rooms.db").is_file(), told)
    check("and so are those of a time to come", all((folder / OWN / name).is_dir() for name in names))
    for name in names:
        shutil.rmtree(folder / OWN / name)
    return made


def none_made(stand, made):
    """What is too old goes also in a night in which no backup can be made, unless the clock may be wrong."""
    yesterday = datetime.datetime.now(datetime.timezone.utc) - datetime.timedelta(days=1)
    old, before = made.with_name("20200101T033000Z"), made.with_name(f"{yesterday:%Y%m%dT%H%M%SZ}")
    shutil.copytree(made, old)
    stand.stop_keeper()
    told = back_up(stand)
    check("with one other alone nobody knows how old it is, and it stays", told[0] == 1 and old.is_dir(), told)
    shutil.copytree(made, before)
    told = back_up(stand)
    check("without the keeper none is made, and the old one goes", told[0] == 1 and not old.exists(), told)
    check("and the others stay", made.is_dir() and before.is_dir())
    stand.start()


def several_certificates(stand, folder):
    """Each certificate below /etc that HAProxy's file names is saved, and what is not is named."""
    proxy = folder / "etc/haproxy/haproxy.cfg"
    before = proxy.read_text(encoding="utf-8")
    proxy.write_text(CERTIFICATES, encoding="utf-8")
    (folder / "etc/certificates").mkdir()
    for name in ("haproxy/second", "haproxy/fifth", "haproxy/no", "certificates/third", "certificates/sixth"):
        (folder / f"etc/{name}.pem").write_text(f"{name}\n", encoding="utf-8")
    (folder / "etc/haproxy/list.txt").write_text(LISTED, encoding="utf-8")
    status, said, beside = back_up(stand)
    files = Path(said.strip()) / "files/etc"
    found = {str(one.relative_to(files)) for one in (*files.glob("haproxy/*"), *files.glob("certificates/*"))}
    check("each certificate is saved, also of a list", status == 0 and found == {*SAVED, "haproxy/haproxy.cfg"}, (found, beside))
    check("and one that is elsewhere is named", "lacks /srv/other/fourth.pem" in beside and beside.count("lacks") == 1, beside)
    proxy.write_text(before, encoding="utf-8")
    return Path(said.strip())


def ended(process, what):
    """Presses Ctrl-C, and gives what it said."""
    process.send_signal(signal.SIGINT)
    said, beside = process.stdout.read(), process.stderr.read()
    process.wait(60)
    check(f"Ctrl-C ends {what}, without a traceback", process.returncode == 130 and "Traceback" not in beside,
          (process.returncode, said, beside))
    return said, beside


def begun(words, stand):
    """Starts a command."""
    return subprocess.Popen(words, env={**stand.environment, "ROOMS_ACCOUNT": "root"}, text=True, stdout=subprocess.PIPE,
                            stderr=subprocess.PIPE)


def check_on(process, line):
    """Ends the trial where a command ends too early."""
    if not line and process.poll() is not None:
        check("it is still at work", False, process.stderr.read())


def interrupted(stand, folder, new, made):
    """Ctrl-C in the middle."""
    with begun(RUN, stand) as process:
        until(lambda: list((folder / OWN).glob(".part-*/state")) or process.poll() is not None, 30, "a backup that is made")
        ended(process, "rooms-backup")
    check("and nothing is left of the backup", not list((folder / OWN).glob(".part-*")))
    with begun([PYTHON, str(DEPLOY / "rooms-restore"), "--with", "all", str(made)], new) as process:
        while "in place: " not in (line := process.stdout.readline()) or "/portal/" not in line:
            check_on(process, line)
        said, beside = ended(process, "rooms-restore")
    check("which then says that not all is in place, and what is left to do", "give the same command again" in beside
          and "left to do by hand:" in said, (said, beside))
    told = restore(new, "--with", "all", made)
    check("the same command brings the rest", told[0] == 0 and (new.data / "journal").is_file(), told)


def twice(new, made):
    """While one rooms-restore is at work, another one changes nothing; nor does one without the office's folder."""
    before = all_of(new.data)
    held = os.open(new.data, os.O_RDONLY)
    fcntl.flock(held, fcntl.LOCK_EX)
    told = restore(new, made)
    os.close(held)
    check("a second rooms-restore is refused", told[0] == 1 and "another rooms-restore is at work" in told[2], told)
    check("and changes nothing", all_of(new.data) == before)
    new.data.rename(new.folder / "away")
    told = restore(new, made)
    check("without the office's folder it says how to make it", told[0] == 1 and "install -d -o root" in told[2], told)
    (new.folder / "away").rename(new.data)


def try_nights(program):
    """All of it."""
    if not can_restore():
        return
    with machine(program) as (stand, folder), machine(program) as (new, _):
        furnish(stand, folder)
        for number in range(200):
            (folder / f"etc/rooms/portal/{number}.txt").write_text("a further text\n", encoding="utf-8")
        stand.tell("room OLD")
        stand.start()
        made = clock_ahead(stand, folder)
        none_made(stand, made)
        made = Path(shutil.copytree(several_certificates(stand, folder), new.folder / "safe"))
        interrupted(stand, folder, new, made)
        twice(new, made)


if __name__ == "__main__":
    if len(sys.argv) != 2:
        sys.exit("usage: /usr/bin/python3 deploy/trial/nights.py PROGRAM")
    try_nights(sys.argv[1])
