"""A backup of the machine by `rooms-backup`, and `rooms-restore` on a new machine: what is in it and who may read it, a
backup that is damaged or not whole, and what is there already.

It needs root and a machine without the units. This run alone, also over standin.py: /usr/bin/python3
deploy/trial/moving.py PROGRAM
"""

import base64
import contextlib
import json
import os
import shutil
import subprocess
import sys
import tempfile
from pathlib import Path

from restoring import can_restore, restore, rooms_of
from stand import DEPLOY, PYTHON, Stand, check

SEED = "5eed" * 16
FILES = {
    "etc/haproxy/haproxy.cfg": ("    user anna password $6$salt$hash\n    bind :443 ssl crt /etc/haproxy/rooms.pem\n", 0o600),
    "etc/rooms/portal/index.html": ("<p id=\"notice\">Until 31 May</p>\n", 0o644),
    "etc/rooms/portal/texts.js": ("export const texts = {};\n", 0o644),
    "etc/rooms/portal/rooms.csv": ("room,house\nOLD,North\n", 0o644),
    "etc/rooms/languages/fr.po": ('msgid ""\nmsgstr ""\n', 0o644),
    "etc/systemd/system/rooms-keeper.service.d/port.conf": ("[Service]\nEnvironment=ROOMS_PORT=291\n", 0o644),
    "etc/rsyslog.d/48-rooms.conf": ("stop\n", 0o644),
}
ASIDE = "etc/rooms/portal/texts.js.dpkg-dist"
PICTURE = "0123456789abcdef0123456789abcdef.jpg"
OWN = "var/backups/rooms"
OF_PEOPLE = ("accounts", "mail.db")
PAST = {"at": "2026-01-01T12:00:00+00:00", "local": "2026-01-01T12:00", "zone": "UTC", "round": 1, "closes": True, "who": "anna"}
BESIDE = {**{name: f"{name} of the backup\n" for name in OF_PEOPLE}, "until": json.dumps(PAST)}
RUN = [PYTHON, str(DEPLOY / "rooms-backup")]


@contextlib.contextmanager
def machine(program):
    """An office on a machine of its own: what is in its folder `machine` stands for `/`."""
    folder = Path(tempfile.mkdtemp(prefix="rooms-trial-machine-"))
    try:
        with Stand(program, ROOMS_MACHINE=str(folder)) as stand:
            yield stand, folder
    finally:
        shutil.rmtree(folder)


def furnish(stand, folder):
    """Writes the files of a machine, with a certificate, as an administrator has them."""
    stand.make_certificate()
    for name, (text, mode) in FILES.items():
        (folder / name).parent.mkdir(parents=True, exist_ok=True)
        (folder / name).write_text(text, encoding="utf-8")
        (folder / name).chmod(mode)
    (folder / "etc/haproxy/rooms.pem").write_bytes((stand.folder / "rooms.pem").read_bytes())
    (folder / "etc/haproxy/rooms.pem").chmod(0o600)
    (folder / ASIDE).write_text("what dpkg put aside\n", encoding="utf-8")


def back_up(stand, *words, **how):
    """Runs rooms-backup, and returns its status, its output, and its standard error."""
    done = subprocess.run([*RUN, *map(str, words)], env=stand.environment,
                          capture_output=True, text=True, check=False, **how)
    return done.returncode, done.stdout, done.stderr


def all_of(*folders):
    """Each file of folders, with its mode and bytes."""
    return {str(one): (one.lstat().st_mode, b"" if one.is_dir() or one.is_symlink() else one.read_bytes())
            for folder in folders for one in sorted(folder.rglob("*"))}


def made_backup(stand, folder):
    """Makes a backup while the keeper runs, and looks at what is in it."""
    secret = folder / "secret-of-root"
    secret.write_text("not the office's\n", encoding="utf-8")
    (stand.data / "link").symlink_to(secret)
    check("a seed is noted", stand.ask(ask="note", line=f"seed {SEED} 50 throws of a die") == {})
    stand.ask(ask="days", days=123)
    check("a clerk chooses a language", stand.ask(ask="language", who="anna", language="de") == {"language": "de"})
    tell_residents(stand)
    keep_beside(stand, BESIDE)
    told = back_up(stand)
    check("rooms-backup makes a backup while the keeper runs", told[0] == 0 and not told[2], told)
    made = Path(told[1].strip())
    check("in the machine's own folder", made.parent == folder / OWN, made)
    names = {str(one.relative_to(made)) for one in made.rglob("*") if one.is_file()}
    wanted = {"rooms.db", "why", "about.json", "SHA256SUMS", "state/journal", "state/languages", "state/backups/days",
              "files/etc/haproxy/rooms.pem", *(f"state/{name}" for name in BESIDE), "told/told.json.gz",
              *(f"told/{name}" for name in pictures_of(stand)),
              *(f"files/{name}" for name in FILES)}
    check("it has all that a new machine needs, and nothing else", names == wanted, names ^ wanted)
    modes = {oct(one.lstat().st_mode & 0o7777) for one in (made, *made.rglob("*")) if one.is_dir()}, {
        oct(one.lstat().st_mode & 0o7777) for one in made.rglob("*") if one.is_file()}
    check("root alone may read it", modes == ({"0o700"}, {"0o600"}), modes)
    sums = subprocess.run(["sha256sum", "--quiet", "-c", "SHA256SUMS"], cwd=made, capture_output=True, text=True, check=False)
    check("sha256sum takes its list", sums.returncode == 0, sums)
    check("the office is in it", rooms_of(made / "rooms.db") == {"OLD"})
    (stand.data / "link").unlink()
    return made


def tell_residents(stand):
    """What residents read of rooms: a text and a picture, and beside it what a keeper left that was killed."""
    stand.ask(ask="tell-words", notice={"en": "Lists until May"}, contact="room 1")
    picture = base64.b64encode(b"\xff\xd8\xff a picture").decode()
    added = stand.ask(ask="add-picture", room="OLD", body=picture, shows="the room")
    check("residents read a notice, and see a picture", added.get("file") in pictures_of(stand), added)
    (stand.folder / "told" / ".part").write_bytes(b"left")
    (stand.folder / "told" / PICTURE).symlink_to("/etc/passwd")


def keep_beside(stand, files):
    """What the keeper has of people beside the office's file, a date that is past, and what rooms-restore has put aside."""
    for name, text in {**files, "mail.db.before-20270101T000000Z": "aside\n"}.items():
        (stand.data / name).write_text(text, encoding="utf-8")


def pictures_of(stand):
    """The pictures that residents see."""
    return [one.name for one in (stand.folder / "told").glob("*.jpg") if not one.is_symlink()]


def by_another(stand, *words):
    """Runs a command while the office's folder is another account's, and for it alone."""
    paths = [stand.data, *stand.data.rglob("*")]
    stand.folder.chmod(0o755)
    for path in paths:
        os.chown(path, 65534, 65534)
    stand.data.chmod(0o700)
    done = subprocess.run(words, env=stand.environment, capture_output=True, text=True, check=False)
    for path in paths:
        os.chown(path, 0, 0)
    return done


def kept_copies(stand):
    """The names of the kept copies of the office."""
    return [name for name, *_ in stand.ask(ask="backups")["backups"]]


def nightly(stand, folder):
    """With --kept no copy is asked for; without the keeper that works, and nothing else does. Seven backups stay."""
    before = kept_copies(stand)
    told = back_up(stand, "--kept")
    about = json.loads((Path(told[1].strip()) / "about.json").read_text(encoding="utf-8"))
    check("with --kept it takes the newest copy", told[0] == 0 and about["copy"] == before[-1], (told, before))
    check("and asks for none", kept_copies(stand) == before)
    stand.stop_keeper()
    told = back_up(stand)
    check("without the keeper it makes no backup, and says why", told[0] == 1 and "keeper does not run" in told[2], told)
    # As its unit runs it: the office is another account's, and root has no right but that to read.
    told = by_another(stand, "setpriv", "--no-new-privs", "--bounding-set", "-all,+dac_read_search", *RUN, "--kept")
    check("with --kept root needs the right to read, and no keeper", told.returncode == 0 and not told.stderr, told)
    told = by_another(stand, "setpriv", "--no-new-privs", "--bounding-set", "-all", *RUN, "--kept")
    check("without this right it makes none", told.returncode == 1 and "rooms-backup: " in told.stderr, told)
    for _ in range(8):
        back_up(stand, "--kept")
    left = [one.name for one in (folder / OWN).iterdir()]
    check("seven backups stay", len(left) == 7 and not any(name.startswith(".") for name in left), left)
    (stand.data / "backups" / "days").write_text("0\n", encoding="ascii")
    told, left = back_up(stand, "--kept"), list((folder / OWN).iterdir())
    check("none but the new one stays for more days than a copy may", left == [Path(told[1].strip())], (told, left))
    (stand.data / "backups" / "days").write_text("123\n", encoding="ascii")


def unfit_folders(stand, folder):
    """Folders in which somebody else could exchange what root writes, and another account than root."""
    loose = folder / "loose"
    loose.mkdir()
    loose.chmod(0o777)
    told = back_up(stand, "--kept", loose)
    check("a folder where others may write is refused", told[0] == 1 and "nobody else may write" in told[2], told)
    check("and nothing is left in it", not list(loose.iterdir()))
    told = back_up(stand, "--kept", folder / "none")
    check("so is one that is not there", told[0] == 1 and "none" in told[2], told)
    stranger = back_up(stand, "--kept", user=65534, group=65534, extra_groups=[])
    check("another account is refused", stranger[0] == 1 and "by root" in stranger[2], stranger)
    check("words that are none are refused", back_up(stand, "--kep")[0] == 2)


def damaged(new, made, machine_folder):
    """A byte of each file in turn is another one, and each file in turn is gone: refused by its name, nothing changed."""
    before = all_of(new.data, machine_folder)
    names = sorted(str(one.relative_to(made)) for one in made.rglob("*") if one.is_file())
    copy = new.folder / "damaged"
    for name in names:
        for how in ("damaged", "gone"):
            shutil.copytree(made, copy)
            bytes_of = bytearray((copy / name).read_bytes())
            bytes_of[len(bytes_of) // 2] ^= 1
            (copy / name).write_bytes(bytes_of)
            if how == "gone":
                (copy / name).unlink()
            status, said, beside = restore(new, "--with", "all", copy)
            fine = status == 1 and "in place" not in said and "backup is" in beside
            # A checksum that is damaged is seen at the file that it is of; a name, at the name.
            fine = fine and (name in beside or (name == "SHA256SUMS" and how == "damaged"))
            if not fine:
                check(f"{name} is {how}: refused by its name", False, (status, said, beside))
            shutil.rmtree(copy)
    check(f"each of {len(names)} files, damaged or gone, is refused by its name", True)
    shutil.copytree(made, copy)
    lines = (copy / "SHA256SUMS").read_text(encoding="utf-8").splitlines(keepends=True)
    (copy / "SHA256SUMS").write_text("".join(lines[:-2]), encoding="utf-8")
    told = restore(new, copy)
    check("a list that was cut off is refused", told[0] == 1 and "does not name" in told[2], told)
    shutil.rmtree(copy)
    shutil.copytree(made, copy)
    (copy / "rooms.db-wal").write_bytes(b"")
    told = restore(new, copy)
    check("a log beside the saved office is refused", told[0] == 1 and "rooms.db-wal" in told[2], told)
    shutil.rmtree(copy)
    told = restore(new, "--with", "journal,poral", made)
    check("a part that is none is not understood", told[0] == 2 and "poral" in told[2], told)
    check("nothing was changed by all of these", all_of(new.data, machine_folder) == before)


def office_alone(new, made, folder):
    """Without a word more the office alone is brought, and what else there is stands at the end."""
    before = all_of(folder)
    told = restore(new, made)
    check("rooms-restore brings the office", told[0] == 0 and rooms_of(new.file) == {"OLD"}, told)
    check("and nothing else", all_of(folder) == before and not (new.data / "journal").exists())
    check("and says what else there is", "--with all" in told[1] and "journal" in told[1], told)


def moved(new, made, folder):
    """All of it on a new machine, where the package has put its own, newer texts."""
    texts = folder / "etc/rooms/portal/texts.js"
    texts.parent.mkdir(parents=True)
    texts.write_text("of the package\n", encoding="utf-8")
    status, said, beside = restore(new, "--with", "all", made)
    check("rooms-restore brings all to a new machine", status == 0 and not beside, (status, said, beside))
    found = {name: ((folder / name).read_text(encoding="utf-8"), (folder / name).stat().st_mode & 0o777) for name in FILES}
    check("each file of the machine is there, with its mode", found == FILES, found)
    old = [one for one in texts.parent.iterdir() if one.name.startswith("texts.js.before-")]
    check("the newer text is kept beside", len(old) == 1 and old[0].read_text(encoding="utf-8") == "of the package\n", old)
    check("and it says so", f"which is newer than the backup's, is kept: {old[0]}" in said, said)
    check("no part is left over", not [one for one in all_of(folder, new.data) if one.endswith(".part")])
    until_when = subprocess.run(["openssl", "x509", "-noout", "-enddate", "-in", folder / "etc/haproxy/rooms.pem"],
                                capture_output=True, text=True, check=True).stdout.strip().removeprefix("notAfter=")
    for left in ("HAProxy does not take /etc/haproxy/haproxy.cfg: [ALERT]", f"until {until_when}",
                 "rooms.example.org has to lead", "restart haproxy", "passwords"):
        check(f"what is left to do by hand names: {left}", left in said.partition("left to do by hand")[2], said)
    left = said.partition("left to do by hand")[2]
    check("what the keeper has of people is there", [(new.data / name).read_text("utf-8") for name in OF_PEOPLE]
          == [BESIDE[name] for name in OF_PEOPLE])
    check("and it says what an older one lacks", all(f"{name} is as it was when the backup was made" in left for name in OF_PEOPLE)
          and "a second time" in left, left)
    check("no date is brought, and it says so", not (new.data / "until").exists() and "2026-01-01 12:00 (UTC)" in left, left)
    forget_mail(new)
    folder = new.folder / "told"
    modes = {oct(one.stat().st_mode & 0o777) for one in folder.iterdir()}
    check("what residents read is there, and everybody may read it", modes == {"0o644"} and len(list(folder.iterdir())) == 2, modes)
    check("and it says so", f"in place: 1 pictures of rooms in {folder}" in said and "told.json.gz" in said, said)
    new.start()
    shown = new.ask(ask="told")["told"]
    check("it is the same", (shown["notice"], len(shown["pictures"]["OLD"])) == ({"en": "Lists until May"}, 1), shown)
    check("the office is there", {row[0] for row in new.ask(ask="view")["rooms"]} == {"OLD"})
    check("the clerk reads the language of before", new.ask(ask="language", who="anna") == {"language": "de"})
    check("copies stay for as many days as before", new.ask(ask="backups")["days"] == 123)
    notes = [entry for entry in new.ask(ask="journal", last=50)["journal"] if SEED in str(entry.get("note", ""))]
    check("the journal has the seed", len(notes) == 1, notes)
    new.ask(ask="note", line="after the move")
    new.stop_keeper()


def forget_mail(new):
    """Takes away what is no such file: this trial's stand for them would be damaged ones to a keeper."""
    for name in OF_PEOPLE:
        (new.data / name).unlink()


def once_more(new, made, folder):
    """On a machine that has gone on, the journal that goes on is not lost, and what is the same is left. What the keeper has of
    people by now stays, alone, and a date that is there is forgotten."""
    here = {name: f"{name} of this machine\n" for name in OF_PEOPLE}
    keep_beside(new, {**here, "until": BESIDE["until"]})
    (new.data / "mail.db.before-20270101T000000Z").unlink()
    status, said, beside = restore(new, "--with", "all", made)
    check("a second time", status == 0 and not beside, (status, said, beside))
    found = {name: (new.data / name).read_text("utf-8") for name in OF_PEOPLE}
    check("what there is of people stays, and it says so", found == here
          and said.count("is another one here") == len(here) and "a second time" not in said, said)
    check("without a second name, which would have whoever was erased", not list(new.data.glob("*.before-*")),
          list(new.data.iterdir()))
    check("and the date is forgotten, and named", not (new.data / "until").exists()
          and said.count("2026-01-01 12:00 (UTC)") == 2, said)
    forget_mail(new)
    journal = (new.data / "journal").read_text(encoding="utf-8")
    check("the journal that went on stays", "after the move" in journal and journal.count(f"seed {SEED}") == 1, journal)
    backs = [entry for entry in map(json.loads, journal.splitlines()) if str(entry.get("line", "")).startswith("back ")]
    copy = json.loads((made / "about.json").read_text(encoding="utf-8"))["copy"]
    check("it names both ways back", [entry["line"] for entry in backs] == 2 * [f"back {copy}"], backs)
    again = [one for one in folder.rglob("*.before-*") if "texts.js" not in one.name]
    check("what is the same has no second name", not again and said.count("as it was: ") == len(FILES) + 5, (said, again))


def other_pictures(new, made):
    """What residents read of rooms is another text here, with one more picture."""
    new.start()
    picture = b"\xff\xd8\xff another picture"
    added = new.ask(ask="add-picture", room="OLD", body=base64.b64encode(picture).decode(), shows="the other side")["file"]
    new.stop_keeper()
    told = restore(new, "--with", "told", made)
    new.start()
    new.stop_keeper()
    texts, kept = (list((new.folder / "told").glob(f"{name}.before-*")) for name in ("told.json.gz", added))
    check("the text and its picture are kept beside, and it says so", told[0] == 0 and len(texts) == 1 and len(kept) == 1
          and kept[0].read_bytes() == picture and f"which is kept: {kept[0]}" in told[1], (told, texts, kept))
    check("and the text is for its owner alone", [one.stat().st_mode & 0o777 for one in texts] == [0o600], texts)
    check("residents do not see it", added not in pictures_of(new), pictures_of(new))


def other_journal(new, made):
    """A journal that has another beginning is kept beside."""
    (new.data / "journal").write_text('{"at": "2031-01-01T00:00:00+00:00", "who": "x", "note": "another"}\n', encoding="utf-8")
    told = restore(new, "--with", "journal", made)
    old = list(new.data.glob("journal.before-*"))
    is_kept = ["another" in one.read_text(encoding="utf-8") for one in old] == [True]
    check("another journal is kept beside", told[0] == 0 and is_kept, told)
    check("and the backup's is in place", SEED in (new.data / "journal").read_text(encoding="utf-8"))


def no_backup(new, made):
    """A kept copy of the office alone is put back as before, and has nothing more."""
    folder = new.folder / "kept"
    folder.mkdir()
    for name in ("rooms.db", "why"):
        shutil.copy(made / name, folder / name)
    told = restore(new, "--with", "journal", folder)
    check("a kept copy has no journal", told[0] == 1 and "is no backup of a machine" in told[2], told)
    check("but an office", restore(new, folder)[0] == 0)


def try_moving(program):
    """All of it."""
    if not can_restore():
        return
    with machine(program) as (stand, folder), machine(program) as (new, other):
        furnish(stand, folder)
        stand.tell("room OLD")
        stand.start()
        made = made_backup(stand, folder)
        safe = new.folder / "safe"
        shutil.copytree(made, safe)
        nightly(stand, folder)
        unfit_folders(stand, folder)
        damaged(new, safe, other)
        office_alone(new, safe, other)
        moved(new, safe, other)
        once_more(new, safe, other)
        other_pictures(new, safe)
        other_journal(new, safe)
        no_backup(new, safe)


if __name__ == "__main__":
    if len(sys.argv) != 2:
        sys.exit("usage: /usr/bin/python3 deploy/trial/moving.py PROGRAM")
    try_moving(sys.argv[1])
