"""Until when lists are taken: /usr/bin/python3 deploy/trial/office_dates.py PROGRAM.

A clerk sets the date, and residents read it. At that time the keeper closes the round, also after a restart, a kill or a sleep,
or only reminds. What is no date is refused by name. It also runs over standin.py.
"""

import datetime
import json
import re
import signal
import sys
import time
import zoneinfo
from pathlib import Path

# The repository stays as it is.
sys.dont_write_bytecode = True

# pylint: disable=wrong-import-position  # nothing may be written before
from office_again import flat
from office_requests import Page
from office_told import Resident
from stand import Stand, check, fail, until

ZONE = "Europe/Berlin"
# Seconds until a date. On a busy machine the first may be over before the keeper has it.
SOON = (3, 15, 60)
BY = "the date that anna set"


def shown(stand):
    """What the keeper says of the date."""
    return stand.ask(ask="view")["until"]


def phase(stand):
    """How far the round is."""
    return stand.ask(ask="view")["phase"]


def set_date(stand, at, closes=True, who="anna", **more):
    """Sets a date, and gives the keeper's answer."""
    return stand.ask(ask="set-until", at=at, closes=closes, who=who, **more)


def in_seconds(seconds):
    """A time in so many seconds, as the clocks of the zone show it."""
    moment = datetime.datetime.now(zoneinfo.ZoneInfo(ZONE)) + datetime.timedelta(seconds=seconds)
    return moment.replace(tzinfo=None).isoformat(timespec="seconds")


def set_soon(stand, closes=True):
    """Sets a date in a moment, and gives the seconds until then."""
    for seconds in SOON:
        if "fault" not in (answer := set_date(stand, in_seconds(seconds), closes)):
            return seconds
    return fail(f"no date could be set: {answer}")


def journal(stand):
    """The entries of the journal."""
    return stand.ask(ask="journal", last=1000)["journal"]


def entries(stand):
    """The changes of the journal: who, what, and the copy before."""
    return [(entry["who"], entry["line"], entry.get("copy")) for entry in journal(stand) if "line" in entry]


def closed_by_date(stand):
    """How often the keeper has closed a round by itself, always after a copy."""
    found = [copy for who, line, copy in entries(stand) if (who, line) == (BY, "close")]
    return len(found) if all(found) else -1


# --- what is no date

NO_DATES = {
    "": "", "T": "no date with a time", "2027-13-01T12:00": "no date with a time", "2027-02-29T12:00": "no date with a time",
    "2027-05-31T24:30": "no date with a time", "31.05.2027T12:00": "no date with a time", "tomorrow": "no date with a time",
    "2027-05-31T12:00+02:00": "no date with a time", "2020-05-31T12:00": "is past (Europe/Berlin)",
    "2127-05-31T12:00": "more than two years away", "9999-12-31T23:59": "more than two years away",
    "0001-01-01T00:00": "too far away",
    # On these days the clocks of the zone go from 2:00 to 3:00, and from 3:00 back to 2:00.
    "2027-03-28T02:30": "there is no 02:30 on 2027-03-28", "2027-10-31T02:30": "02:30 comes twice on 2027-10-31",
}


def try_no_dates(stand):
    """What is no date is refused by name, and changes nothing."""
    check("before a round is open no date can be set", "No round is open" in set_date(stand, "2027-05-31T12:00")["fault"])
    stand.office("open")
    for text, said in NO_DATES.items():
        answer = set_date(stand, text).get("fault", "")
        check(f"{text!r} is refused: {said}" if said else "no date is no fault", said in answer and bool(said) == bool(answer),
              answer)
    for text in ("2027-03-28T01:59", "2027-03-28T03:00", "2027-10-31T03:00"):
        check(f"{text} is a date", "fault" not in set_date(stand, text), shown(stand))
    set_date(stand, "")
    check("without a date nothing is set", shown(stand)["until"] is None)
    check("what is no text is not understood", "not understood" in stand.ask(ask="set-until", at=5, closes=True)["fault"]
          and "not understood" in stand.ask(ask="set-until", at="", closes="yes")["fault"])


# --- the clerk and the residents

def send(page, day, hour, closes="yes"):
    """Sends the form on the overview, and gives the overview that follows."""
    page.form("/office/until", {"date": day, "time": hour, "closes": closes}, page="/office/")
    return flat(page.get("/office/")[2])


def try_form(stand, page, other, resident):
    """The date is set on the overview, and residents read it."""
    check("before it, residents read none", not resident.told().get("until"))
    check("and the overview says so", "No date is set" in flat(page.get("/office/")[2]))
    before = {**page.hidden("/office/", "/office/until"), "date": "2027-06-01", "time": "09:00", "closes": "no"}
    text = send(page, "2027-05-31", "12:00")
    check("the overview has the date, its zone, and who has set it", "2027-05-31, 12:00 (Europe/Berlin)" in text
          and "set by anna" in text and "The keeper closes the round then" in text, text[:4000])
    # In summer the clocks of the zone are two hours ahead.
    wanted = {"at": "2027-05-31T10:00:00+00:00", "local": "2027-05-31T12:00", "zone": ZONE}
    check("residents read it, and not who has set it", resident.told()["until"] == wanted, resident.told())
    check("the journal has it", ("anna", "lists are taken until 2027-05-31 12:00 (Europe/Berlin), then the round is closed", None)
          in entries(stand), entries(stand))
    other.post("/office/until", {**before, **other.hidden("/office/", ""), "saw": before["saw"]})
    text = flat(other.get("/office/")[2])
    check("a form from before it changes nothing", "Another date was set since" in text
          and shown(stand)["until"]["local"] == "2027-05-31T12:00", text[:3000])
    for day, hour, said in (("2027-05-32", "12:00", "no date with a time"), ("", "", "no date with a time"),
                            ("2026-01-01", "12:00", "is past"), ("2027-03-28", "02:30", "There is no 02:30")):
        text = send(page, day, hour)
        check(f"the page says why {day} {hour} is none", said in text and "Nothing was changed" in text, text[:3000])
    check("and the date is as it was", shown(stand)["until"]["local"] == "2027-05-31T12:00")
    mode = (stand.data / "until").stat().st_mode & 0o777
    check("its file is for the keeper alone", mode == 0o600, oct(mode))
    page.form("/office/until/drop", page="/office/")
    check("the date can be taken away", shown(stand)["until"] is None and not resident.told().get("until")
          and not (stand.data / "until").exists())


def in_zone(stand, zone):
    """The machine has another zone from now on."""
    stand.stop_keeper()
    stand.environment["TZ"] = zone
    stand.start_keeper()


def try_zones(stand, page, resident):
    """The machine gets another zone: the date stays the moment that it is, and has the zone in which it was set everywhere."""
    for before, after, now in ((ZONE, "America/New_York", "06:00"), ("UTC", ZONE, "14:00")):
        in_zone(stand, before)
        set_date(stand, "2027-05-31T12:00")
        moment = shown(stand)["until"]["at"]
        in_zone(stand, after)
        text, form = flat(page.get("/office/")[2]), page.get("/office/")[2]
        said = (f"2027-05-31, 12:00 ({before})" in text, f"2027-05-31 12:00 {before}" in stand.command("view")[1],
                resident.told()["until"]["zone"] == before)
        check(f"a date that was set in {before} is said so in {after}", all(said), (said, text[:3000]))
        offered = dict(re.findall(r'<input id="(date|time)"[^>]* value="([^"]*)"', form))
        check("the form has the same moment, by the clocks of now", f"those of the zone {after}." in text
              and offered == {"date": "2027-05-31", "time": now}, (offered, text[:3000]))
        send(page, offered["date"], offered["time"])
        check("and who sends it as it is sets the same moment", shown(stand)["until"]["at"] == moment, shown(stand))
        page.form("/office/until/drop", page="/office/")
    in_zone(stand, ZONE)


# --- at that time

def try_remind(stand, page):
    """At the time of a date that reminds nothing happens, and the overview says so."""
    set_soon(stand, closes=False)
    until(lambda: shown(stand)["until"]["past"], 90, "the time is over")
    time.sleep(3)
    text = flat(page.get("/office/")[2])
    check("a date that reminds closes nothing", phase(stand) == "open")
    check("and the overview reminds", "the round is still open. Close it." in text, text[:3000])
    set_date(stand, in_seconds(3600))
    stand.office("close")
    until(lambda: shown(stand)["until"] is None, 60, "the date of a closed round is forgotten")
    stand.office("cancel")
    stand.office("open")


def try_close(stand, resident):
    """The keeper closes the round by itself."""
    set_soon(stand)
    moment = datetime.datetime.fromisoformat(shown(stand)["until"]["at"])
    until(lambda: phase(stand) == "closed", 120, "the keeper closes the round by itself")
    check("after a copy, and the journal says by which date", closed_by_date(stand) == 1, entries(stand))
    at = next(entry["at"] for entry in journal(stand) if entry.get("who") == BY)
    check("not before that time", datetime.datetime.fromisoformat(at) >= moment, (at, moment))
    whys = [why for _, _, why in stand.ask(ask="backups")["backups"]]
    check("the copy says so too", f"before close, by {BY}" in whys, whys)
    until(lambda: shown(stand)["until"] is None and not resident.told().get("until"), 60, "the date is forgotten")
    check("residents are served", resident.ask("GET", "/me", headers={"Room-Key": "0" * 16})[0] == 403)


def try_again(stand, name, away, back):
    """The keeper is away at the time of the date. It closes the round as soon as it is back, once."""
    stand.office("cancel")
    stand.office("open")
    before = closed_by_date(stand)
    seconds = set_soon(stand)
    away(stand)
    time.sleep(seconds + 1)
    back(stand)
    until(lambda: phase(stand) == "closed", 120, f"{name}: the round is closed")
    check(f"{name}: the round is closed once", closed_by_date(stand) == before + 1, entries(stand)[-6:])


def try_absences(stand):
    """A restart, a kill, and a machine that sleeps."""
    def send_signal(number):
        return lambda stand: stand.keeper.send_signal(number)
    try_again(stand, "after a restart", Stand.stop_keeper, Stand.start_keeper)
    try_again(stand, "after a kill", Stand.kill_keeper, Stand.start_keeper)
    try_again(stand, "after a sleep", send_signal(signal.SIGSTOP), send_signal(signal.SIGCONT))


def try_forgotten(stand):
    """The date of a round that was given up counts for no other."""
    stand.office("cancel")
    stand.office("open")
    seconds = set_soon(stand)
    stand.office("cancel")
    stand.office("open")
    time.sleep(seconds + 3)
    check("a round that is given up forgets its date, and the next one stays open", phase(stand) == "open"
          and shown(stand)["until"] is None, shown(stand))


def try_faults(stand, page, resident):
    """What keeps the keeper from closing, and what damages its file."""
    backups, away = stand.data / "backups", stand.data / "away"
    backups.rename(away)
    backups.write_text("no folder", encoding="ascii")
    set_soon(stand)
    until(lambda: shown(stand)["fault"], 120, "the keeper says why it could not close the round")
    text = flat(page.get("/office/")[2])
    check("the overview says so", phase(stand) == "open" and "A copy of the office could not be written" in text, text[:3000])
    page.form("/office/language", {"language": "de"}, page="/office/")
    text = flat(page.get("/office/")[2])
    check("in the language of the clerk who looks", "Eine Kopie der Verwaltung ließ sich nicht schreiben" in text
          and "could not be written" not in text, text[:3000])
    page.form("/office/language", {"language": "en"}, page="/office/")
    backups.unlink()
    away.rename(backups)
    until(lambda: phase(stand) == "closed", 120, "it closes the round once that is mended")
    stand.office("cancel")
    stand.office("open")
    stand.stop_keeper()
    (stand.data / "until").write_text('{"at": 5', encoding="ascii")
    stand.start()
    text = flat(page.get("/office/")[2])
    check("a damaged file is named", f"the file {stand.data / 'until'} is damaged" in text, text[:3000])
    check("and a new date mends it", "fault" not in set_date(stand, "2027-05-31T12:00") and not shown(stand)["fault"])
    folder = stand.folder / "told"
    folder.rename(folder.with_name("gone"))
    text = send(page, "2027-05-30", "12:00")
    check("if residents cannot read it, the page says why", "But residents do not read it" in text, text[:3000])
    text = flat(page.get("/office/")[2])
    check("as long as that is so", "But residents do not read it" in text and "Residents read it." not in text, text[:3000])
    folder.with_name("gone").rename(folder)
    until(lambda: (resident.told().get("until") or {}).get("local") == "2027-05-30T12:00", 60, "they read it once that is mended")
    check("and the page says so", "Residents read it." in flat(page.get("/office/")[2]))
    part = folder / ".part"
    part.mkdir()
    page.form("/office/until/drop", page="/office/")
    text = flat(page.get("/office/")[2])
    check("if a date that is taken away stays with them, the page says that", bool(resident.told().get("until"))
          and "But residents may still read the date that you have taken away: " in text and "do not read it" not in text,
          text[:3000])
    part.rmdir()
    until(lambda: not resident.told().get("until"), 60, "they read none once that is mended")
    check("the journal is whole", all(json.loads(line) for line in (stand.data / "journal").read_text("utf-8").splitlines()))


def try_office_dates(program):
    """All of it."""
    with Stand(program, TZ=ZONE) as stand:
        stand.fill(["N-101", "N-102"], ["P1", "P2"])
        stand.start()
        stand.start_page()
        stand.start_told()
        stand.start_proxy()
        page, other, resident = Page(stand), Page(stand, "bert"), Resident(stand)
        try_no_dates(stand)
        try_form(stand, page, other, resident)
        try_zones(stand, page, resident)
        try_remind(stand, page)
        try_close(stand, resident)
        try_absences(stand)
        try_forgotten(stand)
        try_faults(stand, page, resident)
        check("no process has noted a fault", not stand.log("page").strip() and not stand.log("told").strip(), stand.log("page"))


if __name__ == "__main__":
    if len(sys.argv) != 2 or not Path(sys.argv[1]).exists():
        sys.exit("usage: /usr/bin/python3 deploy/trial/office_dates.py PROGRAM")
    try_office_dates(sys.argv[1])
