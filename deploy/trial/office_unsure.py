"""The keeper or the office's page is killed in the middle of a clerk's step, and the clerk reads what is so:
/usr/bin/python3 deploy/trial/office_unsure.py PROGRAM.

Nobody knows then whether the step was carried out. No page says that it could not be done. Slips of keys that were made are not
lost, and where the page itself is gone, the proxy says in two languages what to do.
"""

import re
import sys
from concurrent.futures import ThreadPoolExecutor
from pathlib import Path

# The repository stays as it is.
sys.dont_write_bytecode = True

# pylint: disable=wrong-import-position  # nothing may be written before
from between import Between
from kills import servers_of
from new_keys import keys_of
from office_forms import flat
from office_keys import asked, slips_in, yes
from office_requests import Page
from stand import Stand, check, until

PEOPLE = [f"T{number:03}" for number in range(1, 128)]
LONG = "sleep 60"  # so long the program waits, and is killed with the keeper
NOT_DONE = ("could not be done", "Das ging nicht")


def kill_during(stand, between, press, waits=None, back=True):
    """The answer to a press of a button during which the keeper is killed, once this is so; then it is started again."""
    with ThreadPoolExecutor(1) as pool:
        answer = pool.submit(press)
        until(waits or (lambda: Path(f"{between.act}.done").exists()), 120, "the step begins")
        stand.kill_keeper()
        until(lambda: not servers_of(stand), 30, "the end of what the keeper had started")
        if back:
            stand.start()
        return answer.result()


def before_the_end(between, after=0):
    """Lets the program wait before its next lines in the office's file, or after so many of them."""
    between.before_next(LONG, after)


def is_changed(stand, before, count):
    """Whether so many people have another key than before."""
    return lambda: sum(before[one] != key for one, key in keys_of(stand).items()) == count


def try_many(stand, between, page):
    """New keys for everybody: the keeper is killed after twenty of them, after all, and before the first."""
    before = keys_of(stand)
    shown, held = asked(page, {"everybody": "yes"})
    before_the_end(between, after=20)
    answer = kill_during(stand, between, lambda: yes(page, shown, held), is_changed(stand, before, 20))
    sheet = page.get(answer[1]["location"])[2]
    slips, after = slips_in(sheet), keys_of(stand)
    check("the 20 people who got another key have their slips", list(slips) == PEOPLE[:20] and
          all(after[one] == slips[one] for one in slips), (len(slips), flat(sheet)[:1500]))
    check("the page says how many there are, and not that it could not be done", "for the first 20 of 127 people" in flat(sheet)
          and not any(one in flat(sheet) for one in NOT_DONE), flat(sheet)[:1500])
    onward = re.search('href="(/office/many/[0-9a-f]+)"', sheet)
    again = page.get(onward[1])[2] if onward else ""
    check("the form behind the slips has the others", ">" + "\n".join(PEOPLE[20:]) + "</textarea>" in again, again[:3000])
    before = keys_of(stand)
    shown, held = asked(page, {"text": "T030 T031"})
    before_the_end(between)
    answer = kill_during(stand, between, lambda: yes(page, shown, held))
    shown = page.get(answer[1]["location"])[2]
    check("if no key was made, the page says so, in the form with the people", keys_of(stand) == before and
          "no new key was made, and the old keys work" in flat(shown) and ">T030\nT031</textarea>" in shown, flat(shown)[:1500])


def try_one(stand, between, page):
    """One person gets a new key, and the keeper is killed when that was done."""
    place, before = "/office/person/T050/key", keys_of(stand)
    form = page.hidden(place, place)
    # Before the line with the key the keeper is stopped, so that it does not read the program's answer.
    between.act.write_text("1\nkill -STOP $KEEPER", encoding="utf-8")
    answer = kill_during(stand, between, lambda: page.post(place, form), is_changed(stand, before, 1))
    sheet = page.get(answer[1]["location"])[2]
    slips = slips_in(sheet)
    check("the slip of one new key is shown, too", slips == {"T050": keys_of(stand)["T050"]}, (answer, flat(sheet)[:1500]))
    check("and not that it could not be done", not any(one in flat(sheet) for one in NOT_DONE), flat(sheet)[:1500])


def try_removed(stand, between, page):
    """Three people are removed. The keeper is killed after two, and stays away for a while."""
    shown = page.form("/office/many", {"act": "remove", "text": "T060 T061 T062"}, page="/office/many")[2]
    held = re.search(r'name="held" value="(\w+)"', shown)
    form = {**page.hidden("/office/many", "/office/many"), "held": held[1] if held else ""}
    before_the_end(between, after=2)
    kill_during(stand, between, lambda: page.post("/office/many/do", form), lambda: "T061" not in keys_of(stand), back=False)
    stand.start()
    shown = flat(page.get("/office/register")[2])
    check("of people who are removed the page says that nobody knows, and where to look", "Nobody knows whether" in shown
          and "overview and in the journal" in shown and not any(one in shown for one in NOT_DONE), shown[:2000])
    check("two of them are out of the register", {"T060", "T061", "T062"} & set(keys_of(stand)) == {"T062"})
    page.form("/office/language", {"language": "de", "back": "/office/"}, page="/office/")
    place = "/office/person/T062/name"
    form = {**page.hidden("/office/person/T062", place), "name": "Other Name"}
    before_the_end(between)
    kill_during(stand, between, lambda: page.post(place, form))
    shown = flat(page.get("/office/register")[2])
    check("in German, too", "Niemand weiß, ob der Schritt ausgeführt wurde" in shown
          and not any(one in shown for one in NOT_DONE), shown[:2000])
    page.form("/office/language", {"language": "en", "back": "/office/"}, page="/office/")


def try_away(stand, between, page):
    """The keeper does not come back in time: the form has the people, and the page says what to do."""
    shown, held = asked(page, {"text": "T070 T071"})
    before_the_end(between)
    answer = kill_during(stand, between, lambda: yes(page, shown, held), back=False)
    status, _, down = page.get(answer[1]["location"])
    check("while the keeper is away the form cannot be shown", status == 503 and "This is not possible now" in down, down)
    fields = dict(re.findall(r'type="hidden" name="(token|seen)" value="([^"]*)"', shown))
    status, _, down = page.post("/office/copies", fields)
    check("and of a step the page says to look whether it was carried out", status == 503 and "not possible" not in down
          and "Look whether this was carried out" in down, down)
    stand.start()
    shown = page.get(answer[1]["location"])[2]
    check("afterwards it has the people, and the page says that new keys may be lost, and what to do",
          ">T070\nT071</textarea>" in shown and "New keys may have been made for these people: T070, T071." in flat(shown)
          and "make new keys for them once more" in flat(shown), flat(shown)[:2500])


def try_damaged(stand, page):
    """SQLite cannot read the office's file: each page says what to do, and sends nobody to a page that cannot be shown either."""
    copy = stand.script("rooms-office", "backup").strip()
    stand.stop_keeper()
    with open(stand.file, "r+b") as file:
        file.seek(4096)
        file.write(bytes(8192))
    stand.start_keeper()
    for path in ("/office/", "/office/copies", "/office/journal"):
        status, _, down = page.get(path)
        check(f"{path} says that the file is damaged, and what to do", status == 503
              and "The office's file is damaged (" in flat(down)
              and "Call the administrator, who puts a copy back: rooms-office back NAME" in flat(down), flat(down))
        check("and sends nobody to another page", "before you try again" not in flat(down), flat(down))
    told = stand.command("view")
    check("so does the clerk's command", "the office's file is damaged (" in told[2] and "rooms-office back NAME" in told[2], told)
    told = stand.command("back", copy)
    stand.until_listening(stand.server_port)
    check("that command puts it right", told[0] == 0 and page.get("/office/")[0] == 200, told)


def try_page(stand, between, page):
    """The page itself is killed during a yes, and then it is not there."""
    shown, held = asked(page, {"text": "T080 T081"})
    before_the_end(between)
    with ThreadPoolExecutor(1) as pool:
        answer = pool.submit(lambda: yes(page, shown, held))
        until(lambda: Path(f"{between.act}.done").exists(), 120, "the step begins")
        stand.page.kill()
        stand.page.wait()
        killed = answer.result()
    for what, (status, fields, text) in (("that is killed", killed), ("that is not there", page.get("/office/"))):
        check(f"for a page {what} the proxy shows one of its own", status in (502, 503) and "text/html" in fields["content-type"]
              and fields["cache-control"] == "no-store", (status, fields, text))
        said = ("nobody knows whether this step was carried out", "weiß niemand, ob dieser Schritt ausgeführt wurde",
                'href="/office/"', "Make new keys for the same people", 'lang="de"')
        check("which says in both languages that nobody knows, and what to do", all(one in " ".join(text.split()) for one in said)
              and "Bad Gateway" not in text, text)
        check("and loads nothing", "default-src 'none'" in fields["content-security-policy"], fields)


def try_office_unsure(program):
    """All of it."""
    with Stand(program) as stand:
        stand.fill(["A-1", "A-2"], PEOPLE)
        between = Between(stand)
        stand.start()
        stand.start_page()
        stand.start_proxy()
        page = Page(stand)
        try_many(stand, between, page)
        try_one(stand, between, page)
        try_removed(stand, between, page)
        try_away(stand, between, page)
        try_damaged(stand, page)
        try_page(stand, between, page)
        keys = list(keys_of(stand).values())
        said = "".join([stand.proxy_log(), stand.log("page"), stand.log("keeper"), (stand.data / "journal").read_text("utf-8")])
        check("no key is in a log or in the journal", not [key for key in keys if key in said])


if __name__ == "__main__":
    if len(sys.argv) != 2 or not Path(sys.argv[1]).exists():
        sys.exit("usage: /usr/bin/python3 deploy/trial/office_unsure.py PROGRAM")
    try_office_unsure(sys.argv[1])
