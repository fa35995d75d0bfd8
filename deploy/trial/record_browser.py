"""The page that checks a draw (check-draw.html), in headless Chromium: record_browser.py PROGRAM [FOLDER].

It is opened from a file, without a network. Its order of drawn rounds, with grades, leavers and people who have withdrawn,
has to be the program's own; and it has to find each thing that was changed in a record, in each language that it has. The
folder gets photographs.
"""

import contextlib
import hashlib
import random
import re
import sys
import tempfile
import time
from pathlib import Path

sys.dont_write_bytecode = True  # the repository stays as it is
sys.path.insert(0, str(Path(__file__).resolve().parent.parent / "office"))

# pylint: disable=wrong-import-position,wrong-import-order  # some of these are in the folder that was just named
import subprocess

from selenium import webdriver
from selenium.webdriver.chrome.service import Service
from selenium.webdriver.common.by import By

import record
from audit import seed_words
from record_draws import Drawing
from record_told import answers, file_of, told_of
from stand import OFFICE, check

SIZES = [(3, 5), (8, 8), (9, 12), (14, 14), (12, 10), (40, 50), (300, 310)]  # people, rooms


class ByDice(Drawing):  # pylint: disable=too-many-instance-attributes  # as its parent
    """Draws rounds whose seed is that of fifty throws."""

    def draw(self) -> str | None:
        """Closes the round, throws, and draws."""
        self.throws = " ".join(self.rng.choices("123456", k=50))  # pylint: disable=attribute-defined-outside-init
        seed = hashlib.sha256(self.throws.encode()).hexdigest()
        words = seed_words(seed, len(set(self.people) - self.withdrawn - self.going))
        self.lines += ["close", " ".join(["draw", *words])]
        return seed


class Council:
    """A member of the council, with the page in a browser."""

    def __init__(self, folder):
        options = webdriver.ChromeOptions()
        for word in ("--headless=new", "--no-sandbox", "--disable-gpu", "--disable-dev-shm-usage", "--no-first-run",
                     "--host-resolver-rules=MAP * ~NOTFOUND", "--accept-lang=en", f"--user-data-dir={folder}/chromium"):
            options.add_argument(word)
        options.set_capability("goog:loggingPrefs", {"browser": "ALL"})
        self.folder = folder
        self.driver = webdriver.Chrome(service=Service("/usr/bin/chromedriver"), options=options)
        self.page = f"file://{OFFICE}/check-draw.html"

    def close(self):
        """Ends the browser."""
        self.driver.quit()

    def ask_for(self, tags):
        """Lets the browser ask for pages in these languages."""
        agent = self.driver.execute_script("return navigator.userAgent")
        self.driver.execute_cdp_cmd("Emulation.setUserAgentOverride", {"userAgent": agent, "acceptLanguage": tags})

    def look(self, text, seen="", press=""):
        """What the page says of a record, and of what the witnesses wrote down: the headline, the rest, and the order. Before
        that, the button of another language may be pressed."""
        file = self.folder / "round.txt"
        file.write_text(text, encoding="utf-8")
        self.driver.get(self.page)
        if press:
            self.driver.find_element(By.CSS_SELECTOR, f"#languages [lang={press}]").click()
        before = self.driver.find_element(By.ID, "verdict").text
        self.driver.find_element(By.ID, "seen").send_keys(seen)
        self.driver.find_element(By.ID, "record").send_keys(str(file))
        end = time.monotonic() + 30
        while (headline := self.driver.find_element(By.ID, "verdict").text) == before:
            assert time.monotonic() < end, "the page does not answer"
            time.sleep(0.02)
        rows = self.driver.execute_script(
            "return [...document.querySelectorAll('tbody tr')].map(row => [...row.children].map(cell => cell.textContent))")
        return headline, self.driver.find_element(By.TAG_NAME, "main").text, rows

    def shot(self, shots, name, width):
        """A photograph."""
        self.driver.execute_cdp_cmd("Emulation.setDeviceMetricsOverride",
                                    {"width": width, "height": 900, "deviceScaleFactor": 1, "mobile": width < 500})
        wide = self.driver.execute_script("return document.documentElement.scrollWidth")
        check(f"the page is {width} pixels wide", wide <= width, wide)
        self.driver.save_screenshot(str(shots / f"{name}-{width}.png"))
        self.driver.execute_cdp_cmd("Emulation.clearDeviceMetricsOverride", {})


def drawn_round(program, rng, folder, people, rooms):
    """The record of a drawn round, the program's own order, and the throws."""
    drawing = ByDice(rng, people, rooms, 6)
    drawn = drawing.round([0, 0, 1])
    told = told_of(drawn, lambda questions: answers(program, drawn.lines, questions))
    noted = f"2027-06-01 20:15:00 the seed {drawn.seed} was noted: SHA-256 of {drawing.throws}"
    assert drawn.seed is not None
    text = record.record(file_of(folder / "empty.db", told, folder / "drawn.db"), [drawn.seed], [noted])
    lines = [line.split() for line in told.order.splitlines()]
    order = [[place, person, more[-1] if more else "0", word] for place, word, person, *more in lines]
    return text, order, drawing.throws, drawn.seed


def try_order(council, made):
    """The order of the page is the program's, by the seed, by the throws, and by the record alone."""
    text, order, throws, seed = made
    for seen, says in ((throws, "The draw is right"), (f" {' '.join(re.findall('.{8}', seed.upper()))}", "The draw is right"),
                       ("", "The draw fits the seed that the record names")):
        headline, _, rows = council.look(text, seen)
        check(f"{len(order)} people, {seen[:20]!r}: {says}", headline.startswith(says), headline)
        check("and the order is the program's", rows == order, (rows[:5], order[:5]))
    bare = re.sub("(?m)^# (seed|journal:) .*\n", "", text)
    headline, _, _ = council.look("\ufeff" + bare.replace("\n", "\r\n"))
    check("without a seed the draw was not checked", headline.startswith("The draw was not checked"), headline)
    headline, _, rows = council.look(bare, throws)
    check("with the throws it is right", headline.startswith("The draw is right") and rows == order, headline)


def changes_of(made):
    """What somebody may have changed in a record: what it is, the record, what the witnesses wrote, what the page says."""
    text, order, throws, seed = made
    drawn = "draw " + re.findall("(?m)^draw (.*)$", text)[0]
    words, person = drawn.split()[1:], order[0][1]
    other = f"{'0' if seed[0] != '0' else '1'}{seed[1:]}"
    thrown = f"{throws[:-1]}{int(throws[-1]) % 6 + 1}"
    yield "two words changed places", text.replace(drawn, " ".join(["draw", *words[::-1]])), "", "The draw is not right"
    yield "one sign of a word", text.replace(words[0], f"{words[0][:-1]}{'0' if words[0][-1] != '0' else '1'}"), "", "not right"
    yield "the seed", text.replace(f"# seed {seed}", f"# seed {other}"), "", "The draw is not right"
    yield "the throws", text.replace(throws, thrown), "", "The draw is not right"
    yield "other witnesses", text, other, "The draw is not right"
    yield "other throws", text, thrown, "The draw is not right"
    missing = re.sub(f"(?m)^(person|home|choose|grade) {person}\\b.*\n", "", text)
    yield "a person is missing", missing, throws, f"{len(order) - 1} people take part, and the draw has {len(order)} words"
    yield "somebody has withdrawn", text.replace("\nclose\n", f"\nwithdraw {person}\nclose\n"), throws, "people take part"
    yield "a second draw", text.replace(drawn, f"{drawn}\n{drawn}"), throws, "The record has 2 draws"
    yield "no draw", text.replace(f"{drawn}\n", ""), throws, "The record has no draws"
    yield "a second seed", text.replace("# seed ", f"# seed {other}\n# seed "), throws, "The record has 2 seeds"
    yield "a word that is none", text.replace(words[0], "z" * 16), throws, "a word that is none"
    yield "a person twice", re.sub(f"(?m)^person {person} .*$", r"\g<0>\n\g<0>", text), throws, "in the record twice"


def try_changes(council, made):
    """What somebody has changed is found."""
    for what, text, given, says in changes_of(made):
        headline, whole, _ = council.look(text, given)
        check(f"changed: {what}: {headline[:60]}", says in headline and "is right" not in headline
              and (text != made[0] or given not in ("", made[2])), whole)


def english_in(shown, texts):
    """The parts of English texts that a page shows in another language."""
    parts = {part.strip() for text in texts["en"].values() for part in re.split(r"\{\w+\}", text)}
    return [part for part in parts if len(part) > 12 and part in shown]


def try_texts(council):
    """Both languages have the same texts, with the same values, and the page shows those of its own."""
    texts = council.driver.execute_script("return TEXTS")
    check("the languages are English and German", sorted(texts) == ["de", "en"], sorted(texts))
    values = [{name: sorted(re.findall(r"\{\w+\}", text)) for name, text in one.items()} for one in texts.values()]
    check("they have the same texts, with the same values", values[0] == values[1], values)
    shown = council.driver.execute_script(
        "return [...document.querySelectorAll('[data-text]')].map(one => [one.dataset.text, one.textContent])")
    check("each text that stands still is in German", all(texts["de"][name] == text for name, text in shown), shown)
    return texts


def try_languages(council, made):
    """The page speaks the first of the browser's languages that it has, and another one after a press. What was changed in a
    record it finds in each."""
    text, order, throws, _ = made
    council.ask_for("fr,de-AT,en")
    headline, whole, rows = council.look(text, throws)
    check("a browser that asks for German has it", headline.startswith("Die Auslosung stimmt: ") and rows == order, headline)
    texts = try_texts(council)
    check("nothing of the page is in English", not english_in(whole, texts), english_in(whole, texts))
    for what, changed, given, _ in changes_of(made):
        headline, whole, _ = council.look(changed, given)
        check(f"in German, changed: {what}: {headline[:60]}", not english_in(whole, texts)
              and headline.startswith(("Die Auslosung stimmt nicht.", "Das lässt sich nicht prüfen. ")), whole)
    headline, *_ = council.look(text, throws, press="en")
    check("a press leads to English", headline.startswith("The draw is right"), headline)
    council.ask_for("fr")
    headline, *_ = council.look(text, throws)
    check("a browser that asks for neither has English", headline.startswith("The draw is right"), headline)
    headline, *_ = council.look(text, throws, press="de")
    check("a press leads to German", headline.startswith("Die Auslosung stimmt: "), headline)
    council.ask_for("en")


def take_photographs(council, shots, made):
    """The page with a record as it is, and with one that was changed."""
    changed = next(text for what, text, *_ in changes_of(made) if what == "the throws")
    for width in (360, 1280):
        council.look(made[0], made[2])
        council.shot(shots, "check-draw", width)
        council.look(changed)
        council.shot(shots, "check-draw-changed", width)


def try_record_browser(program, shots=None):
    """All of it."""
    rng, program = random.Random("draws 0"), str(Path(program).resolve())
    with tempfile.TemporaryDirectory() as name, contextlib.closing(Council(Path(name))) as council:
        folder = Path(name)
        subprocess.run([program, "new", "--db", folder / "empty.db"], check=True, stdout=subprocess.DEVNULL)
        made = [drawn_round(program, rng, folder, *size) for size in SIZES]
        seen = {verb for verb in ("going", "withdraw", "grade") for one in made if re.search(f"(?m)^{verb} ", one[0])}
        check("there are leavers, grades, and people who have withdrawn", len(seen) == 3, seen)
        for one in made:
            try_order(council, one)
        for one in made[2:4]:
            try_changes(council, one)
        try_languages(council, made[2])
        asked = council.driver.execute_script("return performance.getEntriesByType('resource').map(one => one.name)")
        check("the page has loaded nothing", asked == [], asked)
        complaints = council.driver.get_log("browser")
        check("the browser found nothing wrong", complaints == [], complaints)
        if shots:
            take_photographs(council, shots, made[2])


if __name__ == "__main__":
    if len(sys.argv) not in (2, 3) or not Path(sys.argv[1]).exists():
        sys.exit("usage: /usr/bin/python3 deploy/trial/record_browser.py PROGRAM [FOLDER]")
    try_record_browser(sys.argv[1], Path(sys.argv[2]) if len(sys.argv) == 3 else None)
