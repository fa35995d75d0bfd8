"""The languages of the office's page, slips and letters: /usr/bin/python3 deploy/trial/office_languages.py PROGRAM.

The catalogues have all texts. One that is damaged, or has code in a text, harms nothing. Two clerks read two languages at once,
and two residents get two. office_marked.py looks whether all of the page is in a catalogue.
"""

import ast
import contextlib
import json
import re
import subprocess
import sys
import tempfile
import threading
from pathlib import Path

# The repository stays as it is.
sys.dont_write_bytecode = True

# pylint: disable=wrong-import-position  # nothing may be written before
from made_up_language import CODE, NAME, OPEN, TEXTS, between, not_in_it, write_language
from office_again import flat
from office_requests import Page
from stand import OFFICE, PYTHON, Stand, check, key_of

SEED = "ab" * 32
PEOPLE = [f"T{number:02}" for number in range(1, 7)]
ROOMS = [f"A-{number}" for number in range(101, 109)]
HEAD = 'msgid ""\nmsgstr ""\n"Content-Type: text/plain; charset=utf-8\\n"\n"X-Language-Name: {name}\\n"\n\n'
# In Python of the page, three words one after the other are a sentence, and have to be marked. These are none: names of columns,
# rows of samples, reasons as the keeper keeps them in English, what the journal has, and what only a program reads.
SENTENCE = re.compile(r"[A-Za-z]{2,} [A-Za-z]{2,} [A-Za-z]{2,}")
NO_SENTENCES = {"columns.py", "reasons.py", "sample_pages.py"}
KEPT = {"made by the machine", "entered as it is", "want another room", "first choice of", "500 Internal Server Error"}


# --- what is in the catalogues

def sentences_in(tree):
    """The sentences of a Python file that are neither marked nor said of the code itself."""
    bodies = [getattr(node, "body", None) for node in ast.walk(tree)]
    said = {id(body[0].value) for body in bodies if isinstance(body, list) and body and isinstance(body[0], ast.Expr)}

    def walk(node):
        if isinstance(node, ast.Call) and (mark := getattr(node.func, "id", "")) in ("_", "N_", "ngettext"):
            for value in [*node.args[2 if mark == "ngettext" else 1:], *(word.value for word in node.keywords)]:
                yield from walk(value)
            return
        if isinstance(node, ast.Constant) and isinstance(node.value, str) and id(node) not in said and SENTENCE.search(node.value):
            yield node.value
        for child in ast.iter_child_nodes(node):
            yield from walk(child)
    yield from walk(tree)


def try_catalogues():
    """Each catalogue has each text, and each sentence of the page is a text."""
    done = subprocess.run([PYTHON, TEXTS, "--check"], stdout=subprocess.PIPE, text=True, check=False)
    check("the catalogues have all texts, and no other ones", done.returncode == 0, done.stdout[-2000:])
    for file in sorted(OFFICE.glob("page/*.py")):
        if file.name not in NO_SENTENCES:
            found = [text for text in sentences_in(ast.parse(file.read_text(encoding="utf-8"))) if text not in KEPT]
            check(f"each sentence of {file.name} is marked", not found, found)
    check("a sentence without a mark is found", list(sentences_in(ast.parse("tell('bad', 'There is none here')"))))


# --- catalogues that are damaged

def entry(text, other):
    """An entry of a catalogue."""
    return f"msgid {json.dumps(text)}\nmsgstr {json.dumps(other, ensure_ascii=False)}\n\n"


def write_damaged(folder, touched):
    """Catalogues of no use, and one with code in its texts, beside texts that are good."""
    code = f"__import__('pathlib').Path({str(touched)!r}).touch()"
    (folder / "aa.po").write_bytes(HEAD.format(name="Aa").encode() + b'msgid "Overview"\nmsgstr "\xff\xfe"\n')
    (folder / "bb.po").write_text(HEAD.format(name="Bb") + '<<<<<<< HEAD\nmsgid "Overview"\n', encoding="utf-8")
    (folder / "cc.po").mkdir()
    (folder / "dd.po").symlink_to(folder / "dd.po")
    (folder / "ee.po").write_bytes(bytes(range(256)) * 40)
    plural = '"Plural-Forms: nplurals=2; plural=n/0;\\n"\n\n'
    (folder / "gg.po").write_text(HEAD.format(name="Gg")[:-1] + plural, encoding="utf-8")
    for name in ("english", "DE", "d", "x..y", "__"):
        (folder / f"{name}.po").write_text(HEAD.format(name="No code"), encoding="utf-8")
    (folder / "ff.po").write_text(HEAD.format(name="<b>Ff</b>") + "".join([
        entry("In figures", "{{!" + code + "}}\n% " + code + "\n<% " + code + " %>"),
        entry("People", "</dt><script>alert(1)</script>"),
        entry("Room office", "{{" + code + "}}"),
        entry("Lists on record", "{open}"),
        entry("{count} of {1}", "{count} of {1} of {2}"),
        entry("Day and time are those of the zone {zone}.", "{zone} {zone} {clerk}"),
        entry("Until when lists are taken", 'ff" onclick="alert(1)'),
        entry("Signed in: {clerk}", "{clerk}: <1>ff</1>"),
        entry("Skip to the content", "ff-skip"),
        entry("Round {number} is open.", "{number.__class__.__init__.__globals__} ff"),
        entry("The list is on record: {rooms}.", "{rooms:>99999999} ff"),
        entry("Nothing was changed. {why}", "{why!r} {0} ff"),
        entry("No person has this identifier.", "ff-nobody {x"),
    ]), encoding="utf-8")


def try_damaged(program):
    """Catalogues of no use are left out, and so are texts with code or other values. Nothing else happens."""
    with tempfile.TemporaryDirectory(prefix="rooms-languages-") as name:
        folder, touched = Path(name), Path(name) / "touched"
        write_damaged(folder, touched)
        with started(program, folder) as stand:
            page = Page(stand)
            shown = page.get("/office/")[2]
            offered = re.findall(r'name="language" value="([^"]*)"', shown)
            check("catalogues of no use are left out", set(offered) == {"de", "ff", "gg"}, offered)
            check("the log names each of them", all(f"{one}.po: this language is left out" in stand.log("page")
                                                    for one in ("aa", "bb", "cc", "dd", "ee", "english", "DE", "d", "x..y", "__")),
                  stand.log("page"))
            check("and its texts that do not fit", "ff.po: other values in braces: 'Round {number} is open.'" in stand.log("page"))
            check("the name of a language is a text", "&lt;b&gt;Ff&lt;/b&gt;" in shown, shown)
            page.form("/office/language", {"language": "ff"}, page="/office/")
            shown = page.form("/office/step/open", page="/office/step/open") and page.get("/office/")[2]
            check("a text with other values is in English", "Round 1 is open." in shown, shown)
            check("and so is one of a template", "0 of 6" in flat(shown) and "Signed in: anna" in shown
                  and "Day and time are those of the zone" in shown, shown)
            check("others are in the language", '<html lang="ff"' in shown and "ff-skip" in shown, shown)
            check("code in a text is shown, and not carried out", "&#123;&#123;!__import__(&#x27;pathlib" in shown
                  and not touched.exists() and "<script" not in shown, shown)
            for one, said in ((PEOPLE[0], "The list is on record: A-101."), ("T01", "The list is on record: A-102.")):
                page.form(f"/office/person/{one}/choose", {"text": said[-6:-1]}, page=f"/office/person/{one}")
                check("an answer with a value of another form is in English", said in page.get("/office/")[2])
            page.form(f"/office/person/{PEOPLE[0]}/grade", {"grade": "x"}, page=f"/office/person/{PEOPLE[0]}")
            check("and a refusal", "Nothing was changed. The program does not" in page.get("/office/")[2])
            page.form("/office/language", {"language": "gg"}, page="/office/")
            check("a rule for plurals that cannot be counted counts as none", "6 people" in page.get("/office/languages")[2])
            check("no request has failed", not re.search(r"rooms-page: \w+ at", stand.log("page")), stand.log("page"))


# --- clerks

@contextlib.contextmanager
def started(program, folder):
    """An office with six people, of whom four have a room, and the languages of a folder."""
    with Stand(program, ROOMS_LANGUAGES=str(folder)) as stand:
        stand.fill(ROOMS, PEOPLE)
        stand.start()
        stand.start_page()
        stand.start_proxy()
        for person, room in zip(PEOPLE[:4], ROOMS):
            stand.office(f"home {person} {room}")
        yield stand


def is_in(text, code):
    """Whether the overview is in a language, and in no other one."""
    marks = f"<h1>{between('Overview')}</h1>" in text, OPEN in text.replace(NAME, "")
    return f'<html lang="{code}"' in text and marks == (code == CODE, code == CODE)


def try_two_clerks(stand):
    """Two clerks read two languages at once, also where a request fails in between; and after a restart."""
    pages = {CODE: Page(stand, "anna"), "en": Page(stand, "bert")}
    check("before a clerk has chosen, the browser says which", all(
        is_in(page.get("/office/", {"Accept-Language": wanted})[2], code)
        for page, wanted, code in ((pages["en"], f"xx, {CODE}-ZZ;q=0.5, en;q=0.1", CODE), (pages["en"], "en, qq;q=0.9", "en"),
                                   (pages["en"], f"{CODE};q=0, xx", "en"), (pages["en"], ",;=q;;" * 900, "en"))))
    for code, page in pages.items():
        answer = page.form("/office/language", {"language": code, "back": "/office/rooms"}, page="/office/lists")
        check("the choice leads back to the page", answer[0] == 303 and answer[1]["location"].endswith("/office/rooms"), answer)
    for place in ("//evil.example/", "https://evil.example/office/", "/office//evil", f"/office/{'evil' * 900}!",
                  "/office/\r\nevil: 1"):
        answer = pages["en"].form("/office/language", {"language": "en", "back": place}, page="/office/lists")
        check("and to no other place", "evil" not in str(answer) and answer[1].get("location", "").endswith("/office/"), answer)
    wrong = []

    def read(code):
        for number in range(12):
            other = {"Accept-Language": "en" if code == CODE else CODE}
            for path in ("/office/", "/office/none", "/office/person/T01", "/office/%ff"):
                status, fields, text = pages[code].get(path, other)
                # The last one is refused before the page looks who asks, and does so in English, whatever was asked before.
                its = "en" if path == "/office/%ff" else code
                if f'<html lang="{its}"' not in text or fields["content-language"] != its or (
                        path == "/office/" and not is_in(text, code)):
                    wrong.append((code, number, path, status, text))
    threads = [threading.Thread(target=read, args=(code,)) for code in pages for _ in range(3)]
    for thread in threads:
        thread.start()
    for thread in threads:
        thread.join()
    check("two clerks read two languages at once", not wrong, wrong[:1])
    try_restart(stand, pages)


def try_restart(stand, pages):
    """The choice outlives a restart. Without the keeper, and with a damaged file, the browser says which."""
    stand.stop_keeper()
    stand.end(stand.page)
    stand.start()
    Path(stand.environment["ROOMS_PAGE_SOCKET"]).unlink(missing_ok=True)
    stand.start_page()
    check("and after a restart", all(is_in(page.get("/office/")[2], code) for code, page in pages.items()))
    answer = pages[CODE].form("/office/languages/many", {"text": "T99", "language": "en"}, page="/office/languages")
    check("the keeper speaks the clerk's language", answer[0] == 303
          and between("nobody has the identifier '{person}'. Nothing was changed.").replace("{person}", "T99")
          .replace("'", "&#x27;") in pages[CODE].get("/office/")[2].replace("&#039;", "&#x27;"))
    check("and English to others", "no such" in stand.ask(ask="language", language="x..y")["fault"]
          or "there is no language 'x..y'" in stand.ask(ask="language", language="x..y")["fault"])
    check("and to a clerk whose page speaks none", "nobody has" in stand.ask(ask="set-languages", languages={"T99": "en"},
                                                                             speaks="../../etc")["fault"])
    status, _, printed = stand.command("do", "choose", "T99", "A-101")
    check("the command of the office speaks English", status == 1 and OPEN not in printed, printed)
    kept = stand.data / "languages"
    check("nobody else can read the file", kept.stat().st_mode & 0o777 == 0o600)
    kept.write_text("{", encoding="utf-8")
    stand.end(stand.page)
    Path(stand.environment["ROOMS_PAGE_SOCKET"]).unlink(missing_ok=True)
    stand.start_page()
    check("with a damaged file the browser says which", is_in(pages[CODE].get("/office/", {"Accept-Language": CODE})[2], CODE)
          and is_in(pages[CODE].get("/office/")[2], "en"))
    shown = [pages[CODE].get(path)[2] for path in ("/office/languages", "/office/about/T01")]
    check("and the page says what is wrong", all("is damaged" in text for text in shown), shown)
    check("the choice is refused, and the file stays", pages[CODE].form("/office/language", {"language": CODE})[0] == 303
          and "is damaged" in pages[CODE].get("/office/")[2] and kept.read_text(encoding="utf-8") == "{")
    kept.unlink()
    stand.stop_keeper()
    status, fields, text = pages["en"].get("/office/", {"Accept-Language": CODE})
    check("without the keeper, too", status == 503 and fields["content-language"] == CODE and not not_in_it(text), text)
    stand.start()


def try_numbers(stand):
    """A number is in the form of the clerk's language, also in a refusal of the keeper; and in English where that has no form."""
    page = Page(stand, "bert")
    for code, most in (("de", "1 bis 3.650 Tage"), (CODE, "1 to 3,650 days"), ("en", "1 to 3,650 days")):
        page.form("/office/language", {"language": code}, page="/office/")
        page.get("/office/copies/days/9999")
        shown = page.get("/office/copies")[2]
        check(f"a number has the form of the language {code}", most in shown, shown)
        title = page.get("/office/copies/days/3650")[2].partition("<h1>")[2].partition("</h1>")[0]
        check("also in a question", most.split()[-2] in title, title)


# --- residents

def section_of(text, person, kind):
    """The slip or the letter of a person: its language, and its HTML."""
    begin = f'<(?:section|div) class="{kind}"'
    found = re.findall(rf'{begin} lang="([^"]*)"(.*?)(?={begin}|$)', text, re.DOTALL)
    return next((code, part) for code, part in found if f"({person})" in part)


def try_residents(stand):
    """Slips and letters are each in the language of their resident, and the frame in the clerk's."""
    page = Page(stand)
    page.form("/office/languages/many", {"text": "t01 T05", "language": CODE}, page="/office/languages")
    check("the keeper has the languages of residents",
          stand.ask(ask="languages") == {"office": "en", "residents": {"T01": CODE, "T05": CODE}}, stand.ask(ask="languages"))
    shown = page.form("/office/many", {"act": "keys", "text": "T01 T02"}, page="/office/many")[2]
    held = re.findall(r'name="held" value="(\w+)"', shown)
    answer = page.form("/office/many/do", {"held": held[0]}, page="/office/many")
    shown = page.get("/office/slips/" + answer[1]["location"].rpartition("/")[2])[2]
    check("a slip is in the language of its resident", section_of(shown, "T01", "slip")[0] == CODE
          and not not_in_it(f'<i>{section_of(shown, "T01", "slip")[1].partition(">")[2]}</i>'.replace("Person T01", ""))
          and section_of(shown, "T02", "slip")[0] == "en" and OPEN not in section_of(shown, "T02", "slip")[1], shown)
    check("the page says how a slip gets another language, and nothing that cannot be done", "set them first" not in shown
          and "once the resident is in the register" in " ".join(shown.split()), shown)
    check("on the clerk's page", '<html lang="en"' in shown and "This page shows these keys once." in shown, shown)
    check("the page that shows keys once offers no other language", 'action="/office/language"' not in shown, shown)
    stand.office("choose T01 A-102")
    stand.office("choose T02 A-101")
    stand.office("close")
    page.form("/office/seed", {"way": "seed", "text": SEED}, page="/office/draw")
    page.form("/office/draw", {"seed": SEED}, page="/office/draw")
    stand.office("run")
    stand.office("publish")
    shown = page.form("/office/letters", {"closing": "See you.", f"closing-{CODE}": "«ω»"}, page="/office/letters")[2]
    check("beside the text for letters stands that the page does not keep it", "does not keep this text" in " ".join(shown.split()),
          shown)
    letters = {person: section_of(shown, person, "sheet") for person in PEOPLE}
    words = {person: re.sub(r"Person T\d\d|T\d\d|A-\d{3}", "", part.partition(">")[2]) for person, (_, part) in letters.items()}
    check("so is a letter", all((code == CODE) == (person in ("T01", "T05")) for person, (code, _) in letters.items())
          and not not_in_it(words["T01"]) and "«ω»" in words["T01"] and "See you." not in words["T01"], words["T01"])
    others = words["T02"], words["T03"]
    check("and one in the language of the office", all(OPEN not in text and "See you." in text for text in others), others)
    stand.office("settle")
    try_gone(stand, page)


def try_gone(stand, page):
    """The language of a person goes with them. Going back to a copy brings it not back, and keeps those of others."""
    check("all about a person has the language", NAME in page.get("/office/about/T01")[2])
    page.form("/office/languages/person/T02", {"language": CODE}, page="/office/person/T02")
    answer = stand.ask(ask="set-languages", languages={"T02": ""}, was="")
    check("a language that was changed meanwhile is not changed again", "after you looked" in answer.get("fault", ""), answer)
    for person, _, home, _ in stand.ask(ask="view")["people"][4:]:
        stand.script("rooms-office", "lines", given=(f"leave {person}\n" if home else "") + f"remove {person}\n")
    page.form("/office/forget/T01", page="/office/forget/T01")
    check("who is removed or forgotten has no language", stand.ask(ask="languages")["residents"] == {"T02": CODE})
    check("nor the file", not re.search("T01|T05", (stand.data / "languages").read_text(encoding="utf-8")))
    name = stand.ask(ask="backup", who="anna")["name"]
    stand.office("shut A-108")
    stand.script("rooms-office", "back", name)
    check("the way back to a copy keeps languages", stand.ask(ask="languages")["residents"] == {"T02": CODE})
    try_not_seen(stand, page)
    journal = (stand.data / "journal").read_text(encoding="utf-8")
    check("the journal is in English", OPEN not in journal, [line for line in journal.splitlines() if OPEN in line][:3])
    record = stand.ask(ask="journal", last=1, speaks=CODE)
    check("also to a clerk of another language", OPEN not in json.dumps(record, ensure_ascii=False), record)


def try_not_seen(stand, page):
    """A clerk erases the languages of people who are not in the register, and the office has gone back once more meanwhile."""
    copy, forms = stand.ask(ask="backup")["name"], []
    for person in ("N1", "N2"):
        stand.ask(ask="do", lines=[f"person {person} {key_of(person)} Person {person}"])
        stand.ask(ask="set-languages", languages={person: CODE})
        stand.script("rooms-office", "back", copy)
        forms.append(page.hidden("/office/languages", "/office/languages/strangers"))
    page.post("/office/languages/strangers", forms[0])
    left = stand.ask(ask="languages")["residents"]
    check("languages of people whom the clerk has not seen stay", left == {"T02": CODE, "N2": CODE}, left)
    page.get("/office/languages")
    stand.script("rooms-office", "back", stand.ask(ask="backups")["backups"][-1][0])
    page.post("/office/languages/strangers", forms[1])
    shown, left = page.get("/office/languages")[2], stand.ask(ask="languages")["residents"]
    check("who is back in the register keeps theirs, and the page says so", left == {"T02": CODE, "N2": CODE} and "erased." not in
          shown and "are in the register again, and keep their language: N2" in shown, (left, shown[:2500]))


def try_office_languages(program):
    """All of it."""
    try_catalogues()
    try_damaged(program)
    with tempfile.TemporaryDirectory(prefix="rooms-languages-") as folder:
        write_language(Path(folder))
        with started(program, folder) as stand:
            stand.office("open")
            try_two_clerks(stand)
            try_numbers(stand)
            try_residents(stand)


if __name__ == "__main__":
    try_office_languages(sys.argv[1])
