"""What must not get through the office's page: /usr/bin/python3 deploy/trial/office_doors.py PROGRAM.

Forged and stale forms, 1,000 random requests, two clerks at once, bad lists, markup in names, and the page or the
keeper killed.
"""

import http.client
import random
import string
import subprocess
import sys
import threading
from pathlib import Path

# The repository stays as it is.
sys.dont_write_bytecode = True

# pylint: disable=wrong-import-position  # nothing may be written before
from office_requests import Page, hand_in, multipart
from stand import PAGE, PYTHON, Stand, check, key_of, until

ROOMS = [f"A-{number}" for number in range(101, 131)]
PEOPLE = [f"T{number:02}" for number in range(1, 21)]
FIELDS = (
    "content-security-policy",
    "referrer-policy",
    "x-content-type-options",
    "cache-control",
    "cross-origin-opener-policy",
)
CHANGES = [
    "/office/step/open",
    "/office/step/cancel",
    "/office/lists",
    "/office/lists/bring",
    "/office/blank/people-1",
    "/office/person",
    "/office/person/T01/remove",
    "/office/person/T01/key",
    "/office/person/T01/name",
    "/office/person/T01/home",
    "/office/person/T01/choose",
    "/office/rooms",
    "/office/rooms/A-101/shut",
    "/office/many",
    "/office/many/do",
    "/office/undo/T01",
    "/office/given-up/20270101T000000Z",
    "/office/seed",
    "/office/draw",
    "/office/copies",
    "/office/copies/20270101T000000Z/back",
    "/office/record",
    "/office/register",
    "/office/letters",
]
READS = [
    "/office/",
    "/office/lists",
    "/office/register",
    "/office/rooms",
    "/office/draw",
    "/office/results",
    "/office/print",
    "/office/copies",
    "/office/journal",
    "/office/record",
    "/office/committee",
    "/office/committee.csv",
    "/office/many",
    "/office/second",
    "/office/moves/1",
    "/office/person/T01",
    "/office/export/people.csv",
    "/office/office.css",
    "/office/step/open",
]
NAMES = (
    "token",
    "seen",
    "kind",
    "label",
    "list",
    "held",
    "ident",
    "name",
    "room",
    "text",
    "act",
    "change",
    "code",
    "way",
    "seed",
)
# A list is read into memory: these lines take the place of the page where a temporary file would end them.
UPLOAD = """
import io, sys, tempfile
sys.path[:0] = [sys.argv[1], sys.argv[1] + "/.."]
def never(*_, **__):
    raise SystemExit("a temporary file was asked for")
tempfile.TemporaryFile = never
import app, bottle
body = sys.stdin.buffer.read()
bottle.request.bind({"REQUEST_METHOD": "POST", "CONTENT_TYPE": sys.argv[2], "CONTENT_LENGTH": str(len(body)),
                     "wsgi.input": io.BytesIO(body)})
print(len(app.list_sent()), len(app.field("text")))
"""


def rows(stand):
    """The office as it is."""
    return {name: value for name, value in stand.ask(ask="view").items() if name not in ("server", "status")}


def try_forms(stand, page):
    """Forms of other sites, of nobody, and of another clerk."""
    before = rows(stand)
    good = page.hidden("/office/lists")
    tries = {
        "without a token": ({"seen": good["seen"]}, {}),
        "with a made-up token": ({**good, "token": "0" * 64}, {}),
        "with another clerk's token": ({**good, "token": Page(stand, "bert").hidden("/office/lists")["token"]}, {}),
        "with signs that are no token": ({**good, "token": "ä€"}, {}),
        "of another site": (good, {"Sec-Fetch-Site": "cross-site"}),
    }
    for what, (form, headers) in tries.items():
        answers = {page.post(path, form, headers)[0] for path in CHANGES}
        check(f"a form {what} changes nothing", answers == {303} and rows(stand) == before, answers)
    check("a step by GET changes nothing", page.get("/office/step/open")[0] == 200 and rows(stand) == before)
    status, fields, _ = page.get("/office/")
    check(
        "each page has its policy, and no cookie",
        all(name in fields for name in FIELDS) and "set-cookie" not in fields,
        fields,
    )
    check("so has what is not there", all(name in page.get("/office/none")[1] for name in FIELDS) and status == 200)


class Chance:
    """Requests by chance, the same ones each time."""

    SIGNS = string.printable + "äß€\u202e\0"
    KINDS = ("text/plain", "multipart/form-data; boundary=x", "application/json", "multipart/form-data")
    METHODS = ("PUT", "DELETE", "POST", "HEAD", "OPTIONS")

    def __init__(self, good):
        self.random, self.good = random.Random(42), good

    def word(self):
        """Signs of all kinds."""
        return "".join(self.random.choice(self.SIGNS) for _ in range(self.random.choice((0, 1, 8, 40, 2000))))

    def path(self):
        """An address, mostly one that is there."""
        if self.random.random() < 0.8:
            return self.random.choice(READS + CHANGES)
        signs = string.ascii_letters + "%/.?=&-"
        return "/office/" + "".join(self.random.choice(signs) for _ in range(self.random.randint(0, 60)))

    def form(self):
        """A form, often one of this page, for an office that is elsewhere."""
        form = {name: self.word() for name in self.random.sample(NAMES, self.random.randint(0, 6))}
        if self.random.random() < 0.4:
            form.update(token=self.good["token"], seen="round 7 closed")
            form.pop("text", None)
        return form

    def request(self, page, path):
        """Sends a request, and gives its answer."""
        way = self.random.random()
        if way < 0.35:
            return page.get(path)
        if way < 0.7:
            return page.post(path, self.form())
        if way < 0.85:
            length = self.random.choice((0, 10, 3000))
            return page.post(path, self.form(), files={"list": self.random.randbytes(length)})
        fields = {"Content-Type": self.random.choice(self.KINDS)}
        return page.ask(self.random.choice(self.METHODS), path, self.word().encode(), fields)


def try_random(stand, page, count):
    """Random requests: each has an answer of the page's own, and nothing changes."""
    chance, before = Chance(page.hidden("/office/lists")), rows(stand)
    statuses: dict[int, int] = {}
    for number in range(count):
        path = chance.path()
        status, fields, text = chance.request(page, path)
        statuses[status] = statuses.get(status, 0) + 1
        check_answer(number, path, status, fields, text)
    told = dict(sorted(statuses.items()))
    check(f"{count} random requests have an answer, and change nothing: {told}", rows(stand) == before)
    check("the page has noted no fault of its own", "rooms-page:" not in stand.log("page"), stand.log("page")[-2000:])


def check_answer(number, path, status, fields, text):
    """Whether an answer is one of the page's own."""
    if status not in (200, 303, 400, 403, 404, 405, 413, 431, 501, 503) or "Traceback" in text:
        check(f"request {number}, {path!r}, is answered", False, (status, fields, text[:300]))


def try_lists(stand, page):
    """Bad lists are answered with what to do, and the residents' server is not stopped; lists stay in memory."""
    before, server = rows(stand), stand.server()
    lists = {
        "another header": (b"rome;x\nA-1\n", "does not name the columns"),
        "an umlaut": ("room\nZ-1\nÄ\n".encode("latin-1"), "well written"),
        "UTF-16": ("room\nA-101\n".encode("utf-16"), "in the register already"),
        "a room twice": (b"room\nZ-1\nZ-1\n", "in row 2 of this list already"),
        "a point": (b"room\nz.1\n", "capital letters"),
        "too many fields": (b"room\nZ-1,\n", "more or fewer fields"),
        "a null": (b"room\nZ-1\0\n", "well written"),
        "an open quote": (b'room\n"Z-1\nZ-2\n', "well written"),
        "too long": (b"room\n" + b"Z-1\n" * 300_000, "longer than 262,144 bytes"),
        "too many lines": (b"room\n" + b"Z-1\n" * 20_000, "more than 10,000 records"),
        "nothing": (b"", "Choose a list first"),
    }
    for name, (body, text) in lists.items():
        status, _, shown = page.form("/office/lists", {"kind": "rooms", "label": "bad"}, files={"list": body})
        if status == 303:
            shown = page.get("/office/lists")[2]
        check(f"a list with {name} reads: {text}", text in shown, (status, shown[:1500]))
    check("the server was not stopped, and nothing was imported", stand.server() == server and rows(stand) == before)
    _, _, shown = page.form(
        "/office/lists", {"kind": "rooms", "label": "rows"}, files={"list": b"room\n\n\nZ-1\nz.2\n\nZ.3\n"}
    )
    check(
        "rows are those of the spreadsheet, with empty lines", ">5</td>" in shown and ">7</td>" in shown, shown[-2500:]
    )
    kind = "multipart/form-data; boundary=edge-of-a-part-8472"
    body = multipart({"text": "y" * 90_000}, {"list": b"x" * 250_000})
    done = subprocess.run([PYTHON, "-c", UPLOAD, PAGE.parent, kind], input=body, capture_output=True, check=False)
    check("a list of 250,000 bytes is held in memory alone", done.stdout.split() == [b"250000", b"90000"], done)


def try_keys(page):
    """A key where none belongs is not shown."""
    key = key_of("T01")
    body = f"person,name,key,home\nX1,Ann, Li,{key},\n{key},Bo,,\nX2,Cy,{key.upper()} no,\n".encode()
    shown = page.form("/office/lists", {"kind": "people", "label": "keys"}, files={"list": body})[2]
    check("no key of a bad list is shown", key not in shown.lower() and shown.count("(key)") > 3, shown[-2500:])
    shown = page.form("/office/many", {"act": "remove", "text": f"T01 {key}"}, page="/office/many")[2]
    check("nor one among identifiers", key not in shown.lower() and "(key)" in shown, shown[-2500:])
    page.form("/office/lists", {"kind": "rooms", "label": f"x-{key}"}, files={"list": b"room\nZ-1\n"})
    shown = page.get("/office/lists")[2]
    check("nor one for a label", key not in shown and "may be a key" in shown, shown[:1500])


def try_markup(stand, page):
    """Markup in names and lines stays text; a line cannot hide another, nor an option."""
    page.form("/office/person", {"ident": "X1", "name": "Eve <script>alert(1)</script>"}, page="/office/register")
    shown = page.get("/office/person/X1")[2]
    check("markup in a name is text", "&lt;script&gt;" in shown and "<script>" not in shown, shown[:1500])
    before = rows(stand)
    for text in ("A-102\nroom Z-9", "--db /etc/passwd", "A-102 A-103", "-h", "A-102;open"):
        page.form("/office/person/X1/home", {"text": text}, page="/office/person/X1")
    check("a room's field takes a room alone", rows(stand) == before)
    for path in (
        "/office/../etc/passwd",
        "/office/%2e%2e/app.py",
        "/office/office.css/../app.py",
        "/office/export/..%2fkeeper.csv",
    ):
        status, _, text = page.get(path)
        check(f"{path} leads nowhere", status in (400, 404) and "import " not in text, (status, text[:100]))


def try_two_clerks(stand, anna, bert):
    """The older form of two is refused with the reason; changes at the same time all take effect."""
    bert.form("/office/step/open", page="/office/step/open")
    old = anna.hidden("/office/step/cancel")
    bert.form("/office/step/close", page="/office/step/close")
    anna.post("/office/step/cancel", old)
    check("the older form of two clerks changes nothing", rows(stand)["phase"] == "closed")
    check("and says why", "has gone on" in anna.get("/office/")[2])
    anna.form("/office/step/cancel", page="/office/step/cancel")
    forms = [(clerk, clerk.hidden("/office/rooms"), f"N-{number}") for number, clerk in enumerate([anna, bert] * 6)]
    threads = [
        threading.Thread(target=clerk.post, args=("/office/rooms", {**form, "change": "room", "code": code}))
        for clerk, form, code in forms
    ]
    for thread in threads:
        thread.start()
    for thread in threads:
        thread.join()
    codes = {row[0] for row in rows(stand)["rooms"]}
    check("12 changes at once by two clerks all take effect", codes >= {code for _, _, code in forms}, codes)
    bert.get("/office/")
    anna.form("/office/register", {"text": "T05"}, page="/office/register")
    check(
        "a search is its clerk's own",
        'value="T05"' in anna.get("/office/register")[2] and 'value="T05"' not in bert.get("/office/register")[2],
    )


def try_burst(stand, page):
    """All residents hand in at once while the clerk closes the round. What was answered is in effect."""
    page.form("/office/step/open", page="/office/step/open")
    answers, lists = {}, {person: ROOMS[number : number + 5] for number, person in enumerate(PEOPLE)}

    def resident(person):
        answers[person] = [hand_in(stand, key_of(person), lists[person]) for _ in range(3)]

    threads = [threading.Thread(target=resident, args=(person,)) for person in PEOPLE]
    for thread in threads:
        thread.start()
    page.form("/office/step/close", page="/office/step/close")
    for thread in threads:
        thread.join()
    kept = stand.ask(ask="view")["choices"]
    check("the clerk closes the round during a burst", rows(stand)["phase"] == "closed")
    statuses = [status for given in answers.values() for status in given]
    check(
        f"{statuses.count(200)} lists were handed in, {statuses.count(409)} residents read that the round is closed",
        set(statuses) <= {200, 409} and all(kept.get(one) == lists[one] for one in PEOPLE if 200 in answers[one]),
        statuses,
    )
    page.form("/office/step/cancel", page="/office/step/cancel")


def try_kills(stand, page):
    """The page or the keeper is killed: the clerk reads so, and old forms change nothing."""
    old = page.hidden("/office/step/open")
    stand.page.kill()
    stand.page.wait()
    check("without the page the clerk gets an answer of the proxy", page.get("/office/")[0] in (502, 503, 504))
    stand.start_page()
    until(lambda: page.get("/office/")[0] == 200, 20, "the page")
    page.post("/office/step/open", old)
    check(
        "a form of before the restart changes nothing, and says so",
        rows(stand)["phase"] == "idle" and "before the page was restarted" in page.get("/office/")[2],
    )
    form = page.hidden("/office/step/open")
    stand.kill_keeper()
    status, _, text = page.get("/office/")
    check("without the keeper the page says so", status == 503 and "keeper" in text, (status, text[:300]))
    status, _, text = page.post("/office/step/open", form)
    stand.start_keeper()
    news = page.get("/office/")[2]
    check(
        "after a step without the keeper the page says that nobody knows",
        "Nobody knows" in news and rows(stand)["phase"] == "idle",
        (status, news),
    )
    stops = threading.Thread(target=lambda: suppressed(page, form))
    stops.start()
    stand.kill_keeper()
    stops.join()
    stand.start_keeper()
    phase, news = rows(stand)["phase"], page.get("/office/")[2]
    check(
        f"a keeper killed in a step leaves it done or not ({phase}), and the page says so",
        phase in ("idle", "open") and ("Nobody knows" in news or "Round 1 is open" in news or "is open" in news),
        news,
    )


def suppressed(page, form):
    """A step during which the keeper is killed."""
    try:
        page.post("/office/step/open", form)
    except (OSError, http.client.HTTPException):
        pass


def try_office_doors(program, requests=1000):
    """All of it, with so many random requests."""
    with Stand(program) as stand:
        stand.fill(ROOMS, PEOPLE)
        stand.start()
        stand.start_page()
        stand.start_proxy()
        anna, bert = Page(stand), Page(stand, "bert")
        try_forms(stand, anna)
        try_lists(stand, anna)
        try_keys(anna)
        try_markup(stand, anna)
        try_random(stand, anna, requests)
        try_two_clerks(stand, anna, bert)
        try_burst(stand, anna)
        try_kills(stand, anna)
        check("no wrong password came to the page", "Authorization" not in stand.log("page"))


if __name__ == "__main__":
    if len(sys.argv) != 2 or not Path(sys.argv[1]).exists():
        sys.exit("usage: /usr/bin/python3 deploy/trial/office_doors.py PROGRAM")
    try_office_doors(sys.argv[1])
