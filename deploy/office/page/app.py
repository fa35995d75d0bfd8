"""The frame of all pages: who asks, whether a form is this page's own, the headers, and what a clerk reads next.

HAProxy is in front of the page. It checks the clerk's password and names the clerk in the field X-Office-User; nobody
else can open the page's socket. The page has no script: all is HTML and forms. Each form carries a token, and the
state of the round when the form was made.
"""

import functools
import hashlib
import hmac
import io
import os
import re
import secrets
import sys
import time
import traceback
from collections.abc import Callable, Iterable
from pathlib import Path
from typing import Any, NoReturn

import bottle  # type: ignore[import]  # Debian's bottle has no types
from bottle import HTTPResponse, request

import times
from languages import ENGLISH, N_, _, accepted, first_of, languages, speak, spoken
from meanings import Meaning

import keeper_client
import plain
import presses
import views
from codes import unbroken
from keeper_client import Answer, KeeperFault, Unsure, WasAnothers
from memory import Memory
from office_view import Office
from sheet_books import is_book
from sheet_limits import LONGEST_FILE, TOO_BIG

HERE = Path(__file__).resolve().parent
# As in haproxy.cfg. A list that is too long comes as far as this page, which says so: where the proxy answers before all
# of a body is there, some clients of HTTP/2, such as curl, report a failure in place of the answer.
LONGEST_FORM = 5_000_000
HEADERS = {
    "Content-Security-Policy": "default-src 'none'; style-src 'self'; img-src 'self' data:; form-action 'self'; "
                               "base-uri 'none'; frame-ancestors 'none'",
    "Referrer-Policy": "same-origin",
    "X-Content-Type-Options": "nosniff",
    "Cache-Control": "no-store",
    "Cross-Origin-Opener-Policy": "same-origin",
    "Cross-Origin-Resource-Policy": "same-origin",
}
FAILED = N_("The page failed at this request. Look in the journal whether anything was changed.")
STALE = N_("This form was made before the page was restarted, or on another page. Nothing was changed. Fill it in again. "
           "If you printed slips for a list that is not in yet, destroy them: they do not work.")

LANGUAGE_SECONDS = 5.0  # for which a page waits for the language of its clerk

# A host as a browser names it, with its port if that is another than HTTPS has.
HOST = re.compile(r"[A-Za-z0-9.-]+(:[0-9]+)?")

# How residents reach their page. Only rooms-demo, on the machine itself, has no TLS.
SCHEME = os.environ.get("ROOMS_SCHEME", "https")

# A form that was made before a restart has another token, and is refused.
SECRET = secrets.token_bytes(32)

app = bottle.Bottle()
memory = Memory()


# --- who asks

def began() -> float:
    """When this request began: it tells one request from another."""
    return float(request.environ["rooms.began"])


def clerk() -> str:
    """The clerk whom HAProxy names."""
    return str(request.get_header("X-Office-User", ""))


def token() -> str:
    """What makes a form this clerk's own."""
    return hmac.new(SECRET, clerk().encode(), "sha256").hexdigest()


def language_of_clerk() -> str:
    """The language that the clerk has chosen, by the keeper, or else the first one of the browser's that there is."""
    chosen = memory.language(clerk()) if clerk() else ""
    if chosen is None:
        try:
            chosen = str(keeper_client.ask("language", clerk(), patience=LANGUAGE_SECONDS)["language"])
            memory.language(clerk(), chosen)
        except (KeeperFault, KeyError):  # it is asked again at the next page, which says what is wrong if it needs the keeper
            chosen = ""
    return chosen if chosen in languages() else first_of(accepted(str(request.get_header("Accept-Language", ""))))


@app.hook("before_request")
def guard() -> None:
    """Lets in named clerks, and forms of this page alone: a form of another site has no token."""
    request.environ["rooms.began"] = time.monotonic()
    speak(language_of_clerk())
    if not clerk():
        bottle.abort(403, "no clerk")
    if request.method != "POST":
        return
    try:
        sent = field("token")
    except ValueError:  # of a body that is no form
        bottle.abort(400, "no form")
    site = request.get_header("Sec-Fetch-Site", "same-origin")
    if site != "same-origin" or not hmac.compare_digest(sent.encode(), token().encode()):
        tell("bad", _(STALE))
        go_to("/office/")


def residents_page() -> str:
    """The address of the residents' page, which has the host of this page; nothing if the browser names no host."""
    host = str(request.get_header("Host", ""))
    return f"{SCHEME}://{host}/" if HOST.fullmatch(host) else ""


# --- forms and answers

def field(name: str) -> str:
    """A field of a form as it was sent."""
    return request.forms.getunicode(name) or ""  # pylint: disable=no-member  # bottle makes it when it is asked for


def ticked(name: str) -> list[str]:
    """The values of the boxes of this name that are ticked in a form."""
    return [str(value) for value in request.forms.getall(name)]  # pylint: disable=no-member  # as above


def text_of(name: str) -> str:
    """A field of a form, with one space in place of many."""
    return " ".join(field(name).split())


def list_sent() -> bytes:
    """The bytes of a list in a form. One that is too long is cut behind the limit."""
    upload = request.files.get("list")  # pylint: disable=no-member  # bottle makes it when it is asked for
    return bytes(upload.file.read(LONGEST_FILE + 1)) if upload else b""


def why_not_read(body: bytes, too_long: str = plain.TOO_LONG) -> str:
    """Why the bytes of a list are not looked at, or nothing. Of a workbook that is too long nobody knows how long its list is."""
    if not body:
        return _("Choose a list first.")
    if len(body) <= LONGEST_FILE:
        return ""
    return str(Meaning(TOO_BIG.says, TOO_BIG.to_do).translated()) if is_book(body) else _(too_long)


def uploads_of(name: str) -> list[tuple[str, bytes]]:
    """The files of a field that takes several, each with its name in plain letters. HAProxy bounds them together."""
    return [(str(one.filename)[:60], bytes(one.file.read()))
            for one in request.files.getall(name)]  # pylint: disable=no-member  # as above


def tell(kind: str, text: str) -> None:
    """Keeps a piece of news for the clerk's next page."""
    memory.tell(clerk(), kind, text, began())
    presses.note(kind, text)


def go_to(address: str) -> NoReturn:
    """Leads the browser to another page."""
    raise HTTPResponse(status=303, headers={"Location": address})


def show(view: str, back: str | None = None, **values: Any) -> str:
    """A page of a template. `back` is the address to which its clerk is led after choosing another language: that of the page,
    unless it is given. If it is empty, the page offers no choice."""
    # News is for a page that the clerk sees, and not for one that another site loads in a picture's place.
    news = memory.news(clerk(), began()) if request.get_header("Sec-Fetch-Dest", "document") == "document" else []
    values = {"office": None, **values}
    if back is None:
        back = f"{request.path}?{request.query_string}".removesuffix("?") if request.method == "GET" else ""
    return views.render(view, back=back, token=token(), press=secrets.token_hex(8), clerk=clerk(), plain=plain, times=times,
                        unbroken=unbroken, news=news, here=request.path, **values)


def download(body: str | bytes, name: str, kind: str = "text/csv; charset=utf-8") -> HTTPResponse:
    """A file for the clerk to keep."""
    data = body.encode() if isinstance(body, str) else body
    return HTTPResponse(data, 200, {"Content-Type": kind, "Content-Disposition": f'attachment; filename="{name}"'})


# --- the keeper

def ask(question: str, **fields: Any) -> dict[str, Any]:
    """Asks the keeper in this clerk's name."""
    return keeper_client.ask(question, clerk(), **fields)


def not_done(fault: KeeperFault) -> str:
    """Why the keeper has not done something; or what went wrong, if nobody knows whether it has."""
    why = plain.begun(str(fault))
    return why if isinstance(fault, Unsure) else _("This could not be done. {why}", why=why)


def tell_fault(fault: KeeperFault) -> None:
    """Tells the clerk so."""
    tell("bad", not_done(fault))


def is_done(question: str, **fields: Any) -> bool:
    """Whether the keeper has done what it was asked to do; else the clerk reads why not."""
    try:
        ask(question, **fields)
    except KeeperFault as fault:
        tell_fault(fault)
        return False
    return True


def office_now() -> Office:
    """The office at this moment."""
    return Office(ask("view"))


def attempt(*lines: str) -> list[Answer]:
    """What the program answers to these lines, on a copy that is thrown away."""
    return keeper_client.answers_of(ask("try", lines=list(lines)))


def drawn_order() -> list[tuple[str, str, str, str]]:
    """The drawn order: place, word, identifier, grade."""
    rows = [line.split() for line in attempt("order")[0].text.splitlines()]
    return [(place, word, ident, grade[-1] if grade else "0") for place, word, ident, *grade in rows]


def saw(part: str, *people: str) -> list[Any]:
    """What the clerk saw of people, by the mark in the form."""
    return [part, people, field("saw")]


def change(question: str, **fields: Any) -> bool:
    """Changes the office, and shows the clerk the outcome. Returns whether all of it was carried out. Who brings people in asks
    the clerk whether they are the same ones."""
    try:
        reply = ask(question, seen=field("seen"), **fields)
    except WasAnothers:
        raise
    except KeeperFault as fault:
        tell_fault(fault)
        return False
    answers = keeper_client.answers_of(reply)
    last = answers[-1]
    if reply["done"]:
        tell("good", plain.done(last.text))
    else:
        tell("bad", plain.not_done(reply.get("made", 0), *last))
    tell_unkept(reply)
    return bool(reply["done"])


def tell_unkept(reply: dict[str, Any]) -> None:
    """Tells the clerk what is left to be done of something that the keeper has done."""
    if reply.get("unkept"):
        tell("bad", plain.begun(reply["unkept"]))


# --- a form that is sent twice

forms = presses.Presses()


def once(callback: Callable[..., Any]) -> Callable[..., Any]:
    """Answers a second press of the same form as the first one, without carrying it out."""
    @functools.wraps(callback)
    def pressed(*words: Any, **named: Any) -> Any:
        if request.method != "POST" or not field("press"):
            return callback(*words, **named)
        body = hashlib.sha256(request.body.read()).hexdigest()  # pylint: disable=no-member  # as above
        outcome, is_first = forms.first(f"{clerk()} {request.path} {body}")
        if is_first:
            carry_out(outcome, callback, *words, **named)
        elif outcome.done.wait(presses.PATIENCE) and isinstance(outcome.answer, HTTPResponse):
            memory.tell_again(clerk(), outcome.news, str(outcome.answer.get_header("Location", "")).rpartition("/")[2])
        answer = outcome.answer
        if answer is None:
            return HTTPResponse(down(_(FAILED), True), 500)
        return HTTPResponse(answer.body, answer.status_line, answer.headerlist) if isinstance(answer, HTTPResponse) else answer
    return pressed


def carry_out(outcome: presses.Outcome, callback: Callable[..., Any], *words: Any, **named: Any) -> None:
    """Carries out what a form asks for, and keeps the answer for a second press."""
    presses.collect(outcome.news)
    answer = None
    try:
        answer = callback(*words, **named)
    except HTTPResponse as led:
        answer = led
    finally:
        presses.collect(None)
        outcome.end(answer)


app.install(once)


# --- what goes wrong

def down(why: str, unsure: bool = False) -> str:
    """The page of what cannot be shown or done, or of which nobody knows whether it was done. Who only wanted to read something has
    nothing to look for."""
    return views.render("down", plain=plain, why=plain.begun(why), unsure=unsure, pressed=unsure or request.method == "POST")


def tell_keeper_faults(callback: Callable[..., Any]) -> Callable[..., Any]:
    """Shows the keeper's fault in place of a page that needs it."""
    @functools.wraps(callback)
    def shown(*words: Any, **named: Any) -> Any:
        try:
            return callback(*words, **named)
        except KeeperFault as fault:
            return HTTPResponse(down(str(fault), request.method == "POST" and isinstance(fault, Unsure)), 503)
    return shown


app.install(tell_keeper_faults)


@app.error(403)
@app.error(404)
@app.error(405)
@app.error(413)
@app.error(400)
def refused(error: bottle.HTTPError) -> str:
    """The page of a request that leads nowhere."""
    texts = {404: _("There is no such page."), 405: _("There is no such page."), 403: _("The proxy names no clerk."),
             413: _(plain.TOO_LONG)}
    return down(texts.get(error.status_code, _("The page does not understand this request.")))


class Guarded:  # pylint: disable=too-few-public-methods  # a WSGI application is one method
    """The app with its headers on each answer. A fault of the page leaves its place in the log, and no value. No request
    speaks the language of the one that its thread answered before."""

    def __init__(self, inner: Callable[..., Iterable[bytes]]) -> None:
        self.inner = inner

    def __call__(self, environ: dict[str, Any], start_response: Callable[..., Any]) -> Iterable[bytes]:
        def start(status: str, headers: list[tuple[str, str]], exc_info: Any = None) -> Any:
            own = [(name, value) for name, value in headers if name not in HEADERS]
            own += [("Content-Language", spoken())] if "text/html" in dict(headers).get("Content-Type", "") else []
            return start_response(status, [*own, *HEADERS.items()], exc_info)
        speak(ENGLISH)
        try:
            return self.inner(environ, start)
        except Exception as fault:  # pylint: disable=broad-except  # the clerk gets a page whatever went wrong
            place = traceback.extract_tb(fault.__traceback__)[-1]
            where = f"{Path(place.filename).name}:{place.lineno}"
            print(f"rooms-page: {type(fault).__name__} at {where}", file=sys.stderr, flush=True)
            body = down(_(FAILED), True).encode()
            start("500 Internal Server Error",
                  [("Content-Type", "text/html; charset=utf-8"), ("Content-Length", str(len(body)))])
            return [body]


def keep_uploads_in_memory() -> None:
    """Lists have keys. By itself Python's `cgi`, which bottle 0.12 uses, would put them into a file below /tmp."""
    bottle.BaseRequest.MEMFILE_MAX = LONGEST_FORM
    if hasattr(bottle, "cgi"):
        bottle.cgi.FieldStorage.make_file = lambda self: (
            io.BytesIO() if getattr(self, "_binary_file") else io.StringIO(newline="\n"))


app.catchall = False
keep_uploads_in_memory()
