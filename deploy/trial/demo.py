"""`rooms-demo`: the made-up college is there, for this machine alone, and nothing of it is left when it is ended, however
that comes about.

This run alone: /usr/bin/python3 deploy/trial/demo.py PROGRAM
"""

import base64
import contextlib
import gzip
import http.client
import io
import json
import os
import re
import runpy
import shutil
import signal
import socket
import subprocess
import sys
import tempfile
import threading
import time
from functools import partial
from pathlib import Path
from typing import Any
from unittest import mock
from urllib.parse import urlencode

from stand import DEPLOY, PYTHON, check, command_of, fail, free_ports, until

LAST_LINE = "Ctrl-C"
SECONDS = 120  # on a busy machine
NOBODY = 65534
PEOPLE, NEWCOMERS = 60, 11  # of the made-up college, as its guide says


def for_nobody(program, holder):
    """The command and the program, where an account without rights can read them: root's folders may be closed to it."""
    holder.chmod(0o755)
    command, program = DEPLOY / "rooms-demo", Path(program).resolve()
    words = ["sh", "-c", 'test -r "$0" && test -x "$1"', str(command), str(program)]
    if os.geteuid() != 0 or subprocess.run(words, check=False, user=NOBODY, group=NOBODY, extra_groups=[]).returncode == 0:
        return command, program
    shutil.copytree(DEPLOY, holder / "deploy", ignore=shutil.ignore_patterns("trial", "package", "__pycache__"))
    subprocess.run(["chmod", "-R", "a+rX", holder / "deploy"], check=True)
    shutil.copy(program, holder / "rooms")
    return holder / "deploy/rooms-demo", holder / "rooms"


class Demo:
    """A run of the command, with a folder of its own for temporary files."""

    def __init__(self, program, **more):
        # pylint: disable=consider-using-with  # both end with this block
        self.holder = tempfile.TemporaryDirectory(prefix="rooms-trial-")
        self.folder = Path(self.holder.name) / "temporary"
        self.folder.mkdir()
        command, program = for_nobody(program, Path(self.holder.name))
        environment = {**os.environ, "ROOMS_PROGRAM": str(program), "TMPDIR": str(self.folder), **more}
        other: dict[str, Any] = {}
        if os.geteuid() == 0:
            os.chown(self.folder, NOBODY, NOBODY)
            other = {"user": NOBODY, "group": NOBODY, "extra_groups": []}
        self.began = time.monotonic()
        # A group of its own, as a shell gives it to what is typed: a key on the terminal reaches all of the group.
        self.process: Any = subprocess.Popen([PYTHON, str(command)], env=environment, start_new_session=True,
                                             cwd="/", text=True, stdout=subprocess.PIPE, stderr=subprocess.STDOUT, **other)
        self.said = ""

    def __enter__(self):
        return self

    def __exit__(self, *_):
        if self.process.poll() is None:
            self.process.terminate()
        self.process.communicate(timeout=SECONDS)
        self.holder.cleanup()

    def wait_for_welcome(self):
        """Waits until all is there, and says how long that took."""
        timer = threading.Timer(SECONDS, self.process.kill)
        timer.start()
        for line in self.process.stdout:
            self.said += line
            if LAST_LINE in line:
                break
        timer.cancel()
        if LAST_LINE not in self.said:
            fail(f"rooms-demo did not start: {self.said!r}")
        return time.monotonic() - self.began

    def found(self, pattern):
        """What it has printed of this form."""
        return re.findall(pattern, self.said)

    @property
    def port(self):
        """The port of both pages."""
        return int(self.found(r"http://127\.0\.0\.1:(\d+)/office/")[0])

    def ask(self, method, path, body=None, **fields):
        """The status and the text of an answer."""
        with contextlib.closing(http.client.HTTPConnection("127.0.0.1", self.port, timeout=SECONDS)) as connection:
            connection.request(method, path, body, {name.replace("_", "-"): value for name, value in fields.items()})
            answer = connection.getresponse()
            if answer.status == 303:
                return self.ask("GET", answer.headers["Location"], **fields)
            data = answer.read()
            return answer.status, (gzip.decompress(data) if answer.headers["Content-Encoding"] == "gzip" else data).decode()

    def family(self):
        """The processes of it: each has an ancestor among them."""
        parents = {}
        for one in Path("/proc").iterdir():
            with contextlib.suppress(OSError, ValueError):
                words = (one / "stat").read_text(encoding="ascii", errors="replace").rpartition(")")[2].split()
                parents[int(one.name)] = int(words[1])
        found = {self.process.pid}
        while more := {child for child, parent in parents.items() if parent in found} - found:
            found |= more
        return found

    def listening(self):
        """The addresses at which its processes listen, as the system has them: an address of IPv4 in hexadecimal, and a port."""
        inodes = set()
        for process in self.family():
            with contextlib.suppress(OSError):
                for held in Path(f"/proc/{process}/fd").iterdir():
                    with contextlib.suppress(OSError):
                        inodes.add(os.readlink(held).removeprefix("socket:[").removesuffix("]"))
        found = set()
        for table in ("tcp", "tcp6", "udp", "udp6"):
            for row in Path(f"/proc/net/{table}").read_text(encoding="ascii").splitlines()[1:]:
                words = row.split()
                if words[9] in inodes and words[3] in ("0A", "07"):
                    found.add(tuple(words[1].split(":")))
        return found

    def finish(self, what, status, send):
        """Ends it by a signal, and looks whether anything is left."""
        family, ports = self.family(), [int(port, 16) for _, port in self.listening()]
        send()
        rest = self.process.stdout.read()
        self.process.wait(SECONDS)
        check(f"{what}: it ends with status {status}", self.process.returncode == status, (self.process.returncode, rest))
        left = [command_of(process) for process in family if Path(f"/proc/{process}").exists()]
        check(f"{what}: no process is left of {len(family)}", not left, left)
        check(f"{what}: no file is left", not list(self.folder.iterdir()), list(self.folder.iterdir()))
        for port in ports:
            with socket.socket() as probe:
                probe.setsockopt(socket.SOL_SOCKET, socket.SO_REUSEADDR, 1)
                probe.bind(("127.0.0.1", port))
        check(f"{what}: its {len(ports)} ports are free", True)
        return rest


def look_at_office(demo):
    """The clerk's page, by the password that was printed."""
    name, password = demo.found(r"name (\w+), password (\w+)")[0]
    sign_in = {"Authorization": "Basic " + base64.b64encode(f"{name}:{password}".encode()).decode()}
    wrong = {"Authorization": "Basic " + base64.b64encode(f"{name}:{password}x".encode()).decode()}
    check("without a password no clerk's page", demo.ask("GET", "/office/")[0] == 401)
    check("nor with a wrong one", demo.ask("GET", "/office/", **wrong)[0] == 401)
    status, text = demo.ask("GET", "/office/", **sign_in)
    check("with it the overview", status == 200 and "Round 1" in text and "open" in text, (status, text[:600]))
    status, text = demo.ask("GET", "/office/export/people.csv", **sign_in)
    people = text.strip().splitlines()[1:]
    check("the register has its people", status == 200 and len(people) == PEOPLE, (status, text[:300]))
    return sign_in


def look_at_residents(demo, sign_in):
    """The residents' page, and the three residents: one with a list, one without, one without a room."""
    status, text = demo.ask("GET", "/")
    check("the residents' page, with the notice", status == 200 and "made-up college" in text, (status, text[:300]))
    status, text = demo.ask("GET", "/rooms.csv")
    check("what it says of rooms", status == 200 and text.startswith("room,house,"), (status, text[:100]))
    keys = demo.found(r"([0-9a-z]{16})   (.+) \((S\d+)\)")
    check("three keys are shown", len(keys) == 3, demo.said)
    records = []
    for key, name, person in keys:
        status, text = demo.ask("GET", "/me", Room_Key=key)
        record = json.loads(text)
        check(f"the key of {person} is theirs", status == 200 and (record["person"], record["name"]) == (person, name), text)
        records.append(record)
    has = [(bool(record["choices"]), record["home"] is not None) for record in records]
    check("with a list, with a home, and new", has == [(True, True), (False, True), (has[2][0], False)], records)
    wanted = records[0]["choices"][:2]
    status, text = demo.ask("PUT", "/me/choices", json.dumps(wanted), Room_Key=keys[1][0])
    check("a resident hands in a list", status == 200, (status, text))
    status, text = demo.ask("GET", f"/office/person/{keys[1][2]}", **sign_in)
    check("and the clerk sees it", status == 200 and all(room in text for room in wanted), (status, text[:300]))


def look_at_slip(demo, sign_in):
    """A new key on a slip, which names the residents' page as it is reached here."""
    path = f"/office/person/{demo.found(r'[(](S[0-9]+)[)]')[2]}/key"
    hidden = dict(re.findall(r'<input type="hidden" name="(\w+)" value="([^"]*)"', demo.ask("GET", path, **sign_in)[1]))
    status, text = demo.ask("POST", path, urlencode(hidden), Content_Type="application/x-www-form-urlencoded", **sign_in)
    check("a slip leads to this residents' page", status == 200 and f"http://127.0.0.1:{demo.port}/" in text, (status, text[:2000]))


def runs(program):
    """By Ctrl-C, which reaches all that the terminal has in front, and by a signal to the command, as another account."""
    with Demo(program) as demo:
        print(f"      it was there after {demo.wait_for_welcome():.1f} s")
        addresses = demo.listening()
        is_own = {one for one, _ in addresses} == {"0100007F"} and len(addresses) == 2
        check("it listens at two ports of 127.0.0.1 alone", is_own, addresses)
        sign_in = look_at_office(demo)
        look_at_residents(demo, sign_in)
        look_at_slip(demo, sign_in)
        demo.finish("Ctrl-C", 0, lambda: os.killpg(demo.process.pid, signal.SIGINT))
    with Demo(program) as demo:
        demo.wait_for_welcome()
        look_at_office(demo)
        demo.finish("SIGTERM", 0, demo.process.terminate)


def has_begun(demo, name):
    """Whether a file of the start is there."""
    return any(demo.folder.glob(f"rooms-demo-*/{name}"))


def beside_an_office(program):
    """On a machine with an office, whose places the environment names here: it has nothing of that office, and changes none."""
    with tempfile.TemporaryDirectory() as holder:
        told, mail = Path(holder) / "told", Path(holder) / "mail.conf"
        told.mkdir()
        (told / "told.json.gz").write_bytes(b"the real office's")
        (told / f"{'a' * 32}.jpg").write_bytes(b"a picture of it")
        mail.write_text("[mail]\nfrom = Housing office <housing@college.example>\n", encoding="utf-8")
        for one in (Path(holder), told, mail, *told.iterdir()):
            one.chmod(0o777)
        with Demo(program, ROOMS_TOLD=str(told), ROOMS_MAIL=str(mail), ROOMS_ACCOUNT_SOCKET=f"{holder}/keys.sock") as demo:
            demo.wait_for_welcome()
            sign_in = look_at_office(demo)
            keeper = next(one for one in demo.family() if any("keeper.py" in word for word in command_of(one)))
            words = dict(word.split("=", 1) for word in Path(f"/proc/{keeper}/environ").read_text("utf-8").split("\0") if word)
            places = {name: words.get(f"ROOMS_{name}", "") for name in ("FILE", "TOLD", "MAIL", "SOCKET", "SCRATCH")}
            check("each place of its keeper is in its folder", all(one.startswith(str(demo.folder)) for one in places.values())
                  and "ROOMS_ACCOUNT_SOCKET" not in words, places)
            check("it sends no mail", 'href="/office/mail"' not in demo.ask("GET", "/office/", **sign_in)[1])
            write_notice(demo, sign_in)
            demo.finish("SIGTERM", 0, demo.process.terminate)
        left = sorted(one.read_bytes() for one in told.iterdir())
        check("what residents of the office read is as it was", left == [b"a picture of it", b"the real office's"], left)


def write_notice(demo, sign_in):
    """A clerk writes a notice, which residents of the made-up college read."""
    text = demo.ask("GET", "/office/told", **sign_in)[1]
    form = next(one for one in text.split("<form")[1:] if 'name="notice-en"' in one)
    path = re.findall(r'action="([^"]+)"', form)[0]
    hidden = dict(re.findall(r'<input type="hidden" name="(\w+)" value="([^"]*)"', form))
    fields = urlencode({**hidden, "notice-en": "Mind the paint", "contact": ""})
    demo.ask("POST", path, fields, Content_Type="application/x-www-form-urlencoded", **sign_in)
    status, text = demo.ask("GET", "/told/told.json")
    check("a clerk's notice is read there", status == 200 and "Mind the paint" in text, (status, text[:300]))


def refused_names(program):
    """Root is refused, and so is a folder whose name HAProxy does not take; nothing is left."""
    with tempfile.TemporaryDirectory() as holder:
        environment = {**os.environ, "ROOMS_PROGRAM": str(Path(program).resolve()), "TMPDIR": holder}
        if os.geteuid() == 0:
            words = [PYTHON, str(DEPLOY / "rooms-demo")]
            done = subprocess.run(words, env=environment, capture_output=True, text=True, check=False)
            is_clean = not list(Path(holder).iterdir())
            check("root is refused", done.returncode == 1 and "not by root" in done.stderr and is_clean, done)
        spaced = Path(holder) / "a folder"
        spaced.mkdir()
        for one in (Path(holder), spaced):
            one.chmod(0o777)
        with Demo(program, TMPDIR=str(spaced)) as demo:
            said = demo.process.communicate(timeout=SECONDS)[0]
            check("a folder with a space is refused by name", demo.process.returncode == 1 and "TMPDIR" in said
                  and "HAProxy takes no folder" in said and not list(spaced.iterdir()), said)


def few_ports():
    """Where the system gives nearly all ports to connections, ports are found too."""
    for lowest in (2000, 1024, 32768):
        with tempfile.NamedTemporaryFile("w") as held:
            held.write(f"{lowest}\t65535\n")
            held.flush()
            with mock.patch("ports.RANGE", Path(held.name)):
                found = free_ports(4)
        check(f"four ports, where connections have those from {lowest} on", len(set(found)) == 4 and min(found) >= 1024, found)


def ended_early(program):
    """A signal in the middle of the start: once there is the folder, HAProxy, the office's file, or the keeper."""
    for name in ("", "haproxy.log", "office/rooms.db", "keeper.log"):
        with Demo(program) as demo:
            until(partial(has_begun, demo, name), SECONDS, f"the start of {name}")
            demo.finish(f"SIGTERM at {name or 'the folder'}", 0, demo.process.terminate)


def part_ends(program):
    """A part that ends by itself ends the rest, and is named."""
    with Demo(program) as demo:
        demo.wait_for_welcome()
        proxies = [process for process in demo.family() if "haproxy" in command_of(process)[0]]
        check("it has one HAProxy", len(proxies) == 1, proxies)
        rest = demo.finish("HAProxy is killed", 1, lambda: os.kill(proxies[0], signal.SIGKILL))
        check("and it says so", "haproxy has ended" in rest, rest)


def killed(program):
    """If the command itself is killed, what it started goes with it; only its folder stays."""
    with Demo(program) as demo:
        demo.wait_for_welcome()
        family = demo.family() - {demo.process.pid}
        demo.process.kill()
        demo.process.wait(SECONDS)
        until(lambda: not any(map(command_of, family)), 30, "the end of what a killed demo started")
        check(f"killed: none of {len(family)} processes is left", True)


def refusals():
    """What is missing is named, and nothing is begun."""
    command = runpy.run_path(str(DEPLOY / "rooms-demo"))
    handlers = {number: signal.getsignal(number) for number in (signal.SIGINT, signal.SIGTERM, signal.SIGHUP)}
    before = os.umask(0o077)
    for place, value, package in (("PATH", "/nowhere", "haproxy"), ("MODULES", {"no_such": "python3-bottle"}, "python3-bottle")):
        beside = io.StringIO()
        with mock.patch(f"demo_office.{place}", value), mock.patch.dict(os.environ, ROOMS_PROGRAM="/bin/true"), \
                mock.patch("tempfile.mkdtemp", side_effect=AssertionError), contextlib.redirect_stderr(beside):
            status = command["main"]([])
        said = beside.getvalue()
        check(f"without {package} it names it", status == 1 and f"apt-get install {package}" in said, (status, said))
    for number, handler in handlers.items():
        signal.signal(number, handler)
    os.umask(before)


def same_college():
    """The college is the same each time, but for the keys."""
    college = runpy.run_path(str(DEPLOY / "demo" / "college.py"))["College"]
    one, other = college(), college()
    parts = ("rooms", "sizes", "people", "names", "homes", "grades", "leavers", "withdrawn", "lists")
    differ = [part for part in parts if getattr(one, part) != getattr(other, part)]
    check("the college is the same each time", not differ, differ)
    check("but not its keys", not set(one.keys.values()) & set(other.keys.values()))
    new = [person for person in one.people if person not in one.homes]
    has = (len(one.people), len(new), len(set(one.names.values())), len(set(one.homes.values())))
    check("sixty people, of whom eleven are new", has == (PEOPLE, NEWCOMERS, PEOPLE, PEOPLE - NEWCOMERS), has)
    free = set(one.rooms) - set(one.homes.values())
    check("some rooms are free, some lists are in, and some leave", free and len(one.lists) < PEOPLE and one.leavers)


def try_demo(program):
    """All of it."""
    same_college()
    few_ports()
    refusals()
    refused_names(program)
    runs(program)
    beside_an_office(program)
    ended_early(program)
    part_ends(program)
    killed(program)


if __name__ == "__main__":
    if len(sys.argv) != 2:
        sys.exit("usage: /usr/bin/python3 deploy/trial/demo.py PROGRAM")
    try_demo(sys.argv[1])
