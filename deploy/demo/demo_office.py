"""The office of rooms-demo: a folder with the file, the keeper, the office's page and HAProxy, all for one account and on
127.0.0.1 alone. What was started ends with the `with` block, and the folder is deleted."""

import base64
import contextlib
import http.client
import os
import pwd
import re
import secrets
import shutil
import subprocess
import sys
import tempfile
import threading
import time
from importlib.util import find_spec
from pathlib import Path
from types import TracebackType

# The keeper's modules.
from house_places import PLAIN_PORT
from program import bound
from settings import Fault

from college import NOTICE, College
from ports import free_ports

CLERK = "clerk"
HOST = "127.0.0.1"
PATH = f"{os.environ.get('PATH', '')}:/usr/local/sbin:/usr/sbin:/sbin"  # HAProxy is where root alone looks
MODULES = {"bottle": "python3-bottle", "waitress": "python3-waitress"}
READY = 60.0   # seconds until all has to answer, on a busy machine
ENDING = 20.0  # seconds until what was started has to have ended
LONGEST_PATH = 80  # signs of a folder: the name of a socket may have 107


class Ended(Exception):
    """A signal says that it is over."""


def missing() -> list[str]:
    """Debian's packages that are missing."""
    return [*([] if shutil.which("haproxy", path=PATH) else ["haproxy"]),
            *(package for module, package in MODULES.items() if find_spec(module) is None)]


class DemoOffice:  # pylint: disable=too-many-instance-attributes  # a machine in small
    """The folder, and what runs in it."""

    def __init__(self, modules: Path, shared: Path, program: str, ended: threading.Event) -> None:
        self.modules, self.shared, self.program, self.ended = modules, shared, program, ended
        self.college, self.password = College(), secrets.token_hex(4)
        self.running: dict[str, subprocess.Popen[bytes]] = {}
        self.port, self.server_port = free_ports(2)  # pylint: disable=unbalanced-tuple-unpacking
        self.folder = Path(tempfile.mkdtemp(prefix="rooms-demo-"))

    def __enter__(self) -> "DemoOffice":
        try:
            self.start()
        except BaseException:
            self.end()
            raise
        return self

    def __exit__(self, kind: type[BaseException] | None, why: BaseException | None, trace: TracebackType | None) -> None:
        self.end()

    # --- the file

    def tell(self, verb: str, *words: str) -> None:
        """One line of the program over the file, which has to be accepted."""
        self.go_on()
        line = [self.program, verb, "--db", str(self.folder / "office/rooms.db"), *words]
        done = subprocess.run(line, capture_output=True, text=True, check=False, stdin=subprocess.DEVNULL,
                              start_new_session=True)
        if done.returncode != 0:
            raise Fault(f"the program did not take {verb} {' '.join(words[:2])}: {done.stdout}{done.stderr}".strip())

    def bring_in(self, kind: str, body: bytes) -> None:
        """A list, under a label of its own."""
        path = self.folder / f"{kind}.csv"
        path.write_bytes(body)
        self.tell("import", kind, f"{kind}-1", str(path))
        path.unlink()

    def fill(self) -> None:
        """Makes the office, up to the middle of a round."""
        (self.folder / "office").mkdir()
        self.tell("new")
        for kind, body in self.college.imports():
            self.bring_in(kind, body)
        self.tell("do", "open")
        self.bring_in("choices", self.college.choices())
        for person in self.college.leavers:
            self.tell("do", "going", person)
        self.tell("do", "withdraw", self.college.withdrawn)

    # --- the proxy

    def write_portal(self) -> None:
        """The residents' page, with what this college says of its rooms and its round."""
        shutil.copytree(self.shared / "portal", self.folder / "portal")
        (self.folder / "portal/rooms.csv").write_bytes(self.college.descriptions())
        page = self.folder / "portal/index.html"
        text = page.read_text(encoding="utf-8").replace('<p id="notice"></p>', f'<p id="notice">{NOTICE}</p>')
        page.write_text(text, encoding="utf-8")

    def write_proxy(self) -> Path:
        """HAProxy's configuration: that of a college, without TLS, and for this machine alone."""
        college_file = self.shared / "haproxy.cfg"
        text = college_file.read_text(encoding="utf-8")
        lines = [line for line in text.splitlines()
                 if not line.strip().startswith(("chroot ", "user haproxy", "group haproxy", "bind :::80 ",
                                                 "http-request redirect scheme https ",
                                                 "http-after-response set-header Strict-Transport-Security "))]
        changed = "\n".join(["# Made by rooms-demo.", *lines, ""])
        for old, new in {
            "log /dev/log local0 ": "log stdout format raw local0 ",
            "    maxconn 5000\n": "    maxconn 200\n",
            "bind :::443 v4v6 ssl crt /etc/haproxy/rooms.pem alpn h2,http/1.1 strict-sni\n": f"bind {HOST}:{self.port}\n",
            f"server one 127.0.0.1:{PLAIN_PORT} ": f"server one {HOST}:{self.server_port} ",
            "server page unix@/rooms-page.sock ": f"server page unix@{self.folder}/page.sock ",
            "server told unix@/rooms-told.sock ": f"server told unix@{self.folder}/told.sock ",
            "userlist office\n": f"userlist office\n    user {CLERK} insecure-password {self.password}\n",
            "acl names_clerk var(txn.name) -m str anna bert\n": f"acl names_clerk var(txn.name) -m str {CLERK}\n",
        }.items():
            if changed.count(old) != 1:
                raise Fault(f"{college_file} has not once the line {old.strip()!r}, which this command replaces")
            changed = changed.replace(old, new)
        for folder in ("/srv/rooms/portal", "/usr/share/rooms/portal"):
            changed = changed.replace(f"{folder}/", f"{self.folder}/portal/")
        path = self.folder / "haproxy.cfg"
        path.write_text(changed, encoding="utf-8")
        return path

    # --- what runs

    def launch(self, name: str, *words: str, **variables: str) -> None:
        """Starts something that ends with this process, and that a key on the terminal does not reach."""
        own = {key: value for key, value in os.environ.items() if not key.startswith(("ROOMS_", "LISTEN_"))}
        environment = {**own, "PYTHONDONTWRITEBYTECODE": "1", "TMPDIR": str(self.folder), **variables}
        with open(self.folder / f"{name}.log", "wb") as log:
            # pylint: disable-next=consider-using-with  # it ends with the office
            self.running[name] = subprocess.Popen(bound(*words), stdin=subprocess.DEVNULL, stdout=log, stderr=log,
                                                  env=environment, start_new_session=True, cwd=self.folder)

    def start(self) -> None:
        """Starts all of it, and waits until a clerk and a resident are answered."""
        if len(str(self.folder)) > LONGEST_PATH:
            raise Fault(f"the name of the folder {self.folder} is too long: set TMPDIR to a shorter one")
        if not re.fullmatch(r"[\w./-]+", str(self.folder)):
            raise Fault(f"HAProxy takes no folder of the name {self.folder}: set TMPDIR to one without spaces and other signs")
        self.write_portal()
        proxy = shutil.which("haproxy", path=PATH) or "haproxy"
        self.launch("haproxy", proxy, "-db", "-f", str(self.write_proxy()))
        # A path of each kind that the keeper has, or it would take that of a real office on this machine.
        keeper, told = str(self.folder / "keeper.sock"), self.folder / "told"
        told.mkdir()
        self.launch("page", sys.executable, "-B", str(self.modules / "page/page.py"), ROOMS_SOCKET=keeper,
                    ROOMS_PAGE_SOCKET=str(self.folder / "page.sock"), ROOMS_SCHEME="http")
        self.launch("told", sys.executable, "-B", str(self.modules / "told_server.py"), ROOMS_TOLD=str(told),
                    ROOMS_TOLD_SOCKET=str(self.folder / "told.sock"))
        self.fill()
        self.launch("keeper", sys.executable, "-B", str(self.modules / "keeper.py"), ROOMS_SOCKET=keeper,
                    ROOMS_FILE=str(self.folder / "office/rooms.db"), ROOMS_PROGRAM=self.program,
                    ROOMS_PORT=str(self.server_port), ROOMS_SCRATCH=str(self.folder / "copies"),
                    ROOMS_TOLD=str(told), ROOMS_MAIL=str(self.folder / "no-mail.conf"),
                    ROOMS_SPEAKERS=pwd.getpwuid(os.geteuid()).pw_name)
        self.wait()

    def wait(self) -> None:
        """Waits until the residents' page, a resident's record and the office's page are answered."""
        end = time.monotonic() + READY
        password = base64.b64encode(f"{CLERK}:{self.password}".encode()).decode()
        asked: list[tuple[str, dict[str, str]]] = [
            ("/", {}), ("/me", {"Room-Key": self.college.keys[self.college.people[0]]}),
            ("/office/", {"Authorization": f"Basic {password}"})]
        while asked:
            self.go_on()
            self.look()
            if self.answers(*asked[0]):
                asked.pop(0)
            elif time.monotonic() > end:
                raise Fault(f"after {READY:g} seconds {asked[0][0]} is not answered. {self.last_words()}")
            else:
                self.ended.wait(0.05)

    def answers(self, path: str, fields: dict[str, str]) -> bool:
        """Whether a page is there."""
        connection = http.client.HTTPConnection(HOST, self.port, timeout=5)
        with contextlib.suppress(OSError, http.client.HTTPException), contextlib.closing(connection):
            connection.request("GET", path, headers=fields)
            return connection.getresponse().status == 200
        return False

    def go_on(self) -> None:
        """Stops the start, if a signal has come."""
        if self.ended.is_set():
            raise Ended

    def look(self) -> None:
        """Looks whether all still runs."""
        for name, process in self.running.items():
            if process.poll() is not None:
                raise Fault(f"{name} has ended. {self.last_words(name)}")

    def last_words(self, *names: str) -> str:
        """The last line that each of these wrote, or that all wrote."""
        logs = {name: (self.folder / f"{name}.log").read_text(encoding="utf-8", errors="replace").strip().splitlines()
                for name in names or self.running}
        return " ".join(f"{name}: {lines[-1]}" for name, lines in logs.items() if lines)

    def end(self) -> None:
        """Ends what was started, and deletes the folder."""
        for process in self.running.values():
            process.terminate()
        for process in self.running.values():
            try:
                process.wait(ENDING)
            except subprocess.TimeoutExpired:
                process.kill()
                process.wait()
        shutil.rmtree(self.folder)
