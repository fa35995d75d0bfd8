"""What the trial of several houses works on: a machine in a folder with houses that `rooms-house` has made, of each house the
keeper, the pages and HAProxy, and the router in front of all."""

import base64
import contextlib
import http.client
import os
import shutil
import socket
import ssl
import subprocess
import tempfile
from pathlib import Path

from stand import DEPLOY, PYTHON, Stand, fail, free_ports, unchecked, until

HOSTS = {"north": "north.example.org", "south": "south.example.org"}
CLOSED = 0  # in place of a status: the connection was closed without an answer


def basic(name, password):
    """A name and a password as a browser sends them."""
    return f"Basic {base64.b64encode(f'{name}:{password}'.encode()).decode()}"


class HouseStand(Stand):
    """The office of a house, as rooms-house has made it, with HAProxy behind the router."""

    def __init__(self, program, machine, house):
        self.machine, self.house, self.host = machine, house, HOSTS[house]
        self.sockets = machine / "run"
        super().__init__(program, data=machine / f"var/lib/rooms-houses/{house}", ROOMS_HOUSE=house,
                         ROOMS_MACHINE=str(machine))
        # Each house has a clerk of this name, with another password.
        self.clerks = {"anna": f"the password of {house}"}

    def __enter__(self):
        for name in ("proxy", "told"):
            (self.folder / name).mkdir()
        return self

    def proxy_file(self):
        """The file that rooms-house has written."""
        return (self.machine / f"etc/rooms/houses/{self.house}/haproxy.cfg").read_text(encoding="utf-8")

    def proxy_changes(self):
        """The sockets, accounts and paths of a house, too, are the trial's own."""
        settings = self.machine / f"etc/rooms/houses/{self.house}"
        jail, account = f"/var/lib/rooms-houses-proxy/{self.house}", f"rooms-proxy-{self.house}"
        port = next(line.split()[1] for line in (settings / "house").read_text().splitlines() if line.startswith("port"))
        changed = {
            "    chroot /var/lib/haproxy\n    user haproxy\n    group haproxy\n":
                (f"    chroot {jail}\n    user {account}\n    group {account}\n", self.chroot()),
            "bind :::80 v4v6\n": (f"bind unix@/run/rooms-proxy/{self.house}-http.sock mode 600 user rooms-router ",
                                  f"bind unix@{self.sockets}/{self.house}-http.sock mode 600 "),
            "bind :::443 v4v6 ": (f"bind unix@/run/rooms-proxy/{self.house}-tls.sock mode 600 user rooms-router ",
                                  f"bind unix@{self.sockets}/{self.house}-tls.sock mode 600 "),
            "/etc/haproxy/rooms.pem": (f"/etc/rooms/houses/{self.house}/rooms.pem", str(settings / "rooms.pem")),
            "127.0.0.1:290 ": (f"127.0.0.1:{port} ", f"127.0.0.1:{self.server_port} "),
        }
        return [changed.get(old, (old, new)) for old, new in super().proxy_changes()]

    def start_proxy(self, *changes):
        """Its portal is the package's, but for what a college fills in."""
        text = self.proxy_file()
        own = [name for name in ("index.html", "texts.js", "rooms.csv")
               if f" /etc/rooms/houses/{self.house}/portal/{name} " in text]
        super().start_proxy(*changes, *((f"/etc/rooms/houses/{self.house}/portal/{name} ",
                                         f"{self.machine}/etc/rooms/houses/{self.house}/portal/{name} ") for name in own))

    def with_portal(self, text):
        """The files of the page that all houses share are in the trial those of the repository."""
        return text.replace("/usr/share/rooms/portal/", f"{DEPLOY / 'portal'}/")

    def make_certificate(self, *kind):
        """By the command that an administrator uses."""
        subprocess.run([DEPLOY / "rooms-certificate", "--house", self.house, "--for-now", self.host], check=True,
                       env=self.environment, stdout=subprocess.DEVNULL)

    def until_proxied(self):
        """Its sockets are there as soon as it has read its files."""
        until((self.sockets / f"{self.house}-tls.sock").exists, 30, f"HAProxy of {self.house}")

    def userlist(self):  # pylint: disable=arguments-differ
        """The clerk of the house."""
        return "".join(f"    user {name} insecure-password \"{password}\"\n" for name, password in self.clerks.items())

    def start_all(self):
        """The keeper with the server, both pages and HAProxy."""
        self.start()
        self.start_page()
        self.start_told()
        self.start_proxy()


class Machine:
    """A machine in a folder, with the houses of HOSTS, and the router."""

    def __init__(self, program):
        self.program = str(Path(program).resolve())
        self.folder = Path(tempfile.mkdtemp(prefix="rooms-trial-", dir="/tmp"))
        self.tls_port, self.http_port = free_ports(2)  # pylint: disable=unbalanced-tuple-unpacking
        self.environment = {**os.environ, "PYTHONDONTWRITEBYTECODE": "1", "ROOMS_MACHINE": str(self.folder),
                            "ROOMS_SHARED": str(self.folder / "shared"), "ROOMS_PROGRAM": self.program}
        self.router = None

    def __enter__(self):
        shared = self.folder / "shared"
        (shared / "house").mkdir(parents=True)
        shutil.copy(DEPLOY / "haproxy.cfg", shared)
        for name in ("index.html", "texts.js", "rooms.csv"):
            shutil.copy(DEPLOY / "portal" / name, shared / "house")
        (self.folder / "run").mkdir()
        return self

    def __exit__(self, *_):
        if self.router:
            Stand.end(self.router)
        shutil.rmtree(self.folder)

    def house(self, *words):
        """Runs rooms-house, and returns its status, its output, and its standard error."""
        done = subprocess.run([PYTHON, DEPLOY / "rooms-house", *words], env=self.environment, capture_output=True, text=True,
                              check=False)
        return done.returncode, done.stdout, done.stderr

    def files(self, *parts):
        """Each file below these folders, with its bytes."""
        return {str(one.relative_to(self.folder)): one.read_bytes()
                for part in parts for one in sorted((self.folder / part).rglob("*")) if one.is_file()}

    def router_words(self):
        """The command of the router: HAProxy over router.cfg, with the trial's ports and paths, and what rooms-house wrote."""
        text = (DEPLOY / "router.cfg").read_text(encoding="utf-8")
        for old, new, count in [
            ("    log /dev/log local0 ", "    log stdout format raw local0 ", 1),
            ("    chroot /run/rooms-proxy\n    user rooms-router\n    group rooms-router\n",
             f"    chroot {self.folder / 'run'}\n" if os.geteuid() == 0 else "", 1),
            ("bind :::443 v4v6\n", f"bind 127.0.0.1:{self.tls_port}\n", 1),
            ("bind :::80 v4v6\n", f"bind 127.0.0.1:{self.http_port}\n", 1),
            ("/etc/rooms/houses/hosts", f"{self.folder}/etc/rooms/houses/hosts", 2),
        ]:
            if text.count(old) != count:
                fail(f"router.cfg has {text.count(old)} times {old!r}")
            text = text.replace(old, new)
        (self.folder / "router.cfg").write_text(text, encoding="utf-8")
        return ["haproxy", "-db", "-f", str(self.folder / "router.cfg"), "-f", str(self.folder / "etc/rooms/houses/backends.cfg")]

    def start_router(self):
        """Starts the router."""
        with open(self.folder / "router.log", "w", encoding="utf-8") as log:
            # pylint: disable-next=consider-using-with  # it ends with the machine
            self.router = subprocess.Popen(self.router_words(), stdout=log, stderr=log)
        until(self.is_routed, 30, "the router")

    def router_beside(self):
        """What the router says while another program has its port, and would share it as HAProxy does: nothing if it starts."""
        with socket.socket() as other:
            other.setsockopt(socket.SOL_SOCKET, socket.SO_REUSEPORT, 1)
            other.bind(("127.0.0.1", self.tls_port))
            other.listen()
            try:
                done = subprocess.run(self.router_words(), capture_output=True, text=True, check=False, timeout=5)
            except subprocess.TimeoutExpired:
                return ""
            return done.stderr

    def is_routed(self):
        """Whether the router takes connections."""
        with contextlib.suppress(OSError), socket.create_connection(("127.0.0.1", self.tls_port), 1):
            return True
        return False

    def ask(self, path, fields, name, host="", source="127.0.0.1"):
        """Asks over TLS for the host `name`, by a request for `host` or the same, and gives status, fields and body."""
        connection = http.client.HTTPSConnection("127.0.0.1", self.tls_port, timeout=60)
        try:
            plain = socket.create_connection(("127.0.0.1", self.tls_port), 60, (source, 0))
            connection.sock = unchecked().wrap_socket(plain, server_hostname=name)
            connection.request("GET", path, headers={"Host": host or name, **fields})
            answer = connection.getresponse()
            return answer.status, dict(answer.getheaders()), answer.read().decode()
        except (ssl.SSLError, ConnectionError, http.client.HTTPException):
            return CLOSED, {}, ""
        finally:
            connection.close()

    def ask_plainly(self, host, path="/"):
        """The same over HTTP."""
        connection = http.client.HTTPConnection("127.0.0.1", self.http_port, timeout=60)
        try:
            connection.request("GET", path, headers={"Host": host})
            answer = connection.getresponse()
            return answer.status, dict(answer.getheaders()), answer.read().decode()
        except (ConnectionError, http.client.HTTPException):
            return CLOSED, {}, ""
        finally:
            connection.close()
