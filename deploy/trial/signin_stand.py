"""What residents' sign-in by an account is tried on: an office with Apache, signed_in.py and a stand-in of an identity provider
beside it, and a browser as far as a sign-in needs one.

Apache has the repository's file, with the trial's ports and paths. As root the trial runs it under an account of its own.
"""

import base64
import contextlib
import http.client
import json
import os
import re
import shutil
import socket
import ssl
import subprocess
import tempfile
import urllib.parse
from pathlib import Path
from typing import Any, NamedTuple, cast

from provider import CLIENT_SECRET, Provider
from stand import DEPLOY, HOST, OFFICE, PYTHON, Stand, fail, free_ports, unchecked, until

APACHE = 64_997  # an account that nobody has
BARE = ["setpriv", "--reuid", str(APACHE), "--regid", str(APACHE), "--clear-groups", "--no-new-privs"]
CONTEXT = unchecked()
SIGN_IN, SIGN_OUT = "/account/in", "/account/redirect?logout="


class Answer(NamedTuple):
    """The status, the fields (in small letters; of several of a name the last) and the text of an answer."""

    status: int
    fields: dict[str, str]
    text: str
    cookies: list[str]

    def value(self) -> Any:
        """What it says in JSON, or nothing."""
        with contextlib.suppress(ValueError):
            return json.loads(self.text)
        return None


def as_guided(text, path):
    """A file's text after what README.md has an administrator do with it."""
    guide = (DEPLOY / "sign-in" / "README.md").read_text(encoding="utf-8")
    (script,) = re.findall(f"^ *sed -i '(.*)' {re.escape(path)}$", guide, re.M)
    changed = subprocess.run(["sed", script], input=text, capture_output=True, text=True, check=True).stdout
    if changed == text:
        fail(f"{script} changes nothing")
    return changed


def answer_of(connection, method, path, body=None, fields=()):
    """One request on a connection, with fields that may come several times."""
    try:
        connection.putrequest(method, path, skip_host=True, skip_accept_encoding=True)
        for name, value in fields:
            connection.putheader(name, value)
        if body is not None:
            connection.putheader("Content-Length", str(len(body)))
        connection.endheaders(body)
        answer = connection.getresponse()
        found = answer.getheaders()
        cookies = [value for name, value in found if name.lower() == "set-cookie"]
        return Answer(answer.status, {name.lower(): value for name, value in found}, answer.read().decode("utf-8", "replace"),
                      cookies)
    finally:
        connection.close()


class SignInStand(Stand):
    """An office whose residents may sign in by an account."""

    def __init__(self, program):
        super().__init__(program)
        self.apache_port, provider_port = free_ports(2)  # pylint: disable=unbalanced-tuple-unpacking
        self.place = Path(tempfile.mkdtemp(prefix="rooms-sign-in-"))
        self.place.chmod(0o755)
        self.environment.update(
            ROOMS_SIGNED_IN_SOCKET=str(self.place / "signed-in.sock"),
            ROOMS_ACCOUNT_SOCKET=str(self.folder / "keys.sock"),
            ROOMS_TURN_SOCKET=str(self.folder / "turns.sock"),
        )
        self.provider = Provider(self.folder, provider_port)
        self.apache = self.helper = cast(Any, None)

    def __enter__(self):
        super().__enter__()
        self.provider.__enter__()
        return self

    def __exit__(self, *words):
        self.provider.__exit__()
        for process in (self.apache, self.helper):
            if process:
                self.end(process)
        super().__exit__(*words)
        shutil.rmtree(self.place)

    def proxy_file(self):
        """The repository's file, as an administrator changes it."""
        return as_guided(super().proxy_file(), "/etc/haproxy/haproxy.cfg")

    def start_sign_in(self):
        """Starts HAProxy, signed_in.py and Apache. The residents' page shows the button."""
        self.portal = Path(shutil.copytree(DEPLOY / "portal", self.folder / "portal"))
        page = self.portal / "index.html"
        page.write_text(as_guided(page.read_text(encoding="utf-8"), "/etc/rooms/portal/index.html"), encoding="utf-8")
        self.start_proxy(
            ("/run/haproxy/rooms-account.sock mode 660 user root group rooms-account", self.environment["ROOMS_TURN_SOCKET"]),
            ("127.0.0.1:292 ", f"127.0.0.1:{self.apache_port} "))
        self.start_helper()
        self.start_apache()

    def start_helper(self):
        """Starts signed_in.py. Its socket is for Apache's account alone, as by its unit."""
        place = Path(self.environment["ROOMS_SIGNED_IN_SOCKET"])
        place.unlink(missing_ok=True)
        self.helper = self.launch("helper", PYTHON, str(OFFICE / "signed_in.py"))
        until(place.exists, 30, "signed_in.py")
        if os.geteuid() == 0:
            os.chown(place, APACHE, APACHE)

    def start_apache(self, *changes):
        """Starts Apache over the repository's file, with the trial's ports and paths, and further changes."""
        base = f"https://{HOST}:{self.port}"
        text = (DEPLOY / "sign-in" / "apache2.conf").read_text(encoding="utf-8")
        for count, old, new in [
            (2, "/run/rooms-sign-in", str(self.place)),
            (1, "Listen 127.0.0.1:292\n", f"Listen 127.0.0.1:{self.apache_port}\n"),
            (3, "https://rooms.college.example", base),
            (1, r"https://rooms\.college\.example/", base.replace(".", r"\.") + "/"),
            (1, "https://login.college.example/", f"{self.provider.issuer}/"),
            (2, "/etc/rooms/sign-in/", f"{self.place}/"),
            (1, "/run/rooms-account.sock", self.environment["ROOMS_SIGNED_IN_SOCKET"]),
            (1, "ErrorLog syslog:daemon:rooms-sign-in\n",
             f"ErrorLog {self.place}/apache.log\nOIDCCABundlePath {self.place}/provider.pem\n"),
            *((1, old, new) for old, new in changes),
        ]:
            if text.count(old) != count:
                fail(f"apache2.conf has {text.count(old)} times {old!r}")
            text = text.replace(old, new)
        (self.place / "apache2.conf").write_text(text, encoding="utf-8")
        (self.place / "secrets.conf").write_text(
            f'OIDCClientSecret "{CLIENT_SECRET}"\nOIDCCryptoPassphrase "{"0123456789abcdef" * 2}"\n', encoding="utf-8")
        shutil.copy(self.provider.certificate, self.place / "provider.pem")
        (self.place / "apache.log").touch()
        bare = BARE if os.geteuid() == 0 else []
        for path in (self.place, *self.place.iterdir()):
            if bare and not path.is_socket():
                os.chown(path, APACHE, APACHE)
        environment = {**self.environment}
        self.environment = {name: value for name, value in environment.items() if "proxy" not in name.lower()}
        self.apache = self.launch("apache", *bare, "apache2", "-f", str(self.place / "apache2.conf"), "-DFOREGROUND")
        self.environment = environment
        self.until_listening(self.apache_port)

    def stop_apache(self):
        """Ends Apache, and all sessions with it."""
        self.end(self.apache)
        self.apache = None

    def apache_log(self):
        """What Apache wrote down."""
        return (self.place / "apache.log").read_text(encoding="utf-8")

    def past_the_proxy(self, method, path, *fields):
        """A request to Apache itself, as any account of the machine may send one."""
        connection = http.client.HTTPConnection("127.0.0.1", self.apache_port, timeout=60)
        return answer_of(connection, method, path, None, (("Host", f"{HOST}:{self.port}"), *fields))


class Browser:
    """A resident's browser: it keeps cookies, sends each to its path alone, and follows redirects."""

    def __init__(self, stand):
        self.stand, self.cookies, self.been, self.set_there = stand, {}, [], []

    def ask(self, method, path, body=None, fields=(), page=True):
        """One request through HAProxy; as the residents' page sends it, unless another site's page does."""
        connection = http.client.HTTPSConnection(HOST, timeout=130)
        connection.sock = self.connected()
        own = [("Host", f"{HOST}:{self.stand.port}")]
        sent = [f"{name}={value}" for name, (value, below) in self.cookies.items() if path.startswith(below)]
        own += [("Cookie", "; ".join(sent))] if sent else []
        own += [("Room-Sign-In", "account"), ("Accept", "*/*")] if page else [("Accept", "text/html,*/*")]
        answer = answer_of(connection, method, path, body, (*own, *fields))
        for cookie in answer.cookies:
            self.keep(cookie)
        return answer

    def connected(self):
        """A connection to HAProxy. On a busy machine it may take longer than HAProxy waits: then it is tried again."""
        for _ in range(20):
            with contextlib.suppress(ssl.SSLError, ConnectionError):
                raw = socket.create_connection(("127.0.0.1", self.stand.port), 130)
                return CONTEXT.wrap_socket(raw, server_hostname=HOST)
        return fail("HAProxy takes no connection")

    def keep(self, cookie):
        """Keeps a cookie, or drops one that is over. `set_there` has all that came since a sign-in began."""
        self.set_there.append(cookie)
        (name, _, value), *parts = [part.strip().partition("=") for part in cookie.split(";")]
        more = {part.lower(): what for part, _, what in parts}
        if not value or more.get("max-age") == "0" or "1970" in more.get("expires", ""):
            self.cookies.pop(name, None)
        else:
            self.cookies[name] = (value, more.get("path", "/"))

    def get(self, path, *fields):
        """A request of the residents' page."""
        return self.ask("GET", path, None, fields)

    def follow(self, address):
        """Goes where redirects lead, to the provider too, and gives the last answer. `been` has the addresses."""
        base = f"https://{HOST}:{self.stand.port}"
        for _ in range(10):
            self.been.append(address)
            parts = urllib.parse.urlsplit(address)
            path = urllib.parse.urlunsplit(("", "", parts.path, parts.query, ""))
            if address.startswith("/") or address.startswith(f"{base}/"):
                answer = self.ask("GET", path, page=False)
            elif address.startswith(self.stand.provider.issuer):
                connection = http.client.HTTPSConnection("127.0.0.1", parts.port, context=CONTEXT, timeout=60)
                answer = answer_of(connection, "GET", path, None, (("Host", parts.netloc),))
            else:
                fail(f"led to {address}")
            if answer.status not in (301, 302, 303, 307, 308):
                return answer
            address = answer.fields["location"]
        return fail(f"led around: {self.been}")

    def sign_in(self, account="", **claims):
        """Signs in with an account of the provider, and gives the last answer."""
        self.stand.provider.account = {"sub": "subject-1", **({"preferred_username": account} if account else {}), **claims}
        self.been.clear()
        self.set_there.clear()
        return self.follow(SIGN_IN)

    def sign_out(self):
        """Signs out as the residents' page does."""
        return self.follow(SIGN_OUT + urllib.parse.quote(f"https://{HOST}:{self.stand.port}/", safe=""))

    def whose(self):
        """For whom the residents' page would act: the person, or the status of the answer."""
        answer = self.get("/account/me")
        value = answer.value()
        return value["person"] if answer.status == 200 else (answer.status, value and value.get("error"))


def named(account):
    """An account as Apache names it to signed_in.py."""
    return base64.b64encode(account.encode()).decode()
