"""The certificate, also from an authority, through the proxy: /usr/bin/python3 deploy/trial/certificate.py PROGRAM.

certbot asks Pebble, an authority for trials, which looks for the challenge at the proxy's port for HTTP. The commands are
those of deploy/README.md ("The certificate"), with the trial's ports and folders. Runs also over standin.py.
"""

import contextlib
import http.client
import json
import os
import shlex
import signal
import socket
import ssl
import subprocess
import sys
from pathlib import Path

from stand import DEPLOY, HOST, Stand, check, free_ports, unchecked, until

CERTIFICATE = DEPLOY / "rooms-certificate"
CHALLENGE = "/.well-known/acme-challenge/some-token"
NOBODY = {"Host": HOST, "Room-Key": "0000000000000000"}
# In the place of openssl: the making of a key takes a while.
SLOW = """#!/bin/sh
[ "$1" = req ] || exit 1
touch "$TMPDIR/begun"
sleep 1
"""


def plain(stand, path, method="GET"):
    """A request over HTTP: the status and where it leads."""
    connection = http.client.HTTPConnection("127.0.0.1", stand.plain_port, timeout=60)
    connection.request(method, path, headers={"Host": HOST})
    answer = connection.getresponse()
    connection.close()
    return answer.status, answer.getheader("location", "")


def in_readme(words):
    """The line of deploy/README.md that begins with these words; lines that end with a backslash are one."""
    text = (DEPLOY / "README.md").read_text(encoding="utf-8").replace("\\\n", "")
    return " ".join(next(line for line in text.splitlines() if line.strip().startswith(words)).split())


class Authority:
    """Pebble, and the names that it knows, which are all this machine's."""

    def __init__(self, stand):
        self.folder = stand.folder / "authority"
        self.folder.mkdir()
        self.port, manage, dns, dns_manage = free_ports(4)  # pylint: disable=unbalanced-tuple-unpacking
        self.manage = manage
        key, own = self.folder / "key.pem", self.folder / "own.pem"
        subprocess.run(["openssl", "req", "-x509", "-newkey", "rsa:2048", "-nodes", "-days", "2", "-subj", "/CN=localhost",
                        "-addext", "subjectAltName=DNS:localhost", "-keyout", key, "-out", own], check=True,
                       stderr=subprocess.DEVNULL)
        settings = {"listenAddress": f"127.0.0.1:{self.port}", "managementListenAddress": f"127.0.0.1:{manage}",
                    "certificate": str(own), "privateKey": str(key), "httpPort": stand.plain_port, "tlsPort": stand.port,
                    "ocspResponderURL": "", "externalAccountBindingRequired": False}
        (self.folder / "settings.json").write_text(json.dumps({"pebble": settings}), encoding="utf-8")
        stand.environment |= {"PEBBLE_VA_NOSLEEP": "1", "PEBBLE_WFE_NONCEREJECT": "0", "PEBBLE_AUTHZREUSE": "0"}
        self.parts = [
            stand.launch("names", "pebble-challtestsrv", "-defaultIPv4", "127.0.0.1", "-defaultIPv6", "", "-dns01",
                         f"127.0.0.1:{dns}", "-management", f"127.0.0.1:{dns_manage}", "-http01", "", "-https01", "",
                         "-tlsalpn01", ""),
            stand.launch("authority", "pebble", "-config", str(self.folder / "settings.json"), "-dnsserver",
                         f"127.0.0.1:{dns}")]
        for port in (dns, self.port, self.manage):
            stand.until_listening(port)

    def __enter__(self):
        return self

    def __exit__(self, *_):
        for part in self.parts:
            Stand.end(part)

    def root(self):
        """A TLS context that believes this authority alone."""
        connection = http.client.HTTPSConnection("127.0.0.1", self.manage, context=unchecked())
        connection.request("GET", "/roots/0")
        context = ssl.create_default_context(cadata=connection.getresponse().read().decode())
        connection.close()
        return context


def served(stand, context, name=HOST):
    """What a browser gets that asks for /me with a key that nobody has, and the number of the certificate that it sees."""
    raw = socket.create_connection(("127.0.0.1", stand.port), 30)
    with contextlib.closing(context.wrap_socket(raw, server_hostname=name)) as connection:
        lines = "".join(f"{field}: {value}\r\n" for field, value in NOBODY.items())
        connection.sendall(f"GET /me HTTP/1.1\r\n{lines}\r\n".encode())
        return connection.recv(4096).split()[1].decode(), connection.getpeercert().get("serialNumber")


def again(stand):
    """HAProxy reads its certificate when it starts."""
    stand.end(stand.proxy)
    stand.proxy = stand.launch("proxy", "haproxy", "-db", "-f", str(stand.folder / "haproxy.cfg"))
    stand.until_listening(stand.port)


def try_command(stand):
    """The command that puts a certificate in its place refuses what HAProxy would not take, and changes nothing then."""
    target = Path(stand.environment["ROOMS_CERTIFICATE"])
    own, key = stand.folder / "certificate.pem", stand.folder / "key.pem"
    other = stand.folder / "other.pem"
    subprocess.run(["openssl", "genpkey", "-algorithm", "ed25519", "-out", other], check=True)

    def run(*words):
        done = subprocess.run([CERTIFICATE, *words], env=stand.environment, capture_output=True, text=True, check=False)
        return done.returncode, done.stdout + done.stderr

    before = target.read_bytes()
    status, said = run("--for-now", HOST)
    check("a certificate that still holds is not replaced by one for now",
          status == 1 and "still holds" in said and target.read_bytes() == before, said)
    target.unlink()
    status, said = run("--for-now", HOST)
    check("a certificate for now names the host", status == 0 and f"served for {HOST} until" in said, said)
    check("only root may read it", target.stat().st_mode & 0o777 == 0o600)
    before = target.read_bytes()
    for what, words, says in (("another key", (own, other), "the key is not that of"),
                              ("no certificate", (key, key), "no certificate"), ("no key", (own, own), "has no key"),
                              ("no file", (own, "/none"), "has no key")):
        status, said = run(*words)
        check(f"{what} is refused", status == 1 and says in said and target.read_bytes() == before, said)
    check("and so are no words", run()[0] == 2 and target.read_bytes() == before)
    for what, text in (("", own.read_text()), (" without a line's end", own.read_text().rstrip())):
        own.write_text(text, encoding="utf-8")
        status, said = run(own, key)
        both = own.read_bytes() + b"\n" + key.read_bytes()
        check(f"a certificate{what} and its key come into one file", status == 0 and target.read_bytes() == both, said)
        again(stand)
        check("which HAProxy takes", served(stand, unchecked())[0] == "403")


def try_signals(stand):
    """A signal leaves no key behind."""
    folder = stand.folder / "temporary"
    folder.mkdir()
    slow = stand.folder / "slow"
    slow.mkdir()
    (slow / "openssl").write_text(SLOW, encoding="utf-8")
    (slow / "openssl").chmod(0o755)
    for number in map(signal.Signals, (signal.SIGTERM, signal.SIGINT, signal.SIGHUP)):
        environment = {**stand.environment, "TMPDIR": str(folder), "PATH": f"{slow}:{os.environ['PATH']}"}
        # The shell beneath takes a signal that the trial itself may ignore.
        words = ["env", f"--default-signal={number.name.removeprefix('SIG')}", str(CERTIFICATE), "--for-now", HOST]
        with subprocess.Popen(words, env=environment, stderr=subprocess.DEVNULL) as process:
            until((folder / "begun").exists, 30, "the making of a key")
            process.send_signal(number)
        (folder / "begun").unlink()
        left = list(folder.iterdir())
        check(f"after {number.name} nothing is left", process.returncode == 128 + number and not left, (process.returncode, left))


def try_watch(stand):
    """The guide's line for a monitor says if the certificate that is served ends within two weeks."""
    line = in_readme("openssl s_client").replace("NAME:443", f"127.0.0.1:{stand.port}").replace("NAME", HOST)
    for days, status in ((13, 1), (15, 0)):
        subprocess.run(["openssl", "req", "-x509", "-key", stand.folder / "key.pem", "-days", str(days), "-subj", "/CN=x",
                        "-addext", f"subjectAltName=DNS:{HOST}", "-out", stand.folder / "certificate.pem"], check=True)
        subprocess.run([CERTIFICATE, stand.folder / "certificate.pem", stand.folder / "key.pem"], env=stand.environment, check=True,
                       stdout=subprocess.DEVNULL)
        again(stand)
        told = subprocess.run(["sh", "-c", line], capture_output=True, text=True, check=False)
        check(f"with a certificate for {days} days a monitor gets status {status}", told.returncode == status, told)
    stand.end(stand.proxy)
    check("and without HAProxy an alarm", subprocess.run(["sh", "-c", line], capture_output=True, check=False).returncode == 1)


def try_names(stand):
    """HAProxy serves the names of the certificate alone. The README's line asks this machine itself by its name."""
    for name in (None, "localhost", "127.0.0.1"):
        raw = socket.create_connection(("127.0.0.1", stand.port), 30)
        with contextlib.closing(raw):
            try:
                unchecked().wrap_socket(raw, server_hostname=name).close()
                refused = False
            except OSError:
                refused = True
        check(f"by the name {name} nothing is served", refused)
    words = shlex.split(in_readme("curl -so /dev/null -m 30 -k").replace("NAME", HOST).replace("443", str(stand.port)))
    words[-1] = words[-1].replace(HOST, f"{HOST}:{stand.port}")
    told = subprocess.run(words, capture_output=True, text=True, check=False).stdout
    check("but by its name on this machine itself", told == "403", (words, told))


def try_challenge(stand):
    """Without certbot nobody answers; everything else over HTTP leads to HTTPS."""
    check("the challenge is not led elsewhere", plain(stand, CHALLENGE)[0] == 503, plain(stand, CHALLENGE))
    check("nothing is posted there", plain(stand, CHALLENGE, "POST")[0] == 404, plain(stand, CHALLENGE, "POST"))
    for path in ("/", "/me", "/.well-known/other", "/office/"):
        told = plain(stand, path)
        check(f"{path} leads to HTTPS", told == (301, f"https://{HOST}{path}"), told)
    listener = f"server certbot 127.0.0.1:{in_readme('certbot certonly').split('--http-01-port ')[1].split()[0]} "
    settings = (DEPLOY / "haproxy.cfg").read_text(encoding="utf-8")
    check("the guide and haproxy.cfg have one port, which is root's", listener in settings
          and int(listener.split(":")[1]) < 512)


def asked_for(stand, authority, *more):
    """The README's line, with the trial's authority, port and folders."""
    line = in_readme("certbot certonly").replace("NAME", HOST).replace("291", str(stand.challenge_port))
    line = line.replace("/usr/lib/rooms/certificate", str(CERTIFICATE))
    folders = [word for name in ("config", "work", "logs") for word in (f"--{name}-dir", str(stand.folder / "certbot" / name))]
    words = [*shlex.split(line), *folders, "-n", "--agree-tos", "--register-unsafely-without-email", "--no-verify-ssl",
             "--server", f"https://localhost:{authority.port}/dir"]
    if more:
        words = ["certbot", "renew", "-n", "--no-verify-ssl", "--no-random-sleep-on-renew", *folders, *more]
    done = subprocess.run(words, env=stand.environment, capture_output=True, text=True, check=False)
    return done.returncode, done.stdout + done.stderr


@contextlib.contextmanager
def site(program):
    """A stand with its proxy, whose certificate can be replaced."""
    with Stand(program) as stand:
        stand.environment["ROOMS_CERTIFICATE"] = str(stand.folder / "rooms.pem")
        stand.start()
        stand.start_proxy()
        yield stand


def try_certificate(program):
    """What needs no authority."""
    with site(program) as stand:
        try_challenge(stand)
        try_names(stand)
        try_command(stand)
        try_signals(stand)
        try_watch(stand)


def try_authority(program):
    """A certificate by certbot, and its renewal."""
    with site(program) as stand, Authority(stand) as authority:
        status, said = asked_for(stand, authority)
        check("certbot gets a certificate through the proxy", status == 0, said + stand.log("authority"))
        again(stand)
        told, first = served(stand, authority.root())
        check("a browser that knows the authority is served", told == "403" and first, told)
        status, said = asked_for(stand, authority, "--force-renewal")
        check("certbot renews it", status == 0, said)
        again(stand)
        told, second = served(stand, authority.root())
        check("and the new one is served", told == "403" and second not in (None, first), (first, second))
        check("and afterwards nobody answers the challenge", plain(stand, CHALLENGE)[0] == 503)


if __name__ == "__main__":
    if len(sys.argv) != 2:
        sys.exit("usage: /usr/bin/python3 deploy/trial/certificate.py PROGRAM")
    try_certificate(sys.argv[1])
    try_authority(sys.argv[1])
