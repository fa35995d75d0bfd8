"""TLS at the proxy, with a certificate whose key is RSA: what a client may choose, and whether what is recorded stays
secret when the key gets out later.

This run alone: /usr/bin/python3 deploy/trial/ciphers.py PROGRAM
"""

import subprocess
import sys

from stand import DEPLOY, HOST, Stand, check


class RsaStand(Stand):
    """A stand whose certificate has an RSA key, as many colleges have one."""

    def make_certificate(self, *_):
        super().make_certificate("rsa:2048")


def shaken(stand, *words):
    """The cipher that a client with these words gets, or nothing."""
    done = subprocess.run(
        ["openssl", "s_client", "-connect", f"127.0.0.1:{stand.port}", "-servername", HOST, *words],
        input=b"", capture_output=True, timeout=60, check=False)
    lines = done.stdout.decode("utf-8", "replace").splitlines()
    found = next((line.split()[-1] for line in lines if line.startswith("New, ")), "(NONE)")
    return "" if found == "(NONE)" else found


# What the proxy has to refuse: words of a client, and what they ask for. Without forward secrecy are the first four.
REFUSED = {
    **{("-tls1_2", "-cipher", f"{cipher}:@SECLEVEL=0"): cipher
       for cipher in ("AES128-SHA", "AES128-GCM-SHA256", "AES256-GCM-SHA384", "AES256-SHA256")},
    ("-tls1", "-cipher", "ALL:@SECLEVEL=0"): "TLS 1.0",
    ("-tls1_1", "-cipher", "ALL:@SECLEVEL=0"): "TLS 1.1",
    ("-tls1_2", "-cipher", "ECDHE-RSA-AES128-SHA"): "ECDHE-RSA-AES128-SHA",
}


def control(program):
    """Without the lines of haproxy.cfg the same client gets each of these: it can ask for them."""
    text = (DEPLOY / "haproxy.cfg").read_text(encoding="utf-8")
    ciphers = next(line for line in text.splitlines(True) if line.startswith("    ssl-default-bind-ciphers "))
    with RsaStand(program) as stand:
        stand.start_proxy((ciphers, "    ssl-default-bind-ciphers ALL:@SECLEVEL=0\n"),
                          ("ssl-min-ver TLSv1.2", "ssl-min-ver TLSv1.0"))
        for words, what in REFUSED.items():
            check(f"without haproxy.cfg's lines a client gets {what}", shaken(stand, *words))


def try_ciphers(program):
    """Asks for each kind."""
    control(program)
    with RsaStand(program) as stand:
        stand.start_proxy()
        for words, what in REFUSED.items():
            told = shaken(stand, *words)
            check(f"{what} is refused", not told, told)
        for version, wanted in (("-tls1_2", "ECDHE-RSA-"), ("-tls1_3", "TLS_")):
            told = shaken(stand, version)
            check(f"{version[1:]} gets {told}", told.startswith(wanted), told)


if __name__ == "__main__":
    if len(sys.argv) != 2:
        sys.exit("usage: /usr/bin/python3 deploy/trial/ciphers.py PROGRAM")
    try_ciphers(sys.argv[1])
