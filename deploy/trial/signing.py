"""How clerks sign in at the proxy, and what of it comes to the office's page. A stub replaces the page, and reports
what it was sent. guessing.py tries passwords that are guessed.

This run alone: /usr/bin/python3 deploy/trial/signing.py PROGRAM
"""

import base64
import http.client
import json
import socket
import socketserver
import sys
import threading

from http2 import Http2
from stand import CLERKS, HOST, Stand, check, has_ipv6, unchecked


class Stub(socketserver.StreamRequestHandler):
    """Answers each request with its fields and the length of its body."""

    def handle(self):
        fields, length = {}, 0
        first = self.rfile.readline()
        while (line := self.rfile.readline().strip()) and first:
            name, value = line.decode().split(":", 1)
            fields[name.lower()] = value.strip()
        length = len(self.rfile.read(int(fields.get("content-length", 0))))
        body = json.dumps({"fields": fields, "length": length}).encode()
        self.wfile.write(
            b"HTTP/1.1 200 OK\r\nContent-Type: application/json\r\nConnection: close\r\n"
            b"Content-Length: %d\r\n\r\n%s" % (len(body), body)
        )


class Page(socketserver.ThreadingUnixStreamServer):
    """The stub, on the socket of the page."""

    daemon_threads = True


def asked(stand, path, *, method="GET", clerk=None, password=None, source="127.0.0.1", body=None, **fields):
    """Sends a request through the proxy, and gives status, fields and body of the answer."""
    connection = http.client.HTTPSConnection(HOST, timeout=60)
    plain = socket.create_connection(("::1" if ":" in source else "127.0.0.1", stand.port), 60, (source, 0))
    connection.sock = unchecked().wrap_socket(plain, server_hostname=HOST)
    fields = {name.replace("_", "-"): value for name, value in fields.items()}
    if clerk:
        word = f"{clerk}:{CLERKS[clerk] if password is None else password}"
        fields["Authorization"] = "Basic " + base64.b64encode(word.encode()).decode()
    connection.request(method, path, body, fields)
    answer = connection.getresponse()
    text = answer.read()
    connection.close()
    return answer.status, answer.headers, text


def doors(stand):
    """Who comes to the page, and as whom."""
    status, fields, _ = asked(stand, "/office/")
    check(
        "without a password the office's page is answered 401",
        status == 401 and "Basic" in fields["WWW-Authenticate"],
    )
    check("nor does a field of the clerk's name help", asked(stand, "/office/", X_Office_User="anna")[0] == 401)
    check("nor a wrong password", asked(stand, "/office/", clerk="anna", password="no")[0] == 401)
    check("nor another clerk's", asked(stand, "/office/", clerk="anna", password=CLERKS["bert"])[0] == 401)
    status, fields, text = asked(stand, "/office/person/T1?find=Tim", clerk="anna", X_Office_User="root")
    sent = json.loads(text)["fields"]
    check(
        "the page gets the clerk's name from the proxy alone",
        status == 200 and sent["x-office-user"] == "anna",
        sent,
    )
    check("and never sees a password", "authorization" not in sent, sent)
    check(
        "the page's own policy stays",
        "Content-Security-Policy" not in fields and fields["Cache-Control"] == "no-store",
    )
    check("what only begins so is no page of the office", asked(stand, "/officer", clerk="anna")[0] == 404)
    check("residents are asked for no password", asked(stand, "/", X_Office_User="root")[0] == 200)


def long_lists(stand):
    """Lists that are too long for an office come to the page, which tells the clerk so."""
    for length in (250_000, 1_000_000):
        status, _, text = asked(stand, "/office/lists", method="POST", clerk="bert", body=b"x" * length)
        check(f"{length} bytes come through", status == 200 and json.loads(text)["length"] == length, status)
        with Http2(stand) as connection:
            word = base64.b64encode(f"bert:{CLERKS['bert']}".encode()).decode()
            fields = ("authorization", f"Basic {word}"), ("content-length", str(length))
            stream = connection.upload("/office/lists", *fields, body=b"x" * length)
            connection.take(20, until=stream)
        told = connection.statuses.get(stream), json.loads(connection.bodies.get(stream, b"{}"))
        check("also over HTTP/2", told[0] == 200 and told[1].get("length") == length, (told, connection.reset))
    # Only the beginning is sent: the proxy answers, and closes the connection.
    status, _, _ = asked(
        stand, "/office/lists", method="POST", clerk="bert", body=b"x" * 1000, Content_Length="5000001"
    )
    check("and more than 5,000,000 do not", status == 413, status)


def over_ipv6(stand):
    """Residents and clerks are served over IPv6 as well, and are distinguished by their address."""
    if not has_ipv6():
        print("      IPv6 was not tried: this machine has none")
        return
    check("the residents' page comes over IPv6", asked(stand, "/", source="::1")[0] == 200)
    check("the office's page asks for a password", asked(stand, "/office/", source="::1")[0] == 401)
    check("and takes it", asked(stand, "/office/", clerk="anna", source="::1")[0] == 200)
    tries = [asked(stand, "/office/", clerk="anna", password="guess", source="::1")[0] for _ in range(25)]
    check("an address of IPv6 has a limit on passwords", tries[0] == 401 and 429 in tries, tries)
    tries = [asked(stand, "/office/", clerk="anna", password="guess")[0] for _ in range(2)]
    check("of its own", tries == [401] * 2, tries)


def try_signing(program):
    """Signs in, and guesses."""
    with Stand(program) as stand:
        stand.start_proxy()
        page = Page(stand.environment["ROOMS_PAGE_SOCKET"], Stub)
        threading.Thread(target=page.serve_forever, daemon=True).start()
        doors(stand)
        long_lists(stand)
        over_ipv6(stand)
        page.shutdown()
        page.server_close()
        log = stand.proxy_log()
        check(
            "the log has the path, and nothing of what a clerk looks for",
            "/office/person/T1" in log and "Tim" not in log,
        )
        check("and no password", not any(word in log for word in (*CLERKS.values(), "guess", "$6$", "Basic")))


if __name__ == "__main__":
    if len(sys.argv) != 2:
        sys.exit("usage: /usr/bin/python3 deploy/trial/signing.py PROGRAM")
    try_signing(sys.argv[1])
