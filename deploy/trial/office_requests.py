"""Requests to the office's page through the proxy, without a browser."""

import base64
import gzip
import html
import http.client
import json
import re
import socket
import urllib.parse

from stand import CLERKS, HOST, unchecked

EDGE = "edge-of-a-part-8472"
# What the page puts around a room code in a sentence.
UNBROKEN = re.compile(r'<span class="nobreak">([^<]*)</span>')


def multipart(form, files):
    """A form with files, as a browser sends it."""
    parts = [
        f'--{EDGE}\r\nContent-Disposition: form-data; name="{name}"\r\n\r\n{value}\r\n'.encode()
        for name, value in form.items()
    ]
    parts += [
        f'--{EDGE}\r\nContent-Disposition: form-data; name="{name}"; filename="list.csv"\r\n'
        f'Content-Type: text/csv\r\n\r\n'.encode() + body + b"\r\n"
        for name, body in files.items()
    ]
    return b"".join(parts) + f"--{EDGE}--\r\n".encode()


class Page:
    """The office's page, as a clerk without a browser asks for it."""

    def __init__(self, stand, clerk="anna", password=None):
        self.stand = stand
        self.clerk, self.password = clerk, CLERKS.get(clerk, "") if password is None else password

    def ask(self, method, path, body=None, headers=None):
        """One request: the status, the fields (in small letters) and the text of its answer, with room codes as they read."""
        connection = http.client.HTTPSConnection("127.0.0.1", self.stand.port, context=unchecked(), timeout=130)
        raw = socket.create_connection(("127.0.0.1", self.stand.port), 130)
        connection.sock = unchecked().wrap_socket(raw, server_hostname=HOST)
        fields = {"Host": HOST, **(headers or {})}
        if self.clerk:
            secret = base64.b64encode(f"{self.clerk}:{self.password}".encode()).decode()
            fields["Authorization"] = f"Basic {secret}"
        try:
            connection.request(method, path, body, fields)
            answer = connection.getresponse()
            found = {name.lower(): value for name, value in answer.getheaders()}
            data = answer.read()
            data = gzip.decompress(data) if found.get("content-encoding") == "gzip" else data
            return answer.status, found, UNBROKEN.sub(r"\1", data.decode("utf-8", "replace"))
        finally:
            connection.close()

    def get(self, path, headers=None):
        """A page."""
        return self.ask("GET", path, headers=headers)

    def hidden(self, page, action=""):
        """What the form with this action carries unseen, or what every form of the page does."""
        text = self.get(page)[2]
        forms = re.findall(f'action="{re.escape(action)}"(.*?)</form>', text, re.DOTALL) if action else []
        found = re.findall(r'type="hidden" name="(\w+)" value="([^"]*)"', forms[0] if forms else text)
        return {name: html.unescape(value) for name, value in found if forms or name in ("token", "seen")}

    def post(self, path, form, headers=None, files=None):
        """A form just as it is given."""
        kind = f"multipart/form-data; boundary={EDGE}" if files else "application/x-www-form-urlencoded"
        body = multipart(form, files) if files else urllib.parse.urlencode(form).encode()
        return self.ask("POST", path, body, {"Content-Type": kind, **(headers or {})})

    def form(self, path, form=None, page="/office/lists", files=None):
        """A form of a page, with all that the page puts into it. One with new keys leads to a page of its own."""
        answer = self.post(path, {**self.hidden(page, path), **(form or {})}, files=files)
        led = answer[1].get("location", "").partition("/office/lists/tried/")[2]
        return self.get(f"/office/lists/tried/{led}") if led else answer


def hand_in(stand, key, rooms):
    """A resident hands a list in, through the proxy."""
    connection = http.client.HTTPSConnection("127.0.0.1", stand.port, context=unchecked(), timeout=90)
    connection.sock = unchecked().wrap_socket(socket.create_connection(("127.0.0.1", stand.port)), server_hostname=HOST)
    connection.request("PUT", "/me/choices", json.dumps(rooms), {"Host": HOST, "Room-Key": key})
    status = connection.getresponse().status
    connection.close()
    return status
