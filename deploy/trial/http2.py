"""HTTP/2 as an attacker speaks it: frames by hand over TLS, no more of them than the trial needs.

No library is used, since a library keeps to the protocol: it would wait for windows, and send whole bodies.
"""

import socket
import ssl
import struct

from stand import HOST, unchecked

DATA, HEADERS, RST_STREAM, SETTINGS, WINDOW_UPDATE = 0, 1, 3, 4, 8
END_STREAM, END_HEADERS, ACK = 1, 4, 1
MAX_STREAMS, INITIAL_WINDOW = 3, 4
# The answers that stand in the static table of HPACK, by their place there.
KNOWN = {8: 200, 9: 204, 10: 206, 11: 304, 12: 400, 13: 404, 14: 500}

CONTEXT = unchecked()
CONTEXT.set_alpn_protocols(["h2"])


def frame(kind, flags, stream, body=b""):
    """A frame."""
    return struct.pack(">I", len(body))[1:] + struct.pack(">BBI", kind, flags, stream) + body


def number(value, bits, first=0):
    """A number of HPACK, whose first byte has so many bits for it."""
    if value < (1 << bits) - 1:
        return bytes([first | value])
    value -= (1 << bits) - 1
    out = [first | ((1 << bits) - 1)]
    while value >= 128:
        out.append(value % 128 + 128)
        value //= 128
    return bytes([*out, value])


def field(name, value):
    """A field of HPACK, written out: no table, no Huffman code."""
    name, value = name.encode(), value.encode()
    return b"\0" + number(len(name), 7) + name + number(len(value), 7) + value


def status_of(block):
    """The status in the fields of an answer, which is the first of them."""
    if block[0] & 128:
        return KNOWN[block[0] & 127]
    # A literal whose name is an entry of the static table: the length, and three digits.
    return int(block[2:5])


class Http2:  # pylint: disable=too-many-instance-attributes  # what the proxy has said so far
    """A connection to the proxy."""

    def __init__(self, stand, source="127.0.0.1", window=65_535):
        plain = socket.create_connection(("127.0.0.1", stand.port), 30, (source, 0))
        self.tls = CONTEXT.wrap_socket(plain, server_hostname=HOST)
        assert self.tls.selected_alpn_protocol() == "h2"
        self.left, self.next = b"", 1
        self.settings, self.statuses, self.bodies, self.ended, self.reset = {}, {}, {}, set(), {}
        settings = struct.pack(">HI", INITIAL_WINDOW, window)
        self.tls.sendall(b"PRI * HTTP/2.0\r\n\r\nSM\r\n\r\n" + frame(SETTINGS, 0, 0, settings))

    def __enter__(self):
        return self

    def __exit__(self, *_):
        self.tls.close()

    def head(self, method, path, *fields, ends=True):
        """The head of a request on the next stream: the number of the stream, and the frame."""
        stream, self.next = self.next, self.next + 2
        block = b"".join(field(*one) for one in (
            (":method", method), (":scheme", "https"), (":path", path), (":authority", HOST), *fields))
        return stream, frame(HEADERS, END_HEADERS | (END_STREAM if ends else 0), stream, block)

    def ask(self, method, path, *fields, body=None):
        """Sends a request, in as many frames of data as it takes, and gives the number of its stream."""
        stream, sent = self.head(method, path, *fields, ends=body is None)
        if body is not None:
            parts = [body[at:at + 16_384] for at in range(0, len(body), 16_384)] or [b""]
            sent += b"".join(frame(DATA, END_STREAM if part is parts[-1] else 0, stream, part) for part in parts)
        self.tls.sendall(sent)
        return stream

    def upload(self, path, *fields, body):
        """Sends a request whose body is longer than a window: waits for more room where there is none."""
        stream, head = self.head("POST", path, *fields, ends=False)
        self.tls.sendall(head)
        room, sent = {0: 65_535, stream: 65_535}, 0
        while sent < len(body) and stream not in self.reset:
            size = min(16_384, len(body) - sent, *room.values())
            if size > 0:
                part, sent = body[sent:sent + size], sent + size
                self.tls.sendall(frame(DATA, END_STREAM if sent == len(body) else 0, stream, part))
                room = {one: left - size for one, left in room.items()}
                continue
            for kind, flags, number_of, more in self.frames(20):
                self.note(kind, flags, number_of, more)
                if kind == WINDOW_UPDATE and number_of in room:
                    room[number_of] += int.from_bytes(more, "big")
                if min(room.values()) > 0 or stream in self.reset:
                    break
            else:
                break
        return stream

    def frames(self, seconds):
        """The frames that come, until none comes for so long, or the proxy closes the connection."""
        self.tls.settimeout(seconds)
        while True:
            while len(self.left) >= 9 and len(self.left) >= 9 + (length := int.from_bytes(self.left[:3], "big")):
                kind, flags, stream = struct.unpack(">BBI", self.left[3:9])
                body, self.left = self.left[9:9 + length], self.left[9 + length:]
                yield kind, flags, stream, body
            try:
                more = self.tls.recv(65_536)
            except (TimeoutError, ssl.SSLError, ConnectionError):
                return
            if not more:
                return
            self.left += more

    def take(self, seconds=1, until=None):
        """Reads what comes: settings, and the status, body and end of each stream, until one stream has ended."""
        for kind, flags, stream, body in self.frames(seconds):
            self.note(kind, flags, stream, body)
            if until in self.ended or until in self.reset:
                return

    def note(self, kind, flags, stream, body):
        """Keeps what a frame says."""
        if kind == SETTINGS and not flags & ACK:
            self.settings.update((name, value) for name, value in struct.iter_unpack(">HI", body))
        elif kind == HEADERS:
            self.statuses[stream] = status_of(body)
        elif kind == DATA:
            self.bodies[stream] = self.bodies.get(stream, b"") + body
        elif kind == RST_STREAM:
            self.reset[stream] = int.from_bytes(body, "big")
        if kind in (HEADERS, DATA) and flags & END_STREAM:
            self.ended.add(stream)
