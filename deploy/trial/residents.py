"""Residents who ask one after the other, each over a connection of their own, and what they were answered."""

import random
import socket
import threading
import time
from typing import NamedTuple

from stand import HOST, key_of, unchecked


NO_ANSWER = 0


class Answer(NamedTuple):
    """One answer: when it was asked for, how long that took, and its status, or NO_ANSWER."""

    began: float
    took: float
    status: int


def answers_of(stand, people, patience):
    """Asks for one of these people again and again, over one connection, and gives each answer. Waits no longer than `patience`."""
    plain = socket.create_connection(("127.0.0.1", stand.port), patience)
    with unchecked().wrap_socket(plain, server_hostname=HOST) as connection, connection.makefile("rb") as reader:
        while True:
            began = time.monotonic()
            key = key_of(random.choice(people))
            connection.sendall(f"GET /me HTTP/1.1\r\nHost: {HOST}\r\nRoom-Key: {key}\r\n\r\n".encode())
            first, length = reader.readline(), 0
            if not first:
                raise ConnectionError("the proxy has closed the connection")
            while (line := reader.readline()) != b"\r\n":
                if line.lower().startswith(b"content-length:"):
                    length = int(line.split(b":")[1])
            reader.read(length)
            yield Answer(began, time.monotonic() - began, int(first.split()[1]))


class Residents:
    """So many residents ask until the `with` block ends, and pause for a moment after each answer."""

    def __init__(self, stand, people, count, pause, patience):
        self.stand, self.people, self.pause, self.patience = stand, people, pause, patience
        self.over, self.answers = threading.Event(), []
        self.threads = [threading.Thread(target=self.ask) for _ in range(count)]

    def __enter__(self):
        for thread in self.threads:
            thread.start()
        return self

    def __exit__(self, *_):
        self.over.set()
        for thread in self.threads:
            thread.join()

    def ask(self):
        """One resident. One who waits too long, or loses the connection, has no answer and asks no more."""
        try:
            for answer in answers_of(self.stand, self.people, self.patience):
                self.answers.append(answer)
                if self.over.wait(self.pause * random.uniform(0.5, 1.5)):
                    return
        except OSError:
            self.answers.append(Answer(time.monotonic(), 0, NO_ANSWER))
