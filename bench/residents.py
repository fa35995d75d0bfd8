"""Residents of a large office send requests to `rooms serve`, one after the other; bench/residents.sh says what is measured."""

import json
import random
import socket
import sqlite3
import subprocess
import sys
import tempfile
import time
from pathlib import Path

from lists import key_of, person_of, room_of

PEOPLE = 2000
LONGEST = 40


def home_of(number):
    """Four fifths of the people have a home."""
    return room_of(number) if number < PEOPLE * 4 // 5 else None


def make_office(program, file):
    """An office of so many people and rooms, in an open round. Its rows are written by SQLite itself."""
    subprocess.run([program, "new", "--db", file], check=True, stdout=subprocess.DEVNULL)
    with sqlite3.connect(file) as database:
        database.executemany("INSERT INTO room VALUES (?, 0)", [(room_of(n),) for n in range(PEOPLE)])
        database.executemany("INSERT INTO person VALUES (?, ?, ?, ?, 0)",
                             [(person_of(n), f"Person {n}", key_of(n), home_of(n)) for n in range(PEOPLE)])
    database.close()
    subprocess.run([program, "do", "--db", file, "open"], check=True, stdout=subprocess.DEVNULL)


def record_of(number, choices):
    """What GET /me has to answer."""
    return {"choices": choices, "going": False, "home": home_of(number), "name": f"Person {number}", "person": person_of(number),
            "phase": "open", "result": None, "round": 1, "shown": False, "withdrawn": False}


def asked(port, method, path, number, body=b""):
    """The status and the value of the answer, and how long it took from the connection to its end."""
    began = time.perf_counter()
    with socket.create_connection(("127.0.0.1", port), 60) as connection:
        connection.sendall((f"{method} {path} HTTP/1.1\r\nHost: rooms\r\nRoom-Key: {key_of(number)}\r\n"
                            f"Content-Length: {len(body)}\r\n\r\n").encode() + body)
        answer = b""
        while piece := connection.recv(65536):
            answer += piece
    took = time.perf_counter() - began
    head, _, text = answer.partition(b"\r\n\r\n")
    return int(head.split()[1]), json.loads(text), took


def run(port, count, draws):
    """Sends the requests and compares each answer. Gives what was handed in, and the times of each kind."""
    recorded: dict[int, list[str]] = {}
    times: dict[str, list[float]] = {"PUT /me/choices": [], "GET /me": []}
    for turn in range(count):
        number = draws.randrange(PEOPLE)
        if turn % 2 == 0:
            choices = [room_of(n) for n in draws.sample(range(PEOPLE), draws.randint(1, LONGEST))]
            got = asked(port, "PUT", "/me/choices", number, json.dumps(choices).encode())
            kind, wanted = "PUT /me/choices", {"choices": choices}
            recorded[number] = choices
        else:
            got = asked(port, "GET", "/me", number)
            kind, wanted = "GET /me", record_of(number, recorded.get(number, []))
        if got[:2] != (200, wanted):
            sys.exit(f"{kind} of {person_of(number)}: {got[:2]}, and not {wanted}")
        times[kind].append(got[2])
    return recorded, times


def compare_file(file, recorded):
    """The file has exactly the lists that were handed in."""
    with sqlite3.connect(file) as database:
        rows = database.execute("SELECT person, room FROM choice ORDER BY person, place").fetchall()
    database.close()
    found: dict[str, list[str]] = {}
    for person, room in rows:
        found.setdefault(person, []).append(room)
    if found != {person_of(number): choices for number, choices in recorded.items()}:
        sys.exit("the file has other lists than those that were handed in")


def free_port():
    with socket.socket() as probe:
        probe.bind(("127.0.0.1", 0))
        return probe.getsockname()[1]


def main(program, count):
    """Starts a server, sends it so many requests, and compares its file."""
    with tempfile.TemporaryDirectory() as folder:
        file, port = Path(folder) / "office.db", free_port()
        make_office(program, file)
        began = time.perf_counter()
        # pylint: disable-next=consider-using-with  # it is ended below, whatever happens
        server = subprocess.Popen([program, "serve", "--db", file, "--port", str(port), "--count", str(count)],
                                  stdout=subprocess.PIPE, text=True)
        try:
            assert server.stdout
            listening = server.stdout.readline()
            if listening != f"listening on 127.0.0.1:{port}\n":
                sys.exit(f"the server said {listening!r}")
            print(f"{PEOPLE} people and rooms; the server listens after {time.perf_counter() - began:.2f} seconds")
            began = time.perf_counter()
            recorded, times = run(port, count, random.Random(1999))
            took = time.perf_counter() - began
            told, _ = server.communicate(timeout=60)
        finally:
            server.kill()
            server.wait()
        if (told, server.returncode) != (f"served {count}\n", 0):
            sys.exit(f"the server ended with {server.returncode}, {told!r}")
        compare_file(file, recorded)
    print(f"{count} requests in {took:.1f} seconds, {count / took:.0f} a second; none lost, none answered wrong")
    for kind, one in times.items():
        one.sort()
        median, late = one[len(one) // 2] * 1000, one[len(one) * 99 // 100] * 1000
        print(f"{kind:16} median {median:6.2f} ms   99th percentile {late:6.2f} ms")


if __name__ == "__main__":
    main(sys.argv[1], int(sys.argv[2]))
