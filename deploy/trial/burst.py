"""A burst: residents at once over TLS, each with several requests, while the office closes the round, or the keeper is
killed.

No request may have another answer than what it asks for, or that the round is closed; and whatever was answered as
recorded has to be on record afterwards. This run alone: /usr/bin/python3 deploy/trial/burst.py PROGRAM
"""

import asyncio
import collections
import json
import sys
import threading
import time

from stand import HOST, Stand, check, key_of, unchecked, until

RESIDENTS = 200
ROOMS = [f"R-{n}" for n in range(60)]


def choices_of(number):
    """The list of the resident with this number: ten rooms, another one for each."""
    return [ROOMS[(number * 7 + step * (1 + number % 5)) % len(ROOMS)] for step in range(10)]


def person_of(number):
    """The identifier of a resident."""
    return f"P{number:03d}"


class Resident:
    """One resident's connection to the proxy, and what was answered."""

    def __init__(self, number, port):
        self.number, self.port = number, port
        self.times, self.kept, self.refused = [], None, False
        self.statuses = collections.Counter[int]()

    async def ask(self, stream, method, path, body=b""):
        """Sends a request, and gives status and body of the answer."""
        reader, writer = stream
        began = time.monotonic()
        writer.write(
            (
                f"{method} {path} HTTP/1.1\r\nHost: {HOST}\r\nRoom-Key: {key_of(person_of(self.number))}\r\n"
                f"Content-Length: {len(body)}\r\n\r\n"
            ).encode()
            + body
        )
        head = (await asyncio.wait_for(reader.readuntil(b"\r\n\r\n"), 120)).decode()
        lines = [line.lower() for line in head.split("\r\n")]
        length = next(int(line.split(":")[1]) for line in lines if line.startswith("content-length:"))
        answer = await reader.readexactly(length)
        self.times.append(time.monotonic() - began)
        status = int(head.split()[1])
        self.statuses[status] += 1
        return status, answer

    async def visit(self, gate, context):
        """Looks, hands in a list, and looks again."""
        await gate.wait()
        stream = await asyncio.open_connection(
            "127.0.0.1", self.port, ssl=context, server_hostname=HOST, ssl_handshake_timeout=60
        )
        choices = choices_of(self.number)
        status, told = await self.ask(stream, "GET", "/me")
        assert status == 200 and json.loads(told)["person"] == person_of(self.number), (status, told)
        status, rows = await self.ask(stream, "GET", "/rooms")
        assert status == 200 and len(json.loads(rows)) == len(ROOMS), (status, rows)
        status, told = await self.ask(stream, "PUT", "/me/choices", json.dumps(choices).encode())
        if status == 200:
            assert json.loads(told) == {"choices": choices}, told
            self.kept = choices
        else:
            assert (status, told) == (409, b'{"error":"BadPhase"}'), (status, told)
            self.refused = True
        status, told = await self.ask(stream, "GET", "/me")
        assert status == 200, (status, told)
        if self.kept:
            assert json.loads(told)["choices"] == choices, told
        stream[1].close()


async def burst(port, during):
    """All residents at once; the office works meanwhile, in a thread of its own, and sees how far they are."""
    residents, gate = [Resident(number, port) for number in range(RESIDENTS)], asyncio.Event()
    context = unchecked()
    visits = [asyncio.create_task(resident.visit(gate, context)) for resident in residents]
    office = threading.Thread(target=during, args=(residents,))
    began = time.monotonic()
    gate.set()
    office.start()
    faults = [fault for fault in await asyncio.gather(*visits, return_exceptions=True) if fault]
    took = time.monotonic() - began
    office.join()
    check(f"{RESIDENTS} residents at once meet no fault", not faults, faults[:3])
    statuses = sum((resident.statuses for resident in residents), collections.Counter[int]())
    times = sorted(one for resident in residents for one in resident.times)
    print(
        f"      {len(times)} requests in {took:.1f} seconds, answers {dict(statuses)}; the median waited "
        f"{times[len(times) // 2]:.2f} seconds, the longest {times[-1]:.2f}"
    )
    return residents


def on_record(stand, residents):
    """Everything that was answered as recorded is on record, and nobody has another list than the one handed in."""
    lists = stand.recorded()
    differing = [one for one in residents if lists.get(person_of(one.number), []) != (one.kept or [])]
    lost = [person_of(one.number) for one in differing if one.kept]
    check("nothing that was answered is lost", not lost, lost)
    for resident in differing:
        # The server was stopped after it had recorded the list and before it had answered; the proxy sent it again.
        recorded = lists.get(person_of(resident.number), [])
        check(
            f"{person_of(resident.number)} read that the round is closed, and has the list handed in",
            resident.refused and recorded == choices_of(resident.number),
            recorded,
        )


def handed_in(residents):
    """How many have handed in a list."""
    return sum(resident.kept is not None for resident in residents)


def close_round(stand, residents):
    """The office closes the round, once a quarter has handed in a list."""
    until(lambda: handed_in(residents) >= RESIDENTS // 4, 60, "the first lists")
    told = stand.office("close")
    check("the office closed the round meanwhile", told == f"closed {RESIDENTS}\n", told)


def lose_keeper(stand, residents):
    """The keeper is killed in the middle of a line, and started again as systemd does."""
    until(lambda: handed_in(residents) >= RESIDENTS // 4, 60, "the first lists")
    line = threading.Thread(target=stand.command, args=("do", "room", "NEW"))
    line.start()
    time.sleep(0.15)
    stand.kill_keeper()
    time.sleep(0.2)
    stand.start()
    line.join()
    check("the keeper was killed meanwhile, and is there again", stand.server() is not None)


def try_one(program, what):
    """One burst, and what the office does meanwhile."""
    with Stand(program) as stand:
        stand.fill(ROOMS, [person_of(number) for number in range(RESIDENTS)])
        stand.tell("open")
        stand.start()
        stand.start_proxy()
        residents = asyncio.run(burst(stand.port, lambda residents: what(stand, residents)))
        kept = handed_in(residents)
        print(f"      {kept} lists were handed in, and {RESIDENTS - kept} residents read that it is closed")
        on_record(stand, residents)
        check("no log of the proxy has a key", "key0" not in stand.proxy_log())


def try_burst(program):
    """A burst during each."""
    for what in (close_round, lose_keeper):
        try_one(program, what)


if __name__ == "__main__":
    if len(sys.argv) != 2:
        sys.exit("usage: /usr/bin/python3 deploy/trial/burst.py PROGRAM")
    try_burst(sys.argv[1])
