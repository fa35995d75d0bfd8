"""Makes the program's allocations fail, one after the other; bench/memory.sh says what has to come of it, and which parts
there are."""

import os
import socket
import subprocess
import sys
import tempfile
import time
from dataclasses import dataclass
from itertools import count
from multiprocessing import Pool
from pathlib import Path

from faults import ENDS, content_of, copy_office, kept_words
from foreign.earlier import ORDERS, as_earlier
from foreign.offices import OFFICES
from foreign.tables import declare, fill_some, opened
from residents import free_port

UNAVAILABLE = "unavailable\n"
UNSERVED = "HTTP/1.1 503 "
SUBCOMMANDS = ("import", "export", "migrate")
EXPORTS = ("rooms", "people", "moves", "grades")
# The resident with this key takes part in the round of bench/lists.txt, and is going in that of bench/grades.txt. Each request
# comes with a text that its answer has to contain with ample memory.
KEY = "key0000000000s01"
REQUESTS = (("GET", "/rooms", "", '"room":"A1"'), ("GET", "/me", "", '"going":false'),
            ("PUT", "/me/choices", '["A3","B2"]', '{"choices":["A3","B2"]}'), ("PUT", "/me/choices", '["Z9"]', '"UnknownRoom"'),
            ("POST", "/me/withdraw", "", '{"withdrawn":true}'), ("GET", "/nothing", "", '"NotFound"'))
GOING_REQUESTS = (("PUT", "/me/choices", '["A3","B2"]', '"Going"'), ("POST", "/me/withdraw", "", '"Going"'))


@dataclass
class Ran:
    """What a run printed, its status, and whether an allocation was refused."""

    text: str
    status: int
    is_refused: bool

    def is_as(self, other):
        """Whether another run printed the same, with the same status."""
        return (self.text, self.status) == (other.text, other.status)


@dataclass
class Program:
    """The program, and the library that refuses memory to it."""

    path: str
    refuse: str

    def refusing(self, number):
        """The environment in which this allocation is refused, and the pipe that reports it."""
        reads, writes = os.pipe()
        environment = {**os.environ, "LD_PRELOAD": self.refuse, "ROOMS_REFUSE": str(number), "ROOMS_TELL": str(writes)}
        return environment, reads, writes

    def run(self, words, number=0, given=""):
        """A run with these words and this standard input; the allocation of this number is refused."""
        environment, reads, writes = self.refusing(number)
        done = subprocess.run([self.path, *words], input=given, capture_output=True, text=True, env=environment,
                              pass_fds=[writes], check=False)
        return Ran(done.stdout + done.stderr, done.returncode, was_told(reads, writes))

    def line(self, office, words):
        """The program's own words for a line on this office."""
        line = words if words[0] in SUBCOMMANDS else ["do", *words]
        return [line[0], "--db", str(office), *line[1:]]


def was_told(reads, writes):
    """Whether the pipe has a byte; it is closed."""
    os.close(writes)
    told = os.read(reads, 1)
    os.close(reads)
    return bool(told)


def refuse_each(attempt):
    """Refuses the first allocation, the second and so on, and gives how many were. The attempt says whether one was."""
    return next(number for number in count(0) if not attempt(number + 1))


def expect(is_so, what, ran):
    assert is_so, f"{what}: status {ran.status}: {ran.text[:300]}"


def expect_ample(ran, what, is_ample):
    """A run that was refused nothing answers as with ample memory: it ends the count, and may not end it early."""
    expect(ran.is_refused or is_ample, f"{what}, though none was refused", ran)


def bytes_of(office):
    """The bytes of an office's file and of the log next to it."""
    paths = [Path(f"{office}{end}") for end in ENDS]
    return [path.read_bytes() if path.exists() else b"" for path in paths]


class Kept:  # pylint: disable=too-few-public-methods  # it keeps what is dear to read
    """An office before a line and after it, and which of them a copy holds."""

    def __init__(self, before, after):
        self.bytes, self.before, self.after = bytes_of(before), content_of(before), content_of(after)

    def of(self, office):
        """The rows of a copy. If its bytes are those before the line, they are not read again."""
        return self.before if bytes_of(office) == self.bytes else content_of(office)


# --- a rehearsal

def rehearsals(program, script):
    """A whole script by `rehearse`."""
    lines = [line for line in Path(script).read_text(encoding="utf-8").splitlines() if line and not line.startswith("#")]

    def said(some, number=0):
        return program.run(["rehearse"], number, "".join(line + "\n" for line in some))

    fronts = [said(lines[:length]) for length in range(len(lines) + 1)]
    ample = fronts[-1]
    expect(ample.status < 3, f"rehearsal of {script} with ample memory", ample)
    # what is printed if one line is answered `unavailable`, and so does not count: then the status is 3
    others = {front.text + UNAVAILABLE + said(lines[:i] + lines[i + 1:]).text[len(front.text):]
              for i, front in enumerate(fronts[:-1])}
    cut = {UNAVAILABLE, *(front.text for front in fronts), *others}

    def attempt(number):
        ran, what = said(lines, number), f"rehearsal of {script} without allocation {number}"
        expect(ran.is_as(ample) or ran.status == 3 and ran.text in cut, what, ran)
        expect_ample(ran, what, ran.is_as(ample))
        return ran.is_refused

    return refuse_each(attempt)


# --- lines over a file

def line_over_file(program, words, before, answer, after):
    """One line on copies of an office."""
    is_read = words[0] == "export"
    with tempfile.TemporaryDirectory() as name:
        office, kept = Path(name) / "office.db", Kept(before, after)

        def attempt(number):
            copy_office(before, office)
            ran = program.run(program.line(office, words), number)
            content, what = kept.of(office), f"{' '.join(words)} on {before.stem} without allocation {number}"
            if ran.text == UNAVAILABLE:
                expect(ran.status == 3 and content == kept.before, what, ran)
            elif ran.text == answer.text:
                expect(ran.status in (answer.status, 3) and content == kept.after, what, ran)
            else:  # a text that could not be made or written does not undo the change
                front = answer.text[:len(ran.text)] if is_read else ""
                expect(ran.status == 3 and content == kept.after and ran.text == front, what, ran)
            expect_ample(ran, what, ran.is_as(answer))
            return ran.is_refused

        return refuse_each(attempt)


def step(program, words, before, after):
    """A line, with the office before it, its answer, and the office after it. With ample memory it has to be accepted."""
    copy_office(before, after)
    answer = program.run(program.line(after, words))
    expect(answer.text and answer.status == 0, f"{' '.join(words)} on {before.stem} with ample memory", answer)
    return program, words, before, answer, after


def steps_of(program, before, name, lines):
    """Lines, one after the other from this office on. Files of this name hold the offices after them."""
    for number, words in enumerate(lines, 1):
        after = before.with_name(f"{name}-{number}.db")
        yield step(program, words, before, after)
        before = after


def new_office(program, folder):
    """An empty office."""
    office = folder / "new.db"
    program.run(["new", "--db", str(office)])
    return office


def migrations(program, folder):
    """The migration of an office from each order of tables of an earlier version, in a file that sqlite3 writes."""
    for order, (version, tables) in ORDERS.items():
        before = folder / f"{order}.db"
        with opened(before) as database:
            declare(database, *tables)
            fill_some(database, as_earlier(OFFICES["published"], version), tables)
        yield step(program, ["migrate"], before, folder / f"{order}, migrated.db")


# --- residents

def answer_of(port, method, target, body):
    """What a resident is answered, or nothing."""
    head = f"{method} {target} HTTP/1.1\r\nHost: 127.0.0.1:{port}\r\nRoom-Key: {KEY}\r\nContent-Length: {len(body)}\r\n\r\n"
    with socket.create_connection(("127.0.0.1", port)) as stream:
        stream.sendall((head + body).encode())
        with stream.makefile("rb") as answer:
            return answer.read().decode()


def serve_once(program, office, port, request, number):
    """Serves one request while this allocation is refused. Gives what the resident was answered and what the run printed."""
    environment, reads, writes = program.refusing(number)
    words = [program.path, "serve", "--db", str(office), "--port", str(port), "--count", "1"]
    with subprocess.Popen(words, stdout=subprocess.PIPE, text=True, env=environment, pass_fds=[writes]) as server:
        assert server.stdout
        said = server.stdout.readline()
        answer = answer_of(port, *request) if said.startswith("listening") else ""
        said += server.stdout.read()
        server.wait()
    return answer, Ran(said, server.returncode, was_told(reads, writes))


def served(program, office, port, request, due):
    """One resident's request, over copies of an office. With ample memory its answer has to contain the text that is due."""
    with tempfile.TemporaryDirectory() as name:
        copy = Path(name) / "office.db"
        copy_office(office, copy)
        ample, ran = serve_once(program, copy, port, request, 0)
        expect(due in ample, f"{request} with ample memory: {ample[:40]}", ran)
        kept = Kept(office, copy)

        def attempt(number):
            copy_office(office, copy)
            answer, ran = serve_once(program, copy, port, request, number)
            content, what = kept.of(copy), f"{request} without allocation {number}: {answer[:40]}"
            if answer == ample:
                expect(content == kept.after, what, ran)
            else:
                is_told = answer.startswith(UNSERVED) or not answer and ran.status == 3
                expect(content == kept.before and is_told, what, ran)
            expect_ample(ran, what, answer == ample and ran.status == 0)
            return ran.is_refused

        return refuse_each(attempt)


def requests_of(program, steps, requests):
    """Each of these requests, over the office whose round a year closes next."""
    office = [before for _, words, before, _, _ in steps if words == ["close"]][0]
    for *request, due in requests:
        yield program, office, free_port(), request, due


# --- calls of the desk

def tests_of(tests):
    """The tests that are right whichever allocation is refused, by their names."""
    listed = subprocess.run([tests.path, "--list"], capture_output=True, text=True, check=True).stdout
    for line in listed.splitlines():
        if line.startswith("refused::"):
            yield tests, line.removesuffix(": test")


def calls_of_desk(tests, name):
    """One test of bench/refused/, which judges the answers itself."""
    def attempt(number):
        ran = tests.run([name], number)
        expect(ran.status == 0, f"{name} without allocation {number}", ran)
        return ran.is_refused

    return refuse_each(attempt)


# --- the parts

def parts_of(program, tests, folder):
    """The parts by their words, in order: what each is called, and the function to try with its arguments."""
    lists = list(steps_of(program, new_office(program, folder), "lists", kept_words(Path("bench/lists.txt"))))
    grades = list(steps_of(program, lists[-1][-1], "grades", kept_words(Path("bench/grades.txt"))))
    exports = steps_of(program, grades[-1][-1], "exports", (["export", kind] for kind in EXPORTS))
    return {
        "desk": ("calls of the desk", calls_of_desk, tests_of(tests)),
        "year": ("a year rehearsed", rehearsals, [(program, "examples/year.txt")]),
        "leavers": ("a year with grades and leavers rehearsed", rehearsals, [(program, "examples/leavers.txt")]),
        "lists": ("lines over a file", line_over_file, lists),
        "grades": ("lines over a file, with grades and a leaver", line_over_file, grades),
        "exports": ("exports", line_over_file, exports),
        "migrate": ("files of earlier versions migrated", line_over_file, migrations(program, folder)),
        "residents": ("residents' requests", served, requests_of(program, lists, REQUESTS)),
        "going": ("requests of a resident who is going", served, requests_of(program, grades, GOING_REQUESTS)),
    }


def try_part(pool, what, function, arguments):
    """Tries a part, prints how many allocations were refused, and gives their number."""
    began = time.monotonic()
    refused = pool.starmap(function, arguments, 1)
    assert refused and all(refused), f"{what}: nothing was refused to one of these: {refused}"
    print(f"{what}: {sum(refused)} allocations refused, {time.monotonic() - began:.0f} s", flush=True)
    return sum(refused)


def main(path, tests, refuse, jobs, *words):
    with Pool(int(jobs)) as pool, tempfile.TemporaryDirectory() as name:
        parts = parts_of(Program(path, refuse), Program(tests, refuse), Path(name))
        if unknown := [word for word in words if word not in parts]:
            sys.exit(f"no such part: {' '.join(unknown)}; the parts are {' '.join(parts)}")
        refused = sum(try_part(pool, *parts[word]) for word in words or parts)
    print(f"{refused} allocations refused, each answered as it has to be")


if __name__ == "__main__":
    main(*sys.argv[1:])
