"""How long residents wait for one line of the office, with 300 and with 2,000 people who have a list of 20 rooms each.

The keeper stops the server for the line. Afterwards the server reads the office's file anew. This run alone:

    /usr/bin/python3 deploy/trial/waits.py PROGRAM
"""

import os
import statistics
import sys
import time

from residents import Residents
from stand import Stand, check

RESIDENTS = 4
LINES = 10
CHOICES = 20


class Line:  # pylint: disable=too-few-public-methods  # it is measured, and looked at
    """One line of the office: when it began, how long clerk and file waited for it, and when the server was back."""

    def __init__(self, stand, line):
        self.began = time.monotonic()
        answer = stand.ask(ask="do", lines=[line])
        self.took = time.monotonic() - self.began
        check_quietly(line, answer)
        self.stopped = answer["took"] / 1000
        stand.until_listening(stand.server_port)
        self.until = time.monotonic()

    def longest_wait(self, answers):
        """The longest wait of a resident who asked meanwhile, or just before."""
        return max(one.took for one in answers if one.began < self.until and one.began + one.took > self.began)


def check_quietly(line, answer):
    """Ends the trial where a line is not accepted."""
    if not answer.get("done"):
        check(line, False, answer)


def seconds(name, times):
    """The median and the longest of some times, as a text."""
    return f"{name} {statistics.median(times):.2f} s, at most {max(times):.2f} s"


def wait_for(program, people):
    """Measures some lines of the office with so many people. A list that replaces another one is copied before."""
    with Stand(program) as stand:
        persons, rooms = [f"P{number:04d}" for number in range(people)], [f"R-{number}" for number in range(people)]
        listed, others = persons[:-LINES], persons[-LINES:]
        stand.fill(rooms, persons)
        stand.tell("open")
        stand.fill_lists(listed, rooms, CHOICES)
        stand.start()
        stand.start_proxy()
        measured = {}
        with Residents(stand, listed, RESIDENTS, 0.08, 90) as residents:
            for kind, some in (("lines", others), ("lines with a copy before", listed[:LINES])):
                measured[kind] = [measure(stand, f"choose {person} {rooms[0]}") for person in some]
            time.sleep(1.5)
    report(people, measured, residents.answers)


def measure(stand, line):
    """One line, some time after the one before."""
    time.sleep(1.5)
    return Line(stand, line)


def report(people, measured, answers):
    """Says what was measured."""
    statuses = {one.status for one in answers}
    check(f"{people} people: each of {len(answers)} requests has its answer", statuses == {200}, statuses)
    for kind, lines in measured.items():
        waits = [line.longest_wait(answers) for line in lines]
        print(
            f"      {len(lines)} {kind}: {seconds('the clerk waits', [line.took for line in lines])}; "
            f"{seconds('the line takes', [line.stopped for line in lines])}; {seconds('a resident waits', waits)}"
        )
    print(f"      load of the machine {os.getloadavg()[0]:.1f} on {os.cpu_count()} processors")


def try_waits(program):
    """Measures a college and a large one."""
    for people in (300, 2000):
        wait_for(program, people)


if __name__ == "__main__":
    if len(sys.argv) != 2:
        sys.exit("usage: /usr/bin/python3 deploy/trial/waits.py PROGRAM")
    try_waits(sys.argv[1])
