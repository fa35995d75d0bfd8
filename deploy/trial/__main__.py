"""Tries all that is around `rooms serve`, end to end: /usr/bin/python3 deploy/trial PROGRAM FOLDER.

The folder gets the photographs of both pages. With `--no-browser PROGRAM` it tries what the gate tries: the parts that
need no browser, some of them with fewer cases. `--jobs N` tries N parts side by side, and `--part NAME` tries one. The
trial ends at the first thing that is not as it should be, and leaves nothing running. `tools/install-trial browser`
installs what it needs. Selenium, Bottle and waitress are there for Debian's own Python.
"""

import argparse
import subprocess
import sys
import time
from collections.abc import Callable
from concurrent.futures import ThreadPoolExecutor, as_completed
from functools import partial
from pathlib import Path

# The repository stays as it is.
sys.dont_write_bytecode = True

# pylint: disable=wrong-import-position  # not before the line above
from audit_told import try_audit_told
from branching import try_branching
from bundles import try_bundles
from burst import try_burst
from ciphers import try_ciphers
from byhand import try_byhand
from certificate import try_authority, try_certificate
from clock import try_clock
from copying import try_copying
from demo import try_demo
from crash_states import try_crash_states
from draws import try_draws
from earlier import try_earlier
from erased import try_erased
from flush import try_flush
from forgotten import try_forgotten
from full import try_full
from guessing import try_guessing
from houses import try_houses
from keeping import try_keeping
from kills import try_kills
from limits import try_limits
from mail_changed import try_mail_changed
from mail_gone import try_mail_gone
from mail_parts import try_mail_parts
from mail_runs import try_mail_runs
from memory import try_memory
from moving import try_moving
from new_keys import try_new_keys
from nights import try_nights
from noted import try_noted
from office_again import try_office_again
from office_beside import try_office_beside
from office_between import try_office_between
from office_clerks import try_office_clerks
from office_dates import try_office_dates
from office_doors import try_office_doors
from office_figures import try_office_figures
from office_forget import try_office_forget
from office_former import try_office_former
from office_formats import try_office_formats
from office_given_up import try_office_given_up
from office_halfway import try_office_halfway
from office_identifiers import try_office_identifiers
from office_keys import try_office_keys
from office_languages import try_office_languages
from office_mail import try_office_mail
from office_mail_browser import try_office_mail_browser
from office_marked import try_office_marked
from office_on_record import try_office_on_record
from office_overview import try_office_overview
from office_page import try_office_page
from office_receipts import try_office_receipts
from office_sheets import try_office_sheets
from office_told import try_office_told
from office_tried import try_office_tried
from office_unsure import try_office_unsure
from office_wayback import try_office_wayback
from office_wayback_browser import try_office_wayback_browser
from office_words import try_office_words
from page import try_page
from page_dates import try_page_dates
from page_link import try_link
from page_told import try_page_told
from parts import try_parts
from pictures import try_pictures
from port import try_port
from record_browser import try_record_browser
from refused import try_refused
from replacing import try_replacing
from restoring import try_restoring
from signing import try_signing
from signin_account import try_signin_account
from signin_browser import try_signin_browser
from silent import try_silent
from stall import try_stall
from unanswered import try_unanswered
from unbroken import try_unbroken
from unread import try_unread
from untaken import try_untaken
from waits import try_waits
from watch import try_watch


# Parts that ask how quick an answer is. They run alone, and not in the gate, since a busy machine would fail them.
TIMED = ("silent", "guessing", "memory", "port", "stall", "waits")


def all_parts(program, folder):
    """All parts."""
    of_program: list[Callable[..., None]] = [
        try_crash_states, try_keeping, try_bundles, try_clock, try_silent, try_watch, try_flush, try_byhand, try_restoring,
        try_earlier, try_moving, try_nights, try_houses, try_demo,
        try_kills, try_copying, try_full, try_signing, try_guessing, try_noted, try_office_doors, try_office_clerks,
        try_office_again, try_office_between, try_office_formats, try_office_sheets, try_office_keys, try_office_forget,
        try_office_wayback, try_office_told, try_office_dates, try_office_figures, try_draws, try_refused, try_office_mail,
        try_office_receipts, try_mail_runs, try_burst, try_limits, try_ciphers, try_memory, try_port, try_stall, try_waits,
        try_unanswered, try_unread, try_office_tried, try_mail_changed, try_mail_gone, try_office_on_record,
        try_office_overview, try_office_words, try_office_languages, try_office_marked, try_certificate, try_authority,
        try_signin_account, try_office_beside, try_office_identifiers, try_office_former, try_new_keys, try_erased,
        try_office_halfway, try_office_given_up, try_office_unsure, try_untaken, try_forgotten,
    ]
    of_browser: list[Callable[..., None]] = [try_page, try_link, try_page_told, try_page_dates, try_signin_browser, try_office_page,
                                             try_office_mail_browser, try_office_wayback_browser, try_record_browser,
                                             try_unbroken, try_pictures]
    pages = [partial(one, program, folder) for one in of_browser]
    of_office = [partial(one, program) for one in of_program]
    return [try_parts, try_branching, try_mail_parts, try_replacing, try_audit_told, *of_office, *pages]


def gate_parts(program):
    """What the gate tries, without those of TIMED. The sizes aim at five minutes on two processors."""
    of_program: list[Callable[..., None]] = [
        try_crash_states, try_keeping, partial(try_bundles, sizes=[True]), try_clock, try_watch,
        try_flush, try_byhand, try_restoring, try_earlier,
        try_moving, try_nights, try_houses, try_demo,
        partial(try_kills, kills=1), partial(try_copying, length=5), try_full, try_signing, try_noted,
        partial(try_office_doors, requests=150), try_office_clerks, try_office_again, try_office_between, try_office_formats,
        try_office_sheets, try_office_keys, try_office_forget, try_office_wayback, try_office_told, try_office_dates,
        try_office_figures, try_draws, try_refused, try_office_mail, try_office_receipts, try_mail_runs, try_burst, try_limits,
        try_ciphers, try_unanswered, try_unread, try_office_overview, try_office_words, try_office_languages, try_certificate,
        try_office_beside, try_office_identifiers, try_office_former, try_office_tried, try_mail_changed,
        try_mail_gone, try_office_on_record, try_new_keys, try_erased,
        try_office_halfway, try_office_given_up, try_office_unsure, try_untaken, try_forgotten,
    ]
    of_office = [partial(one, program) for one in of_program]
    return [try_parts, try_branching, try_mail_parts, try_replacing, try_audit_told, *of_office]


def name_of(part):
    """The name of a part: that of its function, without `try_`."""
    return getattr(part, "func", part).__name__.removeprefix("try_")


def one_after_the_other(parts):
    """Tries the parts here."""
    began = time.monotonic()
    for number, part in enumerate(parts, 1):
        print(f"part {number} of {len(parts)}, after {time.monotonic() - began:.0f} s: {name_of(part)}", flush=True)
        part()


def apart(part, words):
    """Tries a part in a process of its own. Prints what it printed once it has ended, and returns its status."""
    began = time.monotonic()
    done = subprocess.run([sys.executable, str(Path(__file__).parent), "--part", name_of(part), *words], check=False,
                          stdout=subprocess.PIPE, stderr=subprocess.STDOUT, text=True)
    print(f"{done.stdout}after {time.monotonic() - began:.0f} s: {name_of(part)}", flush=True)
    return done.returncode


def side_by_side(parts, jobs, words):
    """Tries so many parts at a time, and then those alone that ask how quick an answer is. After a fault it begins no other."""
    for some, at_a_time in ([part for part in parts if name_of(part) not in TIMED], jobs), (
            [part for part in parts if name_of(part) in TIMED], 1):
        with ThreadPoolExecutor(at_a_time) as pool:
            runs = {pool.submit(apart, part, words): name_of(part) for part in some}
            for run in as_completed(runs):
                if run.result() != 0:
                    pool.shutdown(wait=True, cancel_futures=True)
                    sys.exit(f"deploy/trial: {runs[run]} is not as it should be")


def words_of(words):
    """The words of the command line."""
    parser = argparse.ArgumentParser(prog="/usr/bin/python3 deploy/trial", description=__doc__.partition(".")[0])
    parser.add_argument("--no-browser", action="store_true", help="try what the gate tries")
    parser.add_argument("--jobs", type=int, default=1, metavar="N", help="try so many parts side by side")
    parser.add_argument("--part", metavar="NAME", help="try this part alone")
    parser.add_argument("program", metavar="PROGRAM")
    parser.add_argument("folder", metavar="FOLDER", nargs="?", help="where photographs go")
    given = parser.parse_args(words)
    if given.no_browser == bool(given.folder):
        parser.error("name a folder for the photographs, or say --no-browser")
    return given


def main(words):
    """Tries each part, and says how long it took."""
    given = words_of(words)
    if given.folder:
        Path(given.folder).mkdir(parents=True, exist_ok=True)
    parts = gate_parts(given.program) if given.no_browser else all_parts(given.program, Path(given.folder))
    if given.part:
        parts = [part for part in parts if name_of(part) == given.part] or sys.exit(f"deploy/trial: no part {given.part}")
    began = time.monotonic()
    if given.jobs > 1:
        side_by_side(parts, given.jobs, ["--no-browser", given.program] if given.no_browser else [given.program, given.folder])
    else:
        one_after_the_other(parts)
    if not given.part:
        print(f"deploy/trial: all is as it should be, {len(parts)} parts in {(time.monotonic() - began) / 60:.1f} minutes")


if __name__ == "__main__":
    main(sys.argv[1:])
