"""The disk is full: what reads goes on, what changes is refused in words, nothing is half done, and all goes on once
there is room.

It needs the right to mount a small file system in memory; without that it is not tried. This run alone, also over
standin.py: /usr/bin/python3 deploy/trial/full.py PROGRAM
"""

import contextlib
import http.client
import os
import subprocess
import sys
import tempfile
from pathlib import Path
from typing import Any

from office_again import flat
from office_requests import Page
from stand import Stand, check, key_of

SIZE = "6m"
LEFT = 60_000  # bytes: enough for a small file, and not for ten copies


@contextlib.contextmanager
def small_disk():
    """A file system of its own, or nothing where that may not be made."""
    with tempfile.TemporaryDirectory(prefix="rooms-disk-") as folder:
        words = ["mount", "-t", "tmpfs", "-o", f"size={SIZE},mode=700", "rooms-trial", folder]
        if subprocess.run(words, capture_output=True, check=False).returncode != 0:
            yield None
            return
        try:
            yield Path(folder)
        finally:
            subprocess.run(["umount", folder], check=True)


def fill_up(disk):
    """Takes all room of a disk, and gives the file that has it."""
    filler = disk / "filler"
    held = os.open(filler, os.O_WRONLY | os.O_CREAT)
    with contextlib.suppress(OSError):
        while True:
            os.write(held, bytes(4096))
    os.close(held)
    return filler


def refused(stand, **job):
    """Whether the keeper says in words that the disk is full and nothing was changed."""
    answer = stand.ask(**job)
    said = answer.get("fault", "") or str(answer.get("answers"))
    return "Nothing was changed" in said or "memory failed" in said or "unavailable" in said, said


def hand_in(stand):
    """A resident hands in a list, straight to the server; gives the status."""
    stand.until_listening(stand.server_port)
    connection = http.client.HTTPConnection("127.0.0.1", stand.server_port, timeout=30)
    connection.request("PUT", "/me/choices", '["H1"]', {"Room-Key": key_of("T1")})
    status = connection.getresponse().status
    connection.close()
    return status


def overview(stand, room, *says):
    """The overview says what room there is, and what comes of it; or nothing if there is enough."""
    shown, disk = flat(Page(stand).get("/office/")[2]), stand.ask(ask="view")["disk"]
    check(f"the overview with {room}", all(text in shown for text in says) if says else "On the disk" not in shown, shown)
    free = f"On the disk of the office {disk['free'] / 1e6:.1f} MB are free" if disk else ""
    check("it says how much is free", bool(disk) == bool(says) and free in shown, (disk, shown))


def while_full(stand, name, before, is_program):
    """What reads goes on, and what changes is refused."""
    view = stand.ask(ask="view")
    check(
        "full disk: the office can be looked at",
        view["rooms"] == before["rooms"] and view["phase"] == "open",
        view,
    )
    check("full disk: questions are answered", "H1" in stand.office("rooms"))
    check("full disk: exports come", stand.command("export", "people")[0] == 0)
    jobs: list[dict[str, Any]] = [
        {"ask": "do", "lines": ["room H2"]},
        {"ask": "do", "lines": ["close"]},
        {"ask": "do", "lines": ["room H3", "room H4"]},
        {"ask": "backup"},
        {"ask": "back", "name": name},
    ]
    for job in jobs:
        told, said = refused(stand, **job)
        check(f"full disk: {job} is refused", told, said)
        print(f"      {said}")
    overview(stand, "a full disk", "The disk takes no more", "Call the administrator, who makes room.")
    told = stand.command("watch")
    check("full disk: the watch says so", told[0] == 1 and "takes no writes" in told[1], told)
    if is_program:
        check("full disk: a resident's list is answered 503", hand_in(stand) == 503)


def with_room_again(stand, journal, is_program):
    """Nothing was half done, and all goes on."""
    view = stand.ask(ask="view")
    check("nothing was half done", [row[0] for row in view["rooms"]] == ["H1"] and view["phase"] == "open", view)
    stand.until_listening(stand.server_port)
    if is_program:
        check("once there is room a resident's list is taken", hand_in(stand) == 200)
    check(
        "once there is room all goes on",
        stand.office("room H5") == "ok\n" and stand.office("close").startswith("closed"),
    )
    check(
        "the journal is whole",
        (stand.data / "journal").read_bytes().startswith(journal)
        and "room H5" in stand.script("rooms-office", "journal"),
    )
    left = [one.name for one in [*(stand.data / "backups").glob(".part*"), *stand.data.glob("*.part")]]
    check("no half copy is left", not left, left)


def try_full(program):
    """Fills the disk under an office at work."""
    is_program = Path(program).name != "standin.py"
    with small_disk() as disk:
        if disk is None:
            print("      a full disk was not tried: it takes the right to mount")
            return
        with Stand(program, data=disk) as stand:
            stand.start()
            stand.office("room H1")
            stand.script("rooms-office", "do", "-", given=f"person T1 {key_of('T1')} Tim Tan\n")
            stand.office("open")
            name = stand.ask(ask="backup")["name"]
            before, journal = stand.ask(ask="view"), (disk / "journal").read_bytes()
            stand.start_page()
            stand.start_proxy()
            overview(stand, "enough room")
            filler = fill_up(disk)
            while_full(stand, name, before, is_program)
            os.truncate(filler, filler.stat().st_size - LEFT)
            overview(stand, "room for a line", "copies need", "Once the disk is full, you cannot change the register")
            filler.unlink()
            with_room_again(stand, journal, is_program)
            overview(stand, "enough room again")


if __name__ == "__main__":
    if len(sys.argv) != 2:
        sys.exit("usage: /usr/bin/python3 deploy/trial/full.py PROGRAM")
    try_full(sys.argv[1])
