"""Two offices side by side on one machine, as `rooms-house` makes them: /usr/bin/python3 deploy/trial/houses.py PROGRAM.

Each has people of its own under the same identifiers, a clerk of the same name, and its own host behind the router. What is
done to one must not reach the other. Accounts and the units themselves need systemd: deploy/package/trial-systemd tries them.
"""

import contextlib
import hashlib
import os
import re
import select
import shutil
import socket
import subprocess
import sys
import threading
from pathlib import Path

# The repository stays as it is.
sys.dont_write_bytecode = True

# pylint: disable=wrong-import-position  # nothing may be written before
from house_parts import house_parts
from house_stand import CLOSED, HOSTS, HouseStand, Machine, basic
from restoring import can_restore, restore, rooms_of
from stand import DEPLOY, OFFICE, PYTHON, check, until

sys.path.append(str(OFFICE))

# pylint: disable=wrong-import-position,wrong-import-order  # they are in the folder of the line above
from house_places import PORTS

NAMES = {"north": "Nora North", "south": "Said South"}
ROOMS = {"north": "N1", "south": "S1"}
CLERK_OF = {"north": 64_990, "south": 64_991}  # groups that nobody has
NOBODY = "0000000000000000"
# Names and hosts that are refused, once the houses of HOSTS are there, and a word of the reason.
REFUSED = [
    ("north", "other.example.org", "the name north is taken"),
    ("west", "South.example.org", "the host south.example.org is taken"),
    ("North", "west.example.org", "no name of a house"),
    ("", "west.example.org", "no name of a house|needs a name"),
    ("a-name-of-17-sign", "west.example.org", "no name of a house"),
    ("../west", "west.example.org", "no name of a house"),
    ("we st", "west.example.org", "no name of a house"),
    ("-west", "west.example.org", "no name of a house"),
    ("west%i", "west.example.org", "no name of a house"),
    ("west", "localhost", "no name of a host"),
    ("west", "192.0.2.1", "no name of a host"),
    ("west", "https://west.example.org/", "no name of a host"),
    ("west", "west.example.org\nsouth.example.org", "no name of a host"),
]


def added(machine):
    """Houses are added; names and hosts that are taken, or none, are refused, and change nothing."""
    for house, host in HOSTS.items():
        told = machine.house("add", house, host)
        check(f"rooms-house adds {house}", told[0] == 0 and f"certificate --house {house} " in told[1], told)
    before = machine.files("etc", "var")
    for name, host, why in REFUSED:
        told = machine.house("add", name, host)
        check(f"{name!r} at {host!r} is refused", told[0] == 1 and re.search(why, told[2]), told)
    check("and nothing was changed", machine.files("etc", "var") == before)
    told = machine.house("list")
    check("both are listed", told[0] == 0 and re.findall(r"^(\w+) +(\S+)", told[1], re.M) == list(HOSTS.items()), told)
    told = machine.house("remove", "north")
    check("a house with an office is not removed", told[0] == 1 and "has an office" in told[2], told)
    check("and nothing was changed", machine.files("etc", "var") == before)
    for house in HOSTS:
        port = (machine.folder / f"etc/systemd/system/rooms-keeper@{house}.service.d/house-port.conf").read_text(encoding="utf-8")
        listed = re.findall(r"^SocketBindAllow=ipv4:tcp:(\d+)$|ROOMS_PORT=(\d+)$", port, re.M)
        numbers = {int("".join(one)) for one in listed}
        check(f"the keeper of {house} may have its port alone", len(listed) == 2 and len(numbers & set(PORTS)) == 1, port)
        settings = machine.folder / f"etc/rooms/houses/{house}/haproxy.cfg"
        check("HAProxy's file, with the clerks' passwords, is for root", settings.stat().st_mode & 0o77 == 0)
        told = machine.house("config", house)
        check("rooms-house config prints it", told == (0, settings.read_text(encoding="utf-8"), ""))


def key_in(house):
    """The key of T1 in a house."""
    return f"key{house.rjust(13, '0')}"


def fill(stand):
    """An office with a person T1, as the other house has one, with another key, and a room of its own."""
    stand.script("rooms-office", "lines", given=f"room {ROOMS[stand.house]}\nroom R1\nperson T1 {key_in(stand.house)} "
                 f"{NAMES[stand.house]}\nperson T2 key2{stand.house.rjust(12, '0')} Second\nopen\n")


def residents(machine):
    """Residents reach their house alone."""
    for house, host in HOSTS.items():
        other = next(one for one in HOSTS if one != house)
        told = machine.ask("/me", {"Room-Key": key_in(house)}, host)
        check(f"T1 of {house} is {NAMES[house]}", told[0] == 200 and NAMES[house] in told[2], told)
        told = machine.ask("/me", {"Room-Key": key_in(other)}, host)
        check(f"a key of {other} is 403 at {house}", told[0] == 403, told)
        check("so is one of nobody", machine.ask("/me", {"Room-Key": NOBODY}, host)[0] == 403)
        told = machine.ask("/rooms", {"Room-Key": key_in(house)}, host)
        check(f"{house} shows its own rooms", ROOMS[house] in told[2] and ROOMS[other] not in told[2], told)
        told = machine.ask("/me", {"Room-Key": key_in(house)}, host, HOSTS[other])
        check(f"over a connection to {house}, a request for {other} is misdirected", told[0] == 421, told)
        told = machine.ask("/me", {"Room-Key": key_in(house)}, host, "rooms.example.org")
        check("and so is one for a host of no house", told[0] == 421, told)
        check("which names nobody", NAMES[house] not in told[2])
        told = machine.ask_plainly(host)
        check("HTTP leads to the house's HTTPS", told[0] == 301 and told[1]["location"] == f"https://{host}/", told)
        check("the residents' page is there", machine.ask("/", {}, host)[0] == 200)
    check("a connection for a host of no house is closed", machine.ask("/", {}, "rooms.example.org")[0] == CLOSED)
    check("also without TLS", machine.ask_plainly("rooms.example.org")[0] == CLOSED)


def clerks(machine, stands):
    """Clerks reach their house alone."""
    for house, stand in stands.items():
        other = next(one for one in HOSTS if one != house)
        told = machine.ask("/office/", {"Authorization": basic("anna", stand.clerks["anna"])}, HOSTS[house])
        check(f"the clerk of {house} signs in", told[0] == 200, told)
        check("and the page names the house", f"Room office: {house}</a>" in told[2], told)
        told = machine.ask("/office/", {"Authorization": basic("anna", stand.clerks["anna"])}, HOSTS[other])
        check(f"the same name and password are wrong at {other}", told[0] == 401, told)


def accounts(machine, stands):
    """By the command, an account of the group of one house reaches this house alone."""
    if os.geteuid() != 0:
        print("      groups are left out: they need root")
        return
    # At a place that each account can read.
    command = shutil.copytree(OFFICE, machine.folder / "office", ignore=shutil.ignore_patterns("__pycache__")) / "rooms-office"
    machine.folder.chmod(0o755)
    for house, stand in stands.items():
        stand.folder.chmod(0o711)
        os.chown(stand.environment["ROOMS_SOCKET"], 0, CLERK_OF[house])
        os.chmod(stand.environment["ROOMS_SOCKET"], 0o660)
    for house, group in CLERK_OF.items():
        for asked, stand in stands.items():
            words = ["setpriv", "--reuid=64992", f"--regid={group}", "--clear-groups", PYTHON, str(command), "--house", asked]
            done = subprocess.run([*words, "do", "round"], env=stand.environment, capture_output=True, text=True, check=False)
            if asked == house:
                check(f"a clerk of {house} reaches it", done.stdout.startswith("round 1 open"), done)
            else:
                check(f"and not {asked}", done.returncode == 3 and f"the group rooms-office-{asked} " in done.stderr, done)


def state_of(stand):
    """The office's file, its log and the journal, as checksums."""
    return {one.name: hashlib.sha256(one.read_bytes()).hexdigest()
            for one in sorted(stand.data.rglob("*")) if one.is_file() and not one.name.endswith("-shm")}


def apart(machine, north, south):
    """A line, a copy and the way back in one house leave all of the other's files to the byte."""
    before = state_of(south)
    check("a line in north", north.office("room N2") == "ok\n")
    copy = north.script("rooms-office", "backup").strip()
    check("another line", north.office("room N3") == "ok\n")
    north.script("rooms-office", "back", copy)
    check("the way back", {"N2"} == rooms_in(north) & {"N2", "N3"}, rooms_in(north))
    north.script("rooms-office", "key", "T2")
    told = north.command("back", "20200101T000000Z")
    check("a hint names the command of the house", "rooms-office --house north backups" in told[2], told)
    check("nothing of south has changed", state_of(south) == before)
    told = machine.ask("/me", {"Room-Key": key_in("south")}, HOSTS["south"])
    check("and it serves", told[0] == 200, told)
    check("its journal has only its own changes", not any("N2" in str(one) for one in south.ask(ask="journal", last=50)["journal"]))
    check("and north's has its own", any("N2" in str(one) for one in north.ask(ask="journal", last=50)["journal"]))


def rooms_in(stand):
    """The rooms of a house."""
    return {line.split(",")[0] for line in stand.script("rooms-office", "export", "rooms").splitlines()[1:]}


def at_once(machine, stands):
    """Both serve at once, also while one of them carries out lines. Each sees the address of the client."""
    answers: dict[str, list[tuple[int, dict[str, str], str]]] = {house: [] for house in HOSTS}

    def ask_again(house):
        for number in range(20):
            source = f"127.0.0.{10 + number % 3}"
            answers[house].append(machine.ask("/me", {"Room-Key": key_in(house)}, HOSTS[house], source=source))
    asking = [threading.Thread(target=ask_again, args=(house,)) for house in HOSTS for _ in range(3)]
    for one in asking:
        one.start()
    for number in range(3):
        stands["north"].office(f"room M{number}")
    for one in asking:
        one.join()
    for house, said in answers.items():
        check(f"{house} answers all", len(said) == 60 and all(one[0] == 200 and NAMES[house] in one[2] for one in said), said[:2])
        until(lambda house=house: "127.0.0.12:" in stands[house].proxy_log(), 10, "the client's address in the log")


def crowded(machine):
    """An address that says nothing has at most 400 connections, for some seconds, and keeps nobody else out."""
    with contextlib.ExitStack() as held:
        doors = []
        for _ in range(450):
            with contextlib.suppress(ConnectionError):
                doors.append(held.enter_context(socket.create_connection(("127.0.0.1", machine.tls_port), 60, ("127.0.0.99", 0))))
        until(lambda: len(doors) - len(closed_of(doors)) <= 400, 4, "the connections over the limit are closed")
        check("of 450 silent connections of an address 400 stay", len(doors) - len(closed_of(doors)) == 400, len(closed_of(doors)))
        for house, host in HOSTS.items():
            check(f"a resident of {house} is answered", machine.ask("/me", {"Room-Key": key_in(house)}, host)[0] == 200)
        until(lambda: len(closed_of(doors)) == len(doors), 20, "silent connections are closed")


def closed_of(doors):
    """The connections that the other side has closed."""
    return [door for door in select.select(doors, [], [], 0)[0] if is_closed(door)]


def is_closed(door):
    """Whether a connection on which something has come is at its end."""
    try:
        return door.recv(1, socket.MSG_PEEK) == b""
    except ConnectionError:
        return True


def backed_up(machine, north, south):
    """The backup of a house has this house alone, that of the plain office none, and goes to its own house."""
    if not can_restore():
        return
    made = run_backup(north, "--house", "north")
    check("rooms-backup --house", made[0] == 0, made)
    folder = Path(made[1].strip())
    check("in the house's folder", folder.parent == machine.folder / "var/backups/rooms-houses/north", folder)
    names = {str(one.relative_to(folder)) for one in folder.rglob("*") if one.is_file()}
    check("it has HAProxy's file, the certificate and the texts of north",
          {f"files/etc/rooms/houses/north/{one}" for one in ("haproxy.cfg", "rooms.pem", "portal/texts.js")} <= names, names)
    check("and nothing of south", not any("south" in one for one in names), names)
    check("nor the port, which is the machine's", not any("house-port" in one or one.endswith("/house") for one in names), names)
    before, told = state_of(south), restore(south, "--house", "south", "--with", "all", folder)
    check("north's proxy and texts do not go to south", told[0] == 1 and "rooms-restore --house north" in told[2], told)
    check("and nothing of south has changed", state_of(south) == before)
    north.office("room LATE")
    north.stop_keeper()
    told = restore(north, "--house", "north", "--with", "all", folder)
    check("rooms-restore --house", told[0] == 0 and "systemctl restart rooms-proxy@north" in told[1], told)
    check("the later room is gone", "LATE" not in rooms_of(north.file), told)
    check("nothing of south has changed", state_of(south) == before)
    plain = machine.folder / "etc/haproxy/haproxy.cfg"
    plain.parent.mkdir()
    plain.write_text("# the plain office's\n", encoding="utf-8")
    north.start()
    made = run_backup(north)
    inside = {str(one.relative_to(made[1].strip())) for one in Path(made[1].strip()).rglob("*")}
    check("the plain office's backup has its own files", made[0] == 0 and "files/etc/haproxy/haproxy.cfg" in inside, (made, inside))
    check("and nothing of a house", not any("north" in one or "south" in one for one in inside), inside)


def run_backup(stand, *words):
    """Runs rooms-backup, of the plain office or of a house, over the file of this stand."""
    environment = {name: value for name, value in stand.environment.items() if name != "ROOMS_HOUSE"}
    done = subprocess.run([PYTHON, DEPLOY / "rooms-backup", *words], env=environment, capture_output=True, text=True, check=False)
    return done.returncode, done.stdout, done.stderr


def removed(machine, north):
    """A house is removed; what its office keeps stays to the byte, and the house can come again."""
    before = state_of(north)
    told = machine.house("remove", "--keep", "north")
    check("rooms-house remove --keep", told[0] == 0 and str(north.data) in told[1], told)
    check("the office stays to the byte", state_of(north) == before)
    kept = list((machine.folder / "etc/rooms/houses").glob("north.removed-*/haproxy.cfg"))
    check("HAProxy's file with the clerks stays under another name", len(kept) == 1, kept)
    check("south is still listed", "north" not in machine.house("list")[1] and "south" in machine.house("list")[1])
    hosts = (machine.folder / "etc/rooms/houses/hosts").read_text(encoding="utf-8")
    check("and only its host leads anywhere", hosts == f"{HOSTS['south']} south\n", hosts)
    told = machine.house("add", "north", HOSTS["north"])
    check("north comes again", told[0] == 0 and "the office that is there is used" in told[1], told)
    check("with its office", state_of(north) == before)
    told = machine.house("remove", "west")
    check("a house that is none is not removed", told[0] == 1 and "no house 'west'" in told[2], told)


def unknown(stand):
    """A house that is none is refused by each command, in so many words, and nothing is made for it."""
    before = sorted(stand.machine.rglob("*"))
    for name, words in (("rooms-backup", ()), ("rooms-restore", (str(stand.data),)), ("office/rooms-office", ("view",))):
        for house, status in (("west", 3 if "office" in name else 1), ("../north", 2), ("North", 2), ("", 2)):
            environment = {key: value for key, value in stand.environment.items() if key != "ROOMS_SOCKET"}
            done = subprocess.run([PYTHON, DEPLOY / name, "--house", house, *words], env=environment, capture_output=True,
                                  text=True, check=False)
            reason = "there is no house west" if house == "west" else "needs the name" if not house else "no name of a house"
            check(f"{name} --house {house!r} is refused", done.returncode == status and reason in done.stderr, done)
    check("and nothing was made for it", sorted(stand.machine.rglob("*")) == before)


def try_houses(program):
    """Tries them all."""
    house_parts()
    with Machine(program) as machine:
        added(machine)
        with HouseStand(program, machine.folder, "north") as north, HouseStand(program, machine.folder, "south") as south:
            stands = {"north": north, "south": south}
            for stand in stands.values():
                stand.start_all()
                fill(stand)
            told = machine.router_beside()
            check("the router shares its ports with no other HAProxy", "Address already in use" in told, told)
            machine.start_router()
            residents(machine)
            clerks(machine, stands)
            accounts(machine, stands)
            apart(machine, north, south)
            at_once(machine, stands)
            crowded(machine)
            backed_up(machine, north, south)
            unknown(south)
            north.stop_keeper()
            removed(machine, north)


if __name__ == "__main__":
    try_houses(sys.argv[1])
