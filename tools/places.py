"""The crates that the program is made from, and the places in which tools/prove-program has them proved.

`rt` locks the folder of the crate that it works on, and of all crates below, so that two of its commands in one checkout wait
for each other, although they only read what is below. So each crate has a place of its own: a repository of this crate and those
below. What was proved there is handed over to the checkout, where `rt check` goes on from it.
"""

import fcntl
import os
import shutil
import time
from contextlib import contextmanager, suppress
from dataclasses import dataclass, field
from pathlib import Path

TOP = Path(__file__).resolve().parent.parent
LOGS = TOP / "out/launch"
PROGRAM = "rooms"
BUILT, KEPT = "out/rlib", "out/incremental"
PROGRAM_FILES = [f"out/{PROGRAM}", f"out/{PROGRAM}.stamp"]

# How long commands that were asked to end may take, in seconds.
PATIENCE = 10


def work_folder():
    """Where the places are. In the tree that `rt ci` looks through there may be no second crates.txt; git's folder is outside of
    it, and `rt` itself keeps work there too."""
    git = TOP / ".git"
    if git.is_file():
        git = TOP / git.read_text(encoding="utf-8").strip().removeprefix("gitdir: ")
    return git / "launch" if git.is_dir() else LOGS


SOURCES = work_folder() / "sources"
PLACES = work_folder() / "places"


@dataclass(eq=False)
class Crate:
    """A crate of this repository, with its line of crates.txt and the crates of this repository that it uses."""

    name: str
    line: str
    uses: list = field(default_factory=list)
    # How many crates are on the longest way from it up to the program.
    height: int = 0

    @property
    def folder(self):
        return TOP / "crates" / self.name

    @property
    def place(self):
        return PLACES / self.name

    @property
    def room(self):
        """Its folder in its place."""
        return self.place / "crates" / self.name

    @property
    def log(self):
        return LOGS / f"{self.name}.log"

    def below(self):
        """The crates that it rests on, each after those that it uses itself."""
        found = []
        for crate in self.uses:
            found += [it for it in [*crate.below(), crate] if it not in found]
        return found


def read_crates():
    """The crates that the program is made from, each after those that it uses."""
    rows = (TOP / "crates.txt").read_text(encoding="utf-8").splitlines()
    lines = {row.partition(":")[0].strip(): row for row in rows if ":" in row.partition("#")[0]}
    crates = {name: Crate(name, line) for name, line in lines.items()}
    for crate in crates.values():
        words = crate.line.partition("#")[0].partition(":")[2].split()
        crate.uses = [crates[it] for it in words if it in crates]
    found = [*crates[PROGRAM].below(), crates[PROGRAM]]
    for crate in reversed(found):
        for used in crate.uses:
            used.height = max(used.height, crate.height + 1)
    return found


# Files


def link(one, other):
    """Gives a file a second name, or copies it where that cannot be."""
    try:
        os.link(one, other)
    except OSError:
        shutil.copy2(one, other)


def link_kept(one, other):
    """The same in kept work: a check replaces these files, and writes into the few others."""
    if one.endswith(".oantt"):
        link(one, other)
    else:
        shutil.copy2(one, other)


def remove(folder):
    shutil.rmtree(folder, ignore_errors=True)


def last_change(folder):
    """When a file last came into a folder or left it, or 0 if there is no folder."""
    return max((os.stat(at).st_mtime_ns for at, _, _ in os.walk(folder)), default=0)


@contextmanager
def locked(crate):
    """Keeps `rt` out of the crate's folder in the checkout, and gives whether that could be: not while one works there."""
    held = os.open(crate.folder, os.O_RDONLY)
    is_free = True
    try:
        fcntl.flock(held, fcntl.LOCK_EX | fcntl.LOCK_NB)
    except BlockingIOError:
        is_free = False
    except OSError:
        # Some file systems have no locks: `rt` passes over them too.
        pass
    try:
        yield is_free
    finally:
        os.close(held)


def wait_until_left(folder):
    """Waits until no process works below a folder: what `rt` has started ends a moment after it."""
    last = time.monotonic() + PATIENCE
    while time.monotonic() < last and any(leads_below(it, folder) for it in Path("/proc").glob("[0-9]*/cwd")):
        time.sleep(0.1)


def leads_below(path, folder):
    try:
        return os.readlink(path).startswith(f"{folder}/")
    except OSError:
        return False


# Places


def copy_sources(crates):
    """Copies the crates as they are now. No links: an editor may write into a file."""
    remove(SOURCES)
    for crate in crates:
        shutil.copytree(crate.folder, SOURCES / crate.name, ignore=shutil.ignore_patterns("out", "must-fail"))


def make_place(crate):
    remove(crate.place)
    crates = [*crate.below(), crate]
    for one in crates:
        shutil.copytree(SOURCES / one.name, crate.place / "crates" / one.name, copy_function=link)
    for one in crate.below():
        shutil.copytree(one.room / BUILT, crate.place / "crates" / one.name / BUILT, copy_function=link)
    (crate.place / "crates.txt").write_text("".join(f"{it.line}\n" for it in crates), encoding="utf-8")
    shutil.copy(TOP / "HANDLES", crate.place)
    take_over(crate)


def take_over(crate):
    """Puts into a crate's place what the checkout has of earlier checks and builds of it."""
    (crate.room / "out").mkdir()
    with locked(crate) as is_free:
        (crate.place / "taken").write_text(str(last_change(crate.folder / KEPT)), encoding="utf-8")
        # A check that works there may remove some files meanwhile. The others serve: no file is used before it is compared.
        with suppress(OSError):
            shutil.copytree(crate.folder / KEPT, crate.room / KEPT, copy_function=link_kept)
        if not link_built(crate, is_free):
            remove(crate.room / BUILT)
    for name in PROGRAM_FILES:
        # A copy: the linker may write into the file.
        with suppress(OSError):
            shutil.copy2(crate.folder / name, crate.room / name)


def link_built(crate, is_free):
    """Gives a crate's place the library that the checkout has, and returns whether all of it came. A build, if one may be under
    way, removes the stamp soon after it begins, and writes another one last."""
    stamp = crate.folder / BUILT / "stamp"
    with suppress(OSError):
        was = os.stat(stamp)
        shutil.copytree(crate.folder / BUILT, crate.room / BUILT, copy_function=link)
        if not is_free:
            time.sleep(0.5)
        now = os.stat(stamp)
        return (was.st_ino, was.st_mtime_ns) == (now.st_ino, now.st_mtime_ns)
    return False


def put(new, crate, part):
    """Puts a folder in the place of a part of a crate in the checkout."""
    old, aside = crate.folder / part, crate.place / "aside"
    remove(aside)
    old.parent.mkdir(exist_ok=True)
    if old.exists():
        shutil.move(old, aside)
    shutil.move(new, old)
    remove(aside)


def is_new(crate):
    """Whether the crate's library in its place is another one than that of the checkout; for the program, always."""
    stamp = f"{BUILT}/stamp"
    try:
        return not os.path.samefile(crate.room / stamp, crate.folder / stamp)
    except OSError:
        return True


def hand_over(crate):
    """Gives the checkout what was proved and built of a crate, and returns whether that could be."""
    with locked(crate) as is_free:
        if not is_free:
            return False
        if (crate.room / BUILT).is_dir():
            # The crates above still need theirs.
            remove(crate.place / "given")
            shutil.copytree(crate.room / BUILT, crate.place / "given", copy_function=link)
            put(crate.place / "given", crate, BUILT)
        if (crate.room / KEPT).is_dir():
            put(crate.room / KEPT, crate, KEPT)
        for name in PROGRAM_FILES:
            if (crate.room / name).exists():
                shutil.move(crate.room / name, crate.folder / name)
    return True


def hand_over_part(crate):
    """Gives the checkout what a check that was ended had kept until then, unless a check there has kept work since."""
    if (crate.room / "out").is_symlink() or not (crate.room / KEPT).is_dir():
        return
    wait_until_left(crate.place)
    with suppress(OSError, ValueError), locked(crate) as is_free:
        taken = int((crate.place / "taken").read_text(encoding="utf-8"))
        if is_free and last_change(crate.folder / KEPT) in (0, taken):
            put(crate.room / KEPT, crate, KEPT)


def end_places(crates, proved):
    """Removes the places. Of a crate that is proved, a path is left that leads to its work in the checkout: a kit that takes over
    the work of other checkouts on this machine looks for it where it was done."""
    remove(SOURCES)
    for crate in crates:
        remove(crate.place)
        for one in [*crate.below(), crate] if crate in proved else []:
            room = crate.place / "crates" / one.name
            room.mkdir(parents=True)
            (room / "out").symlink_to(one.folder / "out")
