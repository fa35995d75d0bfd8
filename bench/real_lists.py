"""Lists as people make them, good and bad; bench/real-lists.sh says what is looked at."""

import csv
import io
import shutil
import subprocess
import sys
import tempfile
from pathlib import Path

from lists import Office

PEOPLE = [
    ["E1", "Ash, Ann", "key00000000000e1", "H1"],
    ["E2", 'Bo "Bobby" Ødegård', "key00000000000e2", ""],
    ["E3", "Çelik-Müller, Ömer", "key00000000000e3", "H2"],
    ["E4", "王小明", "key00000000000e4", ""],
    ["E5", "佐藤 花子", "key00000000000e5", ""],
    ["E6", "O'Neill; Ní Bhriain", "key00000000000e6", ""],
]
ROOMS = [["H1"], ["H2"], ["V"]]
CHOICES = [["E1", "H2 V"], ["E2", "H1"], ["E4", ""], ["E2", "V H1"]]
LISTS = (("rooms", ROOMS), ("people", PEOPLE), ("choices", CHOICES))
HEADERS = {"rooms": ["room"], "people": ["person", "name", "key", "home"], "choices": ["person", "choices"]}
BOM = b"\xef\xbb\xbf"
# How LibreOffice reads and writes CSV: commas, double quotes, UTF-8, from the first line on.
FILTER = "Text - txt - csv (StarCalc):44,34,76,1"


def written(kind, rows, **how):
    """The bytes of a list as Python's csv writes it."""
    text = io.StringIO(newline="")
    csv.writer(text, **how).writerows([HEADERS[kind], *rows])
    return text.getvalue().encode()


def as_excel(kind, rows):
    return BOM + written(kind, rows)


def as_quoted(kind, rows):
    return written(kind, rows, quoting=csv.QUOTE_ALL, lineterminator="\n")


def as_old_mac(kind, rows):
    return written(kind, rows, lineterminator="\r")


def with_empty_lines(kind, rows):
    return b"\n\r\n" + written(kind, rows).replace(b"\r\n", b"\r\n\r\n")


def without_end(kind, rows):
    return written(kind, rows).removesuffix(b"\r\n")


def through_libreoffice(content):
    """CSV that is taken in by LibreOffice, kept as its own document, and saved as CSV."""
    with tempfile.TemporaryDirectory() as name:
        folder = Path(name)
        (folder / "in.csv").write_bytes(content)
        for before, target in (("in.csv", "ods"), ("in.ods", f"csv:{FILTER}")):
            subprocess.run(["soffice", f"-env:UserInstallation=file://{name}/profile", "--headless", f"--infilter={FILTER}"
                            if before == "in.csv" else "--norestore", "--convert-to", target, "--outdir", name,
                            str(folder / before)], check=True, stdout=subprocess.DEVNULL, stderr=subprocess.DEVNULL)
        return (folder / "in.csv").read_bytes()


def as_libreoffice(kind, rows):
    return through_libreoffice(written(kind, rows, quoting=csv.QUOTE_ALL))


MAKERS = [as_excel, as_quoted, as_old_mac, with_empty_lines, without_end, as_libreoffice]


def check(what, ran, answer):
    """The run answered this, with the status of its kind."""
    status = 0 if answer.startswith("added") else 3 if answer == "unavailable" else 2 if "understood" in answer else 1
    assert (ran.text, ran.status) == (answer + "\n", status), (what, ran)
    print(f"{what}: {answer}, {ran.seconds:.3f} s, {ran.kilobytes // 1024} MB")


def bring_all(office, folder, what, lists=LISTS, maker=written, turns=("",)):
    """Lists that are made in this way come in, each so often: choices once the round is open."""
    for kind, rows in lists:
        path = folder / f"{kind}.csv"
        path.write_bytes(maker(kind, rows))
        if kind == "choices":
            office.do("open", "round 1 open")
        for turn in turns:
            check(f"{what}{kind}{turn}", office.bring(kind, f"{kind}-1", path), f"added {len(rows)}")


def try_maker(program, folder, maker):
    """A year's lists, all made in this way, are imported, and exported as they were."""
    office = Office(program, folder / f"{maker.__name__}.db")
    bring_all(office, folder, f"{maker.__name__}, ", maker=maker, turns=("", " again"))
    homes = {home: person for person, _, _, home in PEOPLE if home}
    assert office.export("people") == [[person, name, home] for person, name, _, home in PEOPLE]
    assert office.export("rooms") == [[r, "occupied" if r in homes else "free", homes.get(r, "")] for [r] in ROOMS]
    for person, rooms in dict(CHOICES).items():
        shown = office.run("do", "me", f"key000000000{person.lower():>04}").text.splitlines()
        assert shown[0] == f"person {person}" and shown[4].split()[1:] == rooms.split(), shown


def try_exports(program, folder):
    """Exports of a settled round, read by LibreOffice field by field as Python reads them."""
    office = Office(program, folder / "settled.db")
    bring_all(office, folder, "settled ")
    for line, answer in (("close", "closed 6"), ("draw " + " ".join(f"{n:016x}" for n in range(6)), "drawn 6"), ("run", "ran 6"),
                         ("publish", "published 6"), ("settle", "settled 2")):
        office.do(line, answer)
    for kind in ("rooms", "people", "moves"):
        content = office.run("export", kind).text.encode()
        read = list(csv.reader(io.StringIO(through_libreoffice(content).decode(), newline="")))[1:]
        assert read == office.export(kind) and read, (kind, read)
        print(f"export of {kind}: {len(read)} records, as LibreOffice reads them")


def people(*records):
    return ("people", b"person,name,key,home\n" + b"".join(record + b"\n" for record in records))


# What is no list, or no good one, and what is answered.
BAD = [
    ("nothing", ("rooms", b""), "BadRecord 0 header"),
    ("a byte order mark alone", ("rooms", BOM), "BadRecord 0 header"),
    ("two byte order marks", ("rooms", BOM + BOM + b"room\nH9\n"), "BadRecord 0 header"),
    ("semicolons", ("people", written("people", PEOPLE, delimiter=";")), "BadRecord 0 header"),
    ("tabs", ("people", written("people", PEOPLE, delimiter="\t")), "BadRecord 0 header"),
    ("UTF-16 with its mark", ("rooms", "room\nH9\n".encode("utf-16")), "BadRecord 0 header"),
    ("UTF-16 without a mark", ("rooms", "room\nH9\n".encode("utf-16-le")), "BadRecord 0 header"),
    ("Latin-1", people("E7,Zoë,key00000000000e7,".encode("latin-1")), "BadRecord 1 text"),
    ("the header of another kind", ("rooms", written("people", PEOPLE)), "BadRecord 0 header"),
    ("a header in capitals", ("rooms", b"Room\nH9\n"), "BadRecord 0 header"),
    ("no header", ("rooms", b"H9\n"), "BadRecord 0 header"),
    ("a quote that does not end", people(b'E7,"Gil Go,key00000000000e7,', b"E8,Hal Ho,key00000000000e8,"), "BadRecord 1 fields"),
    ("a comma without quotes", people(b"E7,Go, Gil,key00000000000e7,"), "BadRecord 1 fields"),
    ("a field that is missing", people(b"E7,Gil Go,key00000000000e7"), "BadRecord 1 fields"),
    ("a line feed in a name", ("people", written("people", [["E7", "Gil\nGo", "key00000000000e7", ""]])), "BadRecord 1 field 2"),
    ("a line end of Windows in a name", people(b'E7,"Gil\r\nGo",key00000000000e7,'), "BadRecord 1 field 2"),
    ("a space before a name", people(b"E7, Gil Go,key00000000000e7,"), "BadRecord 1 field 2"),
    ("a name of 61 bytes", people(b"E7," + b"a" * 61 + b",key00000000000e7,"), "BadRecord 1 field 2"),
    ("a code in small letters", ("rooms", b"room\nH9\nh8\n"), "BadRecord 2 field 1"),
    ("a key that is too short", people(b"E7,Gil Go,key,"), "BadRecord 1 field 3"),
    ("two spaces between rooms", ("choices", b"person,choices\nE1,H1  H2\n"), "BadRecord 1 field 2"),
    ("a room twice", ("choices", b"person,choices\nE1,H1 H1\n"), "BadRecord 1 field 2"),
    ("10,001 records", ("rooms", b"room\n" + b"H9\n" * 10001), "BadRecord 10001 many"),
    ("a room that is there", ("rooms", b"room\nH9\nH1\n"), "BadRecord 2 refusal 4"),
    ("a person who is there", people(b"E7,Gil Go,key00000000000e7,", b"E1,Ann Ash,key00000000000e8,"), "BadRecord 2 refusal 5"),
    ("a key that is there", people(b"E7,Gil Go,key00000000000e1,"), "BadRecord 1 refusal 6"),
    ("a room of somebody", people(b"E7,Gil Go,key00000000000e7,H1"), "BadRecord 1 refusal 8"),
    ("a room that is not there", people(b"E7,Gil Go,key00000000000e7,H8"), "BadRecord 1 refusal 3"),
    ("choices of nobody", ("choices", b"person,choices\nE1,H2\nE9,H1\n"), "BadRecord 2 refusal 2"),
    ("262,145 bytes", ("rooms", b"room\n" + b"\n" * 262140), "LimitReached"),
    ("a megabyte", ("rooms", b"room\n" + b"\n" * (1 << 20)), "LimitReached"),
]
NUMBERS = {"BadRecord": 15, "LimitReached": 13}


def told(office):
    """All that the program says of the office, but keys."""
    exports = [office.export(kind) for kind in ("rooms", "people", "moves")]
    return exports, [office.run("do", "me", row[2]).text for row in PEOPLE], office.run("do", "round").text


def make_known(program, folder):
    """An office with rooms and people, in an open round."""
    office = Office(program, folder / "known.db")
    bring_all(office, folder, "known ", LISTS[:2])
    office.do("open", "round 1 open")
    return office


def try_bad(program, folder):
    """A list that cannot be imported gets the answer of its name, changes nothing, and leaves its label free."""
    office = make_known(program, folder)
    before = told(office)
    path = folder / "bad.csv"
    for what, (kind, content), answer in BAD:
        path.write_bytes(content)
        check(what, office.bring(kind, "free", path), f"refused {NUMBERS[answer.split()[0]]} {answer}")
        assert told(office) == before, what
    path.write_bytes(b"room\nH9\n")
    for what, words, answer in (
        ("a missing file", ("rooms", "free", folder / "missing.csv"), "unavailable"),
        ("a folder", ("rooms", "free", folder), "unavailable"),
        ("a file in a file", ("rooms", "free", path / "list.csv"), "unavailable"),
        ("/dev/zero", ("rooms", "free", "/dev/zero"), "refused 13 LimitReached"),
        ("/dev/null", ("rooms", "free", "/dev/null"), "refused 15 BadRecord 0 header"),
        ("a label that is taken", ("rooms", "rooms-1", path), "refused 14 ListDiffers"),
        ("a kind that there is not", ("moves", "free", path), "rooms: not understood"),
        ("a label in capitals", ("rooms", "FREE", path), "rooms: not understood"),
        ("a word too many", ("rooms", "free", path, path), "rooms: not understood"),
    ):
        check(what, office.run("import", *words), answer)
        assert told(office) == before, what
    check("the label that stayed free", office.bring("rooms", "free", path), "added 1")
    check("a list through a pipe", office.run("import", "rooms", "piped", "/dev/stdin", given=b"room\nH8\n"), "added 1")


# Irregular quotes that are read as the library reads them: a quote within a field is itself.
def try_quotes(program, folder):
    office = make_known(program, folder / "quotes")
    path = folder / "quotes.csv"
    path.write_bytes(people(b'E7,Gil "the Go" Go,key00000000000e7,')[1])
    check("a quote within a field", office.bring("people", "quotes", path), "added 1")
    assert ["E7", 'Gil "the Go" Go', ""] in office.export("people")


def main(program):
    """Brings in the lists of each program and setting, and reads the exports back."""
    with tempfile.TemporaryDirectory() as name:
        folder = Path(name)
        (folder / "quotes").mkdir()
        for maker in MAKERS:
            if maker is as_libreoffice and not shutil.which("soffice"):
                print("LibreOffice is not installed (Debian: apt-get install libreoffice-calc): its lists are left out")
                continue
            try_maker(program, folder, maker)
        if shutil.which("soffice"):
            try_exports(program, folder)
        try_bad(program, folder)
        try_quotes(program, folder)


if __name__ == "__main__":
    main(sys.argv[1])
