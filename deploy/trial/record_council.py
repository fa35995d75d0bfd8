"""Runs docs/council.md as it is: record_council.py PROGRAM.

The record on the page has to be the one that an office writes after that year. Each block of commands is run in a
folder of its own, which has the record and the audit's two files, and has to print what the block after it shows. With
its own draw the year gives the results in examples/year.out, and the audit finds them right.
"""

import os
import re
import shutil
import subprocess
import sys
import tempfile
from pathlib import Path

ROOT = Path(__file__).resolve().parent.parent.parent
OFFICE = ROOT / "deploy" / "office"
BLOCK = re.compile(r"^```(\w*)\n(.*?)^```$", re.MULTILINE | re.DOTALL)
LIMIT = 180  # lines of the page


def run(command: list[str], status: int = 0, **options: object) -> str:
    """Runs a command that has to end with this status; what it printed."""
    done = subprocess.run(command, capture_output=True, text=True, check=False, **options)  # type: ignore
    if done.returncode != status:
        sys.exit(f"not so: {command} ended with {done.returncode}: {done.stdout}{done.stderr}")
    return str(done.stdout)


def year(program: str, file: Path, seed: str) -> str:
    """The record of the year in examples/year.txt, with a draw by the seed, or with its own."""
    run([program, "new", "--db", str(file)])
    lines = (ROOT / "examples" / "year.txt").read_text(encoding="utf-8").splitlines()
    for line in lines[:lines.index("settle")]:
        words = line.split(" ")
        if words[0] == "draw" and seed:
            words[1:] = run([program, "words", "--seed", seed, "--count", str(len(words) - 1)]).split()
        if words[0] not in ("#", "whatif"):
            run([program, "do", "--db", str(file), *words])
    return run([sys.executable, "-B", str(OFFICE / "record.py"), str(file), *(["--seed", seed] if seed else [])])


def own_draw(program: str, folder: Path) -> None:
    """The year with its own draw: its results are those of examples/year.out, by the record and by the audit."""
    (folder / "own.txt").write_text(year(program, folder / "own.db", ""), encoding="utf-8")
    rows = "\n".join(re.findall("^# result (.*)$", (folder / "own.txt").read_text(encoding="utf-8"), re.MULTILINE))
    if f"\nperson        room\n{rows}\n" not in (ROOT / "examples" / "year.out").read_text(encoding="utf-8"):
        sys.exit(f"not so: the results of examples/year.out are\n{rows}")
    run([sys.executable, "-B", str(OFFICE / "audit.py"), str(folder / "own.txt")], status=3)  # no seed is known
    print("ok    examples/year.out")


def main(program: str) -> None:
    """All of it."""
    text = (ROOT / "docs" / "council.md").read_text(encoding="utf-8")
    (_, record), *blocks = list(BLOCK.findall(text))
    with tempfile.TemporaryDirectory() as name:
        folder = Path(name)
        own_draw(program, folder)
        made = year(program, folder / "year.db", re.findall("--seed ([0-9a-f]{64})", text)[0])
        if made != record:
            sys.exit(f"not so: the record is\n{made}")
        (folder / "round.txt").write_text(record, encoding="utf-8")
        for name in ("audit.py", "audit_record.py"):
            shutil.copyfile(OFFICE / name, folder / name)
        (folder / "bin").mkdir()
        (folder / "bin" / "rooms").symlink_to(program)
        environment = {**os.environ, "PATH": f"{folder / 'bin'}:/usr/bin:/bin", "PYTHONDONTWRITEBYTECODE": "1"}
        for (kind, commands), (_, shown) in zip(blocks[::2], blocks[1::2], strict=True):
            printed = run(["sh", "-eu"], input=commands, cwd=folder, env=environment)
            if kind != "sh" or printed != shown:
                sys.exit(f"not so:\n{commands}prints\n{printed}")
            print(f"ok    {commands.splitlines()[-1]}")
    if len(text.splitlines()) >= LIMIT:
        sys.exit(f"the page has {len(text.splitlines())} lines")
    print(f"docs/council.md: {len(blocks) // 2} blocks of commands, and the record, are as on the page")


if __name__ == "__main__":
    if len(sys.argv) != 2:
        sys.exit("usage: /usr/bin/python3 deploy/trial/record_council.py PROGRAM")
    main(str(Path(sys.argv[1]).resolve()))
