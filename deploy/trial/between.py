"""A program in the place of `rooms` that notes what it is started for, and does something else first where a trial asks for
that: before it answers lines in the office's own file, or after some of them.
"""

from pathlib import Path

PROGRAM = """#!/usr/bin/python3
import os, shlex, subprocess, sys, time
os.environ["KEEPER"] = str(os.getppid())
program, file, log, act = {program!r}, {file!r}, {log!r}, {act!r}
with open(log, "a") as held:
    held.write(sys.argv[1] + "\\n")
if sys.argv[1:] != ["lines", "--db", file] or not os.path.exists(act):
    os.execv(program, [program, *sys.argv[1:]])
os.rename(act, act + ".done")
with open(act + ".done") as held:
    after, words = held.read().split("\\n", 1)
if not int(after):
    os.system(words)
    os.execv(program, [program, *sys.argv[1:]])
with subprocess.Popen([program, *sys.argv[1:]], stdin=subprocess.PIPE) as real:
    for number, line in enumerate(sys.stdin.buffer):
        if number == int(after):
            subprocess.run(words, shell=True, env={{**os.environ, "REAL": str(real.pid)}})
            time.sleep(0.2)
            if real.poll() is not None:
                break
        real.stdin.write(line)
        real.stdin.flush()
"""


class Between:
    """A stand whose keeper has this program."""

    def __init__(self, stand):
        self.program, self.file = stand.program, stand.file
        self.log, self.act, wrapper = stand.folder / "starts", stand.folder / "act", stand.folder / "between"
        wrapper.write_text(PROGRAM.format(program=stand.program, file=str(stand.file), log=str(self.log), act=str(self.act)),
                           encoding="utf-8")
        wrapper.chmod(0o755)
        stand.environment["ROOMS_PROGRAM"] = str(wrapper)

    def during(self, act):
        """What the program was started for meanwhile, and what the act gave."""
        self.log.write_text("", encoding="utf-8")
        given = act()
        return self.log.read_text(encoding="utf-8").split(), given

    def before_next(self, words, after=0):
        """Has a line of the shell carried out before the next lines in the office's file; or after so many of these, while the
        program has the file, as the process $REAL. The process $KEEPER is the keeper, whose own first line is a `round`. Once it
        begins, there is a file ACT.done."""
        Path(f"{self.act}.done").unlink(missing_ok=True)
        self.act.write_text(f"{after + 1 if after else 0}\n{words}", encoding="utf-8")

    def by_hand(self, *lines):
        """Such a line of the shell, for lines by hand."""
        return "; ".join(f"{self.program} do --db {self.file} -- {line} >> {self.log}.by-hand 2>&1" for line in lines)
