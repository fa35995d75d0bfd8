"""Runs a page of documentation: its lines of `./rooms` and `curl`, and its Python, compared with the answers next to them."""

import re
import select
import shlex
import socket
import subprocess
import sys
import tempfile
from pathlib import Path

# No line of the page takes so many seconds, unless it waits in vain.
LONGEST = 60


def blocks(page):
    """The blocks of code of a page, each with the word after its fence."""
    return [(word, text.splitlines()) for word, text in re.findall(r"(?m)^```(\w*)\n(.*?)^```$", page, re.S)]


class Run:
    """A run of the page."""

    def __init__(self, program, folder, port):
        self.program, self.folder, self.port = program, folder, port
        self.server, self.printed, self.compared = None, "", 0

    def line(self, text):
        """Runs a line; what it prints is awaited next."""
        words = shlex.split(text.replace("8080", self.port))
        if words[0] == "./rooms":
            words[0] = self.program
        if "serve" in words:
            self.end_server()
            # pylint: disable-next=consider-using-with  # end_server waits for it
            self.server = subprocess.Popen(words, cwd=self.folder, stdout=subprocess.PIPE, text=True)
            told, _, _ = select.select([self.server.stdout], [], [], LONGEST)
            assert self.server.stdout
            if not told or self.server.stdout.readline() != f"listening on 127.0.0.1:{self.port}\n":
                sys.exit("the server does not listen")
            return
        if words[0] == self.program:
            self.end_server()
        if words[0] == "curl":
            words[1:1] = ["-m", "20"]
        self.printed = self.run(words)

    def run(self, words):
        """What a command prints."""
        return subprocess.run(words, cwd=self.folder, check=True, capture_output=True, text=True, timeout=LONGEST).stdout

    def compare(self, lines):
        """What was printed is what the page says."""
        if self.printed.splitlines() != lines:
            sys.exit(f"printed {self.printed!r}, and the page has {lines!r}")
        self.compared += 1

    def end_server(self):
        """The server has served all its connections, and ends by itself."""
        if self.server:
            server, self.server = self.server, None
            told, _ = server.communicate(timeout=20)
            if server.returncode != 0 or not re.fullmatch(r"served \d+\n", told):
                sys.exit(f"the server ended with {server.returncode}, {told!r}")

    def block(self, word, lines):
        """Runs a block of the page: a program in Python, or commands, each with the lines that it has to print."""
        if word == "python":
            code = "\n".join(lines).replace("8080", self.port)
            self.printed = self.run([sys.executable, "-c", code])
            return
        answers = []
        for text in lines:
            if not text.startswith(("./rooms ", "curl ")):
                answers.append(text)
                continue
            if answers:
                self.compare(answers)
                answers = []
            self.line(text)
        if answers:
            self.compare(answers)


def main(program, page):
    """Runs all blocks of the page, over a server on a port of its own."""
    with socket.socket() as probe, tempfile.TemporaryDirectory() as folder:
        probe.bind(("127.0.0.1", 0))
        port = str(probe.getsockname()[1])
        probe.close()
        run = Run(str(Path(program).resolve()), folder, port)
        try:
            for word, lines in blocks(Path(page).read_text(encoding="utf-8")):
                run.block(word, lines)
            run.end_server()
        finally:
            if run.server:
                run.server.kill()
                run.server.wait()
    print(f"{run.compared} answers are as the page has them")


if __name__ == "__main__":
    main(sys.argv[1], sys.argv[2])
