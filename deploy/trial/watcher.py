"""A watcher of the machine's processes: no secret may stand on a command line, where any account can read it."""

import threading
from pathlib import Path

from stand import command_of


class Watcher:
    """Reads the command lines of all processes, again and again, as any account may."""

    def __init__(self, *secrets):
        self.secrets, self.seen, self.looks, self.over = secrets, set(), 0, threading.Event()
        self.thread = threading.Thread(target=self.watch)

    def __enter__(self):
        self.thread.start()
        return self

    def __exit__(self, *_):
        self.over.set()
        self.thread.join()

    def watch(self):
        """Notes each command line with a secret."""
        while not self.over.is_set():
            for process in Path("/proc").glob("[0-9]*"):
                line = " ".join(command_of(process.name))
                if any(secret in line for secret in self.secrets):
                    self.seen.add(line)
            self.looks += 1
