"""What the office's command writes: answers on standard output, and beside them what is for the clerk alone."""

import os
import sys
from typing import TextIO


def put(stream: TextIO, text: str) -> None:
    """Writes a text. Who reads no further, as `head`, gets no more of it; what was done stays done, with its status."""
    try:
        stream.buffer.write(text.encode("utf-8", "surrogateescape"))
        stream.flush()
    except OSError as fault:
        nowhere = os.open(os.devnull, os.O_WRONLY)
        os.dup2(nowhere, stream.fileno())  # Python writes what is left when it ends
        os.close(nowhere)
        if not isinstance(fault, BrokenPipeError) and stream is sys.stdout:
            say(f"the answer could not be written: {fault.strerror}. It may have been done all the same: look.")
            sys.exit(3)


def say(text: str) -> None:
    """Prints something for the clerk, next to the answer."""
    put(sys.stderr, f"rooms-office: {text}\n")


def show(text: str) -> None:
    """Writes an answer, as the program gave it."""
    put(sys.stdout, text)
