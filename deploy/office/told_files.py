"""What the files of what residents read of rooms are called (told.py)."""

import re

FILE = "told.json.gz"
PICTURE = re.compile(r"[0-9a-f]{32}\.jpg")


def is_own(name: str) -> bool:
    """Whether a file of this name is one of them."""
    return name == FILE or bool(PICTURE.fullmatch(name))
