"""Room codes in sentences: a browser would break them at their hyphens."""

import re

import bottle  # type: ignore[import]  # Debian's bottle has no types

CODE = re.compile(r"(?<![^\W_-])[A-Z0-9]+-[A-Z0-9-]*(?![^\W_])")


def unbroken(text: object) -> str:
    """A text as HTML, in which no room code is broken."""
    return CODE.sub(lambda found: f'<span class="nobreak">{found[0]}</span>', bottle.html_escape(str(text)))
