"""The keeper's own way to copy an office while its server runs, for the trial."""

import sys

from stand import OFFICE

sys.path.append(str(OFFICE))

# pylint: disable=wrong-import-position,wrong-import-order  # it is in the folder of the line above
from copies import Copies
from settings import Settings


def copies_of(stand):
    """Copies of a stand's office, in its own folder in memory."""
    return Copies(
        Settings(
            file=stand.file,
            program="",
            port=0,
            socket=stand.file,
            scratch=stand.scratch,
            speakers=frozenset(),
            line_seconds=0,
            turn_seconds=0,
        )
    )
