#!/usr/bin/python3
"""rooms-page: the office's page. It has neither the office's file nor its keys, and asks the keeper for all of it.

It listens on the socket that systemd hands over (rooms-page.socket), or on that of ROOMS_PAGE_SOCKET.
"""

import os
import sys
from pathlib import Path

# The audit is next to the folder of the page.
sys.path.insert(1, str(Path(__file__).resolve().parent.parent))

# pylint: disable=wrong-import-position  # each module adds its pages to the app
from house_places import here
from serving import serve

import about_pages  # noqa: F401  # pylint: disable=unused-import
import committee_pages  # noqa: F401  # pylint: disable=unused-import
import date_pages  # noqa: F401  # pylint: disable=unused-import
import draw_pages  # noqa: F401  # pylint: disable=unused-import
import file_pages  # noqa: F401  # pylint: disable=unused-import
import given_up_pages  # noqa: F401  # pylint: disable=unused-import
import language_pages  # noqa: F401  # pylint: disable=unused-import
import left_pages  # noqa: F401  # pylint: disable=unused-import
import list_pages  # noqa: F401  # pylint: disable=unused-import
import mail_address_pages  # noqa: F401  # pylint: disable=unused-import
import mail_pages  # noqa: F401  # pylint: disable=unused-import
import many_pages  # noqa: F401  # pylint: disable=unused-import
import people_pages  # noqa: F401  # pylint: disable=unused-import
import result_pages  # noqa: F401  # pylint: disable=unused-import
import room_pages  # noqa: F401  # pylint: disable=unused-import
import round_pages  # noqa: F401  # pylint: disable=unused-import
import sample_pages  # noqa: F401  # pylint: disable=unused-import
import second_pages  # noqa: F401  # pylint: disable=unused-import
import slips  # noqa: F401  # pylint: disable=unused-import
import told_pages  # noqa: F401  # pylint: disable=unused-import
import undo_pages  # noqa: F401  # pylint: disable=unused-import
from app import LONGEST_FORM, Guarded, app

PLACE = os.environ.get("ROOMS_PAGE_SOCKET", str(here().jail / "rooms-page.sock"))
# Bodies and answers stay in memory: waitress writes what is longer into a file.
IN_MEMORY = 16_000_000


def main() -> None:
    """Serves the page until it is ended."""
    os.umask(0o077)
    serve(Guarded(app), PLACE, threads=4, max_request_body_size=LONGEST_FORM, inbuf_overflow=IN_MEMORY, outbuf_overflow=IN_MEMORY)


if __name__ == "__main__":
    main()
