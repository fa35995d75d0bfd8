"""Makes a small, clean picture of a file: a JPEG, upright, without what a camera writes beside it, such as the place.

Pillow reads the file, and only as JPEG, PNG or WebP. Before it unpacks a picture, the page looks how large that is. One
heavy file is read at a time, as of workbooks.
"""

import contextlib
import io
import warnings
from typing import Any

from languages import N_, _
from told import LONGEST

from sheet_books import one_at_a_time
from sheet_limits import Unreadable

FORMATS = ("JPEG", "PNG", "WEBP")
MOST_PIXELS = 40_000_000
# The longest side in pixels and the quality, until the picture is small enough.
STEPS = ((1280, 82), (1280, 68), (1024, 68), (800, 68), (640, 60), (480, 50))
WHITE = (255, 255, 255)

NOT_INSTALLED = N_("this machine cannot read pictures, since a package is missing. Ask the administrator.")
NO_PICTURE = N_("this is no picture as JPEG, PNG or WebP, or it is damaged. Save it as JPEG.")
TOO_BIG = N_("this picture has more than {millions} million pixels. Make it smaller, and send it again.")
TOO_DETAILED = N_("this picture does not become small enough. Make it smaller, and send it again.")


def too_big() -> Unreadable:
    """The fault of a picture with too many pixels."""
    return Unreadable(_(TOO_BIG, millions=MOST_PIXELS // 1_000_000))


def small(data: bytes) -> bytes:
    """The picture as residents get it."""
    try:
        from PIL import Image  # pylint: disable=import-outside-toplevel  # it takes a while, and memory
    except ImportError as fault:
        raise Unreadable(_(NOT_INSTALLED)) from fault
    with one_at_a_time, warnings.catch_warnings():
        warnings.simplefilter("ignore")  # a warning would be a line of the log
        try:
            opened = Image.open(io.BytesIO(data), formats=FORMATS)
            if opened.width * opened.height > MOST_PIXELS:
                raise too_big()
            clean = on_white(opened)
        except Unreadable:
            raise
        except Image.DecompressionBombError as fault:
            raise too_big() from fault
        except Exception as fault:  # pylint: disable=broad-except  # a broken picture has faults of all kinds
            raise Unreadable(_(NO_PICTURE)) from fault
        return packed(clean)


def on_white(opened: Any) -> Any:
    """A picture of its own, upright, with white where it has no colour, and of the first size."""
    from PIL import Image, ImageOps  # pylint: disable=import-outside-toplevel
    first = STEPS[0][0]
    opened.draft("RGB", (first, first))  # of a JPEG less is unpacked
    shown = opened
    if shown.mode in ("1", "P", "PA"):
        shown = shown.convert("RGBA")
    elif shown.mode.startswith("I"):
        shown = shown.point(lambda value: value / 256).convert("L")  # 16 bits of grey
    shown.thumbnail((first, first))
    with contextlib.suppress(Exception):  # what a camera wrote of the way up may be damaged
        shown = ImageOps.exif_transpose(shown)
    if shown.mode not in ("RGB", "L", "CMYK", "YCbCr"):
        shown = shown.convert("RGBA")
    clean = Image.new("RGB", shown.size, WHITE)
    clean.paste(shown if shown.mode == "RGBA" else shown.convert("RGB"), mask=shown if shown.mode == "RGBA" else None)
    return clean


def packed(clean: Any) -> bytes:
    """A JPEG that is small enough."""
    for side, quality in STEPS:
        smaller = clean.copy()
        smaller.thumbnail((side, side))
        held = io.BytesIO()
        smaller.save(held, "JPEG", quality=quality, optimize=True, progressive=True)
        if held.tell() <= LONGEST:
            return held.getvalue()
    raise Unreadable(_(TOO_DETAILED))
