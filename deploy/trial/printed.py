"""What a browser has drawn on paper: the lines of a PDF that Chromium printed."""

import re
import zlib

STREAM = re.compile(rb"stream\r?\n(.*?)endstream", re.DOTALL)
AREA = re.compile(r"(\S+ \S+ \S+ \S+) re\nW\*? n")


def drawings(pdf):
    """The drawing of each sheet: one operator a line, after its numbers."""
    for found in STREAM.finditer(pdf):
        try:
            text = zlib.decompress(found[1]).decode("latin-1")
        except zlib.error:  # an image, or a font
            continue
        if AREA.search(text):
            yield text


def lines_of(drawing):
    """From where to where the paths of a sheet go, from left to right, and where its printed area begins and ends."""
    kept, places, scale, left = [], [], 1.0, 0.0
    area: tuple[float, ...] = ()
    for line in drawing.splitlines():
        *words, operator = line.split() or [""]
        if operator == "q":
            kept.append((scale, left))
        elif operator == "Q":
            scale, left = kept.pop()
        elif operator == "cm":
            scale, left = scale * float(words[0]), left + scale * float(words[4])
        elif operator == "re" and not area:
            area = left + scale * float(words[0]), left + scale * (float(words[0]) + float(words[2]))
        elif operator in ("m", "l"):
            places.append(left + scale * float(words[0]))
    return places, area


def cut_off(pdf):
    """How far the lines of a PDF reach beyond the printed area of their sheets: the paper's margins hide that part. Nothing, if no
    sheet has a line."""
    found = [(min(places), max(places), *area) for places, area in map(lines_of, drawings(pdf)) if places]
    return max(max(begin - first, last - end) for first, last, begin, end in found) if found else None
