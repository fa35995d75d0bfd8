"""Pictures for the trial: as a camera makes them, and such as nobody should be able to hurt the page with."""

import io
import struct
import zlib

from PIL import Image

SECRETS = (b"Geheim", b"GPS", b"Exif", b"Camera of Kurt")
CAMERA, PLACE, WAY_UP = 0x010F, 0x8825, 0x0112
COLOURS = {"red": (255, 0, 0), "green": (0, 255, 0), "blue": (0, 0, 255), "white": (255, 255, 255), "black": (0, 0, 0)}
# The corners of the camera's picture once it stands upright: top left, top right, bottom left, bottom right.
UPRIGHT = ["blue", "red", "white", "green"]


def of_camera():
    """A photograph of 4000 by 3000 points, held upright: red top left, green top right, blue and white below, before it is
    turned clockwise as its mark says. It has the place, a comment, and who made it."""
    image = Image.new("RGB", (4000, 3000))
    for at, name in (((0, 0), "red"), ((2000, 0), "green"), ((0, 1500), "blue"), ((2000, 1500), "white")):
        image.paste(COLOURS[name], (*at, at[0] + 2000, at[1] + 1500))
    beside = Image.Exif()
    beside[WAY_UP], beside[CAMERA] = 6, "Camera of Kurt"
    beside.get_ifd(PLACE)[1] = "N"
    held = io.BytesIO()
    image.save(held, "JPEG", exif=beside, comment=b"Geheim: the comment")
    return held.getvalue()


def drawn(form, number=0):
    """A plan without a colour in its corners, as this form of file."""
    if form == "JPEG":
        image = Image.new("RGB", (300, 200), (number, 0, 0))
    else:
        image = Image.new("RGBA", (300, 200), (0, 0, 0, 0))
        image.paste((0, 0, 0, 255), (100, 50, 200 + number, 150))
    held = io.BytesIO()
    image.save(held, form)
    return held.getvalue()


def seen(data):
    """What a picture is: its form, its size, the colours of its corners, and what it has beside its points."""
    with Image.open(io.BytesIO(data)) as image:
        beside = dict(image.getexif())
        beside.update({name: value for name, value in image.info.items() if name not in (
            "jfif", "jfif_version", "jfif_unit", "jfif_density", "progressive", "progression")})
        whole = image.convert("RGB")
        width, height = whole.size
        corners = [nearest(whole.getpixel(at)) for at in ((20, 20), (width - 20, 20), (20, height - 20), (width - 20, height - 20))]
        return {"format": image.format, "size": whole.size, "corners": corners, "beside": beside}


def nearest(point):
    """The colour that a point is next to."""
    return min(COLOURS, key=lambda name: sum((one - other) ** 2 for one, other in zip(COLOURS[name], point)))


def chunk(kind, data):
    """A part of a PNG."""
    return struct.pack(">I", len(data)) + kind + data + struct.pack(">I", zlib.crc32(kind + data))


def png(width, height, data):
    """A PNG in black and white with these points, however many they are."""
    head = struct.pack(">IIBBBBB", width, height, 1, 0, 0, 0, 0)
    return b"\x89PNG\r\n\x1a\n" + chunk(b"IHDR", head) + chunk(b"IDAT", data) + chunk(b"IEND", b"")


def hostile():
    """Files that are no pictures, or would take the memory, each by its name."""
    whole = drawn("JPEG")
    bomb = zlib.compress(bytes(2_501 * 20_000))  # 400 million points in some 50 KB
    gif = io.BytesIO()
    Image.new("RGB", (10, 10)).save(gif, "GIF")
    words = chunk(b"zTXt", b"k\0\0" + zlib.compress(bytes(900_000))) * 100
    many = png(8, 8, zlib.compress(bytes(16)))
    return {
        "a bomb of 20,000 by 20,000 points": png(20_000, 20_000, bomb),
        "41 million points": png(8_200, 5_000, zlib.compress(bytes(1_026 * 5_000))),
        "a picture that is cut off": whole[:len(whole) // 2],
        "a PNG that says more than it has": png(4_000, 4_000, zlib.compress(bytes(100))),
        "90 megabytes of packed words": many[:33] + words + many[33:],
        "a GIF": gif.getvalue(),
        "a drawing with a script": b'<svg xmlns="http://www.w3.org/2000/svg"><script>alert(1)</script></svg>',
        "a page": b"<!doctype html><script>alert(1)</script>",
        "a program of PostScript": b"%!PS-Adobe-3.0 EPSF-3.0\n%%BoundingBox: 0 0 10 10\n",
        "nothing but zeros": bytes(5_000),
    }
