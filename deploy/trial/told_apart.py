"""What residents read of rooms is no script, whatever is in its folder and whatever its server says (office_told.py)."""

import socketserver
import threading
from pathlib import Path

from stand import check

TOLD = "/told/told.json"


def try_separation(stand, resident):
    """Whatever is in the folder, the proxy says of what kind it is: no page takes it for a script."""
    folder, name = stand.folder / "told", "f" * 32 + ".jpg"
    (folder / name).write_bytes(b"alert('script')")
    status, fields, _ = resident.get(f"/told/{name}")
    check("a script in the folder is served as a picture, which no page runs", (status, fields["content-type"],
          fields["x-content-type-options"]) == (200, "image/jpeg", "nosniff"), fields)
    (folder / name).unlink()
    (folder / name).symlink_to("/etc/passwd")
    check("no link leads out of the folder", resident.get(f"/told/{name}")[0] == 404)
    (folder / name).unlink()
    try_liar(stand, resident)


class Liar(socketserver.StreamRequestHandler):
    """Answers as somebody may who has taken over the server of what residents read."""

    def handle(self):
        """Answers any request with a script."""
        self.rfile.readline()
        self.wfile.write(b"HTTP/1.1 200 OK\r\nContent-Type: text/javascript\r\nSet-Cookie: a=b\r\nContent-Length: 8\r\n"
                         b"Connection: close\r\n\r\nalert(1)")


def try_liar(stand, resident):
    """A server of what residents read that gives out scripts."""
    stand.end(stand.told)
    place = Path(stand.environment["ROOMS_TOLD_SOCKET"])
    place.unlink(missing_ok=True)
    with socketserver.UnixStreamServer(str(place), Liar) as server:
        threading.Thread(target=server.serve_forever, daemon=True).start()
        for path, kind in ((TOLD, "application/json"), (f"/told/{'a' * 32}.jpg", "image/jpeg")):
            status, fields, text = resident.get(path)
            check(f"{path} is no script, whatever its server says", (status, fields["content-type"], text)
                  == (200, kind, "alert(1)") and "set-cookie" not in fields, fields)
        for path in ("/portal.js", "/told.js", "/"):
            check(f"{path} does not come from it", "alert(1)" not in resident.get(path)[2])
        server.shutdown()
    place.unlink()
    stand.start_told()
