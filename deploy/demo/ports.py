"""Ports that nobody uses, for a server of one's own."""

import contextlib
import random
import socket
from pathlib import Path

RANGE = Path("/proc/sys/net/ipv4/ip_local_port_range")
LOWEST = 1024  # below this one only root may listen
TRIES = 1000


def free_ports(count: int) -> list[int]:
    """So many ports of 127.0.0.1 that nobody uses now, below those that the system gives to connections, as long as some are
    free there.

    The system may give a port of its own range to any connection while a server is stopped. The server cannot have the port
    back as long as that connection lasts, and for a minute after its end.
    """
    lowest = int(RANGE.read_text(encoding="ascii").split()[0])
    below = range(max(LOWEST, lowest // 2), lowest)
    with contextlib.ExitStack() as held:
        free: list[int] = []
        for port in [*random.sample(below, min(TRIES, len(below))), *[0] * count]:
            probe = held.enter_context(socket.socket())
            with contextlib.suppress(OSError):
                probe.bind(("127.0.0.1", port))
                free.append(probe.getsockname()[1])
            if len(free) == count:
                return free
    raise OSError(f"no {count} ports are free")
