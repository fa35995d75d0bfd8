"""HAProxy's configuration of a house, made of that of the plain office, and what the router in front of the houses needs.

The rules of a house are those of haproxy.cfg, which has been tried against attacks: here only its places, its accounts and its
sockets change. The router's own rules are in router.cfg.
"""

from collections.abc import Iterable

from house_list import House
from house_places import PLAIN, PLAIN_PORT, Place
from settings import Fault

SOCKETS = "/run/rooms-proxy"  # the router sees this folder alone
SHARED = "/usr/share/rooms/portal"
OWN = ("index.html", "texts.js", "rooms.csv")  # what a college fills in, on the residents' page of each house
REDIRECT = "    http-request redirect scheme https code 301 unless"
ACCOUNTS = "    # Sign-in by the college's own accounts: off, until `#account ` is taken away from all lines (sign-in/README.md).\n"


def binds(name: str, certificate: str) -> tuple[str, str]:
    """The two lines by which HAProxy takes what the router hands on, with the address of the client."""
    how = "mode 600 user rooms-router accept-proxy"
    return (f"    bind unix@{SOCKETS}/{name}-http.sock {how}\n",
            f"    bind unix@{SOCKETS}/{name}-tls.sock {how} ssl crt {certificate} alpn h2,http/1.1 strict-sni\n")


def changes(house: House) -> list[tuple[str, str, int]]:
    """Texts of haproxy.cfg, what a house has in their place, and how often they stand there."""
    place = house.place
    http, tls = binds(house.name, str(place.certificate))
    wrong_host = ("    # A connection to another house may bring a request for this one, and the other way round.\n"
                  '    http-request return status 421 content-type text/plain string "This host is not served here." unless '
                  f"{{ req.hdr(host),host_only,lower -m str {house.host} }}\n")
    return [
        ("# /etc/haproxy/haproxy.cfg, for", f"# {place.proxy}, made by rooms-house, for", 1),
        ("    log /dev/log local0 notice\n", f"    log /dev/log local0 notice\n    log-tag haproxy-{house.name}\n", 1),
        ("    chroot /var/lib/haproxy\n    user haproxy\n    group haproxy\n",
         f"    chroot {place.jail}\n    user {place.proxy_account}\n    group {place.proxy_account}\n", 1),
        ("    bind :::80 v4v6\n", http, 1),
        ("    bind :::443 v4v6 ssl crt /etc/haproxy/rooms.pem alpn h2,http/1.1 strict-sni\n", tls, 1),
        # The router's lines `connection` see the client; behind a socket only `session` does.
        ("    tcp-request connection ", "    tcp-request session ", 2),
        (ACCOUNTS, "    # Sign-in by the college's own accounts is there for the plain office alone.\n", 1),
        (REDIRECT, wrong_host + REDIRECT, 1),
        (f"    server one 127.0.0.1:{PLAIN_PORT} ", f"    server one 127.0.0.1:{house.port} ", 1),
        ("/var/lib/haproxy/rooms-", f"{place.jail}/rooms-", 2),
    ]


def proxy_of(house: House, plain: str) -> str:
    """HAProxy's configuration of a house, made of the text of the plain office's."""
    text = "".join(line for line in plain.splitlines(keepends=True) if not line.lstrip().startswith("#account "))
    for old, new, count in changes(house):
        if text.count(old) != count:
            raise Fault(f"haproxy.cfg has {text.count(old)} times and not {count} times {old.strip()!r}, which a house replaces")
        text = text.replace(old, new)
    text = text.replace("/srv/rooms/portal/", f"{SHARED}/")
    for name in OWN:
        text = text.replace(f"{SHARED}/{name} ", f"{house.place.settings}/portal/{name} ")
    return text


def hosts_of(houses: Iterable[House]) -> str:
    """The map from hosts to houses."""
    return "".join(f"{one.host} {one.name}\n" for one in houses)


def backends_of(houses: Iterable[House]) -> str:
    """The router's backends: two sockets of each house."""
    return "# Made by rooms-house: what router.cfg leads to.\n" + "".join(
        f"\nbackend {kind}_{one.name} from router\n    server {one.name} unix@/{one.name}-{kind}.sock send-proxy-v2\n"
        for one in houses for kind in ("tls", "http"))


def plain_words(host: str) -> str:
    """What an administrator changes in the plain office's configuration, so that it is behind the router too."""
    http, tls = binds(PLAIN, str(Place().certificate))
    return (f"in {Place().proxy}, write these two lines in place of the two that begin with `bind`, and `tcp-request session` in "
            f"place of `tcp-request connection` (twice); then systemctl restart haproxy, for {host}:\n{http}{tls}")
