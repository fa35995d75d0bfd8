"""Residents sign in by an account of the college: /usr/bin/python3 deploy/trial/signin_account.py PROGRAM.

Apache, HAProxy and signed_in.py run over the repository's files, with a stand-in of an identity provider. The trial goes through
sign-in and sign-out, and tries to become somebody else: by fields, by other ways to the server, by other names of an account, by
tokens that the provider did not sign or signed for others, by another site's page, and by a session that is over.
"""

import collections
import http.client
import json
import os
import socket
import subprocess
import sys
import threading
import time
import urllib.parse
from pathlib import Path

from provider import CLIENT_SECRET
from signin_back import try_back, try_guide
from signin_names import LISTED, OTHER_NAMES, signed_in_as, try_list, try_names, try_person, try_tokens
from signin_stand import APACHE, BARE, SIGN_IN, SIGN_OUT, Browser, SignInStand, named
from stand import HOST, PYTHON, Stand, check, key_of

PEOPLE = ["T1", "T2", "S1", "I1"]
# What the module answers at its address beside the provider's answer and the sign-out.
OTHER_ANSWERS = ["info=json", "jwks=rsa", "refresh=https://x/", "request_uri=1", "remove_at_cache=1", "revoke_session=abc",
                 "session=check", "session=logout", "target_link_uri=https://x/"]


def try_off(program):
    """An office without it has nothing of all this."""
    with Stand(program) as stand:
        stand.fill(["A-1"], ["T1"])
        stand.start()
        stand.start_proxy()
        browser = Browser(stand)
        told = [browser.ask("GET", path).status for path in (SIGN_IN, "/account/me", "/account/redirect", "/account/")]
        check("without it these pages are not there", told == [404] * 4, told)
        answer = browser.get("/me", ("Room-Account", named("t1")))
        check("and a field for it does nothing", answer.status == 403, answer)
        check("nobody has an account", stand.ask(ask="accounts") == {"rule": "off", "count": 0})
        check("and no socket gives keys", "not understood" in stand.ask(ask="key", account="t1").get("fault", ""))


def try_sign_in(stand):
    """Signs in, and does what residents do."""
    browser = Browser(stand)
    check("no session, no person", browser.whose() == (401, None), browser.whose())
    shown = browser.sign_in("t1")
    check("the provider leads back to the page", shown.status == 200 and browser.been[-1] == "/?account", browser.been)
    check("for the person of the account", browser.whose() == "T1", browser.whose())
    answer = browser.ask("PUT", "/account/me/choices", b'["A-1","A-2"]')
    check("whose list is handed in", answer.value() == {"choices": ["A-1", "A-2"]}, answer)
    check("and on record", stand.recorded() == {"T1": ["A-1", "A-2"]}, stand.recorded())
    rooms = browser.get("/account/rooms").value()
    check("rooms are shown", len(rooms) == 2, rooms)
    check("a list that is too long is refused", browser.ask("PUT", "/account/me/choices", b" " * 1025).status == 413)
    check("keys stay", browser.get("/me", ("Room-Key", key_of("T2"))).value()["person"] == "T2")
    other = Browser(stand)
    other.sign_in("i1")
    other.ask("POST", "/account/me/withdraw", b"")
    check("and who withdraws is the person of the account", away(stand) == ["I1"], away(stand))
    return browser


def try_cookie(browser):
    """The cookie of a session."""
    browser.cookies.clear()
    browser.sign_in("t1")
    again = browser.get("/account/me")
    below = [path for _, path in browser.cookies.values()]
    check("the cookie goes to these pages alone", below == ["/account/"], browser.cookies)
    asked = browser.ask("GET", SIGN_IN, page=False, fields=())
    check("nobody signs in twice", asked.status == 303 and again.status == 200, asked)
    kept, browser.cookies = browser.cookies, {}
    browser.sign_in("t1")
    session = [cookie for cookie in browser.set_there if cookie.startswith("mod_auth_openidc_session=")]
    parts = ("; HttpOnly", "; Secure", "; SameSite=")
    kind = all(part in cookie and "SameSite=None" not in cookie for cookie in session for part in parts)
    check("no script, no other site and no address without TLS gets it", session and kind, session)
    check("it is another one at each sign-in", kept != browser.cookies)


def try_fields(stand, browser):
    """Fields that name somebody else."""
    own = key_of("T2")
    fields = [
        ("Room-Key", own), ("Room-Account", named("t2")), ("room-account", named("t2")), ("Room_Account", named("t2")),
        ("ROOM_ACCOUNT", named("t2")), ("Room-Account ", named("t2")), ("X-Remote-User", "t2"), ("Remote-User", "t2"),
        ("REMOTE_USER", "t2"),
        ("OIDC_CLAIM_preferred_username", "t2"), ("OIDC-Claim-Preferred-Username", "t2"), ("X-Forwarded-User", "t2"),
        ("X-Office-User", "anna"), ("Authorization", "Basic " + named("t2:x")), ("Authorization", "Bearer " + own),
        ("Connection", "close, Room-Account"), ("Connection", "Room-Account, Room-Key"), ("X-HTTP-Method-Override", "PUT"),
        ("X-Forwarded-Host", "evil.example"), ("X-Original-URL", "/account/in"), ("X-Rewrite-URL", "/me"),
    ]
    stranger = Browser(stand)
    for name, value in fields:
        told = ask_with(browser, (name, value))
        check(f"with a field {name} one acts for oneself, or for nobody", told in ("T1", (403, "NoPerson"), (400, None)), told)
        told = ask_with(stranger, (name, value))
        check("and without a session for nobody", told in ((401, None), (400, None)), told)
    several = [("Room-Account", named("t2")), ("Room_Account", named("t2")), ("Connection", "Room-Account"), ("Room-Key", own)]
    check("nor with all of them", ask_with(browser, *several) in ("T1", (403, "NoPerson")))
    told = [browser.get("/me", *several[:3]).status, browser.get("/me").status]
    check("beside the account's pages a session counts nothing", told == [403, 403], told)


def ask_with(browser, *fields):
    """For whom the page would act with these fields."""
    answer = browser.get("/account/me", *fields)
    value = answer.value()
    return value["person"] if answer.status == 200 else (answer.status, value and value.get("error"))


def try_ways(stand, browser):
    """Other ways to the server, of a machine's account and of a resident."""
    field = ("Room-Account", named("t2")), ("Room-Sign-In", "account")
    paths = ["/account/me", "//account/me", "/account//me", "/Account/me", "/account/./me", "/account/x/../me", "/account/in/../me",
             "/account/redirect/../me", "/account/redirect/me", "/account/%6de", "/account%2fme", "/account/me;x", "/account/me/",
             "/account/me?/account/in", "/account/..;/account/me", "/me", "/", "/account", "/account/in"]
    told = {path: stand.past_the_proxy("GET", path, *field).status for path in paths}
    check("Apache itself lets nobody through who is not signed in", set(told.values()) <= {302, 400, 401, 403, 404}, told)
    told = {path: Browser(stand).get(path, *field).status for path in paths[:-4]}
    check("nor does HAProxy, by any form of the path", set(told.values()) <= {400, 401, 404}, told)
    cookie = ("Cookie", "; ".join(f"{name}={value}" for name, (value, _) in browser.cookies.items()))
    answer = stand.past_the_proxy("GET", "/account/me", *field, cookie)
    check("past HAProxy a session is its own person's", answer.status == 200 and answer.value()["person"] == "T1", answer)
    for host in ("other.example", f"{HOST}.other.example"):
        told = stand.past_the_proxy("GET", "/account/in", ("Host", host), ("Accept", "text/html")).fields.get("location", "")
        check(f"nobody is led to the host {host}", "other.example" not in told, told)
    told = stand.ask(ask="key", account="t2").get("fault", "")
    check("the clerks' socket gives no key", "there is no request" in told, told)
    for job in ({"ask": "view"}, {"ask": "do", "lines": ["rooms"]}, {"ask": "key"}, {"ask": "key", "account": ["t1"]}):
        told = ask_for_key(stand, job)
        check(f"the socket of keys does nothing else: {job}", "only the key of an account" in told.get("fault", ""), told)
    check("it gives a key", ask_for_key(stand, {"ask": "key", "account": "t2"}) == {"key": key_of("T2")})
    try_accounts_of_machine(stand)


def ask_for_key(stand, job):
    """Asks by the socket that signed_in.py has."""
    with socket.socket(socket.AF_UNIX) as door:
        door.connect(stand.environment["ROOMS_ACCOUNT_SOCKET"])
        door.sendall(json.dumps(job).encode() + b"\n")
        return json.loads(door.makefile().readline())


def try_accounts_of_machine(stand):
    """Other accounts of the machine, and Apache's own, at the sockets."""
    if os.geteuid() != 0:
        print("      other accounts of the machine were not tried: only root can")
        return
    stand.folder.chmod(0o711)
    opened = "import socket, sys; socket.socket(socket.AF_UNIX).connect(sys.argv[1])"
    nobody = ["setpriv", "--reuid", str(APACHE + 1), "--regid", str(APACHE + 1), "--clear-groups"]
    for who, bare, names in (("another account", nobody, ("ROOMS_ACCOUNT_SOCKET", "ROOMS_SIGNED_IN_SOCKET", "ROOMS_SOCKET")),
                             ("Apache's account", BARE, ("ROOMS_ACCOUNT_SOCKET", "ROOMS_SOCKET"))):
        for name in names:
            words = [*bare, PYTHON, "-c", opened, stand.environment[name]]
            done = subprocess.run(words, capture_output=True, text=True, check=False)
            check(f"{who} may not open {name}", "PermissionError" in done.stderr, done)
    words = [*BARE, PYTHON, "-c", opened, stand.environment["ROOMS_SIGNED_IN_SOCKET"]]
    done = subprocess.run(words, capture_output=True, text=True, check=False)
    check("Apache may open that of signed_in.py: the trial can see it", done.returncode == 0, done)








def try_other_site(stand, browser):
    """Another site's page sends requests, with the cookie of the browser."""
    before = stand.recorded(), away(stand)
    for method, path, body in (("POST", "/account/me/withdraw", b""), ("PUT", "/account/me/choices", b"[]"),
                               ("GET", "/account/me", None)):
        fields = ("Origin", "https://evil.example"), ("Sec-Fetch-Site", "cross-site"), ("Content-Type", "text/plain")
        answer = browser.ask(method, path, body, fields, page=False)
        refused = (answer.status, answer.value()) == (403, {"error": "OtherSite"})
        check(f"another site's page cannot {method} {path}", refused, answer)
    fields = (("Origin", "https://evil.example"), ("Access-Control-Request-Headers", "room-sign-in"),
              ("Access-Control-Request-Method", "POST"))
    answer = browser.ask("OPTIONS", "/account/me/withdraw", None, fields, page=False)
    allowed = [name for name in answer.fields if name.startswith("access-control")]
    check("nor may it send the page's own field", answer.status in (401, 405) and not allowed, answer)
    check("and nothing has changed", (stand.recorded(), away(stand)) == before)


def away(stand):
    """Who has withdrawn."""
    return [person for person, _, _, withdrawn in stand.ask(ask="view")["people"] if withdrawn]


def try_sign_out(stand):
    """A session that is over."""
    browser = Browser(stand)
    browser.sign_in("t1")
    copied = dict(browser.cookies)
    shown = browser.sign_out()
    check("the sign-out leads to the provider and back to the page", shown.status == 200 and len(stand.provider.ended) == 1
          and stand.provider.ended[0]["post_logout_redirect_uri"] == f"https://{HOST}:{stand.port}/", browser.been)
    check("and ends the session", browser.whose() == (401, None) and not browser.cookies, browser.cookies)
    browser.cookies = copied
    check("also for a cookie that was copied before", browser.whose() == (401, None), browser.whose())
    browser.cookies = {}
    browser.sign_in("t1")
    first = dict(browser.cookies)
    for cookie in list(browser.cookies):
        browser.cookies.pop(cookie)
    browser.sign_in("t2")
    check("the next person at this browser is the next person", browser.whose() == "T2", browser.whose())
    mixed = Browser(stand)
    mixed.cookies = {**first, **{f"{name}_0": value for name, value in browser.cookies.items()}}
    check("cookies of two people make no third", mixed.whose() == "T1", mixed.whose())
    for address in ("https://evil.example/", "//evil.example/", f"https://{HOST}.evil.example/", "javascript:alert(1)",
                    f"https://{HOST}@evil.example/", "https:evil.example"):
        led = browser.ask("GET", SIGN_OUT + urllib.parse.quote(address, safe=""), page=False).fields.get("location", "")
        check(f"the sign-out leads nobody to {address}", "evil" not in led and "javascript" not in led, led)
    browser.sign_in("t2")
    told = browser.ask("POST", "/account/redirect?logout=backchannel", stand.provider.logout().encode(),
                       (("Content-Type", "application/x-www-form-urlencoded"),), page=False)
    check("a sign-out at the provider, which it reports, ends the session", told.status == 200 and browser.whose() == (401, None),
          (told, browser.whose()))


def try_redirect(browser):
    """What else the module answers at the address to which the provider leads."""
    for query in ("", "?info=json", "?iss=https://127.0.0.1&target_link_uri=https://evil.example/", "?request_uri=x", "?jwks=rsa",
                  "?remove_at_cache=x", "?refresh=https://evil.example/&access_token=x", "?session=check", "?state=x",
                  *(f"?{one}&state=x{more}" for one in OTHER_ANSWERS for more in ("", "&error=x", "&code=x"))):
        told = browser.ask("GET", f"/account/redirect{query}", page=False)
        check(f"nothing answers at /account/redirect{query}", told.status == 404, told)


def try_slow(stand):
    """Slow requests of somebody without an account keep nobody out who is signed in."""
    browser = Browser(stand)
    browser.sign_in("t1")
    for head, begin in (("GET /account/in", b"a"), ("POST /account/in", b"a"), ("POST /account/redirect?logout=backchannel", b"a"),
                        ("POST /account/in", b"")):
        length = "Content-Length: 8000" if begin else "Transfer-Encoding: chunked"
        slow = [browser.connected() for _ in range(26)]
        for one in slow:
            one.sendall(f"{head} HTTP/1.1\r\nHost: {HOST}:{stand.port}\r\n{length}\r\n\r\n".encode() + begin)
        time.sleep(1)
        began = time.monotonic()
        told, took = browser.whose(), time.monotonic() - began
        check(f"26 slow requests {head} with {length} keep nobody out", told == "T1" and took < 5, (told, took))
        for one in slow:
            one.close()


def try_often(stand):
    """An address goes through the sign-in some 300 times in ten seconds; keys, and who is signed in, go on there."""
    browser = Browser(stand)
    browser.sign_in("t1")
    connection = http.client.HTTPSConnection(HOST, timeout=60)
    connection.sock = browser.connected()
    told: collections.Counter[int] = collections.Counter()
    for _ in range(360):
        connection.request("GET", "/account/redirect?code=x&state=x", headers={"Host": f"{HOST}:{stand.port}"})
        answer = connection.getresponse()
        answer.read()
        told[answer.status] += 1
        if answer.status == 429:
            break
        if connection.sock is None:
            connection.sock = browser.connected()
    check("an address that goes through the sign-in too often has to wait", told[429] == 1 and told.total() > 200, told)
    check("who is signed in there goes on", browser.whose() == "T1", browser.whose())
    check("and so do keys", browser.get("/me", ("Room-Key", key_of("S1"))).status == 200)
    time.sleep(12)


def try_time(stand):
    """A session that nobody used."""
    stand.stop_apache()
    stand.start_apache(("OIDCSessionInactivityTimeout 600", "OIDCSessionInactivityTimeout 10"))
    browser = Browser(stand)
    browser.sign_in("t2")
    check("a session is used", browser.whose() == "T2", browser.whose())
    time.sleep(12)
    check("without use it ends by itself", browser.whose() == (401, None), browser.whose())


def try_away(stand):
    """What answers when something is away."""
    browser = Browser(stand)
    browser.sign_in("t2")
    stand.stop_keeper()
    check("without the keeper nobody's key is known", browser.whose() == (503, "Unavailable"), browser.whose())
    stand.start()
    check("and it is again once the keeper is there", browser.whose() == "T2", browser.whose())
    stand.end(stand.helper)
    check("without signed_in.py Apache says so", browser.whose() == (503, None), browser.whose())
    stand.start_helper()
    stand.stop_apache()
    check("without Apache HAProxy says so", browser.whose() == (503, None), browser.whose())
    shown = browser.ask("GET", SIGN_IN, page=False)
    check("and leads back to the page", shown.status == 503 and 'content="0; url=/?account"' in shown.text, shown)
    check("and keys work", browser.get("/me", ("Room-Key", key_of("S1"))).status == 200)
    stand.start_apache()
    check("a new start of Apache forgets all sessions", browser.whose() == (401, None), browser.whose())
    stand.provider.__exit__()
    answer = browser.ask("GET", SIGN_IN, page=False)
    check("without the provider nobody signs in", answer.status in (302, 500, 503) and browser.whose() == (401, None), answer)


def try_many(stand):
    """Many at a time."""
    told = []
    browsers = [Browser(stand) for _ in range(3)]
    for browser, account in zip(browsers, ("t1", "t2", "s1")):
        browser.sign_in(account)
    threads = [threading.Thread(target=lambda one=one: told.append(one.whose())) for one in browsers for _ in range(8)]
    for thread in threads:
        thread.start()
    for thread in threads:
        thread.join()
    check("24 requests at a time are each the person's own", sorted(told) == sorted(["T1", "T2", "S1"] * 8), told)


def try_certificate(stand):
    """Another machine in the provider's place."""
    stand.stop_apache()
    stand.start_apache((f"{stand.place}/provider.pem", "/etc/ssl/certs/ca-certificates.crt"))
    browser = Browser(stand)
    told = browser.ask("GET", SIGN_IN, page=False)
    check("nobody is led to a provider whose certificate is not right", told.fields.get("location") == "/?account", told)
    check("and nobody is signed in", browser.whose() == (401, None), browser.whose())


def try_logs(stand, keys):
    """Nothing of names, keys, cookies or codes is in a log."""
    logs = {"HAProxy's": stand.proxy_log(), "Apache's": stand.apache_log() + stand.log("apache"),
            "signed_in.py's": stand.log("helper"), "the keeper's": stand.log("keeper"),
            "the clerks'": (stand.data / "journal").read_text(encoding="utf-8")}
    words = [*keys, LISTED, "college.example", "mod_auth_openidc_session=", "code=", "state=", CLIENT_SECRET]
    for name, text in logs.items():
        found = [word for word in words if word in text]
        check(f"{name} log has none of them", not found, found)
    paths = ("GET /account/me ", "GET /account/redirect ")
    check("HAProxy's log has the paths", all(path in logs["HAProxy's"] for path in paths))


def try_signin_account(program, whole=True):
    """All of it, or what the gate tries: without what takes long."""
    try_off(program)
    try_guide()
    with SignInStand(program) as stand:
        stand.fill(["A-1", "A-2"], PEOPLE)
        stand.tell("open")
        stand.start()
        stand.start_sign_in()
        check("at first nobody has an account", signed_in_as(stand, "t1") == (403, "NoPerson"))
        stand.script("rooms-office", "accounts", "capitals")
        browser = try_sign_in(stand)
        try_cookie(browser)
        try_fields(stand, browser)
        try_ways(stand, browser)
        try_redirect(browser)
        try_other_site(stand, browser)
        try_sign_out(stand)
        try_back(stand)
        if whole:
            try_many(stand)
            try_tokens(stand)
            try_slow(stand)
            time.sleep(10)  # until the proxy counts none of these any more
            try_often(stand)
            time.sleep(10)  # until the proxy counts none of these any more
        try_names(stand, OTHER_NAMES if whole else OTHER_NAMES[::4])
        try_list(stand)
        try_person(stand)
        if whole:
            try_certificate(stand)
            try_time(stand)
            try_away(stand)
        try_logs(stand, [key_of(person) for person in PEOPLE])


if __name__ == "__main__":
    if len(sys.argv) != 2 or not Path(sys.argv[1]).exists():
        sys.exit("usage: /usr/bin/python3 deploy/trial/signin_account.py PROGRAM")
    try_signin_account(sys.argv[1])
