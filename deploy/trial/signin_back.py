"""Who comes back from the provider and is not signed in, for signin_account.py: they come to the page, and to no fault of Apache's.
And what README.md has an administrator do before Apache is asked about its file."""

import re
import urllib.parse

from signin_stand import SIGN_IN, Browser
from stand import DEPLOY, check

PAGE = "/?account"


def try_back(stand):
    """Somebody gives up at the provider, is too late, or has an account without a name."""
    browser = Browser(stand)
    browser.sign_in()
    check("an account without a name leads back to the page", browser.been[-1] == PAGE and browser.whose() == (401, None),
          browser.been)
    for fields in ("error=access_denied", "code=nothing"):
        led = browser.ask("GET", SIGN_IN, page=False).fields["location"]
        (state,) = urllib.parse.parse_qs(urllib.parse.urlsplit(led).query)["state"]
        shown = browser.follow(f"/account/redirect?{fields}&state={state}")
        check(f"so does the provider's answer {fields}", browser.been[-1] == PAGE and shown.status == 200, (browser.been, shown))
    browser.follow("/account/redirect?code=x&state=old")
    check("and one that comes too late", browser.been[-1].endswith(PAGE) and browser.whose() == (401, None), browser.been)
    browser.sign_in("t2")
    browser.follow("/account/redirect?code=x&state=old")
    check("who is signed in stays so", browser.been[-1].endswith(PAGE) and browser.whose() == "T2", browser.been)


def try_guide():
    """Apache takes its file only where there is its folder, which the unit makes later."""
    guide = (DEPLOY / "sign-in" / "README.md").read_text(encoding="utf-8")
    settings = (DEPLOY / "sign-in" / "apache2.conf").read_text(encoding="utf-8")
    (folder,) = re.findall("^DefaultRuntimeDir (.*)$", settings, re.M)
    made = re.search(rf"^ *install -d .* {re.escape(folder)}$", guide, re.M)
    check(f"the guide makes {folder} before it asks Apache about its file", made and made.start() < guide.index("apache2 -t -f "))
    (begins,) = re.findall(r"^install .* (/etc/systemd/system/rooms-keeper\.service\.d/\S+)$", guide.replace("\n   ", "\n"), re.M)
    off = guide.partition("To switch it off")[2]
    check("what lets the keeper start the socket for keys goes when it is switched off", f"\nrm {begins}\n" in off, begins)
    count = settings.count("rooms.college.example") + settings.count(r"rooms\.college\.example")
    words = {3: "three", 4: "four", 5: "five"}
    check("and says in how many lines the name stands", f"(in {words[count]} lines" in guide, count)
