"""What the page remembers between two requests of a clerk. It stays in memory, and a restart forgets it."""

import secrets
import threading
import time
from collections import defaultdict
from typing import Any, NamedTuple

HOUR = 3600
# For each clerk. A list has up to 262,144 bytes: twenty of them are five megabytes.
MOST = 20


class News(NamedTuple):
    """What the next page of a clerk says at its head: `good` or `bad`, and the text."""

    kind: str
    text: str


class Told(NamedTuple):
    """A piece of news, its time, and when the request had begun that told it."""

    news: News
    at: float
    began: float

    def is_for(self, began: float) -> bool:
        """Whether it is for the page of a request that began then. What another request has told since is for the page to which
        that one leads."""
        return self.at <= began or self.began == began


class Held(NamedTuple):
    """Something that waits for the clerk's answer."""

    until: float
    what: Any


class Memory:
    """News, searches, and what waits for a yes. Several requests may use it at once."""

    def __init__(self) -> None:
        self._lock = threading.Lock()
        self._news: dict[str, list[Told]] = defaultdict(list)
        self._held: dict[str, dict[str, Held]] = defaultdict(dict)
        self._searches: dict[str, str] = {}
        self._languages: dict[str, str] = {}

    def tell(self, clerk: str, kind: str, text: str, began: float) -> None:
        """Keeps a piece of news for the clerk's next page, with all that the same request has told, and four of others."""
        with self._lock:
            others = [one for one in self._news[clerk] if one.began != began]
            own = [one for one in self._news[clerk] if one.began == began]
            self._news[clerk] = [*others[-4:], *own, Told(News(kind, text), time.monotonic(), began)]

    def news(self, clerk: str, began: float) -> list[News]:
        """Gives the clerk's news, once, to a request that began then."""
        with self._lock:
            told = self._news[clerk]
            self._news[clerk] = [one for one in told if not one.is_for(began)]
            return [one.news for one in told if one.is_for(began)]

    def tell_again(self, clerk: str, news: list[News], name: str) -> None:
        """Keeps news for a second press that waits for none any more, and lets slips be shown again that the browser dropped."""
        with self._lock:
            waiting = [one.news for one in self._news[clerk]]
            self._news[clerk] += [Told(one, time.monotonic(), 0.0) for one in news if one not in waiting]
            found = self._held[clerk].get(name)
        if found and hasattr(found.what, "again"):
            found.what.again()

    def search(self, clerk: str, text: str | None = None) -> str:
        """Keeps what a clerk searches for, or gives it."""
        with self._lock:
            if text is not None:
                self._searches[clerk] = text
            return self._searches.get(clerk, "")

    def language(self, clerk: str, code: str | None = None) -> str | None:
        """Keeps the code of a clerk's language, which is empty if none was chosen, or gives it; nothing if it is not known yet."""
        with self._lock:
            if code is not None:
                self._languages[clerk] = code
            return self._languages.get(clerk)

    def hold(self, clerk: str, what: Any) -> str:
        """Holds something for an hour, and gives the name under which it can be had. The clerk's oldest go first."""
        name = secrets.token_hex(16)
        with self._lock:
            self._forget()
            own = self._held[clerk]
            while len(own) >= MOST:
                del own[next(iter(own))]
            own[name] = Held(time.monotonic() + HOUR, what)
        return name

    def held(self, clerk: str, name: str) -> Any | None:
        """What is held under a name, for its owner alone."""
        with self._lock:
            self._forget()
            found = self._held[clerk].get(name)
            return found.what if found else None

    def all_held(self) -> list[Any]:
        """All that is held, of all clerks."""
        with self._lock:
            self._forget()
            return [held.what for own in self._held.values() for held in own.values()]

    def replace(self, clerk: str, name: str, what: Any) -> None:
        """Holds something else under a name, as long as what it takes the place of would have been held."""
        with self._lock:
            if name in self._held[clerk]:
                self._held[clerk][name] = self._held[clerk][name]._replace(what=what)

    def let_go(self, clerk: str, name: str) -> None:
        """Forgets what was held."""
        with self._lock:
            self._held[clerk].pop(name, None)

    def _forget(self) -> None:
        """Forgets what was held for longer than an hour."""
        for own in self._held.values():
            for name in [name for name, held in own.items() if held.until < time.monotonic()]:
                del own[name]
