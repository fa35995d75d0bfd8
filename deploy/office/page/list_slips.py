"""The slips of lists of people that were tried: which of them work once a list is in. Each try of a list makes other keys."""

import datetime
import threading
from collections.abc import Iterable
from typing import NamedTuple

import times
from languages import _

from app import clerk, memory

SECOND = datetime.timedelta(seconds=1)


class Made(NamedTuple):
    """Slips that a try of a list made: when, by which clerk, and for whom."""

    at: datetime.datetime
    by: str
    idents: frozenset[str]

    def shown(self) -> str:
        """When they were made, as it stands on them, and by whom."""
        return _("{time} by {clerk}", time=times.in_words(self.at), clerk=self.by)


class Clock:  # pylint: disable=too-few-public-methods  # there is one question
    """Gives each try a second of its own, since the time on a slip tells one print from another."""

    def __init__(self) -> None:
        self._lock = threading.Lock()
        self._last = datetime.datetime.min.replace(tzinfo=datetime.timezone.utc)

    def second(self) -> datetime.datetime:
        """This second, or if it is taken, the first one that is not."""
        with self._lock:
            now = datetime.datetime.now(datetime.timezone.utc).replace(microsecond=0)
            self._last = max(now, self._last + SECOND)
            return self._last


clock = Clock()


def made_for(idents: Iterable[str]) -> Made:
    """Slips that this clerk's try makes now."""
    return Made(clock.second(), clerk(), frozenset(idents))


def others(idents: Iterable[str], own: Made | None) -> list[str]:
    """When and by whom slips for some of these people were made in other tries that the page holds."""
    people = set(idents)
    held = {made for what in memory.all_held() if isinstance(made := getattr(what, "made", None), Made) and made.idents & people}
    return [made.shown() for made in sorted(held - {own}, key=lambda made: made.at)]


def which_work(idents: Iterable[str], own: Made | None) -> list[tuple[str, str]]:
    """What the clerk has to know of slips once a list of these people is in, as news."""
    news = [("good", _("The slips of this list work: those that were made on {time}.", time=times.in_words(own.at)))] if own else []
    if found := "; ".join(others(idents, own)):
        news.append(("bad", _("Slips for these people that were made in other tries do not work: destroy them. They were made on "
                              "{times}.", times=found)))
    return news


def once_in(label: str, own: Made | None) -> list[str]:
    """What a clerk reads who looks for a list, or for its slips, once the list is in."""
    says = [_("The list {label} is in.", label=label)]
    if own:
        says.append(_("The slips of this list work: those that were made on {time}. The page no longer has them. If a slip is "
                      "lost, make a new key on the person's page, or for many people at once (page People).",
                      time=times.in_words(own.at)))
    return says


def all_void(own: Made) -> str:
    """What the clerk has to know of the slips of a try whose list cannot come in any more."""
    return _("Your slips for it, which were made on {time}, do not work: destroy them.", time=times.in_words(own.at))


def void(came: str, own: Made | None) -> str:
    """What the clerk has to know of the slips of a try if some of its people came into the register meanwhile."""
    if own is None:
        return _("Meanwhile these people came into the register: {people}. If you have printed slips for them, destroy these: "
                 "their keys are other ones. All other slips stay good.", people=came)
    return _("Meanwhile these people came into the register: {people}. Your slips for them, which were made on {time}, do not "
             "work: destroy these. Your slips for other people stay good.", people=came, time=times.in_words(own.at))
