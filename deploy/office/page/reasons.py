"""Why a copy was made, in a sentence of the page. The keeper says it by the lines that came after the copy."""

import re

import times
from languages import N_, _, ngettext

from columns import kind_name

# What a line did, by its verb; {what} is the person, the room or the copy that it names.
LINES = {
    "open": N_("round opened"), "close": N_("round closed"), "cancel": N_("round given up"), "draw": N_("order drawn"),
    "run": N_("rooms given"), "publish": N_("results published"), "settle": N_("round settled"), "room": N_("room {what} added"),
    "reopen": N_("room {what} brought back"), "shut": N_("room {what} taken out of use"), "person": N_("{what} added"),
    "home": N_("{what} moved in"), "leave": N_("{what} left a room"), "remove": N_("{what} removed"),
    "grade": N_("grade of {what} set"), "choose": N_("list of {what} put on record"), "withdraw": N_("{what} withdrawn"),
    "going": N_("{what} noted as leaving the college"), "forget": N_("{what} forgotten"),
    "back": N_("way back to the copy of {what}"), "name": N_("name of {what} corrected"), "key": N_("new key for {what}"),
}
# What several lines of one verb did.
MANY = {
    "room": N_("rooms added"), "reopen": N_("rooms brought back"), "shut": N_("rooms taken out of use"),
    "person": N_("people added"), "home": N_("people moved in"), "leave": N_("people left their rooms"),
    "remove": N_("people removed"), "grade": N_("grades set"), "choose": N_("lists put on record"),
    "withdraw": N_("people withdrawn"), "going": N_("people noted as leaving the college"), "name": N_("names corrected"),
    "key": N_("new keys"), "blank": N_("lists blanked"),
}
CORRECTED = {"name": LINES["name"], "key": LINES["key"], "name and key": N_("name and key of {what} corrected")}
ASKED_FOR = re.compile(r"asked for by (.*)")
BEFORE = re.compile(r"before (.*), by ([^,]*)")
RESTORED = re.compile(r"before rooms-restore (.*)")
DATED = re.compile(r"the date that (.*) set")  # by which the keeper has closed the round
COUNTED = re.compile(r"([a-z]+) \((\d+)\)")


def of_copy(why: str) -> str:
    """Why a copy was made, by what the keeper says."""
    if asked := ASKED_FOR.fullmatch(why):
        return _("Asked for by {who}", who=asked[1])
    if restored := RESTORED.fullmatch(why):
        return _("Before: rooms-restore from {folder}, by the administrator", folder=restored[1])
    if before := BEFORE.fullmatch(why):
        return _("Before: {what}, by {who}", what=of_lines(before[1]), who=told_who(before[2]))
    return why or _("Put there by hand")


def told_who(who: str) -> str:
    """Who did something: a clerk, or the keeper at a date."""
    dated = DATED.fullmatch(who)
    return _("the date that {who} set", who=dated[1]) if dated else who


def of_lines(said: str) -> str:
    """What lines did."""
    counts = [COUNTED.fullmatch(part) for part in said.split(", ")]
    if all(counts):
        return ", ".join(of_several(count[1], int(count[2])) for count in counts if count)
    if ";" in said:  # as earlier versions had it, cut off
        verbs = dict.fromkeys(part.split()[0] for part in said.split(";") if part.strip())
        return ", ".join(of_several(verb, 0) for verb in verbs)
    return of_line(said)


def of_several(verb: str, count: int) -> str:
    """What several lines of one verb did; their number may not be known, which is 0."""
    text = _(MANY.get(verb, LINES.get(verb, verb)))
    return f"{text} ({count})" if verb in MANY and count else text


def of_line(said: str) -> str:
    """What one line did."""
    verb, *words = said.split()
    if verb == "import" and len(words) >= 2:
        return _("list {label} of {kind} brought in", label=words[1], kind=kind_name(words[0]))
    if verb == "correct" and len(words) >= 2 and (text := CORRECTED.get(" ".join(words[1:]))):
        return _(text, what=words[0].rstrip(":"))
    if counted := re.fullmatch(r"new keys \((\d+)\)", said):
        return ngettext("new keys for {count} person", "new keys for {count} people", int(counted[1]))
    what = words[0] if words else ""
    return _(LINES[verb], what=times.of_copy(what) if verb == "back" else what) if verb in LINES else said
