"""Until when lists are taken: the form on the overview."""

from languages import N_, _

import plain
from app import app, ask, field, go_to, tell, text_of
from keeper_client import KeeperFault


def set_date(at: str, closes: bool, good: str, untold: str) -> None:
    """Has the keeper set the date, or take it away, and says what came of it; also if residents cannot read that."""
    try:
        reply = ask("set-until", at=at, closes=closes, seen=field("seen"), saw=field("saw"))
    except KeeperFault as fault:
        tell("bad", plain.begun(str(fault)))
        return
    tell("good", good)
    if why := reply.get("untold"):
        tell("bad", _(untold, why=why))


@app.post("/office/until")
def set_until() -> None:
    """Sets the date until which lists are taken."""
    closes = text_of("closes") == "yes"
    good = (_("The date is set. The keeper closes the round then.") if closes else
            _("The date is set. The overview reminds you then; the keeper closes nothing."))
    set_date(f"{text_of('date')}T{text_of('time')}", closes, good, N_("But residents do not read it: {why}"))
    go_to("/office/")


@app.post("/office/until/drop")
def drop_until() -> None:
    """Takes the date away."""
    set_date("", False, _("There is no date any more. The round stays open until you close it."),
             N_("But residents may still read the date that you have taken away: {why}"))
    go_to("/office/")
