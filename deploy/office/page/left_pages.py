"""Offers to remove those who left the college in the round that was just settled."""

from languages import _

import plain
from app import app, go_to, office_now, show, tell
from many_pages import MOST_AT_ONCE


@app.get("/office/left")
def left() -> str:
    """Who left, each with a tick. The form leads to the question of the page about many people."""
    office = office_now()
    if not office.may("remove"):
        tell("bad", _("{phase}. People can be removed only between two rounds.", phase=_(plain.PHASES[office.phase].title)))
        go_to("/office/")
    if not office.left:
        tell("good", _("Nobody who left the college in the last round is in the register any more.")
             if office.number in office.settled else
             _("If somebody left the college in an earlier round than the last one, the page does not know it any more. Look for "
               "people without a room on the page People."))
        go_to("/office/")
    return show("left", office=office, left=office.left[:MOST_AT_ONCE], more=len(office.left) - MOST_AT_ONCE)
