"""The rooms of the register."""

from languages import _

import plain
from app import app, change, go_to, office_now, saw, show, text_of
from office_view import Office
from questions import Question, put_question


@app.get("/office/rooms")
def rooms() -> str:
    """All rooms, with who lives there."""
    return show("rooms", office=office_now())


@app.post("/office/rooms")
def change_room() -> None:
    """Adds a room, or takes a room out of use or back, by the button that was pressed."""
    verb, *codes = text_of("change").split(" ", 1)
    code = "".join(codes) or text_of("code").upper()
    if verb == "shut" and tenant_of(office_now(), code):
        go_to(f"/office/rooms/{code}/shut")  # somebody has moved in since the clerk looked
    if verb in ("room", "shut", "reopen"):
        change("do", lines=[f"{verb} {code}"])
    go_to("/office/rooms")


def tenant_of(office: Office, code: str) -> str:
    """Who lives in a room, or nothing."""
    return office.rooms[code].tenant or "" if code in office.rooms else ""


def told_of(office: Office, tenant: str) -> str:
    """What becomes of somebody whose room is taken out of use."""
    person = office.people[tenant]
    values = {"who": f"{person.name} ({tenant})", "room": person.home}
    if person.going:
        return _("{who} lives in {room} and loses the room at once, and not only at the end of the round. This person leaves the "
                 "college, and takes no part in the round.", **values)
    if person.withdrawn:
        return _("{who} lives in {room} and loses the room at once. This person has withdrawn, so the round gives them no other "
                 "one. Only after the round can you let them move into a free room.", **values)
    return _("{who} lives in {room} and loses the room at once. In a round this person takes part like somebody without a room, "
             "and may end without one.", **values)


@app.get("/office/rooms/<code>/shut")
def ask_shut(code: str) -> str:
    """Asks before a room is shut in which somebody lives."""
    office = office_now()
    tenant = tenant_of(office, code)
    if not tenant:
        go_to("/office/rooms")
    says = [told_of(office, tenant),
            _("While a round is open nobody can be given the room back, not even by bringing it back into use."),
            *plain.copy_first(f"shut {code}")]
    title = _("Take {room} out of use?", room=code)
    yes, mark = _("Yes: take {room} out of use", room=code), office.saw("home", tenant).mark
    return put_question(office, Question(title, says, yes, "/office/rooms", saw=mark))


@app.post("/office/rooms/<code>/shut")
def shut(code: str) -> None:
    """Takes a room out of use in which somebody lives."""
    change("do", lines=[f"shut {code}"], saw=saw("home", tenant_of(office_now(), code)))
    go_to("/office/rooms")
