"""In which phases of a round the program carries out a line, and which phase comes of a step (docs/definitions.md)."""

IDLE, OPEN, REGISTER = ("idle",), ("open",), ("idle", "open")
ALL = ("idle", "open", "closed", "drawn", "ran", "published")

FROM = {
    "room": REGISTER, "shut": REGISTER, "reopen": REGISTER, "person": REGISTER, "grade": REGISTER,
    "home": IDLE, "leave": IDLE, "remove": IDLE,
    "choose": OPEN, "withdraw": OPEN, "going": OPEN,
    "name": ALL, "key": ALL, "blank": ALL,
    "open": IDLE, "close": OPEN, "draw": ("closed",), "run": ("drawn",), "publish": ("ran",), "settle": ("published",),
    "cancel": ("open", "closed", "drawn", "ran"),
    "order": ("drawn", "ran", "published"), "results": ("ran", "published"),  # what these questions ask for is there
}
TO = {"open": "open", "close": "closed", "draw": "drawn", "run": "ran", "publish": "published", "settle": "idle", "cancel": "idle"}
STEPS = frozenset(TO)  # of a round
LAST_STEPS = ("settle", "cancel")  # after which the round is over
