"""What the keeper has of a person beside the register, as a question says that it goes with the person."""

from typing import Any

from languages import _

from app import ask
from keeper_client import KeeperFault

# Where a file cannot be read, the question names all that it may have.
UNKNOWN: dict[str, Any] = {"mail": {"fault": "unknown"}, "language": {"fault": "unknown"}, "account": {"fault": "unknown"}}


def erased(found: dict[str, Any]) -> list[str]:
    """The sentence about what is erased, by the keeper's answer to `about`; or nothing."""
    mail, language, account = found["mail"], found["language"], found["account"]
    words = [(mail["fault"] or mail["address"], _("the mail address")),
             (mail["fault"] or mail["sent"], _("which messages were sent to the person")),
             (language["fault"] or language["own"], _("the language of slips, letters and mails")),
             (account["fault"] or account["own"], _("the account of the college"))]
    what = ", ".join(word for is_there, word in words if is_there)
    return [_("At once this is erased, too, and no copy has it: {what}.", what=what)] if what else []


def erased_with(ident: str) -> list[str]:
    """The same of a person of the register."""
    try:
        return erased(ask("about", person=ident))
    except KeeperFault:
        return erased(UNKNOWN)
