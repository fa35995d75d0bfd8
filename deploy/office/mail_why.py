"""Why messages do not go on, or were not sent. The file of the mail keeps it in English; clerks read it in their language."""

import functools
import re

from languages import N_, _, filled

RESTARTED = N_("the keeper was started again")
ENDED_MEANWHILE = N_("the keeper was ended, or could not write, while this message was on its way")
FAILED = N_("the keeper failed ({kind})")
GONE_ON = N_("the round was not at this step any more")
GONE_ON_EARLIER = N_("the round has gone on")  # as versions up to 3.1.0 wrote it
MANY_REFUSED = N_("the mail server has refused {count} messages one after the other")
# Of these two the file of the mail has the first text alone. Whose message it was, and what the mail server answered, stands with
# that message, and is erased with its person.
TAKES_NONE = N_("the mail server takes no mail")
AWAY = N_("the mail server takes no mail: {why}")
NOBODY_KNOWS = N_("nobody knows whether a message was sent")
UNKNOWN = N_("nobody knows whether the message to {person} was sent: {why}")
UNWRITTEN = N_("why it stopped could not be written down")
STOPPED = N_("{who} has stopped it")
GIVEN_UP = N_("{who} has given up the rest")
NO_ANSWER = N_("it does not answer ({why})")
ANSWERS = N_("it answers {answer}")
BROKEN = N_("the connection broke ({why})")
# Of the settings (mail_settings.py).
NO_MAIL = N_("this office sends no mail")
UNREADABLE = N_("{path} cannot be read ({why}). Tell the administrator.")
NOT_WRITTEN = N_("{path} is not written as it should be ({kind}). Tell the administrator.")
WRONG = N_("{path}: {why}. Tell the administrator.")

ALL = (RESTARTED, ENDED_MEANWHILE, FAILED, GONE_ON, GONE_ON_EARLIER, MANY_REFUSED, TAKES_NONE, AWAY, NOBODY_KNOWS, UNKNOWN,
       UNWRITTEN, STOPPED, GIVEN_UP, NO_ANSWER, ANSWERS, BROKEN, NO_MAIL, UNREADABLE, NOT_WRITTEN, WRONG)


def kept(text: str, **values: object) -> str:
    """One of these as the file keeps it."""
    return filled(text, values)


@functools.cache
def patterns() -> list[tuple[re.Pattern[str], str]]:
    """By what each is known again."""
    found = []
    for text in ALL:
        parts = re.split(r"\{(\w+)\}", text)
        pattern = "".join(f"(?P<{part}>.*)" if place % 2 else re.escape(part) for place, part in enumerate(parts))
        found.append((re.compile(pattern, re.S), text))
    return found


def said(why: str) -> str:
    """What the file keeps, in the language that is spoken. What is none of these, such as a server's answer, stays as it is."""
    for pattern, text in patterns():
        if match := pattern.fullmatch(why):
            return _(text, **{name: said(value) for name, value in match.groupdict().items()})
    return why
