"""The settings of mail: a file of the administrator's. Without it the office has no mail."""

import configparser
import email.policy
from dataclasses import dataclass
from email.utils import parseaddr
from pathlib import Path
from typing import Any

from languages import _
from mail_why import NO_MAIL, NOT_WRITTEN, UNREADABLE, WRONG
from mail_words import is_address
from settings import Fault

SECTION = "mail"
DEFAULTS = {"server": "localhost:25", "from": "", "reply-to": "", "bounces-to": "", "per-minute": "60", "seconds": "30",
            "receipt-seconds": "300"}
HERE = ("localhost", "127.0.0.1")  # the keeper's unit lets it reach nothing else


@dataclass(frozen=True)
class MailSettings:
    """The mail server of this machine, the senders, and the limits."""

    port: int
    sender: str          # as residents see it
    reply_to: str        # where their answers go, or nothing
    bounces_to: str      # where the mail server reports what it could not deliver: the sender of the envelope
    per_minute: int
    seconds: float       # so long the mail server may take for an answer
    receipt_seconds: int = 300  # so long after the last change of a list its receipt is sent


def whole(values: dict[str, str], name: str, most: int) -> int:
    """A number of the file."""
    if not values[name].isdecimal() or not 1 <= int(values[name]) <= most:
        raise Fault(_("{name} is no number from 1 to {most}", name=name, most=most))
    return int(values[name])


def only_address(values: dict[str, str], name: str) -> str:
    """An address of the file, without the name before it. In a field of a message it has to be one address, too, and no group."""
    found = parseaddr(values[name])[1]
    field: Any = email.policy.SMTP.header_factory("from", values[name])
    one = [group.display_name for group in field.groups] == [None] and [here.addr_spec for here in field.addresses] == [found]
    if not is_address(found) or not one or "," in values[name] or not values[name].isprintable():
        raise Fault(_("{name} is no address", name=name))
    return found


def settings_of(values: dict[str, str]) -> MailSettings:
    """The settings by the values of the file."""
    unknown = [name for name in values if name not in DEFAULTS]
    if unknown:
        raise Fault(_("there is no setting {name}", name=unknown[0][:40]))
    values = {**DEFAULTS, **values}
    host, _colon, port = values["server"].rpartition(":")
    if host not in HERE:
        raise Fault(_("server is no mail server of this machine, such as localhost:25"))
    sender = only_address(values, "from")
    if values["reply-to"]:
        only_address(values, "reply-to")
    bounces_to = only_address(values, "bounces-to") if values["bounces-to"] else sender
    return MailSettings(whole({"server": port}, "server", 65535), values["from"], values["reply-to"], bounces_to,
                        whole(values, "per-minute", 6000), whole(values, "seconds", 600), whole(values, "receipt-seconds", 86400))


def read(path: Path) -> MailSettings | None:
    """The settings; None if there is no such file."""
    parser = configparser.ConfigParser(interpolation=None)
    try:
        with open(path, encoding="utf-8") as held:
            parser.read_file(held)
        if parser.sections() != [SECTION]:
            raise Fault(_("it has to have one part [{name}]", name=SECTION))
        return settings_of(dict(parser[SECTION]))
    except FileNotFoundError:
        return None
    except OSError as fault:
        raise Fault(_(UNREADABLE, path=path, why=fault.strerror)) from fault
    except (configparser.Error, UnicodeDecodeError) as fault:
        raise Fault(_(NOT_WRITTEN, path=path, kind=type(fault).__name__)) from fault
    except Fault as fault:
        raise Fault(_(WRONG, path=path, why=fault)) from fault


def must_read(path: Path) -> MailSettings:
    """The settings of an office that has mail."""
    found = read(path)
    if found is None:
        raise Fault(_(NO_MAIL))
    return found
