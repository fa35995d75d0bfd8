"""One message to one address, by the mail server of this machine.

The keeper's unit takes all rights away that come with a program (NoNewPrivileges), so `sendmail` could not write into the
queue of Postfix or Exim; but their port on 127.0.0.1 can be reached. The address is in no command line.
"""

import contextlib
import email.policy
import email.utils
import smtplib
from email.message import EmailMessage

from lines import on_one_line
from mail_settings import MailSettings
from mail_why import ANSWERS, BROKEN, NO_ANSWER, kept
from mail_words import Text

# The policy refuses a line break in a header field. All is ASCII on the way, so any mail server takes it.
POLICY = email.policy.SMTP.clone(cte_type="7bit")
LONGEST_SAID = 200
GOES_AWAY = 421


class NotTaken(Exception):
    """The mail server does not take this message. It was not sent; the next one may be."""


class Away(Exception):
    """The mail server is not there, or takes nothing now. The message was not sent."""


class Unknown(Exception):
    """The connection broke after the message had gone: nobody knows whether the mail server has it."""


def message_of(settings: MailSettings, address: str, text: Text) -> bytes:
    """A message as it goes to the mail server: plain text to one address."""
    message = EmailMessage(policy=POLICY)
    message["From"] = settings.sender
    message["To"] = address
    message["Subject"] = on_one_line(text.subject).replace("=?", "= ?")  # which would begin what readers decode
    message["Date"] = email.utils.localtime()
    message["Message-ID"] = email.utils.make_msgid(domain=settings.bounces_to.partition("@")[2])
    message["Auto-Submitted"] = "auto-generated"  # no machine answers that its owner is away
    if settings.reply_to:
        message["Reply-To"] = settings.reply_to
    message.set_content(text.body)
    return message.as_bytes()


def said(code: int, answer: bytes) -> str:
    """What the mail server answered, on one line."""
    return on_one_line(f"{code} {answer.decode('utf-8', 'replace')}")[:LONGEST_SAID]


def send(settings: MailSettings, address: str, message: bytes) -> None:
    """Hands a message over, on a connection of its own."""
    try:
        # With a name of its own, it asks no name server.
        server = smtplib.SMTP("127.0.0.1", settings.port, local_hostname="localhost", timeout=settings.seconds)
    except (OSError, smtplib.SMTPException) as fault:
        raise Away(kept(NO_ANSWER, why=told(fault))) from fault
    try:
        ask_to_take(server, settings.bounces_to, address)
        hand_over(server, message)
    finally:
        with contextlib.suppress(OSError, smtplib.SMTPException):
            server.quit()
        server.close()


def ask_to_take(server: smtplib.SMTP, sender: str, address: str) -> None:
    """Says from whom a message comes, and to whom it goes."""
    try:
        server.ehlo_or_helo_if_needed()
        code, answer = server.mail(sender)
        if code != 250:
            raise Away(kept(ANSWERS, answer=said(code, answer)))
        code, answer = server.rcpt(address)
    except (OSError, smtplib.SMTPException) as fault:
        raise Away(kept(BROKEN, why=told(fault))) from fault
    if code == GOES_AWAY:
        raise Away(kept(ANSWERS, answer=said(code, answer)))
    if code not in (250, 251):
        raise NotTaken(said(code, answer))


def hand_over(server: smtplib.SMTP, message: bytes) -> None:
    """The message itself. Only once the mail server has answered, it has the message or does not have it."""
    try:
        code, answer = server.data(message)
    except smtplib.SMTPDataError as fault:
        code, answer = fault.smtp_code, fault.smtp_error if isinstance(fault.smtp_error, bytes) else fault.smtp_error.encode()
    except (OSError, smtplib.SMTPException) as fault:
        raise Unknown(kept(BROKEN, why=told(fault))) from fault
    if code == GOES_AWAY:
        raise Away(kept(ANSWERS, answer=said(code, answer)))
    if code != 250:
        raise NotTaken(said(code, answer))


def told(fault: Exception) -> str:
    """A fault, on one line."""
    why = (isinstance(fault, OSError) and fault.strerror) or str(fault) or type(fault).__name__
    return on_one_line(why)[:LONGEST_SAID]
