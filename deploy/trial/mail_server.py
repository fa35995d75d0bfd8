"""A mail server of the trial's own, on a port of this machine: it keeps what it gets, and does what mail servers do on bad days."""

import asyncio
import contextlib
import email
import email.policy
import time

from aiosmtpd.controller import Controller
from aiosmtpd.smtp import SMTP

from stand import free_ports


class MailServer:  # pylint: disable=too-many-instance-attributes  # each is a way to behave
    """The server. `got` has each message: the time, the envelope's sender, its recipients, and the message."""

    def __init__(self):
        self.port = free_ports(1)[0]
        self.got = []
        self.refused, self.not_now, self.leaving = set(), set(), set()  # addresses; at the last it goes away
        self.slow = 0.0                            # seconds before it answers to a message
        self.cut = ""                              # `before` or `after` it has kept the message
        self.full = False                          # it takes nothing from anybody
        self.controller: Controller | None = None

    def __enter__(self):
        self.start()
        return self

    def __exit__(self, *_):
        self.stop()

    def start(self):
        """Listens."""
        handler = self

        class Here(Controller):
            """Serves without asking for the machine's name."""

            def factory(self):
                return SMTP(handler, hostname="mail.example.org", enable_SMTPUTF8=False)

        self.controller = Here(self, hostname="127.0.0.1", port=self.port)
        self.controller.start()

    def stop(self):
        """Is away."""
        if self.controller:
            self.controller.stop()
            self.controller = None

    async def handle_MAIL(self, _server, _session, envelope, address, _options):  # pylint: disable=invalid-name
        """A sender."""
        if self.full:
            return "452 4.3.1 the disk is full"
        envelope.mail_from = address
        return "250 OK"

    async def handle_RCPT(self, _server, _session, envelope, address, _options):  # pylint: disable=invalid-name,too-many-arguments
        """A recipient."""
        if address in self.refused:
            return f"550 5.1.1 <{address}>: no such mailbox"
        if address in self.leaving:
            return f"421 4.3.2 <{address}>: try again later"
        if address in self.not_now:
            return f"450 4.2.0 <{address}>: not now"
        envelope.rcpt_tos.append(address)
        return "250 OK"

    async def handle_DATA(self, server, _session, envelope):  # pylint: disable=invalid-name
        """A message."""
        if self.cut == "before":
            server.transport.abort()
            return "250 OK"
        self.got.append((time.monotonic(), envelope.mail_from, list(envelope.rcpt_tos),
                         email.message_from_bytes(envelope.original_content.replace(b"\r\n", b"\n"), policy=email.policy.default)))
        if self.slow:
            await asyncio.sleep(self.slow)
        if self.cut == "after":
            with contextlib.suppress(AttributeError):
                server.transport.abort()
        return "250 OK"

    def went(self):
        """To whom messages went, in order."""
        return [", ".join(recipients) for _, _, recipients, _ in self.got]

    def forget(self):
        """Forgets what it has."""
        self.got.clear()
