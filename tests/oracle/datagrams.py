"""Datagrams: their parts, their bytes, and which bytes are refused (docs/FORMATS.md, "Datagrams")."""

import struct
import typing

import layout
from layout import ASK, DROP, RUN, STATE, TAKE, TELL, UNWATCH, WATCH  # noqa: F401 (users of this module name kinds)

from . import grants
from .grants import Command, Holder, Record, Verb

LENGTH = 44
BYTES = struct.Struct(">2sBBHHHBBHHQIHHIII")
KINDS = {ASK: "ASK", TAKE: "TAKE", DROP: "DROP", RUN: "RUN", TELL: "TELL", WATCH: "WATCH", STATE: "STATE",
         UNWATCH: "UNWATCH"}


class Datagram(typing.NamedTuple):
    """A datagram of any kind. What its kind does not use has its default."""
    kind: int
    sender: int
    receiver: int
    # a domain, or an object
    subject: int
    # of TAKE, DROP and RUN
    holder: Holder = grants.FREE
    epoch: int = 0
    number: int = 0
    command: typing.Optional[Command] = None
    # of TELL
    record: Record = Record()
    # of WATCH, STATE and UNWATCH
    echo: int = 0
    version: tuple = (0, 0)
    state: int = 0

    def encoded(self, tree):
        """Returns the bytes of the datagram in a tree of this number."""
        code, argument = self.command or (self.record.outcome or self.state, 0)
        holder = self.record.holder if self.kind == TELL else self.holder
        return BYTES.pack(b"SM", 2 if self.command and self.command.verb > Verb.EXCLUDE else 1, self.kind, self.sender,
                          self.receiver, self.subject, holder.kind, self.record.is_busy, holder.number, code,
                          self.epoch or self.record.epoch, self.number or self.record.last, argument, tree, self.echo,
                          *self.version)


def decoded(data):
    """Returns the refusal of bytes, 1 to 6, or 0, and if it is 0 the number of the tree and the datagram."""
    refusal = layout.refusal(data)
    if refusal:
        return refusal, 0, None
    (_, _, kind, sender, receiver, subject, holder_kind, phase, holder, code, epoch, number, argument, tree, echo, boot,
     sequence) = BYTES.unpack(data)
    holder, made = Holder(holder_kind, holder), Datagram(kind, sender, receiver, subject, echo=echo)
    if kind == TELL:
        return 0, tree, made._replace(record=Record(epoch, holder, number, bool(phase), code))
    if kind == STATE:
        return 0, tree, made._replace(version=(boot, sequence), state=code)
    command = Command(Verb(code), argument) if kind == RUN else None
    return 0, tree, made._replace(holder=holder, epoch=epoch, number=number, command=command)
