"""Records and links: what a keeper decides, and what a holder knows (docs/PROTOCOL.md)."""

import enum
import typing

LAST_EPOCH, LAST_NUMBER, MOST_PENDING = 2 ** 62, 1_000_000, 8
# What an outcome is of which nobody saw how the command ended.
NOT_SEEN = 8


class Holder(typing.NamedTuple):
    """Nobody, an operator or a domain, with its kind and its number as in datagrams."""
    kind: int
    number: int

    def is_operator(self):
        return self.kind == 1


FREE = Holder(0, 0)


def operator(number):
    return Holder(1, number)


def domain(number):
    return Holder(2, number)


class Verb(enum.IntEnum):
    DO = 1
    INCLUDE = 2
    EXCLUDE = 3
    MANUAL = 4
    IGNORE = 5


class Command(typing.NamedTuple):
    """A verb, and an action or a domain."""
    verb: Verb
    argument: int


class Mode(enum.IntEnum):
    INCLUDED = 0
    MANUAL = 1
    IGNORED = 2


class Record(typing.NamedTuple):
    epoch: int = 0
    holder: Holder = FREE
    last: int = 0
    is_busy: bool = False
    outcome: int = 0

    def is_lawful(self):
        """Returns true if the parts fit each other."""
        if (self.holder == FREE) != (self.epoch % 2 == 0) or (self.holder == FREE and self.last):
            return False
        if self.last == 0 and (self.is_busy or self.outcome):
            return False
        return not (self.is_busy and self.outcome)

    def taken(self, holder, seen):
        """Returns the record after a `TAKE`."""
        if self.holder == FREE and self.epoch == seen and seen < LAST_EPOCH:
            return Record(seen + 1, holder)
        return self

    def dropped(self, holder, epoch):
        """Returns the record after a `DROP`."""
        if (self.holder, self.epoch, self.is_busy) == (holder, epoch, False):
            return Record(epoch + 1)
        return self

    def admits(self, holder, epoch, number):
        """Returns true if a `RUN` runs."""
        return (self.holder, self.epoch, self.is_busy, self.last + 1) == (holder, epoch, False, number)


class Form(enum.IntEnum):
    OUT = 0
    TAKING = 1
    HELD = 2
    DROPPING = 4


class Link(typing.NamedTuple):
    """What a holder knows of a domain. The epoch is the one that it has seen, or that of its grant."""
    form: Form = Form.OUT
    epoch: int = 0
    number: int = 0
    pending: tuple = ()
    mode: Mode = Mode.INCLUDED

    def is_held(self):
        return self.form == Form.HELD

    def is_unsettled(self):
        return self.form in (Form.TAKING, Form.DROPPING) or bool(self.pending)

    def oldest(self):
        """Returns the number of the oldest pending command, or the next number if none is pending."""
        return self.number - len(self.pending) + 1

    def issued(self, command):
        return self._replace(number=self.number + 1, pending=(*self.pending, command))

    def told(self, me, record):
        """Returns the link once its holder was told a record, and what has settled: numbers with their codes.

        A take or a drop settles as number 0.
        """
        if self.form == Form.TAKING:
            return self.taking_told(me, record)
        if self.form == Form.DROPPING and record.epoch > self.epoch:
            return Link(Form.OUT, record.epoch), [(0, 0)]
        if self.is_held() and record.epoch == self.epoch:
            return self.held_told(record)
        return self, []

    def taking_told(self, me, record):
        if record.holder == me and record.epoch == self.epoch + 1:
            return Link(Form.HELD, record.epoch), [(0, 0)]
        if record.holder == FREE and record.epoch == LAST_EPOCH:
            return Link(Form.OUT, LAST_EPOCH), [(0, 9)]
        if record.holder == FREE and record.epoch > self.epoch:
            return Link(Form.TAKING, record.epoch), []
        if record.holder not in (FREE, me) and record.epoch >= self.epoch:
            return Link(Form.OUT, record.epoch), [(0, 5)]
        return self, []

    def held_told(self, record):
        settled = []
        for number in range(self.oldest(), self.number + 1):
            if number < record.last:
                settled.append((number, NOT_SEEN))
            elif number == record.last and not record.is_busy:
                settled.append((number, record.outcome))
        return self._replace(pending=self.pending[len(settled):]), settled

    def counts_as_lost(self, record):
        """Returns true if a record shows more commands of the grant than the link has issued."""
        return self.is_held() and record.epoch == self.epoch and record.last > self.number
