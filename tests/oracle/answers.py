"""What `smi answer` writes: station 1 keeps domain 1 of tree 17, which has nothing below it and accepts all actions."""

from . import datagrams
from .datagrams import ASK, DROP, LENGTH, RUN, TAKE, TELL, Datagram
from .grants import Record, Verb

TREE, STATION, DOMAIN = 17, 1, 1
# What a command with a target ends with, because nothing is below the domain.
NOT_BELOW = 2


def refusal_here(tree, datagram):
    """Returns which of the tests 7 to 9 a datagram fails, or 0."""
    if tree != TREE:
        return 7
    if datagram.receiver != STATION:
        return 8
    if datagram.subject != DOMAIN or datagram.kind > RUN:
        return 9
    return 0 if datagram.kind == ASK or datagram.holder.is_operator() else 9


def answered(record, datagram):
    """Returns the record after a datagram."""
    if datagram.kind == TAKE:
        return record.taken(datagram.holder, datagram.epoch)
    if datagram.kind == DROP:
        return record.dropped(datagram.holder, datagram.epoch)
    if datagram.kind == RUN and record.admits(datagram.holder, datagram.epoch, datagram.number):
        outcome = 0 if datagram.command.verb == Verb.DO else NOT_BELOW
        return record._replace(last=datagram.number, outcome=outcome)
    return record


def answer(data):
    """Returns what is written, what is told on standard error, and the status."""
    record, written = Record(), []
    for number, place in enumerate(range(0, len(data), LENGTH), 1):
        refusal, tree, datagram = datagrams.decoded(data[place:place + LENGTH])
        refusal = refusal or refusal_here(tree, datagram)
        if refusal:
            return b"".join(written), b"datagram %d refused %d\n" % (number, refusal), 1
        record = answered(record, datagram)
        written.append(Datagram(TELL, STATION, datagram.sender, DOMAIN, record=record).encoded(TREE))
    return b"".join(written), b"", 0
