"""Which datagrams a station refuses that are lawful by themselves (docs/PROTOCOL.md, "Refusals")."""

from .datagrams import DROP, RUN, STATE, TAKE, TELL
from .grants import Verb
from .rows import is_holder


def refusal(station, number, datagram):
    """Returns which of the tests 7 to 9 a datagram of a tree of this number fails, or 0."""
    if number != station.tree.number:
        return 7
    if datagram.receiver != station.number:
        return 8
    return 0 if is_there(station.tree, datagram) and has_a_say(station, datagram) else 9


def is_there(tree, datagram):
    """Returns true if the tree has what a datagram names."""
    if datagram.sender > tree.count("station"):
        return False
    if datagram.subject > (tree.count("domain") if datagram.kind <= TELL else tree.objects()):
        return False
    if datagram.kind == RUN:
        command = datagram.command
        return command.argument <= tree.count("action" if command.verb == Verb.DO else "domain")
    return datagram.kind != STATE or datagram.state <= tree.count("state")


def has_a_say(station, datagram):
    """Returns true if a datagram comes from, and goes to, stations that have a say in what it is about."""
    tree, kind = station.tree, datagram.kind
    keeper = tree.keeper(tree.domain_of(datagram.subject))
    if keeper != (datagram.sender if kind in (TELL, STATE) else station.number):
        return False
    if kind == TELL:
        return is_holder(tree, datagram.record.holder, datagram.subject)
    if kind not in (TAKE, DROP, RUN):
        return True
    return is_holder(tree, datagram.holder, datagram.subject) and tree.station_of(datagram.holder) == datagram.sender
