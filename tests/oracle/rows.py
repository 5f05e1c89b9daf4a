"""Stable rows: how they are written and read, which are refused, and which a start writes in a newer form.

docs/FORMATS.md, "Stable rows", has their bytes. A store is a dictionary of bytes by keys: station, domain, operator.
"""

import dataclasses
import struct
import typing

from . import grants
from .grants import Command, Form, Holder, Link, Mode, Record, Verb

LAST_BOOT = 4_000_000_000
MOST_LINKS_IN_USE = 16
OUTCOMES = frozenset([0, 1, 2, 3, 4, 5, 6, 7, 9])
# What a link with one pending command has for its form, and one with more.
ONE_PENDING, MORE_PENDING = 3, 5
DOMAIN = struct.Struct(">BBHQIBBHHH")
LINK = struct.Struct(">HBBQIHH")
COMMAND = struct.Struct(">HH")
DOMAIN_SCHEMA, OPERATOR_SCHEMA = 2, 3
# The first schema that has modes and verbs 4 and 5.
WITH_MODES = 2


class Refused(Exception):
    """A row that is refused, with its code."""


@dataclasses.dataclass
class RowFault(Exception):
    """The first row of a station that is refused."""
    key: tuple
    code: int


class BootsSpent(Exception):
    """A station that has used its last boot."""


class DomainRow(typing.NamedTuple):
    record: Record = Record()
    gathered: int = 0
    links: dict = {}


def boot_bytes(boot):
    return struct.pack(">BxxxI", DOMAIN_SCHEMA, boot)


def domain_bytes(row, schema=DOMAIN_SCHEMA):
    record, links = row.record, links_in_use(row.links)
    return DOMAIN.pack(schema, record.holder.kind, record.holder.number, record.epoch, record.last, record.is_busy, 0,
                       record.outcome, row.gathered, len(links)) + b"".join(link_bytes(*it) for it in links)


def operator_bytes(links, schema=OPERATOR_SCHEMA):
    links = links_in_use(links)
    return struct.pack(">BxH", schema, len(links)) + b"".join(link_bytes(*it) for it in links)


def links_in_use(links):
    """Returns the links that are written, with their domains in rising order."""
    return [it for it in sorted(links.items()) if it[1] != Link()]


def link_bytes(domain, link):
    form, further = link.form, b""
    if link.pending:
        form = ONE_PENDING if len(link.pending) == 1 else MORE_PENDING
    if form == MORE_PENDING:
        further = struct.pack(">H", len(link.pending) - 1) + b"".join(COMMAND.pack(*it) for it in link.pending[1:])
    return LINK.pack(domain, form, link.mode, link.epoch, link.number, *(link.pending or [(0, 0)])[0]) + further


def demand(holds, code):
    if not holds:
        raise Refused(code)


def schema_of(data, newest):
    """Returns the schema of a row, which is not empty and has none that is newer."""
    demand(data, 1)
    demand(1 <= data[0] <= newest, 2)
    return data[0]


def boot_of(data):
    """Returns the boot that a row says."""
    schema_of(data, DOMAIN_SCHEMA)
    demand(len(data) == 8, 1)
    boot = int.from_bytes(data[4:], "big")
    demand(data[1:4] == bytes(3) and 1 <= boot <= LAST_BOOT, 3)
    return boot


def pieces(data, place, count, schema):
    """Returns the bytes of each of this many links, which have to take all bytes from a place on."""
    found = []
    for _ in range(count):
        size = LINK.size
        if schema == OPERATOR_SCHEMA and data[place + 2:place + 3] == bytes([MORE_PENDING]):
            demand(len(data) >= place + size + 2, 1)
            size += 2 + COMMAND.size * int.from_bytes(data[place + size:place + size + 2], "big")
        found.append(data[place:place + size])
        place += size
        demand(len(data) >= place, 1)
    demand(len(data) == place, 1)
    return found


def command_of(verb, argument, schema):
    """Returns the command that a verb and an argument are in rows of a schema."""
    demand(1 <= verb <= (Verb.IGNORE if schema >= WITH_MODES else Verb.EXCLUDE), 3)
    demand(1 <= argument <= (64 if verb == Verb.DO else 128), 3)
    return Command(Verb(verb), argument)


def link_of(data, schema, is_child):
    """Returns the domain and the link that the bytes of a link say."""
    domain, form, mode, epoch, number, verb, argument = LINK.unpack(data[:LINK.size])
    demand(1 <= domain <= 128 and epoch <= grants.LAST_EPOCH, 3)
    demand(form <= (MORE_PENDING if schema == OPERATOR_SCHEMA else Form.DROPPING), 3)
    is_held = form in (Form.HELD, ONE_PENDING, MORE_PENDING)
    has_mode = is_child and schema >= WITH_MODES and is_held
    demand(mode <= (Mode.IGNORED if has_mode else Mode.INCLUDED), 3)
    demand(epoch % 2 == 1 or form in (Form.OUT, Form.TAKING), 3)
    demand(number <= (grants.LAST_NUMBER if is_held else 0), 3)
    demand((form, epoch) != (Form.OUT, 0), 3)
    if form not in (ONE_PENDING, MORE_PENDING):
        demand((verb, argument) == (0, 0), 3)
        return domain, Link(Form(form), epoch, number, (), Mode(mode))
    further = [it for it in COMMAND.iter_unpack(data[LINK.size + 2:])]
    demand(form == ONE_PENDING or 1 <= len(further) < grants.MOST_PENDING, 3)
    demand(number > len(further), 3)
    pending = tuple(command_of(*it, schema) for it in [(verb, argument), *further])
    return domain, Link(Form.HELD, epoch, number, pending, Mode(mode))


def links_of(parts, schema, is_child):
    """Returns the links by their domains, which have to rise."""
    found = [link_of(it, schema, is_child) for it in parts]
    domains = [it for it, _ in found]
    demand(domains == sorted(set(domains)), 3)
    return dict(found)


def demand_arguments(tree, links):
    for link in links.values():
        for command in link.pending:
            demand(command.argument <= tree.count("action" if command.verb == Verb.DO else "domain"), 4)


def is_holder(tree, holder, domain):
    """Returns true for nobody, an operator of the tree, and the parent of a domain."""
    if holder.is_operator():
        return holder.number <= tree.count("operator")
    return holder == grants.FREE or holder.number == tree.domains[domain].parent


def domain_row_of(tree, station, domain, data):
    """Returns what the row of a domain says."""
    schema = schema_of(data, DOMAIN_SCHEMA)
    demand(len(data) >= DOMAIN.size, 1)
    _, kind, number, epoch, last, phase, zero, outcome, gathered, count = DOMAIN.unpack(data[:DOMAIN.size])
    parts = pieces(data, DOMAIN.size, count, schema)
    demand(kind <= 2 and (number == 0 if kind == 0 else 1 <= number <= (32 if kind == 1 else 128)), 3)
    demand(epoch <= grants.LAST_EPOCH and last <= grants.LAST_NUMBER and phase <= 1 and zero == 0, 3)
    demand(outcome in OUTCOMES and gathered in OUTCOMES, 3)
    record = Record(epoch, Holder(kind, number), last, bool(phase), outcome)
    demand(record.is_lawful() and (record.is_busy or gathered == 0), 3)
    links = links_of(parts, schema, True)
    demand(any(it.is_unsettled() for it in links.values()) == record.is_busy, 3)
    demand(domain <= tree.count("domain") and tree.keeper(domain) == station, 4)
    demand(is_holder(tree, record.holder, domain) and set(links) <= set(tree.children(domain)), 4)
    demand_arguments(tree, links)
    return DomainRow(record, gathered, links)


def operator_links_of(tree, station, number, data):
    """Returns the links that the row of an operator says."""
    schema = schema_of(data, OPERATOR_SCHEMA)
    demand(len(data) >= 4, 1)
    parts = pieces(data, 4, int.from_bytes(data[2:4], "big"), schema)
    demand(data[1] == 0, 3)
    links = links_of(parts, schema, False)
    demand(sum(it.form != Form.OUT for it in links.values()) <= MOST_LINKS_IN_USE, 3)
    demand(number <= tree.count("operator") and tree.operators[number].station == station, 4)
    demand(max(links, default=1) <= tree.count("domain"), 4)
    demand_arguments(tree, links)
    return links


@dataclasses.dataclass
class Stable:
    """What the rows of a station say."""
    boot: int = 0
    domains: dict = dataclasses.field(default_factory=dict)
    operators: dict = dataclasses.field(default_factory=dict)


def read_rows(tree, station, store):
    """Returns what the rows of a station say. Raises the fault of the first that is refused."""
    found = Stable()
    for key, data in sorted(store.items()):
        if key[0] == station:
            try:
                read_row(tree, key, data, found)
            except Refused as refused:
                raise RowFault(key, refused.args[0]) from None
    return found


def read_row(tree, key, data, into):
    station, domain, number = key
    demand(not (domain and number), 4)
    if domain:
        into.domains[domain] = domain_row_of(tree, station, domain, data)
    elif number:
        into.operators[number] = operator_links_of(tree, station, number, data)
    else:
        into.boot = boot_of(data)


def migrated(tree, station, store):
    """Returns a store with the rows of a station in the newest schemas. Raises the first fault of a row."""
    rows, new = read_rows(tree, station, store), dict(store)
    if rows.boot:
        new[station, 0, 0] = boot_bytes(rows.boot)
    new.update({(station, domain, 0): domain_bytes(it) for domain, it in rows.domains.items()})
    new.update({(station, 0, number): operator_bytes(it) for number, it in rows.operators.items()})
    return new


def started(tree, station, store):
    """Returns a store once a node has started on it. Raises RowFault, or BootsSpent."""
    new = migrated(tree, station, store)
    boot = read_rows(tree, station, new).boot
    if boot == LAST_BOOT:
        raise BootsSpent
    new[station, 0, 0] = boot_bytes(boot + 1)
    return new


def begun(tree, station, store):
    """Returns what a node prints that starts on a store, and the rows of the store then."""
    new = store
    try:
        new = migrated(tree, station, store)
        return (b"", b"", 0), started(tree, station, store)
    except RowFault as fault:
        return (b"", b"row %d %d %d fault %d\n" % (*fault.key, fault.code), 1), new
    except BootsSpent:
        return (b"", b"boots spent\n", 3), new


def listed(store):
    """Returns what `smi rows` prints of a store."""
    return b"".join(b"%d %d %d %s\n" % (*key, bytes(data).hex().encode()) for key, data in sorted(store.items()))
