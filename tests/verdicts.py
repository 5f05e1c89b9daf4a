"""What is wrong with what nodes told and what their stores have, judged from outside the nodes.

Rows are bytes by their keys, as `smi rows` lists them (docs/FORMATS.md, "Stable rows").
"""

# Forms of a link: the holder takes, holds, holds with one command or with several, or gives back.
TAKING, HELD, PENDING, DROPPING, SEVERAL = 1, 2, 3, 4, 5


def links_of(data):
    """Returns the links in a row: domain, form, epoch, number, how many commands are pending."""
    found, at = {}, 0
    while at < len(data):
        domain, form = int.from_bytes(data[at:at + 2], "big"), data[at + 2]
        epoch, number = int.from_bytes(data[at + 4:at + 12], "big"), int.from_bytes(data[at + 12:at + 16], "big")
        at += 20
        pending = 1 if form == PENDING else 0
        if form == SEVERAL:
            more = int.from_bytes(data[at:at + 2], "big")
            at += 2 + 4 * more
            pending = 1 + more
        found[domain] = (form, epoch, number, pending)
    return found


def record_of(value):
    """Returns holder kind, holder, epoch, last, whether it is busy, and the links of a domain's row."""
    return (value[1], int.from_bytes(value[2:4], "big"), int.from_bytes(value[4:12], "big"),
            int.from_bytes(value[12:16], "big"), value[16], links_of(value[24:]))


def records_and_links(rows):
    """Returns the record of each domain, and the links of each holder by its kind and number."""
    records = {key[1]: record_of(value) for key, value in rows.items() if key[1]}
    links = {(1, key[2]): links_of(value[4:]) for key, value in rows.items() if key[2]}
    links.update({(2, domain): record[5] for domain, record in records.items()})
    return records, links


def ranks(key, value):
    """Yields what never goes back in a row."""
    if key[1]:
        _, _, epoch, last, busy, links = record_of(value)
        yield "the record of domain %d" % key[1], (epoch, 2 * last + 1 - busy)
        holder = "domain %d" % key[1]
    elif key[2]:
        links, holder = links_of(value[4:]), "operator %d" % key[2]
    else:
        yield "the boot of station %d" % key[0], (int.from_bytes(value[4:8], "big"), 0)
        return
    for domain, (_, epoch, _, _) in links.items():
        yield "what %s knows of domain %d" % (holder, domain), (epoch, 0)


class Ranks:
    """What was seen of rows, none of which goes back."""

    def __init__(self):
        self.seen = {}

    def faults(self, rows):
        """Looks at rows, and yields each that went back since it was seen."""
        for key, value in rows.items():
            for what, rank in ranks(key, value):
                before, self.seen[what] = self.seen.get(what, rank), rank
                if rank < before:
                    yield "%s went back from %s to %s" % (what, before, rank)


def commanders(events):
    """Returns each moment at which an operator is told to have a domain that another one was told to have, and has not
    given up.
    """
    has, found = {}, []
    for _, what, operator, order, *answer in sorted(events, key=lambda it: it[0]):
        kind, domain = order.split()[:2]
        if what == "ordered" and kind == "drop" and has.get(domain) == operator:
            del has[domain]
        if what == "told" and kind == "take" and answer == ["0"]:
            if has.get(domain, operator) != operator:
                found.append("%s was told to have %s, which %s has" % (operator, domain, has[domain]))
            has[domain] = operator
    return found


def unknown_grants(rows):
    """Returns the records and links that do not know of one another."""
    found = []
    records, links = records_and_links(rows)
    for domain, (kind, holder, epoch, _, _, _) in records.items():
        form, known, _, _ = links.get((kind, holder), {}).get(domain, (0, 0, 0, 0))
        if kind and not (form == TAKING and known + 1 == epoch or form >= HELD and known == epoch):
            found.append("domain %d is held by %s at epoch %d, who has form %d at %d"
                         % (domain, (kind, holder), epoch, form, known))
    for who, of in links.items():
        for domain, (form, epoch, number, pending) in of.items():
            if form not in (HELD, PENDING, SEVERAL):
                continue
            record = records.get(domain, (0, 0, 0, 0, 0, {}))
            last, busy = record[3], record[4]
            if record[:3] != (*who, epoch):
                found.append("%s holds domain %d at epoch %d, whose record is %s" % (who, domain, epoch, record[:3]))
            elif not number - pending <= last <= number or last == number - pending and busy:
                found.append("%s has issued %d commands to domain %d, %d of them pending, and the last run is %d"
                             % (who, number, domain, pending, last))
    return found


def under_way(rows):
    """Returns what is not at rest: each domain at work, and each link that waits for an answer."""
    records, links = records_and_links(rows)
    found = ["domain %d is at work" % domain for domain, record in records.items() if record[4]]
    return found + ["%s waits for domain %d in form %d" % (who, domain, form) for who, of in links.items()
                    for domain, (form, _, _, _) in of.items() if form in (TAKING, PENDING, DROPPING, SEVERAL)]


class Shown:
    """The states that nodes show: of no object do they go back within a boot of the node, and a version has one state.
    """

    def __init__(self):
        self.newest, self.states = {}, {}

    def fault(self, node, thing, version, state):
        """Looks at a state that a node shows in one of its boots, and returns what is wrong with it, or ""."""
        last, self.newest[node, thing] = self.newest.get((node, thing), version), version
        known = self.states.setdefault((thing, version), state)
        if version < last:
            return "%s shows %s in version %s, after %s" % (node, thing, version, last)
        if state != known:
            return "%s shows %s in version %s as %s, and others as %s" % (node, thing, version, state, known)
        return ""


class Done:
    """The actions that were done at devices: each command at a device once."""

    def __init__(self):
        self.told = {}

    def fault(self, device, action, *command):
        """Looks at an action that was done by a command, and returns what is wrong with it, or "".

        A command is the domain at which it ran, the epoch of its grant, and its number there.
        """
        before = self.told.setdefault((device, command), [])
        before.append(action)
        return "" if len(before) == 1 else "%s is done at %s by the command %s, by which %s was done there before" % (
            action, device, command, before[0])


def unanswered(waiting, now):
    """Returns what is wrong with orders that wait: each has an operator, the order, and since when it waits."""
    return ["%s of %s was not answered in %.0f seconds" % (order, operator, now - since)
            for operator, order, since in waiting]
