"""Judges journals by rules that share no code with `smi audit`, and says in the words of docs/FORMATS.md why they are
not safe.

Entries are tuples, as in tests/journals.py.
"""

import collections

from journals import ANY, replayed, time_text

FITS, WAITS, NEVER = "fits", "waits", "never"


class Grant:
    """What a trace says of a domain and its present grant."""

    def __init__(self, epoch=0, holder=None):
        self.epoch, self.holder, self.is_learned, self.is_gone = epoch, holder, False, False
        self.orders, self.last, self.work, self.mode = [], 0, None, "included"
        # (child, epoch, number) of each run as which the work was handed on
        self.owed = []


class Judge:
    """Takes entries one by one, each only if the trace stays safe with it and none is taken too early."""

    def __init__(self, tree):
        self.tree = tree
        self.grants = {domain: Grant() for domain in tree.parent}
        self.states, self.newest = collections.defaultdict(dict), {}
        self.shown, self.since, self.boots = {}, set(), {}

    def look(self, entry):
        """Returns whether an entry fits, waits or never fits, the station that it waits for, and a command."""
        look = getattr(self, "look_" + entry[0], None)
        return look(*entry[1:]) if look else (FITS, None, None)

    def look_booted(self, station, boot):
        return (NEVER if self.boots.get(station, 0) >= boot else FITS), None, None

    def look_granted(self, domain, epoch, holder):
        is_lawful = epoch % 2 == 1 and (holder in self.tree.operators or holder == self.tree.parent[domain])
        return (FITS if is_lawful and epoch == self.grants[domain].epoch + 1 else NEVER), None, None

    def look_freed(self, domain, epoch):
        grant = self.grants[domain]
        if epoch % 2 == 1 or epoch != grant.epoch + 1:
            return NEVER, None, None
        if not grant.is_gone:
            return WAITS, self.tree.station_of_holder(grant.holder), None
        return (FITS if grant.work is None else NEVER), None, None

    def look_learned(self, holder, domain, epoch):
        grant = self.grants[domain]
        if epoch > grant.epoch:
            return WAITS, self.tree.keeper[domain], None
        fits = epoch == grant.epoch and grant.holder == holder and not grant.is_learned
        return (FITS if fits else NEVER), None, None

    def look_letgo(self, holder, domain, epoch):
        grant = self.grants[domain]
        # (that the holder learned of the grant would stand before it in the same journal)
        if (epoch, holder) != (grant.epoch, grant.holder) or not grant.is_learned or grant.is_gone:
            return NEVER, None, None
        waits = grant.work is not None or (holder in self.tree.operators and grant.last < len(grant.orders))
        return (WAITS, self.tree.keeper[domain], None) if waits else (FITS, None, None)

    def look_ordered(self, operator, domain, epoch, number, _command):
        grant = self.grants[domain]
        is_held = (epoch, operator) == (grant.epoch, grant.holder) and grant.is_learned and not grant.is_gone
        return (FITS if is_held and number == len(grant.orders) + 1 else NEVER), None, None

    def backing(self, domain, epoch, number, command):
        """Looks for what stands behind a run, all the way up."""
        grant = self.grants[domain]
        holder = grant.holder
        if grant.epoch != epoch or holder is None:
            return NEVER, None, None
        station = self.tree.station_of_holder(holder)
        if not grant.is_learned:
            return WAITS, station, None
        if grant.is_gone:
            return NEVER, None, None
        if holder in self.tree.operators:
            if number > len(grant.orders):
                return WAITS, station, None
            ordered = grant.orders[number - 1]
            return (FITS if command in (ANY, ordered) else NEVER), None, ordered
        above = self.grants[holder]
        is_at_work = above.work is not None and command in (ANY, above.work)
        if grant.mode == "manual" or not is_at_work or (domain, epoch, number) not in above.owed:
            return WAITS, station, None
        how, whom, _ = self.backing(holder, above.epoch, above.last, above.work)
        return how, whom, above.work

    def look_ran(self, domain, epoch, number, command):
        grant = self.grants[domain]
        if epoch != grant.epoch or number != grant.last + 1 or grant.work is not None:
            return NEVER, None, None
        return self.backing(domain, epoch, number, command)

    def look_settled(self, domain, epoch, number, _outcome):
        grant = self.grants[domain]
        if (epoch, number) != (grant.epoch, grant.last) or grant.work is None:
            return NEVER, None, None
        for child, its_epoch, its_number in grant.owed:
            below = self.grants[child]
            at = (below.epoch, below.last)
            if at < (its_epoch, its_number) or (at == (its_epoch, its_number) and below.work is not None):
                return WAITS, self.tree.keeper[child], None
        return FITS, None, None

    def look_passed(self, thing, version, _state):
        return (FITS if version > self.newest.get(thing, (0, -1)) else NEVER), None, None

    def look_showed(self, station, thing, version, state):
        if version not in self.states[thing]:
            is_over = version < self.newest.get(thing, (0, -1))
            return (NEVER, None, None) if is_over else (WAITS, self.tree.keeper[thing], None)
        last = self.shown.get((station, thing))
        is_old = last is not None and (version < last or (version == last and (station, thing) in self.since))
        return (NEVER if is_old or self.states[thing][version] != state else FITS), None, None

    def take(self, entry):
        """Takes an entry that fits."""
        kind, *rest = entry
        if kind == "booted":
            self.boots[rest[0]] = rest[1]
            self.since = {pair for pair in self.since if pair[0] != rest[0]}
        elif kind in ("granted", "freed"):
            self.grants[rest[0]] = Grant(rest[1], rest[2] if kind == "granted" else None)
        elif kind == "learned":
            self.grants[rest[1]].is_learned = True
        elif kind == "letgo":
            self.grants[rest[1]].is_gone = True
        elif kind == "ordered":
            self.grants[rest[1]].orders.append(rest[4])
        elif kind == "mode":
            self.grants[rest[0]].mode = rest[1]
        elif kind == "ran":
            self.take_run(*rest)
        elif kind == "settled":
            self.grants[rest[0]].work = None
        elif kind == "passed":
            self.newest[rest[0]] = rest[1]
            self.states[rest[0]][rest[1]] = rest[2]
        elif kind == "showed":
            self.shown[rest[0], rest[1]] = rest[2]
            self.since.add((rest[0], rest[1]))

    def take_run(self, domain, epoch, number, command):
        if command == ANY:
            command = self.backing(domain, epoch, number, ANY)[2]
        grant = self.grants[domain]
        grant.last, grant.work, grant.owed = number, command, []
        for child in self.tree.children(domain):
            below = self.grants[child]
            is_held = below.holder == domain and below.is_learned and not below.is_gone
            if is_held and below.mode != "manual" and self.tree.forwards(domain, command, child):
                grant.owed.append((child, below.epoch, below.last + 1))


class Merge:
    """The journals of all stations, merged as far as that goes.

    `ended` has the stations whose nodes ended by themselves, so that their journals tell no more.
    """

    def __init__(self, tree, journals, ended):
        self.tree, self.journals, self.ended = tree, journals, ended
        self.judge, self.left, self.gaps = Judge(tree), {}, {}
        for station, lines in journals.items():
            entries, gap = replayed(tree, lines, station in ended)
            self.left[station] = collections.deque(entries)
            if gap:
                self.gaps[station] = gap
        self.count = sum(map(len, self.left.values()))
        while any([self.takes_some(entries) for entries in self.left.values()]):
            pass
        self.holds = {station: self.judge.look(entries[0][1]) for station, entries in self.left.items() if entries}
        self.fates = {station: self.fate_of(station) for station in self.left}

    def takes_some(self, entries):
        """Takes what fits of one journal. Returns true if anything did."""
        before = len(entries)
        while entries and self.judge.look(entries[0][1])[0] == FITS:
            self.judge.take(entries.popleft()[1])
        return len(entries) < before

    def fate_of(self, station):
        """Follows what the first entry of a station's journal waits for."""
        at, seen = station, set()
        while at in self.holds:
            how, whom, _ = self.holds[at]
            if how == NEVER:
                return "unsafe" if at == station else "behind"
            if at in seen:
                return "unsafe"
            seen.add(at)
            at = whom
        if at == station:
            return "open" if station in self.gaps else "safe"
        return "unsafe" if at in self.ended and at not in self.gaps else "open"

    def verdict(self):
        fates = set(self.fates.values())
        return "unsafe" if "unsafe" in fates else "open" if fates - {"safe"} else "safe"

    def time_of_end(self, station):
        """Returns when the last line of a station's journal was written."""
        return time_text(len(self.journals[station]) - (station not in self.ended))


def judged(tree, journals, ended):
    """Returns the verdict on journals, `safe`, `open` or `unsafe`, and how many entries there are."""
    merge = Merge(tree, journals, ended)
    return merge.verdict(), merge.count
