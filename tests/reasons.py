"""What an audit has to say of journals that are not safe, in the words of docs/FORMATS.md, "The verdict of an audit".

A need is the entry that another waits for, as far as that is known: the first words of its tuple.
"""

from journals import text_of

PARITY = "but grants have odd epochs, and their ends even ones"


def held(grant):
    return "%s since epoch %d" % (grant.holder + " holds it" if grant.holder else "it is free", grant.epoch)


def version_text(version):
    return "%d.%d" % version


class Reasons:
    """Why a judge does not take an entry: what it contradicts, in words, and what it waits for."""

    def __init__(self, judge):
        self.judge, self.tree = judge, judge.tree

    def of(self, entry):
        """Returns the words of a contradiction and None, or None and a need."""
        said = getattr(self, "of_" + entry[0])(*entry[1:])
        return (said, None) if isinstance(said, str) else (None, said)

    def of_granted(self, domain, epoch, _holder):
        grant = self.judge.grants[domain]
        if epoch != grant.epoch + 1:
            return "while " + held(grant)
        return "but the tree lets it hold no such domain" if epoch % 2 else PARITY

    def of_freed(self, domain, epoch):
        grant = self.judge.grants[domain]
        if epoch != grant.epoch + 1:
            return "while " + held(grant)
        if epoch % 2:
            return PARITY
        return "letgo" if grant.is_learned else "learned", grant.holder, domain, grant.epoch

    def of_learned(self, holder, domain, epoch):
        grant = self.judge.grants[domain]
        if epoch > grant.epoch:
            return "granted", domain, epoch, holder
        return "which was learned before" if (epoch, holder) == (grant.epoch, grant.holder) else "while " + held(grant)

    def of_letgo(self, holder, domain, epoch):
        grant = self.judge.grants[domain]
        if (epoch, holder) != (grant.epoch, grant.holder) or not grant.is_learned or grant.is_gone:
            return "without holding it: " + held(grant)
        return "settled", domain, epoch, len(grant.orders) if holder in self.tree.operators else grant.last

    def of_ordered(self, operator, domain, epoch, _number, _command):
        grant = self.judge.grants[domain]
        if (epoch, operator) == (grant.epoch, grant.holder) and grant.is_learned and not grant.is_gone:
            return "where number %d is due" % (len(grant.orders) + 1)
        return "without holding it: " + held(grant)

    def of_ran(self, domain, epoch, number, command):
        grant = self.judge.grants[domain]
        if epoch != grant.epoch:
            return "while " + held(grant)
        if number != grant.last + 1:
            return "where number %d is due" % (grant.last + 1)
        if not grant.is_learned:
            return "learned", grant.holder, domain, epoch
        if grant.is_gone:
            return "after it was let go by " + grant.holder
        if grant.holder in self.tree.operators:
            if number > len(grant.orders):
                return "ordered", grant.holder, domain, epoch, number
            return "but under this number was ordered: " + " ".join(grant.orders[number - 1])
        if (domain, epoch, number) in self.judge.grants[grant.holder].owed:
            return "which is no command that is handed on by " + self.not_at_work(domain, command)
        return "ran", grant.holder

    def not_at_work(self, domain, command):
        """Returns the first domain above that does not hand this command on."""
        while True:
            grant = self.judge.grants[domain]
            is_held = grant.is_learned and not grant.is_gone and grant.mode != "manual"
            above = self.judge.grants[grant.holder]
            if not is_held or above.work != command or not self.tree.forwards(grant.holder, command, domain):
                return grant.holder
            domain = grant.holder

    def of_settled(self, domain, epoch, number, _outcome):
        grant = self.judge.grants[domain]
        if (epoch, number) != (grant.epoch, grant.last) or grant.work is None:
            return "but it is not at work: %d ran under epoch %d" % (grant.last, grant.epoch)
        return next(("settled", child, self.judge.grants[child].epoch, its_number)
                    for child, its_epoch, its_number in grant.owed if self.owes(child, its_epoch, its_number))

    def owes(self, child, epoch, number):
        below = self.judge.grants[child]
        at = (below.epoch, below.last)
        return at < (epoch, number) or (at == (epoch, number) and below.work is not None)

    def of_passed(self, thing, _version, _state):
        return "after version " + version_text(self.judge.newest[thing])

    def of_showed(self, station, thing, version, state):
        last = self.judge.shown.get((station, thing))
        if last is not None and (version < last or (version == last and (station, thing) in self.judge.since)):
            return "after version " + version_text(last)
        newest = self.judge.newest.get(thing)
        if newest is not None and version <= newest:
            return "which it did not pass so: its newest version is " + version_text(newest)
        return "passed", thing, version, state


def need_text(need):
    return "a run of %s that is handed on" % need[1] if need[0] == "ran" else text_of(need)


class Verdict:
    """The lines that an audit of a merge may print."""

    def __init__(self, merge, name="%s.journal"):
        self.merge, self.name, self.reasons = merge, name, Reasons(merge.judge)

    def place(self, station, line):
        return self.name % station + " line %d" % line

    def extent(self, station):
        """Returns how far the journal goes that an entry waits for."""
        if station not in self.merge.left:
            return "of which no journal is given"
        if self.merge.left[station]:
            return "whose journal waits too"
        if station in self.merge.gaps:
            return "whose journal has a gap before " + self.place(station, self.merge.gaps[station])
        return "whose journal ends %sZ" % self.merge.time_of_end(station).split(".")[0]

    def front(self, station):
        """Returns what is said of the first entry that is left of a station's journal, or of its gap."""
        if not self.merge.left[station]:
            return "gap before " + self.place(station, self.merge.gaps[station])
        line, entry = self.merge.left[station][0]
        head = "%s: %s" % (self.place(station, line), text_of(entry))
        why, need = self.reasons.of(entry)
        if why:
            return head + ", " + why
        teller = self.merge.tree.teller(need)
        return "%s waits for %s of station %s, %s" % (head, need_text(need), teller, self.extent(teller))

    def rank(self, station):
        """Of those that can't be taken the first is told: one that waits for no line of a journal, and the earliest."""
        line, entry = self.merge.left[station][0]
        _, need = self.reasons.of(entry)
        journal = self.merge.left.get(self.merge.tree.teller(need), ()) if need else ()
        return any(it[:len(need)] == need for _, it in journal), line

    def allowed(self):
        """Returns what may be printed. Of two entries of one time either may be told."""
        fates = self.merge.fates
        culprits = [station for station, fate in fates.items() if fate == "unsafe"]
        if culprits:
            first = min(map(self.rank, culprits))
            return {"unsafe: %s\n" % self.front(it) for it in culprits if self.rank(it) == first}
        return {"".join("open: %s\n" % self.front(it) for it in self.merge.tree.stations
                        if fates.get(it, "safe") != "safe")}
