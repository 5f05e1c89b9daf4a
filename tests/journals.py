"""Journals of stations: made from traces of `smi sim`, and forged. tests/judges.py judges them.

An entry is a tuple of its words, with numbers as numbers, a version as a pair and a command as a pair.
"""

import collections
import datetime
import hashlib

import hierarchy

# The command of a run that a start alone tells.
ANY = "?"
MODES = ("included", "manual", "ignored")
# The first words of the lines of a block.
BLOCK = ("stands", "link", "pending", "state", "seen")
# Kinds of entries that a save leaves, and those of which one may wait until the next step is written.
SAVED = ("granted", "freed", "ordered", "ran", "learned", "letgo", "mode", "settled")
WAITING = ("granted", "ordered", "letgo")
BEGIN = datetime.datetime(2026, 11, 28, 17, 45)


class Tree:
    """What an audit needs of a tree file, by names."""

    def __init__(self, text):
        self.text = text
        made = hierarchy.of_lines(text.split("\n"))
        self.number, self.stations, self.operators = made.number, list(made.stations), made.operators
        self.parent = {name: None if above == "-" else above for name, (_, _, above) in made.domains.items()}
        self.keeper = {name: made.station_of(name) for name in [*made.domains, *made.devices]}
        self.class_of = {name: of for name, (_, of, _) in made.domains.items()}
        self.actions, self.states = made.actions, made.states
        self.accepts = collections.defaultdict(set)
        for word, *more in filter(None, map(str.split, text.split("\n"))):
            if word == "accept":
                self.accepts[more[0]].add(more[1])

    def children(self, domain):
        return [name for name, above in self.parent.items() if above == domain]

    def is_below(self, target, domain):
        at = self.parent.get(target)
        while at is not None and at != domain:
            at = self.parent[at]
        return at is not None

    def forwards(self, domain, command, child):
        """Returns true if a domain hands a command on to its child."""
        verb, about = command
        return about in self.accepts[self.class_of[domain]] if verb == "do" else self.is_below(about, child)

    def station_of_holder(self, holder):
        return self.operators[holder] if holder in self.operators else self.keeper[holder]

    def digest(self):
        """Returns the digest of what the file says: all words but comments and addresses."""
        said = ""
        for words in map(str.split, self.text.split("\n")):
            if words and not words[0].startswith("#"):
                said += "".join(word + " " for word in (words[:2] if words[0] == "station" else words)) + "\n"
        return hashlib.sha256(said.encode()).hexdigest()

    def teller(self, entry):
        """Returns the station in whose journal an entry is."""
        kind, *rest = entry
        if kind in ("booted", "showed"):
            return rest[0]
        if kind in ("ordered", "told"):
            return self.operators[rest[0]]
        if kind in ("learned", "letgo"):
            return self.station_of_holder(rest[0])
        if kind == "mode":
            return self.keeper[self.parent[rest[0]]]
        return self.keeper[rest[0]]


def entry_of(line):
    """Returns the entry that a line of a trace tells."""
    kind, *words = line.split(" ")
    version = lambda text: tuple(map(int, text.split(".")))
    if kind == "booted":
        return kind, words[0], int(words[1])
    if kind == "granted":
        return kind, words[0], int(words[1]), words[2]
    if kind == "freed":
        return kind, words[0], int(words[1])
    if kind == "ordered":
        return kind, words[0], words[1], int(words[2]), int(words[3]), tuple(words[4:])
    if kind == "ran":
        return kind, words[0], int(words[1]), int(words[2]), tuple(words[3:])
    if kind in ("learned", "letgo"):
        return kind, words[0], words[1], int(words[2])
    if kind == "settled":
        return kind, words[0], int(words[1]), int(words[2]), int(words[3])
    if kind == "showed":
        return kind, words[0], words[1], version(words[2]), words[3]
    if kind == "passed":
        return kind, words[0], version(words[1]), words[2]
    return (kind, *words)


def text_of(entry):
    """Returns the line of a trace that tells an entry."""
    words = []
    for word in entry:
        if isinstance(word, tuple):
            words.append(" ".join(word) if isinstance(word[0], str) else "%d.%d" % word)
        else:
            words.append(str(word))
    return " ".join(words)


class Account:
    """What the entries of one station say of its domains and links, and what it has to write of them at a start."""

    def __init__(self):
        # domain: [epoch, holder, last, whether busy, outcome]; (holder, domain): [epoch, whether held, number]
        self.records, self.links, self.modes = {}, {}, {}
        # (holder, domain): the pending commands, each with its number; domain: its command at work
        self.pending, self.work = collections.defaultdict(list), {}
        # object: the newest version that it passed, or that was shown here, with the state
        self.states, self.seen = {}, {}

    def record(self, domain):
        return self.records.get(domain, [0, None, 0, False, 0])

    def link(self, holder, domain):
        return self.links.get((holder, domain), [0, False, 0])

    def note(self, tree, entry):
        """Takes an entry into account."""
        kind, *rest = entry
        if kind in ("granted", "freed"):
            self.records[rest[0]] = [rest[1], rest[2] if kind == "granted" else None, 0, False, 0]
        elif kind == "ran":
            self.records[rest[0]] = [*self.record(rest[0])[:2], rest[2], True, 0]
            self.work[rest[0]] = rest[3]
            for child in tree.children(rest[0]):
                link = self.link(rest[0], child)
                if link[1] and self.modes.get(child) != "manual" and tree.forwards(rest[0], rest[3], child):
                    link[2] += 1
                    self.pending[rest[0], child].append((link[2], rest[3]))
        elif kind == "settled":
            self.records[rest[0]] = [*self.record(rest[0])[:3], False, rest[3]]
            for child in tree.children(rest[0]):
                self.pending[rest[0], child] = []
        elif kind == "ordered":
            self.links[rest[0], rest[1]] = [*self.link(rest[0], rest[1])[:2], rest[3]]
            self.pending[rest[0], rest[1]].append((rest[3], rest[4]))
        elif kind == "learned":
            self.links[rest[0], rest[1]] = [rest[2], True, 0]
            self.modes[rest[1]], self.pending[rest[0], rest[1]] = "included", []
        elif kind == "letgo":
            self.links[rest[0], rest[1]] = [*self.link(rest[0], rest[1])[:1], False, 0]
        elif kind == "mode":
            self.modes[rest[0]] = rest[1]
        elif kind == "passed":
            self.states[rest[0]] = rest[1:]
        elif kind == "showed":
            self.seen[rest[1]] = rest[2:]

    def block(self, tree, goes_on=False):
        """Returns the lines of a block that says all this, by numbers of domains and operators.

        States are in a block of a file that goes on within a boot.
        """
        lines = []
        for domain in tree.parent:
            epoch, holder, last, is_busy, outcome = self.record(domain)
            if epoch:
                lines.append("stands %s %d %s %d %s %d" % (
                    domain, epoch, holder or "free", last, "busy" if is_busy else "settled", outcome))
        for holder in [*tree.operators, *tree.parent]:
            for domain in tree.parent:
                epoch, is_held, number = self.link(holder, domain)
                if is_held:
                    mode = self.modes[domain] if holder in tree.parent else "included"
                    lines.append("link %s %s held %d %d %s" % (holder, domain, epoch, number, mode))
                    lines += ["pending %s %s %d %d %s" % (holder, domain, epoch, count, " ".join(command))
                              for count, command in self.pending[holder, domain]]
                elif epoch:
                    lines.append("link %s %s dropping %d" % (holder, domain, epoch))
        for word, known in (("state", self.states), ("seen", self.seen)) if goes_on else ():
            lines += ["%s %s %d.%d %s" % (word, name, *version, state) for name, (version, state) in known.items()]
        return lines


def journals_of(tree, trace, lose=lambda entries: 0):
    """Returns the journal of each station as a list of pairs: the boot and the words of a line.

    Behind each start is its block. `lose` says of the entries before a start how many of the last are not written.
    """
    journals = {name: [] for name in tree.stations}
    accounts = {name: Account() for name in tree.stations}
    boots = dict.fromkeys(tree.stations, 0)
    for line in trace:
        if not line or line.startswith("sent "):
            continue
        entry = entry_of(line)
        station = tree.teller(entry)
        if entry[0] == "booted":
            written = journals[station]
            del written[len(written) - lose([words for _, words in written]):]
            boots[station] = entry[2]
        journals[station].append((boots[station], line))
        accounts[station].note(tree, entry)
        if entry[0] == "booted":
            journals[station] += [(boots[station], words) for words in accounts[station].block(tree)]
    return journals


def time_text(number):
    """Returns the time of a line: ten milliseconds for each before it."""
    at = BEGIN + datetime.timedelta(milliseconds=10 * number)
    return at.strftime("%Y-%m-%dT%H:%M:%S.") + "%03dZ" % (at.microsecond // 1000)


def file_text(tree, station, lines, has_end=True, since=0):
    """Returns the text of a journal's file: a head, and a line for each pair."""
    text = "journal 1 %d %s\n" % (tree.number, tree.digest())
    for number, (boot, words) in enumerate([*lines, *([(lines[-1][0], "ends")] if has_end and lines else [])]):
        text += "%s %s %d %s\n" % (time_text(since + number), station, boot, words)
    return text


# ---- what a start tells that was lost


class Loaded:
    """What a block says was loaded."""

    def __init__(self, lines):
        self.account = Account()
        for kind, *words in (line.split(" ") for line in lines):
            if kind == "stands":
                domain, epoch, holder, last, phase, outcome = words
                holder = None if holder == "free" else holder
                self.account.records[domain] = [int(epoch), holder, int(last), phase == "busy", int(outcome)]
            elif kind == "link":
                holder, domain, how, *more = words
                self.account.links[holder, domain] = [int(more[0]), how == "held", int(more[1]) if how == "held" else 0]
                if how == "held":
                    self.account.modes[holder, domain] = more[2]
            elif kind == "pending":
                holder, domain, _, number, *command = words
                self.account.pending[holder, domain].append((int(number), tuple(command)))

    def command(self, tree, domain, number):
        """Returns the command that a domain ran last, if a link of the station tells it."""
        _, holder, _, is_busy, _ = self.account.record(domain)
        below = [pending[-1][1] for child in tree.children(domain) if (pending := self.account.pending[domain, child])]
        if is_busy and below:
            return below[-1]
        return dict(self.account.pending[holder, domain]).get(number, ANY)


class Lost:
    """The entries that a journal lacks by a block, by the row that tells them: a domain's, or an operator's."""

    # In which order steps leave them.
    ORDER = ("granted", "ordered", "ran", "learned", "letgo", "mode", "settled", "freed")

    def __init__(self):
        self.rows, self.is_known = collections.defaultdict(list), True

    def add(self, row, *entries):
        self.rows[row] += entries

    def unless(self, is_strange):
        """No step makes this of that row."""
        self.is_known = self.is_known and not is_strange

    def entries(self):
        # (what is let go and what is learned keep the order in which they were found)
        rank = lambda entry: self.ORDER.index("learned" if entry[0] == "letgo" else entry[0])
        return sorted((it for row in self.rows.values() for it in row), key=rank)

    def is_lawful(self):
        """Returns whether they may be of one step, and of one before it that waited."""
        waited = [row for row, of in self.rows.items() if len(of) == 1 and of[0][0] in WAITING]
        return self.is_known and len(self.rows) <= (2 if waited else 1)


def lose_of_domain(lost, domain, before, after, command):
    """Adds what a domain's record tells that differs."""
    epoch, holder, last, is_busy, outcome = after
    settled = ("settled", domain, epoch, last, outcome)
    lost.add(domain)
    if epoch == before[0] + 1 and last == 0 and not before[3]:
        lost.add(domain, ("granted", domain, epoch, holder) if holder else ("freed", domain, epoch))
    elif after[:2] == before[:2] and last == before[2] + 1 and not before[3]:
        lost.add(domain, ("ran", domain, epoch, last, command), *([] if is_busy else [settled]))
    elif after[:3] == before[:3] and before[3] and not is_busy:
        lost.add(domain, settled)
    else:
        lost.unless(True)


def lose_of_orders(lost, ends, epoch, before, after, pending):
    """Adds the orders under a grant that are missing: of the step that waited, and of the one after it."""
    lost.add(ends[0])
    lost.unless(not 0 < after - before <= 2)
    for number in range(before + 1, min(before + 2, after) + 1):
        lost.unless(number not in pending)
        lost.add(ends[0], ("ordered", *ends, epoch, number, pending.get(number)))


def lost_of(tree, was, lines, is_torn):
    """Returns the entries that a journal lacks by a block, in an order in which steps leave them, and whether they are
    lawful.

    Of a torn block the lines that are there are looked at, and no others.
    """
    loaded, lost = Loaded(lines), Lost()
    now = loaded.account
    for domain in tree.parent:
        before, after = was.record(domain), now.record(domain)
        if before != after and not (is_torn and domain not in now.records):
            lose_of_domain(lost, domain, before, after, loaded.command(tree, domain, after[2]))
    for holder, domain in {**now.links, **({} if is_torn else was.links)}:
        before, after = was.link(holder, domain), now.link(holder, domain)
        if before[1] and not after[1]:
            lost.add(holder, ("letgo", holder, domain, before[0]))
        elif after[1]:
            is_new = before[0] < after[0]
            if is_new:
                lost.add(holder, ("learned", holder, domain, after[0]))
                lost.unless(before[1] or after[2] != 0)
            lost.unless(not is_new and (after[0] < before[0] or not before[1]))
            number = 0 if is_new else before[2]
            if holder in tree.operators and after[2] != number:
                lose_of_orders(lost, (holder, domain), after[0], number, after[2], dict(now.pending[holder, domain]))
            mode = now.modes.get((holder, domain))
            if holder in tree.parent and mode != ("included" if is_new else was.modes.get(domain, "included")):
                lost.add(holder, ("mode", domain, mode))
    return lost.entries(), lost.is_lawful()


def replayed(tree, lines, has_end):
    """Returns what a station's journal tells: pairs of the number of a line of its file and an entry.

    What a start alone tells has the line of that start. The second thing returned is the line of a start before which
    there is a gap, or None.
    """
    account, entries, at = Account(), [], 0
    while at < len(lines):
        # (the first line of a file is its head)
        number, entry = at + 2, entry_of(lines[at][1])
        at += 1
        block = []
        while entry[0] == "booted" and at < len(lines) and lines[at][1].split(" ")[0] in BLOCK:
            block.append(lines[at][1])
            at += 1
        if entry[0] == "booted":
            is_torn = at == len(lines) and not has_end
            lost, is_one = lost_of(tree, account, block, is_torn)
            if not is_one and not is_torn:
                return entries, number
            entries += [(number, it) for it in lost] if is_one else []
            account = Loaded(block).account
            account.modes = {domain: mode for (_, domain), mode in account.modes.items()}
        account.note(tree, entry)
        entries.append((number, entry))
    return entries, None


# ---- one entry forged

# What is forged, and of which entries.
ASKED = ("granted", "freed", "ran", "learned", "letgo", "ordered", "showed", "passed")
WAYS = {"twice": ASKED, "gone": ASKED,
        "number": ("granted", "freed", "ran", "learned", "letgo", "ordered", "showed", "passed"),
        "holder": ("granted",), "command": ("ordered", "ran"), "state": ("passed", "showed")}


# The place of an entry's number among its words: an epoch, the number of a command, or a version.
NUMBERS = {"granted": 2, "freed": 2, "learned": 3, "letgo": 3, "ran": 3, "ordered": 4, "showed": 3, "passed": 2}


def numbers(kind, old):
    """Returns other numbers than one of an entry: the next of its kind, and the one before if there is one."""
    if isinstance(old, tuple):
        return [(old[0], old[1] + 1)] + [(old[0], old[1] - 1)] * (old[1] > 0)
    step = 2 if kind in ("granted", "freed", "learned", "letgo") else 1
    return [old + step] + [old - step] * (old > step)


def others(tree, entry, way):
    """Returns the ways in which one thing that an entry says is said otherwise, with names that the tree has."""
    if way == "number":
        place = NUMBERS[entry[0]]
        return [(*entry[:place], it, *entry[place + 1:]) for it in numbers(entry[0], entry[place])]
    names = {"holder": [*tree.operators, *tree.parent], "command": [("do", name) for name in tree.actions],
             "state": tree.states}[way]
    return [(*entry[:-1], name) for name in names if name != entry[-1]]


def places_of(journals, kind):
    """Returns where entries of a kind stand: of states that are passed, those that a station was shown."""
    places = [(station, number, words) for station, lines in journals.items() for number, (_, words) in enumerate(lines)
              if words.split(" ")[0] == kind]
    if kind != "passed":
        return places
    shown = {words.split(" ", 2)[2] for lines in journals.values() for _, words in lines if words.startswith("showed ")}
    return [it for it in places if it[2].split(" ", 1)[1] in shown]


def forgeries(rng, tree, journals, way, kind, most):
    """Returns journals with one entry of a kind forged in a way, each with what was done, at this many drawn places."""
    found, places = [], places_of(journals, kind)
    for station, number, words in rng.sample(places, min(most, len(places))):
        boot, made = journals[station][number][0], {name: list(lines) for name, lines in journals.items()}
        choices = {"twice": [[words, words]], "gone": [[]]}.get(way)
        choices = choices or [[text_of(it)] for it in others(tree, entry_of(words), way)]
        if choices:
            new = rng.choice(choices)
            made[station][number:number + 1] = [(boot, it) for it in new]
            found.append((made, "%s: %s" % (words, new)))
    return found
