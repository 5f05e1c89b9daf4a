"""Cases that are drawn: lawful trees, mutated tree files, schedules, and datagrams to `smi answer`."""

import collections
import string

import layout
from oracle import answers, grants, rows, schedule
from oracle.datagrams import ASK, DROP, LENGTH, RUN, TAKE, Datagram
from oracle.grants import Command, Record, Verb
from oracle.simulation import World

WORDS = ["tree", "state", "action", "station", "operator", "devclass", "move", "unitclass", "accept", "any", "all",
         "domain", "device"]
ODD_WORDS = ["-", "--", "A", "A" * 16, "A" * 17, "a", "1A", "_A", "A_", "A-B", "\xc4", "#", "#A", "A#", "\x0b", "\0",
             "\r"]
ODD_NUMBERS = ["0", "1", "65535", "65536", "0000000017", "00000000017", "+1", "-1", "1_0", "\xb2", "4294967296",
               "9999999999", "10000000000", "18446744073709551616", "0x11", "17.", "1e1"]
ODD_ADDRESSES = ["127.0.0.1:9001", "255.255.255.255:65535", "0.0.0.0:1", "256.1.1.1:1", "1.1.1.1:0", "1.1.1:1",
                 "1.1.1.1.1:1", "1.1.1.1", "::", "1.1.1.1:65536", "001.1.1.1:00001", "1.1.1.00000000001:1",
                 "1.1.1.+1:1", ".1.1.1:1", "1.1.1.1:", "1.1.1.1:1:1", "1.1.1.4294967297:1", "1.1.1.1:00000000001",
                 "a.1.1.1:1"]
SEPARATORS = [" ", "  ", "\t", " \t ", "\x0b", "\xa0"]
# Lines of which a file has many: more of one of them than a limit allows.
MANY = {"state M%d": 66, "action M%d": 66, "station M%d 1.2.3.4:5": 130, "operator M%d {station}": 34,
        "devclass M%d {state}": 34, "unitclass M%d {state}": 34, "domain M%d {station} {unitclass} -": 130,
        "domain M%d {station} {unitclass} {domain}": 18, "device M%d {domain} {devclass}": 18,
        "any {unitclass} {state} {state}": 34, "all {unitclass} {state} {state}": 34, "accept {unitclass} {action}": 2,
        "move {devclass} {state} {action} {state}": 2}

# Numbers at the ends of ranges, and beside them.
ENDS = (0, 1, 2, 3, 8, 9, 17, 32, 33, 64, 65, 127, 128, 129, 255, 256, 640, 641, 65_535, 999_999, 1_000_000, 1_000_001,
        3_999_999_999, 4_000_000_000, 4_000_000_001, 2 ** 32 - 1, 2 ** 62 - 1, 2 ** 62, 2 ** 62 + 1, 2 ** 64 - 1)

# Words that a line of a schedule may have in a wrong place.
SCHEDULE_WORDS = ["deliver", "recent", "tick", "restart", "report", "stop", "fail", "order", "before", "after",
                  "device", "during", "take", "drop", "ask", "do", "include", "exclude", "manual", "ignore", "watch",
                  "unwatch"]
COMMANDS = ["do", "do", "do", "include", "include", "include", "exclude", "manual", "ignore"]

# Where the fields of a link and of the other parts of rows are, and how many bytes they have.
LINK_FIELDS = [(0, 2), (2, 1), (3, 1), (4, 8), (12, 4), (16, 2), (18, 2), (20, 2), (22, 2), (24, 2)]
ROW_FIELDS = [(0, 1), (1, 1), (2, 2), (4, 4), (4, 8), (12, 4), (16, 1), (17, 1), (18, 2), (20, 2), (22, 2)]


class DrawnTree:
    """A lawful tree file: its names, by what they name, and its lines."""

    def __init__(self, draw, parts=1, ports=None):
        self.draw = draw
        self.names = {it: [] for it in WORDS}
        # how many are in each domain, and how deep each is
        self.children, self.devices, self.levels = collections.Counter(), collections.Counter(), {"-": 0}
        self.lines = ["tree %d" % draw.choice([1, 17, 17, 65_535])]
        self.add("state", 1 + draw.randrange(5), lambda: [])
        self.add("action", 1 + draw.randrange(3), lambda: [])
        ports = list(ports or draw.sample(range(1024, 65_536), draw.randrange(1, 5)))
        self.add("station", len(ports), lambda: ["127.0.0.1:%d" % ports.pop(0)])
        self.add("operator", 1 + draw.randrange(4), lambda: [self.one("station")])
        self.add("devclass", draw.randrange(3), lambda: [self.one("state")])
        self.add("unitclass", 1 + draw.randrange(2), lambda: [self.one("state")])
        self.add_rules()
        self.add("domain", min(128, parts * draw.randrange(1, 5)),
                 lambda: [self.one("station"), self.one("unitclass"), self.parent()])
        if self.names["devclass"]:
            self.add("device", parts * draw.randrange(5), lambda: [self.place_of_device(), self.one("devclass")])

    def one(self, kind):
        return self.draw.choice(self.names[kind])

    def add(self, kind, count, more):
        """Declares this many things of a kind."""
        for _ in range(count):
            name = "%s%d" % (kind[:2].upper(), len(self.names[kind]) + 1)
            self.lines.append(" ".join([kind, name, *more()]))
            self.names[kind].append(name)

    def parent(self):
        """Draws the domain above the next one."""
        free = [it for it in self.names["domain"] if self.children[it] < 16 and self.levels[it] < 8]
        above = self.draw.choice(free) if free and self.draw.random() < 0.8 else "-"
        self.children[above] += 1
        self.levels["DO%d" % (len(self.names["domain"]) + 1)] = self.levels[above] + 1
        return above

    def place_of_device(self):
        """Draws the domain of the next device. There are more domains than devices that fill one."""
        place = self.draw.choice([it for it in self.names["domain"] if self.devices[it] < 16])
        self.devices[place] += 1
        return place

    def add_rules(self):
        """Adds moves, accepted actions and rules, none of them twice."""
        moves = [(name, state, action) for name in self.names["devclass"] for state in self.names["state"]
                 for action in self.names["action"]]
        self.lines += ["move %s %s %s %s" % (*it, self.one("state")) for it in moves if self.draw.random() < 0.6]
        accepted = [(name, action) for name in self.names["unitclass"] for action in self.names["action"]]
        self.lines += ["accept %s %s" % it for it in accepted if self.draw.random() < 0.85]
        for name in self.names["unitclass"]:
            kinds = self.draw.choices(["any", "all"], k=self.draw.randrange(6))
            self.lines += ["%s %s %s %s" % (it, name, self.one("state"), self.one("state")) for it in kinds]

    def text(self):
        return "\n".join(self.lines) + "\n"


def mutated_tree(draw):
    """Returns the bytes of a tree file with up to four changes."""
    tree = DrawnTree(draw)
    lines = list(tree.lines)
    for _ in range(draw.choice([0, 1, 1, 1, 2, 4])):
        change_lines(draw, lines, tree)
    ends = draw.choice(["\n", "\n", "\n", "\r\n", "\r\r\n"])
    data = (ends.join(lines) + draw.choice([ends, ends, "", "\r"])).encode("latin-1")
    if draw.random() < 0.1:
        data = changed_bytes(draw, data)
    # a file that is as long as may be, or longer
    if draw.random() < 0.005:
        data += b"#" * 99 + b"\n" + (b"# " + b"x" * 97 + b"\n") * ((262_144 - len(data)) // 100 + draw.randrange(3))
        data = data[:262_144 + draw.randrange(2)]
    return data


def change_lines(draw, lines, tree):
    """Makes one change of lines: a word, a line, or many lines."""
    way, at = draw.randrange(9), draw.randrange(len(lines)) if lines else 0
    if way == 0 or not lines:
        lines.insert(at, draw.choice(tree.lines))
    elif way == 1:
        del lines[at]
    elif way == 2:
        other = draw.randrange(len(lines))
        lines[at], lines[other] = lines[other], lines[at]
    elif way in (3, 4):
        words = lines[at].split(" ")
        place = draw.randrange(len(words))
        words[place] = odd_word(draw, tree) if way == 3 else odd_like(draw, tree, words[place])
        lines[at] = " ".join(words)
    elif way == 5:
        words = lines[at].split(" ")
        words.insert(draw.randrange(len(words) + 1), odd_word(draw, tree))
        del words[draw.randrange(len(words)):][draw.randrange(2):]
        lines[at] = draw.choice(SEPARATORS).join(words)
    elif way == 6:
        lines.insert(at, draw.choice(["", " ", "\t", "# " + odd_word(draw, tree), "#" * draw.choice([199, 200, 201]),
                                      " " * draw.choice([200, 201]), "\r", "\x0b"]))
    elif way == 7:
        lines[at] += " " * draw.choice([1, 199 - len(lines[at]), 200 - len(lines[at]), 201 - len(lines[at])])
    else:
        add_many(draw, lines, tree)


def add_many(draw, lines, tree):
    """Adds as many lines of a kind as a limit allows, or one more or less."""
    form, most = draw.choice(list(MANY.items()))
    kinds = [it for _, it, _, _ in string.Formatter().parse(form) if it]
    if not all(tree.names[it] for it in kinds):
        return
    given = {it: tree.one(it) for it in kinds}
    lines += [form.format(**given).replace("%d", str(it)) for it in range(most - draw.randrange(8))]
    # a chain of domains that is as deep as may be, or deeper
    if draw.random() < 0.2:
        chain = "domain C{0} %s %s C{1}" % (tree.one("station"), tree.one("unitclass"))
        lines += ["domain C0 %s %s -" % (tree.one("station"), tree.one("unitclass"))]
        lines += [chain.format(it + 1, it) for it in range(draw.randrange(6, 10))]


def odd_word(draw, tree):
    """Returns a word that may be wrong where it is put: one of a line, of the tree, or an odd one."""
    known = [name for names in tree.names.values() for name in names]
    return draw.choice([draw.choice(ODD_WORDS), draw.choice(WORDS), draw.choice(known), draw.choice(known), "-"])


def odd_like(draw, tree, word):
    """Returns a word that may be wrong in the place of one: of its kind, or a little of it changed."""
    classes = tree.names["devclass"] + tree.names["unitclass"]
    if word in classes and draw.random() < 0.7:
        return draw.choice(classes)
    if word.isdigit():
        return draw.choice(ODD_NUMBERS)
    if "." in word:
        return draw.choice(ODD_ADDRESSES)
    at = draw.randrange(len(word) + 1)
    return draw.choice([word.lower(), word.upper(), word + "_", "_" + word, word + "X" * max(0, 16 - len(word)),
                        word + "X" * max(0, 17 - len(word)), word[:at] + draw.choice("-.#a1\x0b\0\xc4") + word[at:],
                        word[:at], draw.choice(ODD_WORDS)])


def changed_bytes(draw, data):
    """Returns bytes of which a few are changed, put in or taken out, or that end early."""
    data = bytearray(data)
    for _ in range(draw.choice([1, 1, 2, 5])):
        way, at = draw.randrange(4), draw.randrange(len(data) + 1)
        if way == 0:
            data[at:at + 1] = bytes([draw.choice(b"\n\r\t \0#-A9" + draw.randbytes(1))])
        elif way == 1:
            data[at:at] = bytes([draw.choice(b"\n\r\t \0#-A9" + draw.randbytes(1))])
        elif way == 2:
            del data[at:at + draw.choice([1, 1, 5])]
        elif draw.random() < 0.2:
            del data[at:]
    return bytes(data)


def asked(draw, record):
    """Returns a datagram to `smi answer`, which often fits a record: an `ASK`, a `TAKE`, a `DROP` or a `RUN`."""
    kind = draw.choice([ASK, TAKE, DROP, RUN, RUN, RUN])
    made = Datagram(kind, draw.randrange(1, 129), answers.STATION, answers.DOMAIN)
    if kind == ASK:
        return made
    fits = draw.random() < 0.7
    holder = record.holder if fits and record.holder != grants.FREE else grants.operator(draw.choice([1, 2, 32]))
    epoch = record.epoch if fits else max(0, record.epoch + draw.choice([-2, -1, 0, 1, 2]))
    if kind == TAKE:
        return made._replace(holder=holder, epoch=epoch)
    made = made._replace(holder=holder, epoch=epoch | 1)
    if kind == DROP:
        return made if draw.random() < 0.3 else asked(draw, record)
    number = record.last + 1 if fits else max(1, record.last + draw.choice([-1, 0, 1, 2]))
    verb = draw.choice(list(Verb))
    return made._replace(number=number, command=Command(verb, draw.randrange(1, 65 if verb == Verb.DO else 129)))


def datagram_run(draw, count):
    """Returns the bytes of this many datagrams to `smi answer`, none of which is refused."""
    record, made = Record(), []
    for _ in range(count):
        datagram = asked(draw, record)
        record = answers.answered(record, datagram)
        made.append(datagram.encoded(answers.TREE))
    return b"".join(made)


def mutated_run(draw):
    """Returns the bytes of a few datagrams to `smi answer`, some with changes, or cut off, or with more bytes."""
    data = bytearray(datagram_run(draw, draw.choice([1, 1, 2, 3, 8])))
    for _ in range(draw.choice([0, 1, 1, 1, 2, 3])):
        start, way = draw.randrange(0, len(data), LENGTH), draw.randrange(4)
        place, size, _ = draw.choice(list(layout.FIELDS.values()))
        if way == 0:
            data[start + draw.randrange(LENGTH)] = draw.choice([0, 1, 2, 3, 255, draw.randrange(256)])
        elif way == 1:
            data[start + place:start + place + size] = (draw.choice(ENDS) % 256 ** size).to_bytes(size, "big")
        elif way == 2:
            other = draw.randrange(0, len(data), LENGTH)
            data[start + place:start + place + size] = data[other + place:other + place + size]
        else:
            data[start + draw.choice([2, 3])] = draw.randrange(10)
    if draw.random() < 0.3:
        data = data[:draw.randrange(len(data) + 1)] + draw.randbytes(draw.choice([0, 0, 1, 43, 44, 45]))
    return bytes(data)


class Play:
    """Draws the lines of a schedule, and plays them, so that later lines fit what earlier ones have brought about."""

    def __init__(self, draw, tree):
        self.draw, self.tree, self.world = draw, tree, World(tree)
        # how many of the datagrams were delivered in order, and how often it is done so
        self.delivered, self.patience = 0, draw.choice([0.3, 0.7, 0.9])
        # the share of orders that take any domain
        self.takes = draw.choice([0.02] * 8 + [0.7])
        self.stations = [it.name for it in tree.stations[1:]]
        self.operators = [it.name for it in tree.operators[1:]]
        self.domains = [it.name for it in tree.domains[1:]]
        self.objects = [tree.object_name(it) for it in range(1, tree.objects() + 1)]

    def line(self):
        """Draws a line and plays it."""
        line = self.any_line()
        if self.draw.random() < 0.06:
            station = self.draw.choice([self.draw.choice(self.stations), self.station_of(line) or self.stations[0]])
            how = self.draw.choice(["stop %s before ", "stop %s after ", "stop %s after ", "fail %s device ",
                                    "fail %s before ", "fail %s after "])
            line = (how % station + line) if not line.startswith("restart") else line
        for _ in self.world.make(schedule.read_line(self.tree, line.encode())[0]):
            pass
        return line

    def station_of(self, line):
        """Returns the name of the station at which a line is made, or None."""
        if line.startswith("restart"):
            return None
        at, _ = self.world.step_of(schedule.read_line(self.tree, line.encode())[0])
        return self.tree.stations[at].name if at else None

    def any_line(self):
        if self.delivered < len(self.world.sent) and self.draw.random() < self.patience:
            self.delivered += 1
            return "deliver %d" % self.delivered
        way = self.draw.randrange(40)
        if way < 8 and self.world.sent:
            return "recent %d" % self.draw.randrange(self.draw.choice([3, 3, 10, len(self.world.sent) + 1]))
        if way < 10:
            return "deliver %d" % self.draw.randrange(1, len(self.world.sent) + 3)
        if way < 14:
            return "tick " + self.draw.choice(self.stations)
        if way < 17 and self.tree.count("device"):
            device, state = self.draw.choice(self.tree.devices[1:]), self.draw.choice(self.tree.states[1:])
            return "report %s %s" % (device.name, state)
        if way == 17 and self.draw.random() < 0.6:
            stopped = [it.number for it in self.world.stations.values() if it.is_stopped]
            number = self.draw.choice(stopped or range(1, len(self.stations) + 1))
            return "restart " + self.tree.stations[number].name
        return self.order_line()

    def order_line(self):
        """Draws an order. Most commands are about domains that their operator holds, and their children."""
        operator = self.draw.randrange(1, len(self.operators) + 1)
        links = self.world.stations[self.tree.operators[operator].station].stable.operators.get(operator, {})
        held = [it for it, link in links.items() if link.is_held()]
        start = "order %s " % self.operators[operator - 1]
        way = self.draw.random()
        if way < 0.12:
            word = self.draw.choice(["watch", "unwatch", "watch"])
            return start + "%s %s" % (word, self.draw.choice(self.objects))
        if way < 0.17:
            return start + "ask " + self.draw.choice(self.domains)
        if self.draw.random() < self.takes:
            return start + "take " + self.draw.choice(self.domains)
        if way < 0.2 or not held and way < 0.9:
            roots = [it for it, domain in enumerate(self.tree.domains[1:], 1)
                     if domain.parent == 0 or self.draw.random() < 0.15]
            free = [it for it in roots if it not in links or self.draw.random() < 0.1]
            return start + "take " + self.domains[self.draw.choice(free or roots) - 1]
        any_domain = range(1, len(self.domains) + 1)
        domain = self.draw.choice(held if held and self.draw.random() < 0.9 else any_domain)
        if way < 0.24:
            return start + "drop " + self.domains[domain - 1]
        word = self.draw.choice(COMMANDS)
        argument = self.draw.choice(self.tree.actions[1:]) if word == "do" else self.target(domain)
        return start + "%s %s %s" % (word, self.domains[domain - 1], argument)

    def target(self, domain):
        """Draws a target of a command at a domain: mostly a child, one that is held, or what is below it."""
        every, children = range(1, len(self.domains) + 1), self.tree.children(domain)
        links = self.world.stations[self.tree.keeper(domain)].row(domain).links
        held = [it for it, link in links.items() if link.is_held()]
        below = [it for it in every if self.tree.way(domain, it)]
        found = self.draw.choice([below, children, children, held, held, every])
        return self.domains[self.draw.choice(found or children or every) - 1]


def drawn_schedule(draw, tree):
    """Returns the bytes of a schedule for a tree. Every fifth may have a line that is refused."""
    play = Play(draw, tree)
    lines = [play.line() for _ in range(draw.choice([5, 30, 100, 300]))]
    for _ in range(draw.choice([0, 0, 0, 0, 1])):
        at = draw.randrange(len(lines))
        lines[at:] = [mutated_line(draw, play, lines[at]), *lines[at + 1:]]
    ends = draw.choice(["\n", "\n", "\n", "\r\n"])
    return (ends.join(lines) + draw.choice([ends] * 8 + ["", "\r"])).encode("latin-1")


def mutated_line(draw, play, line):
    """Returns a line of a schedule with a few words that are changed, put in or taken out."""
    words = line.split(" ")
    known = [*play.objects, *play.stations, *play.operators, *play.tree.states[1:], *play.tree.actions[1:]]
    for _ in range(draw.choice([1, 1, 2])):
        way, at = draw.randrange(4), draw.randrange(len(words) + 1)
        word = draw.choice([draw.choice(ODD_WORDS + ODD_NUMBERS), draw.choice(known), draw.choice(SCHEDULE_WORDS),
                            draw.choice(SCHEDULE_WORDS)])
        if way == 0:
            words[at:at + 1] = [word]
        elif way == 1:
            words.insert(at, word)
        elif way == 2:
            del words[at:at + 1]
        else:
            station, other = draw.choice(play.stations), draw.choice(known)
            words = [*draw.choice([["stop"], ["stop", station], ["fail", other, "after"], ["stop", other, "before"],
                                   ["fail", station, "device"], ["#"], []]), *words]
    line = draw.choice([" ", " ", " ", "\t", "  "]).join(words)
    return line + draw.choice(["", "", "", " ", "\x0b", " " * max(0, draw.choice([200, 201]) - len(line))])


def rows_of(world):
    """Returns the rows of all stations of a world, as a dictionary."""
    return {key: data for station in world.stations.values() for key, data in rows_of_station(station).items()}


def rows_of_station(station):
    number, stable = station.number, station.stable
    return {(number, 0, 0): rows.boot_bytes(stable.boot),
            **{(number, domain, 0): rows.domain_bytes(it) for domain, it in stable.domains.items()},
            **{(number, 0, operator): rows.operator_bytes(it) for operator, it in stable.operators.items()}}


def mutated_rows(draw, true):
    """Returns some of these rows, of which up to three are changed, and a station, often one with a changed row."""
    store, station = {key: data for key, data in true.items() if draw.random() < 0.9}, draw.randrange(1, 4)
    for _ in range(draw.choice([0, 1, 1, 1, 2, 3])):
        key = draw.choice(list(true))
        station = draw.choice([key[0], key[0], station])
        data, way = bytearray(store.get(key, true[key])), draw.randrange(11)
        if way < 5 and data:
            change_field(draw, data)
        elif way == 5 and data:
            data[draw.randrange(len(data))] = draw.choice([0, 1, 2, 3, 4, 5, 127, 128, 255, draw.randrange(256)])
        elif way == 6 and data:
            data[0] = draw.choice([0, 1, 1, 2, 2, 3, 3, 4, 255])
        elif way == 7:
            data = data[:draw.randrange(len(data) + 1)] + draw.randbytes(draw.choice([0, 0, 1, 4, 20, 24]))
        elif way == 8:
            key = (draw.choice([0, station, station, key[0], 128, 65_535]), draw.choice([0, 0, 1, 2, 128, 129, 65_535]),
                   draw.choice([0, 0, 1, 2, 32, 33, 65_535]))
        elif way == 9:
            data = bytearray(draw.randbytes(draw.randrange(90)))
        else:
            data = bytearray(true[draw.choice(list(true))])
        store[key] = bytes(data)
    return store, station


def change_field(draw, data):
    """Changes one field of a row, or one of its links: its bytes, where it is, or that it is there."""
    start = 24 if len(data) >= 24 and len(data) % 20 == 4 and draw.random() < 0.5 else 4
    count = (len(data) - start) // 20
    place = start + 20 * draw.randrange(count) if count > 0 else 0
    way = draw.randrange(5)
    if count > 0 and way == 0:
        # a link more, or twice: its count may fit or not
        data[place:place] = data[place:place + 20]
        data[start - 1] = (data[start - 1] + draw.randrange(2)) % 256
    elif count > 0 and way == 1:
        at, _ = LINK_FIELDS[0]
        data[place + at:place + at + 2] = draw.choice([1, 2, 3, 4, 128]).to_bytes(2, "big")
    else:
        at, size = draw.choice(LINK_FIELDS if count > 0 and way < 4 else ROW_FIELDS)
        at += place if count > 0 and way < 4 else 0
        number = draw.choice([draw.choice(ENDS), draw.randrange(6)])
        data[at:at + size] = (number % 256 ** size).to_bytes(size, "big")
