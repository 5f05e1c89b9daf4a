"""Draws a tree file or a trace as a picture (SVG), which it prints.

usage: draw.py tree FILE [--trace TRACE] [--levels N]
       draw.py trace FILE [--tree TREE]

`tree` draws the hierarchy of a tree file: a box for each domain in the colour of its station, with a legend of the
stations and who works there, and how many devices each domain has. With the text of a trace it also shows who holds
and who commands what at its end, and in which states units are. Domains below the N-th level are only counted.

`trace` draws the text of a trace, as `smi sim` prints it or as tools/play.py does, with the schedule's lines in it as
comments. Each station is a line that goes down, each datagram an arrow from one to another. One that never came to its
receiver ends in a cross: where the text has no comments, one that brought nothing about counts as such. The bars
beside a station's line are the grants of its domains. A tree file says where those are kept of which no datagram does.
"""

import argparse
import collections
import sys
from xml.sax.saxutils import escape

import hierarchy

FONT, WIDE = "DejaVu Sans Mono, Menlo, Consolas, monospace", 0.61
# Light colours of stations, and dark ones of holders: each set can be told apart where colours can't be seen well.
LIGHT = ("#cfe3f5", "#fde2bf", "#d5edd0", "#f6d3dc", "#e4dcf3", "#f4f0b8", "#d3efec", "#e7ddd2")
DARK = ("#1f5fa8", "#b3261e", "#2e7d32", "#8a4b00", "#6a3fa0", "#00717a", "#a0116b", "#5b5b5b")
INK, PALE = "#222222", "#8c8c8c"


def width_of(text, size):
    return len(text) * size * WIDE


class Picture:
    """Shapes and texts, and how far they reach."""

    def __init__(self):
        self.shapes, self.labels, self.wide, self.high = [], [], 0, 0

    def reach(self, x, y):
        self.wide, self.high = max(self.wide, x), max(self.high, y)

    def text(self, x, y, text, size=12, colour=INK, bold=False, anchor="start"):
        start = {"start": x, "middle": x - width_of(text, size) / 2, "end": x - width_of(text, size)}[anchor]
        self.reach(start + width_of(text, size), y + 4)
        weight = ' font-weight="bold"' if bold else ""
        side = "" if anchor == "start" else ' text-anchor="%s"' % anchor
        self.shapes.append('<text x="%.1f" y="%.1f" font-size="%d" fill="%s"%s%s>%s</text>' % (
            x, y, size, colour, weight, side, escape(text)))

    def label(self, x, y, text, anchor):
        """A small text over all lines, which end at its edge."""
        far = width_of(text, 9) * (1 if anchor == "start" else -1)
        self.reach(max(x, x + far), y + 4)
        self.labels.append('<text x="%.1f" y="%.1f" font-size="9" fill="%s" stroke="white" stroke-width="3" '
                           'paint-order="stroke"%s>%s</text>' % (
                               x, y, INK, "" if anchor == "start" else ' text-anchor="end"', escape(text)))

    def upright(self, x, y, text, colour):
        """A small text that is read from below, and ends at this height."""
        self.reach(x, y + width_of(text, 9))
        self.shapes.append('<text x="%.1f" y="%.1f" font-size="9" fill="%s" transform="rotate(-90 %.1f %.1f)" '
                           'text-anchor="end">%s</text>' % (x, y, colour, x, y, escape(text)))

    def box(self, x, y, wide, high, fill, stroke=INK, thick=1.0, told=None):
        self.reach(x + wide, y + high)
        title = "<title>%s</title>" % escape(told) if told else ""
        self.shapes.append('<rect x="%.1f" y="%.1f" width="%.1f" height="%.1f" rx="3" fill="%s" stroke="%s" '
                           'stroke-width="%.1f">%s</rect>' % (x, y, wide, high, fill, stroke, thick, title))

    def line(self, points, colour=INK, thick=1.0, dashes="", arrow=False):
        for x, y in points:
            self.reach(x, y)
        self.shapes.append('<path d="M%s" fill="none" stroke="%s" stroke-width="%.1f"%s%s/>' % (
            " L".join("%.1f %.1f" % point for point in points), colour, thick,
            ' stroke-dasharray="%s"' % dashes if dashes else "", ' marker-end="url(#arrow)"' if arrow else ""))

    def __str__(self):
        wide, high = self.wide + 12, self.high + 12
        return "\n".join([
            '<svg xmlns="http://www.w3.org/2000/svg" width="%.0f" height="%.0f" viewBox="0 0 %.0f %.0f" '
            'font-family="%s">' % (wide, high, wide, high, FONT),
            '<defs><marker id="arrow" viewBox="0 0 10 10" refX="9" refY="5" markerWidth="7" markerHeight="7" '
            'orient="auto"><path d="M0 0 L10 5 L0 10 z" fill="%s"/></marker></defs>' % INK,
            '<rect width="100%" height="100%" fill="white"/>', *self.shapes, *self.labels, "</svg>"])


class Standing:
    """What a trace has come to at its end: who holds what, in which modes, and in which states objects are."""

    def __init__(self, lines):
        self.holds, self.modes, self.states = {}, {}, {}
        for line in lines:
            self.take(line.split())

    def take(self, words):
        if words[:1] == ["learned"]:
            self.holds[words[2]] = words[1]
            self.modes[words[2]] = "included"
        elif words[:1] == ["letgo"]:
            self.holds.pop(words[2], None)
        elif words[:1] == ["mode"]:
            self.modes[words[1]] = words[2]
        elif words[:1] == ["passed"]:
            self.states[words[1]] = words[3]

    def commander(self, tree, domain):
        """The operator who commands a domain: who holds it, or commands the domain that holds it."""
        seen = set()
        while domain in self.holds and domain not in seen:
            seen.add(domain)
            domain = self.holds[domain]
        return domain if domain in tree.operators else None


def colours(names, palette):
    return {name: palette[place % len(palette)] for place, name in enumerate(names)}


# The tree

HIGH, GAP, BETWEEN, PAD = 34, 9, 64, 9


class Branch:
    """A domain with those below it that are drawn, and where it stands."""

    def __init__(self, tree, name, level, levels):
        self.name, self.level = name, level
        below = tree.children(name)
        self.folded = bool(below) and level >= levels
        self.below = [] if self.folded else [Branch(tree, it, level + 1, levels) for it in below]

    def all(self):
        return [self] + [found for it in self.below for found in it.all()]

    def place(self, top):
        """Puts the lowest domains one under the other, and each other one beside the middle of those below it."""
        if not self.below:
            self.y = top
            return top + HIGH + GAP
        for it in self.below:
            top = it.place(top)
        self.y = (self.below[0].y + self.below[-1].y) / 2
        return top


def counted(number, word):
    return "%d %s%s" % (number, word, "" if number == 1 else "s")


def under(tree, name):
    """How many domains stand below this one, and how many devices in all of them and in itself."""
    domains, devices = 0, len(tree.devices_of(name))
    for it in tree.children(name):
        more, of_it = under(tree, it)
        domains, devices = domains + 1 + more, devices + of_it
    return domains, devices


def second_line(tree, branch, standing):
    """What stands below a domain's name."""
    words = [standing.states.get(branch.name, "")] if standing else []
    domains, devices = under(tree, branch.name) if branch.folded else (0, len(tree.devices_of(branch.name)))
    words += [counted(domains, "domain")] if domains else []
    words += [counted(devices, "device")] if devices else []
    return ", ".join(word for word in words if word) or "class " + tree.domains[branch.name][1]


def draw_edge(picture, branch, it, standing, hues, commander):
    """From a domain to one below it: thick where it holds it, in the colour of who commands both."""
    x, y, end, low = branch.x + branch.wide, branch.y + HIGH / 2, it.x, it.y + HIGH / 2
    middle = it.x - BETWEEN / 3
    is_held = standing is None or standing.holds.get(it.name) == branch.name
    colour = hues.get(commander, INK) if is_held else PALE
    points = [(x, y), (middle, y), (middle, low), (end, low)] if abs(y - low) > 0.5 else [(x, y), (end, low)]
    picture.line(points, colour, 2.2 if standing and is_held else 1.2, "" if is_held else "4 3")
    mode = standing.modes.get(it.name) if standing and is_held else None
    if mode in ("manual", "ignored"):
        picture.text(end - 4, low - 4, mode, 9, colour, anchor="end")


def draw_domains(picture, tree, branches, standing, fills, hues):
    """A box for each domain, the lines between them, and who holds a domain that none holds above it."""
    for branch in branches:
        commander = standing.commander(tree, branch.name) if standing else None
        for it in branch.below:
            draw_edge(picture, branch, it, standing, hues, standing.commander(tree, it.name) if standing else None)
    for branch in branches:
        station, name, _ = tree.domains[branch.name]
        commander = standing.commander(tree, branch.name) if standing else None
        told = "%s, class %s, at station %s" % (branch.name, name, station)
        edge = hues.get(commander, PALE if standing else INK)
        picture.box(branch.x, branch.y, branch.wide, HIGH, fills[station], edge, 2.2 if commander else 1.0, told)
        picture.text(branch.x + PAD, branch.y + 14, branch.name, 12, bold=True)
        picture.text(branch.x + PAD, branch.y + 28, second_line(tree, branch, standing), 10)
        if commander and standing.holds[branch.name] == commander:
            wide = width_of(commander, 10) + 10
            low = branch.y + HIGH + 2
            told = "%s holds %s" % (commander, branch.name)
            picture.box(branch.x, low - 4, wide, 15, "white", hues[commander], 1.6, told)
            picture.text(branch.x + 5, low + 7.5, commander, 10, hues[commander], bold=True)


def legend_lines(tree):
    """Of each station its name, its address and who works there."""
    return [(name, "%s  %s" % (name, address), [o for o, at in tree.operators.items() if at == name])
            for name, address in tree.stations.items()]


def draw_legend(picture, tree, fills, hues, standing, top):
    """Which colour is which station's, and whose lines are whose."""
    picture.text(12, top, "Stations, and who works there", 11, bold=True)
    for place, (name, text, operators) in enumerate(legend_lines(tree)):
        low = top + 10 + place * 20
        picture.box(12, low, 16, 13, fills[name])
        picture.text(34, low + 10.5, text, 10)
        x = 34 + max(width_of(line, 10) for _, line, _ in legend_lines(tree)) + 14
        for operator in operators:
            picture.text(x, low + 10.5, operator, 10, hues.get(operator, INK), bold=operator in hues)
            x += width_of(operator, 10) + 12
    if standing:
        low = top + 24 + len(tree.stations) * 20
        picture.line([(12, low), (40, low)], INK, 2.2)
        picture.text(48, low + 3.5, "held by the domain on its left; the colour is that of who commands", 10)
        picture.line([(12, low + 18), (40, low + 18)], PALE, 1.2, "4 3")
        picture.text(48, low + 21.5, "not held by it", 10)


def draw_tree(tree, levels, standing=None):
    """The picture of a hierarchy."""
    picture = Picture()
    fills = colours(tree.stations, LIGHT)
    roots = [Branch(tree, name, 1, levels) for name in tree.children(None)]
    branches = [it for root in roots for it in root.all()]
    commanding = {standing.commander(tree, it.name) for it in branches} - {None} if standing else set()
    hues = colours([name for name in tree.operators if name in commanding], DARK)
    top = 16
    for root in roots:
        top = root.place(top) + 8
    wides = collections.defaultdict(float)
    for it in branches:
        shown = max(width_of(it.name, 12), width_of(second_line(tree, it, standing), 10))
        wides[it.level] = max(wides[it.level], shown + 2 * PAD)
    for it in branches:
        it.wide = wides[it.level]
        it.x = 12 + sum(wides[level] + BETWEEN for level in range(1, it.level))
    draw_domains(picture, tree, branches, standing, fills, hues)
    draw_legend(picture, tree, fills, hues, standing, top + 24)
    return picture


# The trace

class Datagram:
    """A datagram of a trace: what it is, where it was sent, and in which rows it came to its receiver."""

    def __init__(self, words, row, nth):
        self.number, self.kind, self.sender, self.receiver, self.name = words[1:6]
        # the row, which of those sent in it this one is, and the rows in which it came
        self.row, self.nth, self.came = row, nth, []


class Row:
    """What a line of a schedule left, or one line of a trace without a schedule."""

    def __init__(self, item):
        self.item, self.notes, self.lines, self.sends = item, [], [], 0

    def height(self):
        return max(1, len(self.notes), self.sends) * STEP + 11


class Story:
    """A trace as rows, the datagrams among them, who keeps which domain, and which grants there were."""

    def __init__(self, lines, keepers):
        self.rows, self.datagrams, self.keepers = [Row(None)], [], dict(keepers)
        self.stations, self.boots, self.grants = [], [], []
        self.has_items = any(line.startswith("# ") for line in lines)
        for line in lines:
            self.take(line)
        if not self.has_items:
            self.guess()
        for datagram in self.datagrams:
            if datagram.kind in ("ASK", "TAKE", "DROP", "RUN"):
                self.keepers.setdefault(datagram.name, datagram.receiver)
            elif datagram.kind == "TELL":
                self.keepers.setdefault(datagram.name, datagram.sender)

    def place(self):
        return len(self.rows) - 1

    def take(self, line):
        words = line.split()
        if line.startswith("# "):
            self.rows.append(Row(line[2:]))
            self.deliver(words[1:])
            return
        if not self.has_items and words[:1] not in (["booted"], ["passed"]):
            self.rows.append(Row(None))
        row = self.rows[-1]
        row.lines.append(line)
        if words[0] == "sent":
            self.datagrams.append(Datagram(words, self.place(), row.sends))
            row.sends += 1
            self.know(*words[3:5])
            return
        row.notes.append(line)
        if words[0] == "booted":
            self.know(words[1])
            self.boots.append((words[1], words[2], self.place()))
        elif words[0] == "granted":
            self.grants.append([words[1], words[2], words[3], self.place(), None])
        elif words[0] == "freed":
            for grant in self.grants:
                if grant[0] == words[1] and grant[4] is None:
                    grant[4] = self.place()

    def know(self, *names):
        self.stations += [name for name in dict.fromkeys(names) if name not in self.stations]

    def deliver(self, words):
        """The datagram that an item delivers comes to its receiver in this row, also where it stops or fails there."""
        if "deliver" in words:
            number = int(words[words.index("deliver") + 1])
        elif "recent" in words:
            number = len(self.datagrams) - int(words[words.index("recent") + 1])
        else:
            return
        if 1 <= number <= len(self.datagrams) and "before" not in words:
            self.datagrams[number - 1].came.append(self.place())

    def guess(self):
        """Where datagrams came that were answered or brought something about: of those that fit the last one."""
        for place, row in enumerate(self.rows):
            for line in row.lines:
                fits = [it for it in self.datagrams if it.row < place and self.answers(it, line.split())]
                if fits and not fits[-1].came:
                    fits[-1].came.append(place)

    def answers(self, it, words):
        """Whether a line of a trace is what comes of such a datagram."""
        if words[0] == "sent":
            kind = {"ASK": "TELL", "TAKE": "TELL", "DROP": "TELL", "RUN": "TELL", "WATCH": "STATE"}.get(it.kind)
            return words[2] == kind and words[3:] == [it.receiver, it.sender, it.name]
        if it.kind == "STATE":
            return words[:3] == ["showed", it.receiver, it.name]
        if it.kind == "TELL":
            holders = [grant[2] for grant in self.grants if grant[0] == it.name]
            return (words[0] == "learned" and words[2] == it.name or words[0] == "settled" and words[1] in holders
                    or words[0] == "told" and it.name in words)
        return words[:2] == [{"TAKE": "granted", "DROP": "freed", "RUN": "ran"}.get(it.kind), it.name]


# The height of a line, the size of its letters, where the first row begins, and the letters that are shown of an item.
STEP, NOTE, HEAD, LONG = 13, 10, 46, 44


def cut(text, most):
    return text if len(text) <= most else text[: most - 2] + ".."


class Sheet:
    """Where a story's rows and stations stand in its picture."""

    def __init__(self, story):
        words = ["(start)"] + [cut(row.item or "", LONG) for row in story.rows]
        self.left = 12 + max(width_of(text, NOTE) for text in words) + 18
        self.lanes = collections.defaultdict(list)
        for domain in dict.fromkeys(grant[0] for grant in story.grants):
            keeper = story.keepers.get(domain)
            if keeper:
                self.lanes[keeper].append(domain)
        self.x, at = {}, self.left
        for name in story.stations:
            at += 13 * len(self.lanes[name]) + 12
            self.x[name] = at
            at += 190
        self.right = at - 60
        self.tops, low = [], HEAD
        for row in story.rows:
            self.tops.append(low)
            low += row.height()
        self.end = low

    def y(self, row):
        return self.tops[row] + 8

    def lane(self, story, domain):
        """The middle of the bar of a domain's grants, to the left of its keeper's line."""
        keeper = story.keepers[domain]
        return self.x[keeper] - 12 - 13 * (len(self.lanes[keeper]) - 1 - self.lanes[keeper].index(domain))


def draw_grants(picture, story, sheet, hues):
    """The bars of the grants, each with its domain and its holder beside its top."""
    for domain, epoch, holder, begun, ended in story.grants:
        if domain not in story.keepers:
            continue
        x, top = sheet.lane(story, domain), sheet.y(begun)
        low = sheet.y(ended) if ended is not None else sheet.end
        told = "%s: granted to %s at epoch %s" % (domain, holder, epoch)
        picture.box(x - 4, top, 8, low - top, hues[holder], hues[holder], 1, told)
        picture.upright(x - 6, top + 2, "%s: %s" % (domain, holder), hues[holder])


def draw_arrow(picture, sheet, it, row, is_first):
    """One coming of a datagram, or none: then the arrow ends in a cross half-way."""
    x, y, end = sheet.x[it.sender], sheet.y(it.row) + 3 + it.nth * STEP, sheet.x[it.receiver]
    text, dashes = "%s %s %s" % (it.number, it.kind, it.name), "" if is_first else "2 3"
    if it.sender == it.receiver:
        low, bow = y if row is None else sheet.y(row) - 3, x + 30
        back = [(bow, low), (x, low)] if row is not None else []
        picture.line([(x, y), (bow, y)] + back, INK, 1.1, dashes, row is not None)
        if row is None:
            draw_cross(picture, bow, y)
        if is_first:
            picture.label(bow + 7, y + 3, text, "start")
        return
    side = 1 if end > x else -1
    low, to = (y + 6, (x + end) / 2) if row is None else (sheet.y(row) - 3, end)
    picture.line([(x, y), (to, low)], INK, 1.1, dashes, row is not None)
    if row is None:
        draw_cross(picture, to, low)
    if is_first:
        above = y + 40 / abs(to - x) * (low - y) - 3
        picture.label(x + side * 40, above, text, "start" if side > 0 else "end")


def draw_cross(picture, x, y):
    for points in ([(x - 4, y - 4), (x + 4, y + 4)], [(x - 4, y + 4), (x + 4, y - 4)]):
        picture.line(points, DARK[1], 2)


def draw_trace(lines, tree=None):
    """The picture of a trace."""
    keepers = {name: at for name, (at, _, _) in tree.domains.items()} if tree else {}
    story = Story([line.rstrip("\n") for line in lines if line.strip()], keepers)
    sheet, picture = Sheet(story), Picture()
    hues = colours(dict.fromkeys(grant[2] for grant in story.grants), DARK)
    for place, row in enumerate(story.rows):
        if place % 2:
            picture.box(6, sheet.tops[place] - 5, sheet.right + 330, row.height(), "#f6f6f6", "#f6f6f6")
    if story.has_items:
        picture.text(12, HEAD - 18, "What happens", 11, PALE)
    picture.text(sheet.right, HEAD - 18, "What it leaves in the trace", 11, PALE)
    for name in story.stations:
        picture.line([(sheet.x[name], HEAD - 10), (sheet.x[name], sheet.end)], PALE, 1.2)
        picture.text(sheet.x[name], HEAD - 18, name, 13, bold=True, anchor="middle")
    draw_grants(picture, story, sheet, hues)
    for name, boot, row in story.boots:
        told = "%s has started, with boot %s" % (name, boot)
        picture.box(sheet.x[name] - 5, sheet.y(row) - 4, 10, 8, "white", INK, 1.2, told)
    for it in story.datagrams:
        for nth, row in enumerate(it.came or [None]):
            draw_arrow(picture, sheet, it, row, nth == 0)
    for place, row in enumerate(story.rows):
        item = row.item or ("(start)" if place == 0 else "")
        if item:
            picture.text(12, sheet.y(place) + 4, cut(item, LONG), NOTE, bold=True)
        for nth, note in enumerate(row.notes):
            picture.text(sheet.right, sheet.y(place) + 4 + nth * STEP, note, NOTE)
    return picture


def main():
    parser = argparse.ArgumentParser(usage=__doc__.split("\n\n")[1][7:])
    ways = parser.add_subparsers(dest="what", required=True)
    of_tree, of_trace = ways.add_parser("tree"), ways.add_parser("trace")
    of_tree.add_argument("file")
    of_tree.add_argument("--trace")
    of_tree.add_argument("--levels", type=int, default=8)
    of_trace.add_argument("file")
    of_trace.add_argument("--tree")
    words = parser.parse_args()
    if words.what == "tree":
        standing = None
        if words.trace:
            with open(words.trace, encoding="ascii") as file:
                standing = Standing([line for line in file if not line.startswith("#")])
        picture = draw_tree(hierarchy.read(words.file), words.levels, standing)
    else:
        with open(words.file, encoding="ascii") as file:
            picture = draw_trace(list(file), hierarchy.read(words.tree) if words.tree else None)
    sys.stdout.write(str(picture) + "\n")


if __name__ == "__main__":
    main()
