"""Makes a tree file of a source with lists, ranges, includes and templates (docs/TREES.md).

usage: tree.py SOURCE
       tree.py --diff OLD NEW
       tree.py --draw SOURCE

The first prints the tree file. `--diff` says which numbers move from one to the other and whose stores that breaks, and
ends with 1 if it breaks some. `--draw` prints the hierarchy, one domain a line. A tree file is a source too.

A line of a source is one of a tree file, or one of these. What follows a # after a space is a comment.

    list NAME ITEM..              a list. An item with brackets stands for several
    include FILE                  the lines of a file, whose path is from the folder of this one
    template NAME PARAMETER..     the lines up to `end` are a template, in which {PARAMETER} is what it is used with
    use NAME WORD..               the lines of a template

A line with brackets stands for a line for each item: `[NAME]` of a list, `[1..4]` of a range, `[A,B]` of these.
Different brackets of a line go through all pairs, the first slowest; the same ones go together. `[1..4+10]` is the
number plus 10, `[#NAME]` the place of the item in its list from 1, `[#NAME+10]` that plus 10.

What is wrong is told with its file and line, and then the status is 1.
"""

import collections
import itertools
import os
import re
import sys

sys.path.insert(0, os.path.dirname(os.path.abspath(__file__)))

import hierarchy
import tree_check
import tree_diff
from tree_check import Line, Wrong

WORDS = re.compile(r"[^ \t]+")
COMMENT = re.compile(r"(?:^|(?<=[ \t]))#.*", flags=re.S)
ITEM = re.compile(r"\[(#?)([^\[\]#+ ]+)(?:\+([0-9]+))?\]")
RANGE = re.compile(r"([0-9]{1,9})\.\.([0-9]{1,9})")
PARAMETER = re.compile(r"\{([^{}]*)\}")
NAME = re.compile(r"[A-Za-z][A-Za-z0-9_]*")
# How many items a list or a range may have: more than the names that a tree file has room for.
MOST_ITEMS = 1000
# How many devices of one class of a domain are listed. Of more, the first and the last are.
LISTED = 2

Template = collections.namedtuple("Template", "parameters lines place")


class Place(collections.namedtuple("Place", "path number used", defaults=(None,))):
    """A line of a source, and the place where its template is used, if it is of one."""

    def __str__(self):
        told = "%s line %d" % (self.path, self.number)
        return told if self.used is None else "%s, used at %s" % (told, self.used)


def lines_of(path, place):
    """Returns the lines of a file that have words, each as its text without a comment and its place."""
    try:
        # an odd byte in a comment does no harm, and a name with one is refused
        with open(path, encoding="utf-8", errors="surrogateescape", newline="\n") as file:
            texts = [line.removesuffix("\r\n").removesuffix("\n") for line in file]
    except OSError as error:
        raise Wrong(place or path, "can't read %s: %s" % (path, error.strerror)) from None
    found = ((COMMENT.sub("", text), Place(path, number)) for number, text in enumerate(texts, 1))
    return [(text, at) for text, at in found if WORDS.search(text)]


def range_items(first, last, place):
    """Returns the numbers of a range, as wide as the first if that begins with 0."""
    low, high = int(first), int(last)
    if high < low:
        raise Wrong(place, "the range %s..%s has no number" % (first, last))
    if high - low >= MOST_ITEMS:
        raise Wrong(place, "the range %s..%s has more than %d numbers" % (first, last, MOST_ITEMS))
    return [str(number).zfill(len(first)) for number in range(low, high + 1)]


def put_item(text, inner, number, item, place):
    """Returns a line in which all brackets of one list have one of its items."""
    def put(found):
        sign, name, more = found.groups()
        if name != inner:
            return found[0]
        if not sign and not more:
            return item
        if not sign and not item.isdigit():
            raise Wrong(place, "%s is no number; its place in the list is [#%s+%s]" % (item, name, more))
        return str((number if sign else int(item)) + int(more or 0))
    return ITEM.sub(put, text)


class Source:
    """The lists and templates that the lines so far have named."""

    def __init__(self):
        self.lists, self.templates = {}, {}
        # what is being read and used just now, from the outermost
        self.files, self.uses = [], []

    def read(self, path, place=None):
        """Yields the lines of a tree file that a file stands for."""
        name = os.path.realpath(path)
        if name in self.files:
            raise Wrong(place, "%s includes itself" % path)
        self.files.append(name)
        yield from self.expand(lines_of(path, place))
        self.files.pop()

    def expand(self, lines):
        """Yields the lines of a tree file that these lines stand for."""
        rest = iter(lines)
        for text, place in rest:
            word, *more = WORDS.findall(text)
            if word == "template":
                self.add_template(more, rest, place)
            elif word == "list":
                self.add_list(more, place)
            elif PARAMETER.search(text):
                raise Wrong(place, "there is no parameter %s here" % PARAMETER.search(text)[0])
            else:
                for one in self.spread(" ".join([word, *more]), place):
                    yield from self.line(WORDS.findall(one), place)

    def line(self, words, place):
        """Yields the lines that a line without brackets stands for."""
        if words[0] == "include":
            if len(words) != 2:
                raise Wrong(place, "too few or too many words: include FILE")
            yield from self.read(os.path.join(os.path.dirname(place.path), words[1]), place)
        elif words[0] == "use":
            yield from self.use(words[1:], place)
        elif words[0] == "end":
            raise Wrong(place, "there is no template to end")
        else:
            yield Line(words, place)

    def add_list(self, words, place):
        """Names a list."""
        if len(words) < 2:
            raise Wrong(place, "too few words: list NAME ITEM..")
        name = self.new_name(self.lists, words[0], "list", place)
        found = list(itertools.islice((it for word in words[1:] for it in self.spread(word, place)), MOST_ITEMS + 1))
        if len(found) > MOST_ITEMS:
            raise Wrong(place, "the list %s has more than %d items" % (name, MOST_ITEMS))
        self.lists[name] = found, place

    def new_name(self, where, name, kind, place):
        """Returns the name of a list or a template if it may be one."""
        if not NAME.fullmatch(name):
            raise Wrong(place, "%s is no name of a %s: letters, digits and _, the first a letter" % (name, kind))
        if name in where:
            raise Wrong(place, "the %s %s is there already: %s" % (kind, name, where[name][-1]))
        return name

    def add_template(self, words, rest, place):
        """Names a template, and takes its lines from the rest."""
        if not words:
            raise Wrong(place, "too few words: template NAME PARAMETER..")
        name, body = self.new_name(self.templates, words[0], "template", place), []
        for text, at in rest:
            word = WORDS.findall(text)[0]
            if word == "template":
                raise Wrong(at, "a template in the template %s" % name)
            if word == "end":
                self.templates[name] = Template(words[1:], body, place)
                return
            body.append((text, at))
        raise Wrong(place, "the template %s has no end" % name)

    def use(self, words, place):
        """Yields the lines of a template."""
        if not words:
            raise Wrong(place, "too few words: use NAME WORD..")
        name, given = words[0], words[1:]
        template = self.templates.get(name)
        if template is None:
            raise Wrong(place, "there is no template %s above" % name)
        if len(given) != len(template.parameters):
            raise Wrong(place, "too few or too many words: use %s" % " ".join([name, *template.parameters]))
        if name in self.uses:
            raise Wrong(place, "the template %s uses itself" % name)
        self.uses.append(name)
        values = dict(zip(template.parameters, given))
        yield from self.expand([self.filled(text, values, at._replace(used=place)) for text, at in template.lines])
        self.uses.pop()

    def filled(self, text, values, place):
        """Returns a line of a template with what its parameters are, and its place."""
        for name in PARAMETER.findall(text):
            if name not in values:
                raise Wrong(place, "there is no parameter {%s} here" % name)
        return PARAMETER.sub(lambda found: values[found[1]], text), place

    def spread(self, text, place):
        """Yields the text with each item of its first brackets, and so of the others."""
        found = ITEM.search(text)
        if found is None:
            if re.search(r"[\[\]]", text):
                raise Wrong(place, "brackets that hold no list, no range and no items: %s" % text)
            yield text
            return
        for number, item in enumerate(self.items(found[2], place), 1):
            yield from self.spread(put_item(text, found[2], number, item, place), place)

    def items(self, inner, place):
        """Returns the items that brackets stand for."""
        span = RANGE.fullmatch(inner)
        if span:
            return range_items(*span.groups(), place)
        if "," in inner:
            return inner.split(",")
        if inner not in self.lists:
            raise Wrong(place, "there is no list %s above" % inner)
        return self.lists[inner][0]


def lines_at(path):
    """Returns the lines of the tree file that a source makes."""
    return tree_check.checked(Source().read(path), path)


def texts_at(path):
    """Returns the same as texts."""
    return [" ".join(line.words) for line in lines_at(path)]


def row_of(names):
    """Returns names as they are listed: all, or the first and the last."""
    return " ".join(names) if len(names) <= LISTED else "%s .. %s" % (names[0], names[-1])


def drawn_below(tree, parent, depth):
    """Yields a line for each domain below a parent, with its devices below it."""
    for name in tree.children(parent):
        station, kind, _ = tree.domains[name]
        yield "%s%s %s at %s" % (depth * "    ", name, kind, station)
        classes = {}
        for device in tree.devices_of(name):
            classes.setdefault(tree.devices[device][1], []).append(device)
        for of, names in classes.items():
            yield "%s- %d %s: %s" % ((depth + 1) * "    ", len(names), of, row_of(names))
        yield from drawn_below(tree, name, depth + 1)


def drawn(tree):
    """Yields the lines of a drawing: the stations with their operators, and then the domains."""
    yield "tree %d: %d domains, %d devices" % (tree.number, len(tree.domains), len(tree.devices))
    for station, address in tree.stations.items():
        operators = [name for name, at in tree.operators.items() if at == station]
        yield " ".join(["station", station, address, *operators])
    yield from drawn_below(tree, None, 0)


def answer(words):
    """Returns the lines that a command line is answered with, and the status."""
    if words[:1] == ["--diff"] and len(words) == 3:
        return tree_diff.told(*map(texts_at, words[1:]))
    if words[:1] == ["--draw"] and len(words) == 2:
        return list(drawn(hierarchy.of_lines(texts_at(words[1])))), 0
    if len(words) == 1 and not words[0].startswith("--"):
        head = "# Made of %s by tools/tree.py: change that file, not this one." % os.path.basename(words[0])
        return [head, *texts_at(words[0])], 0
    return sys.exit("\n\n".join(__doc__.split("\n\n")[1:2]))


def main():
    try:
        lines, status = answer(sys.argv[1:])
    except Wrong as wrong:
        sys.exit(str(wrong))
    print("\n".join(lines))
    sys.exit(status)


if __name__ == "__main__":
    main()
