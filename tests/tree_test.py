"""tools/tree.py: what each line of a source stands for, what is wrong with one, and which numbers move between two trees.

What it makes is judged by `smi check`. What has to come is written down here, or worked out a second way.
"""

import itertools
import os
import random
import re
import sys

import pytest

import hierarchy
import nodes
import running
import tree
import trees
from running import ROOT, text_of

TOOL = os.path.join(ROOT, "tools", "tree.py")
SOURCE, TREE = "examples/experiment.source", "examples/experiment.tree"
# A source may have no more lines, or it would be no shorter to read.
MOST_LINES = 150
# Lines that make a tree file of the lines before them, after which there are no more of a kind.
HEAD = "tree 1\nstate OFF\nstate READY\naction GO\nstation S 127.0.0.1:9000\noperator O S\n"
CLASSES = "devclass DEV OFF\nunitclass UNIT OFF\n"
TAIL = "domain TOP S UNIT -\n"
WHOLE = HEAD + CLASSES + TAIL


def made(source):
    """Returns standard output, standard error and status of the tool, of a file with these lines in the folder."""
    return tuple(it.decode() if isinstance(it, bytes) else it for it in running.run([sys.executable, TOOL, *source]))


def lines_of(folder, text):
    """Returns the lines after the first that the tool makes of a source."""
    out, err, status = made([running.write(os.path.join(folder, "a.source"), text)])
    assert (err, status) == ("", 0)
    return out.splitlines()[1:]


# A name, what follows the lines of a whole tree, and what lines that is.
FORMS = [
    ("a line", "device A TOP DEV\n", ["device A TOP DEV"]),
    ("words apart", "device\tA   TOP DEV \r\n", ["device A TOP DEV"]),
    ("no last line feed", "device A TOP DEV", ["device A TOP DEV"]),
    ("a comment", "# device A TOP DEV\n\n   # device A TOP DEV\n", []),
    ("a comment after a line", "device A TOP DEV  # the \xe4 supply [1..2] {X}\n", ["device A TOP DEV"]),
    ("a range", "device A[1..3] TOP DEV\n", ["device A1 TOP DEV", "device A2 TOP DEV", "device A3 TOP DEV"]),
    ("a range of one", "device A[7..7] TOP DEV\n", ["device A7 TOP DEV"]),
    ("a range of one width", "device A[08..10] TOP DEV\n",
     ["device A08 TOP DEV", "device A09 TOP DEV", "device A10 TOP DEV"]),
    ("a range that becomes wider", "device A[9..10] TOP DEV\n", ["device A9 TOP DEV", "device A10 TOP DEV"]),
    ("items", "device [A,B] TOP DEV\n", ["device A TOP DEV", "device B TOP DEV"]),
    ("a list", "list L A B C\ndevice [L] TOP DEV\n", ["device A TOP DEV", "device B TOP DEV", "device C TOP DEV"]),
    ("a list of several", "list L A[1..2] B\nlist M [L] C\ndevice [M] TOP DEV\n",
     ["device A1 TOP DEV", "device A2 TOP DEV", "device B TOP DEV", "device C TOP DEV"]),
    ("all pairs", "device [A,B]_[1..2] TOP DEV\n",
     ["device A_1 TOP DEV", "device A_2 TOP DEV", "device B_1 TOP DEV", "device B_2 TOP DEV"]),
    ("the same one twice", "domain [A,B] S UNIT TOP\ndevice [A,B]_[1..2] [A,B] DEV\n",
     ["domain A S UNIT TOP", "domain B S UNIT TOP", "device A_1 A DEV", "device A_2 A DEV", "device B_1 B DEV",
      "device B_2 B DEV"]),
    ("a number and more", "station N[1..2] 10.0.0.[1..2+30]:9000\n",
     ["station N1 10.0.0.31:9000", "station N2 10.0.0.32:9000"]),
    ("a place in a list", "list L A B\nstation [L] 10.0.0.[#L]:[#L+9000]\n",
     ["station A 10.0.0.1:9001", "station B 10.0.0.2:9002"]),
    ("the place first", "list L A B\ndevice X[#L]_[L] TOP DEV\n", ["device X1_A TOP DEV", "device X2_B TOP DEV"]),
    ("a list of numbers and more", "list L 1 3\ndevice A[L+10] TOP DEV\n", ["device A11 TOP DEV", "device A13 TOP DEV"]),
    ("a template", "template T NAME FROM\ndevclass {NAME} OFF\nmove {NAME} {FROM} GO READY # up\nend\nuse T X OFF\n"
     "use T Y READY\n", ["devclass X OFF", "move X OFF GO READY", "devclass Y OFF", "move Y READY GO READY"]),
    ("a template that is not used", "template T\ndevice A TOP DEV\nend\n", []),
    ("a template without parameters", "template T\ndevice A TOP DEV\nend\nuse T\n", ["device A TOP DEV"]),
    ("a template and a range of its own", "template T N\ndevice A[1..{N}] TOP DEV\nend\nuse T 2\n",
     ["device A1 TOP DEV", "device A2 TOP DEV"]),
    ("a template for each item", "template T NAME\ndevice {NAME}_X TOP DEV\nend\nuse T [A,B]\n",
     ["device A_X TOP DEV", "device B_X TOP DEV"]),
    ("a template of templates", "template OF A\nuse IN {A}_1\nuse IN {A}_2\nend\ntemplate IN B\n"
     "device {B} TOP DEV\nend\nuse OF X\n", ["device X_1 TOP DEV", "device X_2 TOP DEV"]),
]


@pytest.mark.parametrize("text, wanted", [pytest.param(*told, id=name) for name, *told in FORMS])
def test_form(folder, smi, text, wanted):
    """Each line of a source stands for these lines, in this order, and the program takes them."""
    whole = WHOLE.splitlines()
    assert lines_of(folder, WHOLE + text) == whole + wanted
    path = running.write(os.path.join(folder, "made.tree"), "\n".join(whole + wanted))
    assert smi("check", path)[2] == 0


def test_include(folder):
    """A file is read by the folder of the one that includes it, as if its lines stood there."""
    os.mkdir(os.path.join(folder, "inner"))
    running.write(os.path.join(folder, "inner", "classes"), "include states\n" + CLASSES)
    running.write(os.path.join(folder, "inner", "states"), "list L A B\n")
    text = HEAD + "include inner/classes  # both kinds\n" + TAIL + "device [L] TOP DEV\n"
    wanted = (HEAD + CLASSES + TAIL).splitlines() + ["device A TOP DEV", "device B TOP DEV"]
    assert lines_of(folder, text) == wanted
    for name in "XY":
        running.write(os.path.join(folder, name), "device %s TOP DEV\n" % name)
    assert lines_of(folder, WHOLE + "include [X,Y]\n") == WHOLE.splitlines() + ["device X TOP DEV", "device Y TOP DEV"]
    # a file may be read twice, but not by itself
    running.write(os.path.join(folder, "X"), "list L A\n")
    path = running.write(os.path.join(folder, "b.source"), WHOLE + "include X\ninclude X\n")
    assert made([path])[1] == "%s/X line 1: the list L is there already: %s/X line 1\n" % (folder, folder)


# A name, what follows the lines of a whole tree, the line of it that is wrong, and what is said of it.
WRONG = [
    ("no such list", "device [L] TOP DEV\n", 1, "there is no list L above"),
    ("a list below", "device [L] TOP DEV\nlist L A\n", 1, "there is no list L above"),
    ("a list twice", "list L A\nlist L B\n", 2, "the list L is there already: %(path)s line 10"),
    ("a list of nothing", "list L\n", 1, "too few words: list NAME ITEM.."),
    ("a name of a list", "list 1L A\n", 1, "1L is no name of a list: letters, digits and _, the first a letter"),
    ("a list that is long", "list L A[1..600] B[1..600]\n", 1, "the list L has more than 1000 items"),
    ("an empty range", "device A[3..2] TOP DEV\n", 1, "the range 3..2 has no number"),
    ("a long range", "device A[1..1001] TOP DEV\n", 1, "the range 1..1001 has more than 1000 numbers"),
    ("a huge range", "device A[1..1000000000000] TOP DEV\n", 1, "there is no list 1..1000000000000 above"),
    ("a lone bracket", "device A[1..2 TOP DEV\n", 1, "brackets that hold no list, no range and no items: "
     "device A[1..2 TOP DEV"),
    ("empty brackets", "device A[] TOP DEV\n", 1, "brackets that hold no list, no range and no items: device A[] TOP DEV"),
    ("a sum of a name", "list L A B\ndevice X[L+1] TOP DEV\n", 2,
     "A is no number; its place in the list is [#L+1]"),
    ("no file", "include none\n", 1, "can't read %(folder)s/none: No such file or directory"),
    ("an include of two", "include a b\n", 1, "too few or too many words: include FILE"),
    ("an include of itself", "include a.source\n", 1, "%(folder)s/a.source includes itself"),
    ("no such template", "use T\n", 1, "there is no template T above"),
    ("a template of no name", "use\n", 1, "too few words: use NAME WORD.."),
    ("a template with less", "template T A B\nend\nuse T X\n", 3, "too few or too many words: use T A B"),
    ("a template with more", "template T\nend\nuse T X\n", 3, "too few or too many words: use T"),
    ("a template twice", "template T\nend\ntemplate T\nend\n", 3, "the template T is there already: %(path)s line 10"),
    ("a template without end", "device A TOP DEV\ntemplate T\ndevice B TOP DEV\n", 2, "the template T has no end"),
    ("a template in another", "template T\ntemplate U\nend\nend\n", 2, "a template in the template T"),
    ("an end alone", "end\n", 1, "there is no template to end"),
    ("a template without a name", "template\nend\n", 1, "too few words: template NAME PARAMETER.."),
    ("a parameter outside", "device {A} TOP DEV\n", 1, "there is no parameter {A} here"),
    ("a name that is long", "device ABCDEFGHIJKLMNOPQ TOP DEV\n", 1, "ABCDEFGHIJKLMNOPQ is longer than 16"),
    ("a name that is none", "device a TOP DEV\n", 1, "a is no name: A to Z, 0 to 9 and _, the first a letter"),
    ("an unknown line", "devise A TOP DEV\n", 1, "there is no line devise"),
    ("a word less", "device A TOP\n", 1, "too few or too many words: device NAME DOMAIN CLASS"),
    ("a second tree", "tree 2\n", 1, "a second tree line"),
    ("no such domain", "device A TOPP DEV\n", 1, "there is no domain TOPP above"),
    ("another kind", "device A O DEV\n", 1, "O is an operator, and a domain is wanted"),
    ("another class", "device A TOP UNIT\n", 1, "UNIT is a unit class, and a device class is wanted"),
    ("a name twice", "device A TOP DEV\n\ndevice A TOP DEV\n", 3, "A is there already: %(path)s line 10"),
    ("a move twice", "move DEV OFF GO READY\nmove DEV OFF GO OFF\n", 2,
     "a move of DEV OFF GO is there already: %(path)s line 10"),
    ("an accept twice", "accept UNIT GO\naccept UNIT GO\n", 2, "accept UNIT GO is there already: %(path)s line 10"),
    ("an address", "station T 1.2.3:4\n", 1, "1.2.3:4 is no address A.B.C.D:PORT"),
    ("devices of a domain", "device A[1..17] TOP DEV\n", 1, "more than 16 devices of the domain TOP"),
    ("children of a domain", "domain A[1..17] S UNIT TOP\n", 1, "more than 16 children of the domain TOP"),
    ("levels", "domain L2 S UNIT TOP\ndomain L[3..8] S UNIT L[3..8]\n", 2, "there is no domain L3 above"),
    ("rules of a class", "any UNIT OFF OFF\n" * 33, 33, "more than 32 rules of the class UNIT"),
    ("operators of a station", "operator A[1..8] S\n", 1, "more than 8 operators of the station S"),
    ("states", "state A[1..63]\n", 1, "more than 64 states"),
    ("classes", "devclass A[1..31] OFF\n", 1, "more than 32 classes"),
]


@pytest.mark.parametrize("text, line, said", [pytest.param(*told, id=name) for name, *told in WRONG])
def test_wrong(folder, text, line, said):
    """What is wrong with a source is told with its file and line, and nothing else is printed."""
    path = running.write(os.path.join(folder, "a.source"), WHOLE + text)
    number = len(WHOLE.splitlines()) + line
    wanted = "%s line %d: %s\n" % (path, number, said % {"path": path, "folder": folder})
    assert made([path]) == ("", wanted, 1)


def test_wrong_inside(folder):
    """What is wrong inside a template or another file is told with the place where it stands, and where it is used."""
    other = running.write(os.path.join(folder, "other"), "template T NAME\n\ndevice {NAME} TOP DEB\nend\n")
    path = running.write(os.path.join(folder, "a.source"), WHOLE + "include other\nuse T A\n")
    assert made([path]) == ("", "%s line 3, used at %s line 11: there is no device class DEB above\n" % (other, path), 1)
    running.write(other, "template T NAME\ndevice {NAMES} TOP DEV\nend\n")
    assert made([path]) == ("", "%s line 2, used at %s line 11: there is no parameter {NAMES} here\n" % (other, path), 1)
    running.write(other, "template T NAME\nuse T {NAME}\nend\n")
    assert made([path]) == ("", "%s line 2, used at %s line 11: the template T uses itself\n" % (other, path), 1)
    running.write(other, "\ndevice A TOP DEB\n")
    assert made([path]) == ("", "%s line 2: there is no device class DEB above\n" % other, 1)


@pytest.mark.parametrize("text, said", [
    ("", "there is no station, no operator, no state, no action, no domain"),
    (HEAD, "there is no domain")])
def test_wrong_whole(folder, text, said):
    path = running.write(os.path.join(folder, "a.source"), text)
    assert made([path]) == ("", "%s: %s\n" % (path, said), 1)


def test_first_line(folder):
    path = running.write(os.path.join(folder, "a.source"), "# a tree\nlist L A\nstate [L]\ntree 1\n")
    assert made([path]) == ("", "%s line 3: the first line has to be `tree N`\n" % path, 1)


def test_no_file(folder):
    path = os.path.join(folder, "none")
    assert made([path]) == ("", "%s: can't read %s: No such file or directory\n" % (path, path), 1)


@pytest.mark.parametrize("words", [[], ["a", "b"], ["--diff", "a"], ["--draw"], ["--other"]])
def test_usage(words):
    out, err, status = made(words)
    assert (out, err.splitlines()[0], status) == ("", "usage: tree.py SOURCE", 1)


def said_of(path):
    """Returns None if the tool makes a tree file of a source, or else the number of the line that is wrong, or 0."""
    try:
        tree.lines_at(path)
    except tree.Wrong as wrong:
        found = re.search(r" line (\d+)[:,]", str(wrong))
        return int(found[1]) if found else 0
    return None


def mutants(lines, count, seed):
    """Yields tree files that differ from this one in a line: gone, twice, elsewhere, or with another word."""
    drawn, words = random.Random(seed), sorted({word for line in lines for word in line.split()})
    for _ in range(count):
        copy, at = list(lines), drawn.randrange(len(lines))
        how = drawn.randrange(4)
        if how == 3 and copy[at].strip():
            changed = copy[at].split()
            changed[drawn.randrange(len(changed))] = drawn.choice(words)
            copy[at] = " ".join(changed)
        else:
            line = copy[at] if how == 1 else copy.pop(at)
            if how:
                copy.insert(drawn.randrange(len(copy)), line)
        yield "\n".join(copy) + "\n"


def test_check(folder, smi, subtests):
    """The tool refuses the tree files that the program refuses, for the same line, and no others."""
    path, count = os.path.join(folder, "a.tree"), 0
    for text in itertools.chain(mutants(trees.WORKED.splitlines(), 150, 1),
                                mutants(text_of("examples/detector.tree").splitlines(), 100, 2)):
        running.write(path, text)
        _, err, status = smi("check", path)
        found = re.fullmatch(r"tree line (\d+) fault \d+\n", err.decode())
        wanted = int(found[1]) if found else None
        count += found is not None
        if said_of(path) != wanted or (status == 0) != (wanted is None):
            with subtests.test("a tree file of which the program says %r:\n%s" % (err, text)):
                assert said_of(path) == wanted
    with subtests.test("some are refused, and some are not"):
        assert 80 < count < 230


def test_known(folder, smi, subtests):
    """The same of the tree files that the tests of the program have, but that a long comment does no harm here."""
    count = 0
    for name, data, out, _, status in trees.all_trees():
        path = running.write(os.path.join(folder, "a.tree"), data)
        line = said_of(path)
        if line is None:
            again = running.write(os.path.join(folder, "b.tree"), "\n".join(tree.texts_at(path)))
            told = smi("check", again)
            count += 1
            with subtests.test("%s: what is made is taken" % name):
                assert told[2] == 0 and (status == 1 or told[0].decode() == out)
        is_long = any(len(it) > 200 for it in data.split(b"\n"))
        if not is_long and len(data) <= 262144:
            with subtests.test("%s: it is refused if the program does" % name):
                assert (line is None) == (status == 0)
    with subtests.test("some tree files are taken"):
        assert count > 5


DETECTOR = """tree 5
state OFF
state READY
action GO
action STOP
station A 127.0.0.1:9001
station B 127.0.0.1:9002
station C 127.0.0.1:9003
station D 127.0.0.1:9004
operator ANN A
operator BOB B
devclass DEV OFF
unitclass UNIT OFF
domain TOP A UNIT -
domain LEFT B UNIT TOP
domain RIGHT C UNIT TOP
device X LEFT DEV
device Y RIGHT DEV
"""
GOES_ON = "every store goes on"


def breaks(names):
    return "stores that break: " + names


# A name, what is put in place of what, and what is said of it. Station D keeps nothing and has no operator.
DIFFERENT = [
    ("nothing", "", "", [GOES_ON]),
    ("an address", "9001", "9009", [GOES_ON]),
    ("a new operator last", "devclass", "operator CAT A\ndevclass", [GOES_ON]),
    ("a new domain last", "device X", "domain MORE A UNIT TOP\ndevice X", [GOES_ON]),
    ("another class of a device", "unitclass", "devclass MORE OFF\nunitclass", ["class UNIT moves from 2 to 3", GOES_ON]),
    ("a new operator first", "operator ANN", "operator CAT A\noperator ANN",
     ["operator ANN moves from 1 to 2", "operator BOB moves from 2 to 3", breaks("A B C")]),
    ("an operator less", "operator BOB B\n", "", ["operator BOB is gone, and so is the number 2", breaks("A B C")]),
    ("another operator", "BOB", "EVE", ["operator BOB is gone, and 2 is EVE", breaks("A B C")]),
    ("an operator elsewhere", "operator BOB B", "operator BOB D", ["operator BOB goes from B to D", breaks("A B C")]),
    ("a station less", "station D 127.0.0.1:9004\n", "", ["station D is gone, and so is the number 4", breaks("D")]),
    ("a station between", "station D", "station E 127.0.0.1:9005\nstation D", ["station D moves from 4 to 5", breaks("D")]),
    ("a state between", "state READY", "state RAMPING\nstate READY", ["state READY moves from 2 to 3", GOES_ON]),
    ("an action between", "action STOP", "action HOLD\naction STOP", ["action STOP moves from 2 to 3", breaks("A B")]),
    ("a domain between", "domain RIGHT", "domain MORE A UNIT TOP\ndomain RIGHT",
     ["domain RIGHT moves from 3 to 4", breaks("A B C")]),
    ("a domain kept elsewhere", "domain RIGHT C", "domain RIGHT D", ["domain RIGHT goes from C to D", breaks("A B C")]),
    ("a domain below another", "domain RIGHT C UNIT TOP", "domain RIGHT C UNIT LEFT",
     ["domain RIGHT goes from below TOP to below LEFT", breaks("A B C")]),
    ("a device between", "device Y", "device Z LEFT DEV\ndevice Y", ["device Y moves from 2 to 3", GOES_ON]),
    ("another number", "tree 5", "tree 6",
     ["tree 5 is now 6: no node starts on an older store", breaks("A B C D")]),
]


@pytest.mark.parametrize("old, new, said", [pytest.param(*told, id=name) for name, *told in DIFFERENT])
def test_diff(folder, old, new, said):
    """Each number that moves is told, and whose stores that breaks."""
    paths = [running.write(os.path.join(folder, name), text)
             for name, text in (("old.tree", DETECTOR), ("new.source", DETECTOR.replace(old, new, 1)))]
    assert made(["--diff", *paths]) == ("\n".join(said) + "\n", "", 0 if said[-1] == GOES_ON else 1)


def test_diff_of_deep_domains(folder):
    """A domain's number can be in the stores of its keeper, its parent's and its children's, and not of others."""
    text = HEAD + CLASSES + "".join("station K%d 10.0.0.%d:9000\n" % (n, n) for n in range(1, 6)) + \
        "domain D1 K1 UNIT -\ndomain D2 K2 UNIT D1\ndomain D3 K3 UNIT D2\ndomain D4 K4 UNIT D3\ndomain D5 K5 UNIT D4\n"
    paths = [running.write(os.path.join(folder, name), it)
             for name, it in (("old", text), ("new", text.replace("domain D5 K5", "domain D5 K1")))]
    assert made(["--diff", *paths])[0].splitlines() == ["domain D5 goes from K5 to K1", breaks("S K4 K5")]


# What is put in place of what in the worked tree, whose store of A has a domain that ANN holds, and what is said of
# stores then. An order that a node on the store is given, and how it ends: its lines, what it tells, its status.
ON_A_STORE = [
    ("a new operator last", "devclass DEV", "operator CAT A\ndevclass DEV", GOES_ON, "ANN take DCS",
     (["told ANN take DCS 23"], ["store of a changed tree"], 0)),
    ("a new state", "state ERROR", "state ERROR\nstate ALARM", GOES_ON, "ANN take DCS",
     (["told ANN take DCS 23"], ["store of a changed tree"], 0)),
    ("another one holds it", "operator ANN", "operator EVE A\noperator ANN", breaks("A B"), "EVE take DCS",
     (["told EVE take DCS 23"], ["store of a changed tree"], 0)),
    ("a domain kept elsewhere", "domain DCS A", "domain DCS B", breaks("A B"), "ANN take DCS",
     ([], ["store of a changed tree", "row 1 1 0 fault 4"], 1)),
    ("another number", "tree 17", "tree 18", breaks("A B"), "ANN take DCS", ([], ["store of another tree"], 1)),
]


@pytest.mark.parametrize("old, new, said, order, ended", [pytest.param(*told, id=name) for name, *told in ON_A_STORE])
def test_diff_of_a_store(folder, ports, start_node, run_node, old, new, said, order, ended):
    """What is said of stores is so: a node goes on with its store, or the store is refused, or is somebody else's."""
    text = "\n".join(nodes.tree_lines(ports)) + "\n"
    paths = [running.write(os.path.join(folder, name), it)
             for name, it in (("old.tree", text), ("new.tree", text.replace(old, new, 1)))]
    store = os.path.join(folder, "store")
    node = start_node(paths[0], "A", store, "--endless")
    assert node.ask("order ANN take DCS") == "told ANN take DCS 0"
    node.kill()
    assert tree.answer(["--diff", *paths])[0][-1] == said
    assert run_node(paths[1], "A", store, "--turns", nodes.FEW, given="order %s\n" % order) == ended


def test_draw(folder):
    path = running.write(os.path.join(folder, "a.tree"), DETECTOR + "device Z[1..3] RIGHT DEV\ndomain LOW B UNIT LEFT\n"
                         "devclass GAUGE OFF\ndevice G[1..2] RIGHT GAUGE\n")
    assert made(["--draw", path]) == ("""tree 5: 4 domains, 7 devices
station A 127.0.0.1:9001 ANN
station B 127.0.0.1:9002 BOB
station C 127.0.0.1:9003
station D 127.0.0.1:9004
TOP UNIT at A
    LEFT UNIT at B
        - 1 DEV: X
        LOW UNIT at B
    RIGHT UNIT at C
        - 4 DEV: Y .. Z3
        - 2 GAUGE: G1 G2
""", "", 0)


def test_example(folder, smi, subtests):
    """The experiment of the page: its tree file is that of its source, and has what its architect would count."""
    out, err, status = made([os.path.join(ROOT, SOURCE)])
    with subtests.test("the tree file is made of the source"):
        assert (out, err, status) == (text_of(TREE), "", 0)
    with subtests.test("the source is short"):
        assert len(text_of(SOURCE).splitlines()) <= MOST_LINES
    for more in ([], ["--lint"]):
        with subtests.test("the program takes the tree file %s" % " ".join(more)):
            assert smi("check", os.path.join(ROOT, TREE), *more) == (
                b"tree 3000 stations 11 operators 12 domains 100 devices 500\n", b"", 0)
    found = hierarchy.read(os.path.join(ROOT, TREE))
    subs = "VTX TRK RICH ECAL HCAL MUON".split()
    sizes = {"LV": 8, "HV": 12, "COOL": 4, "ENV": 4, "FEE": 8, "DAQ": 4}
    sides = ["%s_%s" % it for it in itertools.product(subs, "AC")]
    groups = {"%s_%s" % (side, kind): size for side in sides for kind, size in sizes.items()}
    groups.update(TRG_L1=4, TRG_HLT=6, RUN_EVB=4, RUN_STORE=2, INFRA_POWER=2, INFRA_GAS=2)
    with subtests.test("the domains of the experiment"):
        assert set(found.domains) == {"EXPERIMENT", "TRG", "RUN", "INFRA", *subs, *sides, *groups}
    with subtests.test("the devices of the experiment"):
        assert set(found.devices) == {"%s_%d" % (name, n) for name, size in groups.items() for n in range(1, size + 1)}
    with subtests.test("each group has its devices"):
        assert all(len(found.devices_of(name)) == size for name, size in groups.items())
    with subtests.test("the addresses of the sub-detectors"):
        assert [found.stations[it + "_NODE"] for it in subs] == ["10.30.0.%d:9000" % n for n in range(21, 27)]


def test_rules_of_the_example():
    """In the example some rule of each unit class holds, whatever its members are in."""
    lines = [line.split() for line in text_of(TREE).splitlines()]
    states = [words[1] for words in lines if words[0] == "state"]
    for name in ("GROUP", "PART", "PARTITION"):
        assert {words[2] for words in lines if words[:2] == ["any", name]} == set(states)


def test_page():
    """What docs/TREES.md shows of the source is in it, line for line."""
    shown = re.findall(r"^```source\n(.*?)^```$", text_of("docs/TREES.md"), flags=re.M | re.S)
    source = "\n" + text_of(SOURCE)
    assert len(shown) == 5 and all("\n" + it in source for it in shown)
