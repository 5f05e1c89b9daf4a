"""Nodes as processes: what each prints and how it ends, three of them over UDP, and what a store or an address does to
one. What a node prints is compared with docs/FORMATS.md, "A node's lines".
"""

import os
import socket
import sqlite3
import subprocess
import time

import pytest

import nodes
import running
import stores
from nodes import FEW, SOME
from running import DEADLINE

WELL, STORE_FAULT, WRONG = ([], [], 0), ([], ["store fault"], 3), ([], ["wrong line"], 2)
BOOT = (1, 0, 0)
# How many lines are typed at one console, and how many seconds the node may take for them.
MANY, LATER = 200_000, 60


def test_three(folder, start_node, subtests):
    """Three nodes: a crew takes the top, includes both halves, and configures them."""
    tree = nodes.write_tree(folder, nodes.free_ports(3))
    orders = ["take DCS", "include DCS TPC", "include DCS MUON", "do DCS CONFIGURE"]
    begun = {}
    for name in "CBA":
        begun[name] = start_node(tree, name, os.path.join(folder, name), "--turns", 2000)
    told = [begun["A"].ask("order ANN " + order) for order in orders]
    with subtests.test("the crew is told"):
        assert told == ["told ANN %s 0" % order for order in orders]
    ends = [begun[name].end(60) for name in "ABC"]
    with subtests.test("how they end"):
        assert ends == [(told, [], 0), ([], [], 0), ([], [], 0)]
    with subtests.test("under a minute"):
        assert time.monotonic() - begun["C"].begun < 60
    rows = dict(row for name in "ABC" for row in stores.rows_in(os.path.join(folder, name)))
    # DCS is at epoch 1, held by ANN, its third command settled; both children are held by it, at epoch 1.
    held = "020100010000000000000001000000030000000000000002" + "".join(
        "%04x02000000000000000001000000010000" % child + "0000" for child in (2, 3))
    with subtests.test("what the top has saved"):
        assert rows[(1, 1, 0)] == held
    with subtests.test("what the halves have saved"):
        assert [rows[(station, station, 0)] for station in (2, 3)] == [
            "020200010000000000000001000000010000000000000000"] * 2


def test_killed(folder, tree, start_node, subtests):
    """A node is killed between two orders, and goes on after its last save."""
    words = [tree, "A", os.path.join(folder, "store"), "--turns", SOME]
    node = start_node(*words)
    told = [node.ask("order ANN " + order) for order in ("take DCS", "do DCS CONFIGURE")]
    node.kill()
    node = start_node(*words[:-1], 100)
    told += [node.ask("order ANN " + order) for order in ("take DCS", "do DCS START", "ask DCS", "drop DCS")]
    wanted = ["take DCS 0", "do DCS CONFIGURE 0", "take DCS 23", "do DCS START 0", "ask DCS ANN 1 2 settled 0",
              "drop DCS 0"]
    with subtests.test("a killed node goes on"):
        assert told == ["told ANN " + line for line in wanted]
    with subtests.test("a killed node ends well"):
        assert node.end() == (["told ANN " + line for line in wanted[2:]], [], 0)
    with subtests.test("a killed node has started twice"):
        assert ((1, 0, 0), "0200000000000002") in stores.rows_in(words[2])


LINES = [
    ("order ANN take DCS", "told ANN take DCS 0"),
    ("", None),
    ("# order ANN drop DCS", None),
    ("order BOB take TPC", "line 4 fault 5"),
    ("deliver 1", "line 5 fault 1"),
    ("tick A", "line 6 fault 1"),
    ("order ANN", "line 7 fault 2"),
    ("order ANN grab DCS", "line 8 fault 1"),
    ("show", "line 9 fault 2"),
    ("show DCS TPC", "line 10 fault 2"),
    ("show dcs", "line 11 fault 3"),
    ("show MUON", "line 12 fault 5"),
    ("show ANN", "line 13 fault 5"),
    ("show HV", "board HV none"),
    ("report HV READY", "told report HV READY 26"),
    ("report HV", "line 16 fault 2"),
    ("report DCS READY", "line 17 fault 5"),
    ("order ANN do DCS FLY", "line 18 fault 5"),
    ("x" * 201, "line 19 fault 10"),
    ("#" + "x" * 5000, "line 20 fault 10"),
    ("order ANN watch TPC" + " " * 170 + "\r", "told ANN watch TPC 0"),
    ("\torder  ANN\tdo DCS STOP ", "told ANN do DCS STOP 1"),
    ("order ANN exclude DCS TPC", "told ANN exclude DCS TPC 4"),
    ("order ANN include DCS DCS", "told ANN include DCS DCS 2"),
    ("order ANN manual DCS TPC", "told ANN manual DCS TPC 4"),
    ("order ANN ignore DCS TPC", "told ANN ignore DCS TPC 4"),
    ("order ANN unwatch TPC", "told ANN unwatch TPC 0"),
    ("order ANN ask DCS", "told ANN ask DCS ANN 1 5 settled 4"),
    ("order ANN drop DCS", "told ANN drop DCS 0"),
    ("order ANN drop DCS", "told ANN drop DCS 21"),
    ("order ANN do DCS START", "told ANN do DCS START 21"),
    ("@ show DCS", "line 32 fault 1"),
    ("@0123456789abcdefg show DCS", "line 33 fault 1"),
    ("@\x7f show DCS", "line 34 fault 1"),
    ("@a" + " " * 199 + "show DCS", "line 35 fault 10"),
]
# Lines with tags at a node of station A whose ANN waits for TPC, and what is printed for each.
TAGGED = [
    ("@1 show TPC", "@1 board TPC none"),
    ("  @a\tshow   DCS\r", "@a board DCS none"),
    ("@report report HV READY", "@report told report HV READY 26"),
    ("@1 order ANN", "@1 fault 2"),
    ("@1 order ANN grab DCS", "@1 fault 1"),
    ("@1 order BOB take TPC", "@1 fault 5"),
    ("@1 show dcs", "@1 fault 3"),
    ("@1 deliver 1", "@1 fault 1"),
    ("@1", "@1 fault 2"),
    ("@1 # show DCS", "@1 fault 2"),
    ("@1 under", "@1 fault 2"),
    ("@1 under way now", "@1 fault 2"),
    ("@1 counts all", "@1 fault 2"),
    ("@0123456789abcdef show DCS", "@0123456789abcdef board DCS none"),
    ("@!~ show DCS", "@!~ board DCS none"),
]


def test_line(folder, tree, run_node, subtests):
    """A line after the other, good and bad ones, each answered before the next; and the same all at once."""
    answers = [answer for _, answer in LINES if answer]
    faults = [line for line in answers if line.startswith("line")]
    told = [line for line in answers if not line.startswith("line")], faults, 0
    given = "\n".join(line for line, _ in LINES)
    with subtests.test("lines of a crew"):
        assert run_node(tree, "A", os.path.join(folder, "store"), "--turns", 300, given=given) == told
    # Of a station with a device, its reports and what it shows of itself: nothing, for it watches no object of its own.
    given = "report HV READY\nreport HV ERROR\norder BOB take TPC\norder BOB do TPC CONFIGURE\nshow HV\nshow TPC"
    wanted = ["told report HV READY 0", "told report HV ERROR 0", "told BOB take TPC 0", "told BOB do TPC CONFIGURE 0",
              "board HV none", "board TPC none"]
    with subtests.test("lines with reports"):
        assert run_node(tree, "B", os.path.join(folder, "other"), "--turns", 300, given=given) == (wanted, [], 0)


def test_shown(folder, tree, start_node, subtests):
    """What one station's devices do is shown on the board of another, and does not go back when that one ends."""
    keeper = start_node(tree, "B", os.path.join(folder, "B"), "--turns", SOME)
    other = start_node(tree, "A", os.path.join(folder, "A"), "--turns", SOME)
    seen, shown = [], []
    for line, wanted in [("show TPC", "board TPC 1.0 OFF"), ("report HV READY", "told report HV READY 0"),
                         ("show TPC", "board TPC 1.1 READY"), ("report HV RUNNING", "told report HV RUNNING 0"),
                         ("show TPC", "board TPC 1.2 RUNNING")]:
        node = keeper if line.startswith("report") else other
        answer, until = node.ask(line), time.monotonic() + DEADLINE
        while answer != wanted and line.startswith("show") and time.monotonic() < until:
            time.sleep(0.02)
            answer = node.ask(line)
        seen, shown = seen + [answer], shown + [wanted]
    with subtests.test("a board of another station's objects"):
        assert seen == shown
    keeper.kill()
    # before it can be shown anything newer
    answers = [other.ask("show TPC")]
    keeper = start_node(tree, "B", os.path.join(folder, "B"), "--turns", SOME)
    until = time.monotonic() + DEADLINE
    while answers[-1] != "board TPC 2.0 OFF" and time.monotonic() < until:
        time.sleep(0.02)
        answers.append(other.ask("show TPC"))
    keeper.kill()
    other.kill()
    boards = ["board TPC 1.2 RUNNING", "board TPC 2.0 OFF"]
    with subtests.test("a board of a station that was started again"):
        assert [sorted(set(answers)), answers] == [boards, sorted(answers)]


@pytest.fixture
def begun(folder, tree, run_node):
    """Returns a function that runs a node on a store of this name in the folder."""
    return lambda name, **how: run_node(tree, "A", os.path.join(folder, name), "--turns", FEW, **how)


def test_a_store_in_no_folder(begun):
    assert begun(os.path.join("none", "store")) == STORE_FAULT


def test_a_store_that_is_a_folder(folder, tree, run_node):
    assert run_node(tree, "A", folder, "--turns", FEW) == STORE_FAULT


def test_a_store_by_no_text(begun):
    assert begun("no text \udcff") == STORE_FAULT


def test_a_store_that_is_a_text(folder, begun, subtests):
    path, text = os.path.join(folder, "text"), b"This is no database, and long enough to be seen as none.\n" * 20
    running.write(path, text)
    with subtests.test("it is refused"):
        assert begun("text") == STORE_FAULT
    with subtests.test("and left"):
        assert running.read(path) == text


def test_a_store_with_another_table(folder, begun):
    path = stores.store(os.path.join(folder, "other"), stores.TABLE.replace(" STRICT", ""), stores.ROWS)
    assert [begun("other"), stores.rows_in(path)] == [STORE_FAULT, stores.ROWS]


def test_a_store_that_another_program_writes(folder, begun, subtests):
    file = sqlite3.connect(stores.store(os.path.join(folder, "locked"), stores.TABLE, []))
    file.execute("BEGIN EXCLUSIVE")
    with subtests.test("while it does"):
        assert begun("locked") == STORE_FAULT
    file.close()
    with subtests.test("once it has"):
        assert begun("locked") == WELL


def test_a_store_that_may_not_be_written(folder, begun):
    """The node runs as another user, for whom the files may only be read."""
    sealed = os.path.join(folder, "sealed")
    os.mkdir(sealed)
    os.chmod(stores.store(os.path.join(sealed, "store"), stores.TABLE, []), 0o444)
    os.chmod(sealed, 0o555)
    as_other, at = {}, folder
    if not os.geteuid():
        as_other = {"user": 65534, "group": 65534, "extra_groups": []}
        # the folder of the test is open to no other user
        while at != os.path.dirname(at):
            mode = os.stat(at).st_mode
            if not mode & 0o001:
                os.chmod(at, mode | 0o055)
            at = os.path.dirname(at)
    ended = begun(os.path.join("sealed", "store"), **as_other)
    os.chmod(sealed, 0o755)
    assert ended == STORE_FAULT


def test_second(folder, tree, run_node, start_node, subtests):
    """A second node on a store is refused, and the first goes on."""
    words = [tree, "A", os.path.join(folder, "store"), "--turns", SOME]
    node = start_node(*words)
    told = [node.ask("order ANN take DCS")]
    with subtests.test("a second node on a store"):
        assert run_node(*words) == STORE_FAULT
    told += [node.ask("order ANN do DCS CONFIGURE"), node.ask("order ANN drop DCS")]
    node.kill()
    with subtests.test("the first node goes on"):
        assert told == ["told ANN take DCS 0", "told ANN do DCS CONFIGURE 0", "told ANN drop DCS 0"]


def test_row(folder, tree, run_node, subtests):
    """What rows do to a node that begins: refused ones, a spent boot, and such as are brought into their newest
    schema."""
    def begun(name, rows):
        path = stores.store(os.path.join(folder, name), stores.TABLE, rows)
        return run_node(tree, "A", path, "--turns", FEW), stores.rows_in(path)

    for name, rows, told in [
        ("a row that is too short", [((1, 1, 0), "0201000200000000000000010000000000000000000000")],
         "row 1 1 0 fault 1"),
        ("a row of no schema", [(BOOT, "0900000000000001")], "row 1 0 0 fault 2"),
        ("a boot of 0", [(BOOT, "0200000000000000")], "row 1 0 0 fault 3"),
        ("a row of both a domain and an operator", [(BOOT, "0200000000000001"), ((1, 1, 1), "00")],
         "row 1 1 1 fault 4"),
        ("two rows that are refused", [((1, 1, 0), ""), ((1, 0, 1), "00")], "row 1 0 1 fault 2"),
    ]:
        with subtests.test(name):
            assert begun(name, rows) == (([], [told], 1), sorted(rows))
    spent = [(BOOT, "02000000ee6b2800")]
    with subtests.test("boots that are spent"):
        assert begun("spent", spent) == (([], ["boots spent"], 3), spent)
    with subtests.test("the last boot"):
        assert begun("last", [(BOOT, "02000000ee6b27ff")]) == (([], [], 0), spent)
    # BOB's row is another station's and is left alone, whatever it says.
    old = [(BOOT, "0100000000000002"), ((1, 1, 0), "010100010000000000000001000000000000000000000000"),
           ((2, 0, 2), "99")]
    new = [(BOOT, "0200000000000003"), ((1, 1, 0), "020100010000000000000001000000000000000000000000"),
           ((2, 0, 2), "99")]
    with subtests.test("rows of the first schema"):
        assert begun("old", old) == (([], [], 0), new)


def test_address(folder, ports, tree, run_node, subtests):
    """An address in use, and the order in which faults are found."""
    store = os.path.join(folder, "store")
    with socket.socket(socket.AF_INET, socket.SOCK_DGRAM) as taken:
        taken.bind(("127.0.0.1", ports[0]))
        with subtests.test("an address in use"):
            assert run_node(tree, "A", store, "--turns", FEW) == ([], ["link fault"], 3)
        # The socket is opened last: the station has started then.
        with subtests.test("an address in use: the station was opened"):
            assert stores.rows_in(store) == [(BOOT, "0200000000000001")]
        nowhere, none = os.path.join(folder, "nowhere"), os.path.join(folder, "none", "store")
        for name, words, told in [
            ("no tree file", [nowhere, "Z", none], ([], ["read fault"], 3)),
            ("no station of that name", [tree, "Z", none], WRONG),
            ("a station's number", [tree, "1", none], WRONG),
            ("an operator for a station", [tree, "ANN", none], WRONG),
            ("no such store, nor address", [tree, "A", none], STORE_FAULT),
            ("turns before a tree file that is not there", ["--turns", "0", nowhere, "A", store], WRONG),
        ]:
            with subtests.test("faults in order: " + name):
                assert run_node(*words) == told
    path = running.write(os.path.join(folder, "faulty"), "tree 17\nstation A\n")
    with subtests.test("faults in order: a faulty tree file"):
        assert run_node(path, "Z", none) == ([], ["tree line 2 fault 2"], 1)


WORDS = [[], ["TREE"], ["TREE", "A"], ["TREE", "A", "STORE", "B"], ["TREE", "A", "STORE", "--turns"],
         ["TREE", "A", "STORE", "--help"], ["help"], ["TREE", "A", "STORE", "--turns", "5", "--turns", "5"],
         ["TREE", "A", "STORE", "--steps", "5"], ["TREE", "A", "STORE", "--endless", "--turns", "5"],
         ["TREE", "A", "STORE", "--endless", "--endless"], ["TREE", "A", "STORE", "--endless=1"],
         ["TREE", "A", "STORE", "--endless", "5"], ["TREE", "A", "STORE", "--", "--turns", "5"]]
WORDS += [["TREE", "A", "STORE", "--turns", it] for it in ("0", "1000001", "-1", "1.5", "x", "", "00000000001")]
RIGHT_WORDS = [["--turns", FEW, "TREE", "A", "STORE"], ["TREE", "--turns=%d" % FEW, "A", "STORE"],
               ["TREE", "A", "STORE", "--turns", "0000000003"]]


@pytest.mark.parametrize("words, told", [(it, WRONG) for it in WORDS] + [(it, WELL) for it in RIGHT_WORDS], ids=str)
def test_words(folder, tree, run_node, words, told):
    """Words of the command line, in which TREE and STORE are paths."""
    paths = {"TREE": tree, "STORE": os.path.join(folder, "store")}
    assert run_node(*(paths.get(it, it) for it in words)) == told


def test_console(program, folder, tree, subtests):
    """What a console does to a node: none of it ends the service."""
    words = [program, "node", tree, "A", os.path.join(folder, "store"), "--turns", str(FEW)]

    def end(**how):
        done = subprocess.run(words, stderr=subprocess.PIPE, timeout=DEADLINE, check=False, **how)
        return done.stderr.decode().splitlines(), done.returncode

    with subtests.test("no input"):
        assert end(stdin=subprocess.DEVNULL, stdout=subprocess.DEVNULL) == ([], 0)
    place = os.open(folder, os.O_RDONLY)
    with subtests.test("an input that can't be read"):
        assert end(stdin=place, stdout=subprocess.DEVNULL) == (["read fault"], 0)
    os.close(place)
    with open("/dev/full", "wb") as full:
        with subtests.test("an output that can't be written"):
            assert end(input=b"show DCS\nshow DCS\n", stdout=full) == (["write fault"], 0)
    read, write = os.pipe()
    with subtests.test("an input that never ends"):
        assert end(stdin=read, stdout=subprocess.DEVNULL) == ([], 0)
    os.close(read)
    os.close(write)


def test_many_lines(folder, tree, start_node, subtests):
    """However many lines a console was given, it takes the next one, and has counted them all."""
    node = start_node(tree, "A", os.path.join(folder, "store"), "--endless")
    node.say("#\n" * (MANY - 1) + "#")
    with subtests.test("a line after %d others" % MANY):
        assert node.ask("show DCS", LATER) == "board DCS none"
    with subtests.test("they are counted"):
        assert node.ask("show dcs", LATER) == "line %d fault 3" % (MANY + 2)


def test_hostile(folder, ports, tree, start_node, subtests):
    """Bytes of all lengths, and datagrams of other trees and stations, between two orders."""
    node = start_node(tree, "A", os.path.join(folder, "store"), "--turns", SOME)
    told = [node.ask("order ANN take DCS")]
    take = bytes.fromhex("534d01020002000100010100000200000000000000000001000000000000" + "0011" + "00" * 12)
    with socket.socket(socket.AF_INET, socket.SOCK_DGRAM) as other:
        for data in [b"", b"x", take[:-1], take + b"x", bytes(44), b"\xff" * 44, bytes(2000),
                     take[:-13] + b"\x12" + bytes(12), take]:
            for _ in range(20):
                other.sendto(data, ("127.0.0.1", ports[0]))
    told += [node.ask("order ANN do DCS CONFIGURE"), node.ask("order ANN ask DCS")]
    node.kill()
    with subtests.test("bytes that are no datagrams of the node"):
        assert told == ["told ANN take DCS 0", "told ANN do DCS CONFIGURE 0", "told ANN ask DCS ANN 1 1 settled 0"]


def test_tag(folder, tree, start_node, subtests):
    """Lines with tags, while the first line waits for a station that is away: none of them waits for it."""
    node = start_node(tree, "A", os.path.join(folder, "A"), "--endless")
    node.say("order ANN take TPC")
    node.say("show TPC")
    answers = [(line, node.ask(line)) for line, _ in TAGGED]
    with subtests.test("lines with tags"):
        assert answers == TAGGED
    with subtests.test("an order about another domain"):
        assert node.ask("@v order ANN take DCS") == "@v told ANN take DCS 0"
    # One about the same domain waits for the first.
    node.say("@w order ANN drop TPC")
    told = [node.ask("@u under way")]
    time.sleep(2)
    node.say("@u under  way")
    told += [node.next() for _ in range(5)]
    # The seconds of each order are looked at apart from the rest of its line.
    seconds = [int(line.rsplit(" ", 1)[1]) for line in told if " way ANN " in line]
    wanted = ["@u way ANN take TPC", "@u way ANN drop TPC", "@u under way"] * 2
    with subtests.test("orders under way"):
        assert [[line.rsplit(" ", 1)[0] for line in told], told[2] == told[5] == "@u under way 2",
            all(0 <= first < later for first, later in zip(seconds[:2], seconds[2:]))] == [wanted, True, True]
    start_node(tree, "B", os.path.join(folder, "B"), "--endless")
    ends = [node.next() for _ in range(3)]
    # What the board shows by then is whether a state of the station that came up was faster than its answer.
    boards = ["board TPC none", "board TPC 1.0 OFF"]
    with subtests.test("the order that waited, and the lines that waited for it"):
        assert [ends[0], sorted("board" if it in boards else it for it in ends[1:])] == [
            "told ANN take TPC 0", ["@w told ANN drop TPC 0", "board"]]


def test_many_tags(folder, tree, start_node, subtests):
    """Forty orders of one operator are sent without waiting. Each is answered once, after its tag."""
    node = start_node(tree, "A", os.path.join(folder, "A"), "--endless")
    told = [node.ask("order ANN take DCS")]
    for place in range(40):
        node.say("@%d order ANN do DCS CONFIGURE" % place)
    told += [node.next() for _ in range(40)]
    wanted = ["told ANN take DCS 0"] + ["@%d told ANN do DCS CONFIGURE 0" % place for place in range(40)]
    # A command that a later one has overtaken is told 8: it has ended, and how was not seen.
    with subtests.test("forty commands at once"):
        assert [line.replace("CONFIGURE 8", "CONFIGURE 0") for line in told] == wanted
