"""Schedules as `smi sim` runs them: the plays of schedules.txt line by line, faulty lines, and drawn schedules.

What a line of a schedule leaves is what the program prints for the lines up to it beyond what it prints for those
before it, because it runs line after line.
"""

import os
import shutil
import subprocess

import pytest

import leaks
import running

TREE = running.example("worked.tree")
OPENING = b"booted A 1\npassed DCS 1.0 OFF\nbooted B 1\npassed TPC 1.0 OFF\npassed HV 1.0 OFF\n"
SETTLED_AT_ONCE = OPENING + b"settled after 0 items\n"


def read_plays():
    """Returns the plays by name: each line with what it leaves, or with None."""
    plays = {}
    with open(os.path.join(running.HERE, "schedules.txt"), encoding="ascii") as file:
        for line in file:
            line = line.strip()
            if line.startswith("play "):
                name = line[5:]
                plays[name] = []
            elif line.startswith("after "):
                other, last = line[6:].split(" / ")
                lines = [item for item, _ in plays[other]]
                plays[name] = [(item, None) for item in lines[: lines.index(last) + 1]]
            elif line and not line.startswith("#"):
                item, arrow, leaves = line.partition(" => ")
                plays[name].append((item, leaves if arrow else None))
    return plays


@pytest.fixture
def sim(smi):
    """Returns a function that runs `smi sim` over the worked tree."""
    return lambda *words, **how: smi("sim", TREE, *words, **how)


@pytest.fixture
def played(sim, folder):
    """Returns a function that runs `smi sim` over the worked tree and a schedule of this text."""
    path = os.path.join(folder, "schedule")
    return lambda text, *words: sim(running.write(path, text), *words)


def as_said(lines, said):
    """Returns the lines that a line of a schedule is said to leave, as they came and as they are wanted."""
    if said == "nothing":
        return lines, []
    is_whole = said.startswith("only ")
    wanted = (said[5:] if is_whole else said).split("; ")
    if not is_whole:
        sent = [it for it in wanted if it.startswith("sent ")]
        lines = [it for it in lines if not it.startswith("sent ") or it in sent]
    return lines, wanted


@pytest.mark.parametrize("items", [pytest.param(items, id=name) for name, items in read_plays().items()])
def test_play(played, items):
    """Each line of a play leaves what is said of it."""
    before, text, came, wanted = OPENING, b"", [], []
    for item, said in items:
        text += item.encode("ascii") + b"\n"
        out, err, status = played(text)
        left, is_longer = out[len(before):].decode("ascii").splitlines(), out.startswith(before)
        pairs = [((err, status, is_longer), (b"", 0, True))] + ([as_said(left, said)] if said is not None else [])
        came += [(item, one) for one, other in pairs if one != other]
        wanted += [(item, other) for one, other in pairs if one != other]
        before = out
    assert came == wanted


TAKE = b"sent 1 TAKE B B TPC\n"
# Schedules as texts: what is printed, what is told and the status.
TEXTS = [
    ("an empty schedule", b"", OPENING, b"", 0),
    ("comments and empty lines", b"# one\n\n \t\n#two", OPENING, b"", 0),
    ("a line that is faulty behind one that stands", b"order BOB take TPC\ndelivr 1\n", OPENING + TAKE,
     b"schedule line 2 fault 1\n", 1),
    ("a last line without its line feed", b"order BOB take TPC", OPENING + TAKE, b"", 0),
    ("carriage returns", b"order BOB take TPC\r\n\r\n", OPENING + TAKE, b"", 0),
    ("a line of 200 bytes", b"#" + b"x" * 199 + b"\n", OPENING, b"", 0),
    ("a line of 201 bytes", b"\n#" + b"x" * 200 + b"\n", OPENING, b"schedule line 2 fault 10\n", 1),
    ("a datagram that was never sent", b"deliver 1\nrecent 0\n", OPENING, b"", 0),
]
# Faulty lines, and the number of each fault.
FAULTS = [
    (b"walk A", 1), (b"stop A now tick A", 1), (b"stop A after restart A", 1),
    (b"stop A after fail A device tick A", 1),
    (b"fail A never tick A", 1), (b"fail A device restart A", 1), (b"fail A device stop A after tick A", 1),
    (b"order BOB keep TPC", 1), (b"tick", 2), (b"tick A B", 2), (b"order BOB take", 2), (b"deliver 0", 3),
    (b"deliver x", 3),
    (b"tick C", 5), (b"order CAT take TPC", 5), (b"order BOB take HV", 5), (b"order BOB do TPC WALK", 5),
    (b"report TPC READY", 5), (b"report HV BLUE", 5), (b"restart DCS", 5), (b"stop C after tick A", 5),
    (b"walk", 1), (b"tick C A", 2),
]
TEXTS += [("the fault of `%s`" % line.decode(), line + b"\n", OPENING, b"schedule line 1 fault %d\n" % code, 1)
          for line, code in FAULTS]


@pytest.mark.parametrize("text, out, err, status", [pytest.param(*told, id=name) for name, *told in TEXTS])
def test_text(played, text, out, err, status):
    assert played(text) == (out, err, status)


# Words of `smi sim` beside those of the tree: these are none of its forms, and these are.
WRONG = [
    [], ["SCHEDULE", "SCHEDULE"], ["--seed", "1"], ["--steps", "1"], ["SCHEDULE", "--seed", "1"],
    ["SCHEDULE", "--steps", "1"],
    ["SCHEDULE", "--seed", "1", "--steps", "1"], ["--seed", "x", "--steps", "1"], ["--seed", "+1", "--steps", "1"],
    ["--seed", "", "--steps", "1"],
    ["--seed", "18446744073709551616", "--steps", "1"], ["--seed", "1", "--steps", "1000001"],
    ["--seed", "1", "--seed", "1", "--steps", "1"], ["--", "SCHEDULE"],
]
WRONG += [["--settle"], ["SCHEDULE", "--settle", "--settle"], ["SCHEDULE", "--settle=1"], ["--settle", "--seed", "1"]]
RIGHT = [["--seed", "0", "--steps", "0"], ["--steps", "00", "--seed", "18446744073709551615"],
         ["--seed=1", "--steps=0"]]
SETTLING = [["SCHEDULE", "--settle"], ["--settle", "--seed", "0", "--steps", "0"]]


@pytest.fixture
def empty(folder):
    return running.write(os.path.join(folder, "empty schedule"), "")


@pytest.mark.parametrize("words, told", [
    (words, told) for listed, told in [(WRONG, (b"", b"wrong line\n", 2)), (RIGHT, (OPENING, b"", 0)),
                                       (SETTLING, (SETTLED_AT_ONCE, b"", 0))] for words in listed], ids=str)
def test_words(sim, empty, words, told):
    assert sim(*(empty if it == "SCHEDULE" else it for it in words)) == told


def test_a_schedule_that_is_nowhere(sim, folder):
    assert sim(os.path.join(folder, "no such file")) == (b"", b"read fault\n", 3)


def test_a_schedule_that_is_a_folder(sim, folder):
    assert sim(folder) == (OPENING, b"read fault\n", 3)


def test_options_before_the_tree(smi):
    out, _, status = smi("sim", "--seed", "0", TREE, "--steps", "0")
    assert (out, status) == (OPENING, 0)


# What is printed fits a buffer, so that no write before the flush at the end can fail.
@pytest.mark.parametrize("words", [["SCHEDULE"], RIGHT[0], *SETTLING], ids=str)
def test_a_full_device(sim, empty, words):
    with open("/dev/full", "wb") as full:
        told = sim(*(empty if it == "SCHEDULE" else it for it in words), stdout=full)
    assert told[1:] == (b"write fault\n", 3)


# Schedules that go on until nothing is under way, with what is printed after the opening. Each round is the ticks of A
# and B, with a start before if one has stopped, and then the delivery of what was sent since the round before.
SETTLED = [
    # What the order sent is not delivered. In the first round it is sent again as 3, and B grants it; in the second
    # come A's view of TPC and BOB's answer, and what the ticks have sent once more.
    ("a take that was lost", b"order BOB take TPC\n", b"""sent 1 TAKE B B TPC
sent 2 WATCH A B TPC
sent 3 TAKE B B TPC
sent 4 STATE B A TPC
granted TPC 1 BOB
sent 5 TELL B B TPC
sent 6 WATCH A B TPC
sent 7 TAKE B B TPC
showed A TPC 1.0 OFF
learned BOB TPC 1
told BOB take TPC 0
sent 8 STATE B A TPC
sent 9 TELL B B TPC
settled after 10 items
"""),
    # A save that was left unsure has stopped B: it starts again, and nothing of the order is left.
    ("a station that has stopped", b"fail B before order BOB take TPC\n", b"""sent 1 WATCH A B TPC
booted B 2
passed TPC 2.0 OFF
passed HV 2.0 OFF
sent 2 STATE B A TPC
settled after 4 items
"""),
    ("a schedule with a faulty line", b"order BOB take TPC\nwalk\n", b"sent 1 TAKE B B TPC\n"),
]


@pytest.mark.parametrize("text, printed", [pytest.param(*told, id=name) for name, *told in SETTLED])
def test_settled(played, text, printed):
    """A schedule that is led to rest, or is faulty and is not."""
    told = (b"", 0) if printed.endswith(b"items\n") else (b"schedule line 2 fault 1\n", 1)
    assert played(text, "--settle") == (OPENING + printed, *told)


def test_many_ticks(played):
    """A schedule past the size of a file that is read whole is streamed."""
    # each tick asks for the state of the child's unit
    asked = b"".join(b"sent %d WATCH A B TPC\n" % number for number in range(1, 43001))
    assert played(b"tick A\n" * 43000) == (OPENING + asked, b"", 0)


def test_drawn_items_are_a_prefix_of_more(sim):
    some, many = (sim("--seed", "1", "--steps", steps)[0] for steps in ("1000", "2000"))
    assert some.startswith(OPENING) and many.startswith(some) and len(many) > len(some)


def test_a_reader_that_goes_away(program, folder):
    path = running.write(os.path.join(folder, "schedule"), b"order BOB take TPC\ndeliver 1\n" * 200000)
    child = subprocess.Popen([program, "sim", TREE, path], stdout=subprocess.PIPE, stderr=subprocess.PIPE)
    begun = child.stdout.read(1000)
    child.stdout.close()
    told = child.stderr.read()
    assert (begun.startswith(OPENING), told, child.wait()) == (True, b"write fault\n", 3)


@pytest.mark.skipif(not shutil.which("valgrind"), reason="there is no valgrind")
@pytest.mark.parametrize("tree", leaks.DRAWN)
def test_leak(program, tree):
    """A drawn schedule under valgrind prints what it does without, and valgrind finds nothing."""
    plain, seen = leaks.drawn(program, tree)
    assert seen == (plain[0], b"", 0)
