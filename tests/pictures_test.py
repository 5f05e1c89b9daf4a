"""The tools beside the program: pictures of trees and traces, schedules with their traces, recorded schedules, rows."""

import os
import re
import sys
import xml.etree.ElementTree as xml

import pytest

import draw
import hierarchy
import play
import record
import rows
import running
from pictures import PICTURES, pictures, played
from running import example, text_of

SVG = "{http://www.w3.org/2000/svg}"
# What a short schedule leaves: each station starts, a take is sent, a datagram that was never sent does nothing, and a
# tick asks for the state of the child below.
PLAYED = ["booted A 1", "passed DCS 1.0 OFF", "booted B 1", "passed TPC 1.0 OFF", "passed HV 1.0 OFF",
          "# order BOB take TPC", "sent 1 TAKE B B TPC", "# deliver 9", "# tick A", "sent 2 WATCH A B TPC"]


def texts_of(picture):
    return [it.text for it in picture.iter(SVG + "text")]


def boxes_of(picture, word):
    """Returns left, top, right and bottom of the boxes whose title has a word, by their titles."""
    found = {}
    for box in picture.iter(SVG + "rect"):
        title = box.find(SVG + "title")
        if title is not None and word in title.text:
            left, top, wide, high = (float(box.get(name)) for name in ("x", "y", "width", "height"))
            found[title.text] = (left, top, left + wide, top + high)
    return found


def are_apart(boxes):
    """Returns true if no two boxes have a point in common."""
    boxes = list(boxes)
    return all(one[2] <= other[0] or other[2] <= one[0] or one[3] <= other[1] or other[3] <= one[1]
               for place, one in enumerate(boxes) for other in boxes[:place])


def inside(picture):
    """Returns true if every text begins and ends within the picture."""
    wide, high = float(picture.get("width")), float(picture.get("height"))
    for it in picture.iter(SVG + "text"):
        if it.get("transform"):
            continue
        length = draw.width_of(it.text, int(it.get("font-size")))
        x = float(it.get("x")) - {"end": length, "middle": length / 2}.get(it.get("text-anchor"), 0)
        if x < 0 or x + length > wide or not 0 <= float(it.get("y")) <= high:
            return False
    return True


@pytest.mark.parametrize("levels", [8, 2])
@pytest.mark.parametrize("name", ["worked.tree", "three.tree", "detector.tree"])
def test_tree(name, levels, subtests):
    """An example tree, drawn whole or folded: its domains, its devices and its stations are all there once."""
    lines = [line.split() for line in text_of(example(name)).splitlines() if line.split()]
    domains = [words[1] for words in lines if words[0] == "domain"]
    devices = sum(words[0] == "device" for words in lines)
    tree = hierarchy.read(example(name))
    picture = xml.fromstring(str(draw.draw_tree(tree, levels)))
    texts, boxes = texts_of(picture), boxes_of(picture, ", class ")
    with subtests.test("boxes are apart"):
        assert are_apart(boxes.values()) and len(boxes) > 1
    with subtests.test("texts are inside"):
        assert inside(picture)
    counted = sum(int(number) for text in texts for number in re.findall(r"(\d+) devices?$", text))
    with subtests.test("every device is counted once"):
        assert counted == devices
    folded = sum(int(number) for text in texts for number in re.findall(r"(\d+) domains?\b", text))
    with subtests.test("every domain is drawn or counted once"):
        assert len(boxes) + folded == len(domains)
    if levels == 8:
        drawn = [text.split(",")[0] for text in boxes]
        with subtests.test("every domain is drawn"):
            assert drawn == [it.name for root in tree.children(None) for it in draw.Branch(tree, root, 1, 8).all()]
            assert sorted(drawn) == sorted(domains)
    stations = [words[1:] for words in lines if words[0] == "station"]
    with subtests.test("every station is in the legend"):
        assert all("%s  %s" % tuple(it) in texts for it in stations)


def test_moment(program, folder, subtests):
    """The detector while the tracker runs alone: two operators command, and one of them not the tracker."""
    picture = xml.fromstring(pictures(program, folder)["detector.svg"])
    held = boxes_of(picture, " holds ")
    with subtests.test("who holds what"):
        assert sorted(held) == ["SHIFT_LEADER holds EXPERIMENT", "TRK_EXPERT holds TRK"]
    loose = [it for it in picture.iter(SVG + "path") if it.get("stroke-dasharray")]
    # one line to a sub-detector that is not held, and the one that explains such lines
    with subtests.test("what is not held"):
        assert len(loose) == 2
    with subtests.test("texts of the detector are inside"):
        assert inside(picture)
    with subtests.test("every part runs"):
        assert sum(text.startswith("RUNNING") for text in texts_of(picture)) == 17


def crosses_of(picture):
    """Returns how many datagrams end in a cross, which is two strokes."""
    return sum(it.get("stroke") == draw.DARK[1] and it.get("stroke-width") == "2.0"
               for it in picture.iter(SVG + "path")) / 2


def test_trace(smi, program, subtests):
    """The worked schedule: arrows for deliveries, crosses for datagrams that never came, bars for grants."""
    schedule = play.items_of("\n".join(text_of(example("worked.schedule")).splitlines()))
    lines = played(program, example("worked.tree"), example("worked.schedule"))
    trace = [line for line in lines if not line.startswith("# ")]
    whole = smi("sim", example("worked.tree"), example("worked.schedule"))[0].decode().splitlines()
    with subtests.test("a play has its schedule"):
        assert [line[2:] for line in lines if line.startswith("# ")] == schedule
    with subtests.test("a play has its trace"):
        assert trace == whole
    sent = sum(line.startswith("sent ") for line in trace)
    came = [words[words.index("deliver") + 1] if "deliver" in words else "recent" for words in map(str.split, schedule)
            if "deliver" in words or "recent" in words]
    picture = xml.fromstring(str(draw.draw_trace(lines)))
    paths = list(picture.iter(SVG + "path"))
    with subtests.test("an arrow for each delivery"):
        assert sum(it.get("marker-end") is not None for it in paths) == len(came)
    with subtests.test("a cross for each datagram that never came"):
        assert crosses_of(picture) == sent - len(set(came)) > 0
    grants = [line.split()[1:] for line in trace if line.startswith("granted ")]
    bars = boxes_of(picture, ": granted to ")
    told = ["%s: granted to %s at epoch %s" % (domain, holder, epoch) for domain, epoch, holder in grants]
    with subtests.test("a bar for each grant"):
        assert sorted(bars) == sorted(told)
    with subtests.test("bars are apart"):
        assert are_apart(bars.values())
    starts = sum(line.startswith("booted ") for line in trace)
    with subtests.test("a mark for each start"):
        assert len(boxes_of(picture, " has started, ")) == starts
    with subtests.test("every line of the trace is told"):
        assert all(line in texts_of(picture) for line in trace if not line.startswith("sent "))
    with subtests.test("texts of the trace are inside"):
        assert inside(picture)
    # Here every datagram that came was answered or brought something about, and no other one.
    alone = xml.fromstring(str(draw.draw_trace(trace)))
    labels = [text for text in texts_of(alone) if re.fullmatch(r"\d+ [A-Z]+ \w+", text)]
    with subtests.test("a trace alone has all its datagrams"):
        assert len(labels) == sent
    with subtests.test("a trace alone has its crosses"):
        assert crosses_of(alone) == sent - len(set(came))


@pytest.mark.parametrize("text, wanted", [
    ("order BOB take TPC\n\n# no item\ndeliver 9\ntick A\n", PLAYED),
    ("tick B\n# no item\ndelivr 1\n", ["schedule line 3 fault 1"])])
def test_play(program, folder, text, wanted):
    """A play of these lines, worked out from the rules."""
    path = running.write(os.path.join(folder, "schedule"), text)
    words = [sys.executable, os.path.join(running.ROOT, "tools", "play.py"), program, example("worked.tree"), path]
    out, err, _ = running.run(words)
    assert (out + err).decode().splitlines() == wanted


RECORDED = [
    ("a take", ["order BOB take TPC"], ["order BOB take TPC", "deliver 1", "deliver 2"]),
    ("a take that is lost", ["lose TAKE TPC order BOB take TPC", "tick B"],
     ["order BOB take TPC", "tick B", "deliver 2", "deliver 3"]),
    ("a stop", ["stop B at TAKE TPC order BOB take TPC", "tick B"],
     ["order BOB take TPC", "stop B after deliver 1", "tick B", "deliver 2", "deliver 3"]),
    ("the first of two is lost", ["lose TAKE TPC together order ANN take TPC; order BOB take TPC"],
     ["order ANN take TPC", "order BOB take TPC", "deliver 2", "deliver 3"]),
    ("a stop at the first of two", ["stop B at TAKE TPC together order ANN take TPC; order BOB take TPC"],
     ["order ANN take TPC", "order BOB take TPC", "stop B after deliver 1", "deliver 2", "deliver 3"]),
    ("two takes", ["together order BOB take TPC; order ANN take DCS"],
     ["order BOB take TPC", "order ANN take DCS", "deliver 1", "deliver 2", "deliver 3", "deliver 4"]),
    ("reports and a place", ["# up", "report all TPC READY", "place here"],
     ["# up", "report HV READY", "# place here"]),
]


def outline(plan, tree):
    """Returns what a plan says beside its deliveries, as it is in the schedule."""
    found = []
    for line in plan:
        words = line.split()
        if not words or words[0].startswith("#"):
            found.append(line)
        elif words[0] == "place":
            found.append("# " + line)
        else:
            # what is before the line itself
            at = {"lose": 3, "stop": 5}.get(words[0], 0)
            found += record.made_of(" ".join(words[at:]), tree)
    return found


def test_shift(tree, subtests):
    """The shift's schedule is that of its plan, but for deliveries, of which each datagram has one at most."""
    plan, schedule = text_of(example("shift.plan")).splitlines(), text_of(example("shift.schedule")).splitlines()
    stops = [line for line in schedule if line.startswith("stop ")]
    given = [line for line in schedule if not line.startswith(("deliver ", "stop "))]
    with subtests.test("the shift is its plan"):
        assert given == outline(plan, hierarchy.read(example("detector.tree")))
    with subtests.test("the shift has its stops"):
        assert len(stops) == sum(line.startswith("stop ") for line in plan) > 0
    numbers = [line.split()[-1] for line in schedule if line.startswith(("deliver ", "stop "))]
    with subtests.test("the shift delivers no datagram twice"):
        assert len(set(numbers)) == len(numbers) > 1000


@pytest.mark.parametrize("plan, schedule", [pytest.param(*told, id=name) for name, *told in RECORDED])
def test_record(program, folder, plan, schedule):
    """A plan over the worked tree, and the schedule that it makes."""
    path = running.write(os.path.join(folder, "plan"), "\n".join(plan) + "\n")
    assert record.schedule(program, example("worked.tree"), path) == schedule


LINK = "0002" "03" "00" "0000000000000001" "00000001" "0001" "0001"
# Rows of docs/EXAMPLES.md, and what they say there.
SAID = [
    ("1 0 0 0200000000000002", ["station A: boot 2"]),
    ("1 1 0 020100020000000000000001000000000000000000000000",
     ["domain DCS at A: held by BOB at epoch 1, no command has run"]),
    ("1 1 0 020100010000000000000001000000020100000000000001" + LINK,
     ["domain DCS at A: held by ANN at epoch 1, command 2 is at work, largest code so far 0",
      "    TPC: held at epoch 1, included, 1 issued, not answered: 1 do CONFIGURE"]),
    ("2 0 2 03000001" + LINK,
     ["operator BOB at B: 1 link", "    TPC: held at epoch 1, 1 issued, not answered: 1 do CONFIGURE"]),
    ("2 0 2 03000001" "0002" "05" "00" "0000000000000001" "00000002" "0001" "0001" "0001" "0001" "0002",
     ["operator BOB at B: 1 link", "    TPC: held at epoch 1, 2 issued, not answered: 1 do CONFIGURE; 2 do START"]),
    ("1 0 0 09", ["station A: not a row that can be read: 09"]),
    ("1 1 1 0200", ["domain 1 and operator 1 at A: not a row that can be read: 0200"]),
    ("2 0 2 03000001" + LINK[:-2], ["operator BOB at B: not a row that can be read: 03000001" + LINK[:-2].lower()]),
]


@pytest.mark.parametrize("row, words", SAID)
def test_row(row, words):
    """A row in words."""
    assert rows.lines_of(hierarchy.read(example("worked.tree")), row + "\n") == words


def test_kept(program, folder, subtests):
    """The pictures of docs/pictures/ are those that are made now."""
    made = pictures(program, folder)
    with subtests.test("the pictures of docs/pictures/"):
        assert sorted(os.listdir(PICTURES)) == sorted(made)
    for name, text in made.items():
        with open(os.path.join(PICTURES, name), encoding="ascii") as file:
            with subtests.test("docs/pictures/%s is as it is drawn now" % name):
                assert file.read() == text
