"""Each reason that an audit may give, in short journals of the worked tree written by hand. The words are those of
docs/FORMATS.md, "The verdict of an audit".
"""

import os

import pytest

import journals
import running

TREE = journals.Tree(running.text_of(running.example("worked.tree")))
HELD = ["granted DCS 1 ANN", "learned ANN DCS 1"]
INCLUDED = [*HELD, "ordered ANN DCS 1 1 include TPC", "ran DCS 1 1 include TPC", "learned DCS TPC 1",
            "settled DCS 1 1 0"]
SHOWN = ["passed HV 1.3 READY"]

# What A and B tell after their starts, the last line of the first being the one that does not fit, and why it does not.
NEVER = [
    ([*HELD, "granted DCS 3 BOB"], [], "while ANN holds it since epoch 1"),
    (["freed DCS 2"], [], "while it is free since epoch 0"),
    ([*HELD, "letgo ANN DCS 1", "freed DCS 2", "learned ANN DCS 1"], [], "while it is free since epoch 2"),
    ([*HELD, "ran DCS 3 1 do START"], [], "while ANN holds it since epoch 1"),
    ([*HELD, "letgo ANN DCS 1", "granted DCS 2 ANN"], [], "but grants have odd epochs, and their ends even ones"),
    (["freed DCS 1"], [], "but grants have odd epochs, and their ends even ones"),
    (["granted DCS 1 TPC"], [], "but the tree lets it hold no such domain"),
    ([*HELD, "learned ANN DCS 1"], [], "which was learned before"),
    (["granted DCS 1 BOB", "ordered ANN DCS 1 1 do START"], ["learned BOB DCS 1"],
     "without holding it: BOB holds it since epoch 1"),
    ([*HELD, "letgo ANN DCS 1", "freed DCS 2", "letgo ANN DCS 1"], [],
     "without holding it: it is free since epoch 2"),
    ([*HELD, "ordered ANN DCS 1 2 do START"], [], "where number 1 is due"),
    ([*HELD, "ordered ANN DCS 1 1 do START", "ran DCS 1 2 do START"], [], "where number 1 is due"),
    ([*HELD, "ordered ANN DCS 1 1 do START", "ran DCS 1 1 do CONFIGURE"], [],
     "but under this number was ordered: do START"),
    ([*HELD, "letgo ANN DCS 1", "ran DCS 1 1 do START"], [], "after it was let go by ANN"),
    ([*HELD, "settled DCS 1 1 0"], [], "but it is not at work: 0 ran under epoch 1"),
    (["passed DCS 1.2 OFF", "passed DCS 1.1 OFF"], [], "after version 1.2"),
    (["showed A HV 1.3 READY", "showed A HV 1.3 READY"], SHOWN, "after version 1.3"),
    (["showed A HV 1.3 OFF"], SHOWN, "which it did not pass so: its newest version is 1.3"),
    (["showed A HV 1.2 OFF"], SHOWN, "which it did not pass so: its newest version is 1.3"),
]
WAITS = [
    (["showed A HV 1.4 OFF"], SHOWN, "passed HV 1.4 OFF"),
    (["learned ANN TPC 1"], [], "granted TPC 1 ANN"),
    (["granted DCS 1 BOB", "freed DCS 2"], [], "learned BOB DCS 1"),
    (["granted DCS 1 BOB", "freed DCS 2"], ["learned BOB DCS 1"], "letgo BOB DCS 1"),
    (["granted DCS 1 BOB", "ran DCS 1 1 do START"], ["learned BOB DCS 1"], "ordered BOB DCS 1 1"),
    ([*INCLUDED, "ordered ANN DCS 1 2 do START", "ran DCS 1 2 do START", "settled DCS 1 2 0"], ["granted TPC 1 DCS"],
     "settled TPC 1 1"),
]


def started(words):
    """Returns lines of a journal, each with its boot."""
    lines, boot = [], 0
    for it in words:
        boot = int(it.split(" ")[2]) if it.startswith("booted ") else boot
        lines.append((boot, it))
    return lines


@pytest.fixture
def audit(smi, folder):
    """Returns a function that audits journals of A and B of these words, and returns what is told and the status."""

    def run(has_ends, *words):
        files = []
        for station, its in zip("AB", words):
            text = journals.file_text(TREE, station, started(["booted %s 1" % station, *its]), has_ends)
            files.append(running.write(os.path.join(folder, station), text))
        out, err, status = smi("audit", running.example("worked.tree"), *files)
        return (out + err).decode().replace(folder + "/", ""), status

    return run


def last(words):
    """Returns the place and the words of a journal's last entry. The head of a file is line 1, and the start line 2."""
    return "line %d: %s" % (len(words) + 2, words[-1])


@pytest.mark.parametrize("has_ends", [True, False], ids=["ended", "open"])
@pytest.mark.parametrize("of_a, of_b, why", NEVER, ids=["%s, %s" % (of_a[-1], why) for of_a, _, why in NEVER])
def test_what_can_never_fit(audit, of_a, of_b, why, has_ends):
    assert audit(has_ends, of_a, of_b) == ("unsafe: A %s, %s\n" % (last(of_a), why), 1)


@pytest.mark.parametrize("of_a, of_b, need", WAITS, ids=["%s for %s" % (of_a[-1], need) for of_a, _, need in WAITS])
def test_what_waits(audit, of_a, of_b, need):
    """It may come as long as B's journal has no end: the start is at 45:00.00, and each line ten milliseconds later."""
    told = "A %s waits for %s of station B, whose journal ends 2026-11-28T17:45:00Z\n" % (last(of_a), need)
    assert audit(False, of_a, of_b) == ("open: " + told, 1)
    assert audit(True, of_a, of_b) == ("unsafe: " + told, 1)


def test_a_command_that_is_not_handed_on(audit):
    of_a = [*INCLUDED, "ordered ANN DCS 1 2 do CONFIGURE", "ran DCS 1 2 do CONFIGURE"]
    of_b = ["granted TPC 1 DCS", "ran TPC 1 1 do START"]
    assert audit(False, of_a, of_b) == (
        "unsafe: B %s, which is no command that is handed on by DCS\n" % last(of_b), 1)


def test_a_run_that_nobody_hands_on(audit):
    of_b = ["granted TPC 1 DCS", "ran TPC 1 1 do START"]
    assert audit(False, INCLUDED, of_b) == ("open: B %s waits for a run of DCS that is handed on of station A, whose"
                                            " journal ends 2026-11-28T17:45:00Z\n" % last(of_b), 1)


def test_a_journal_that_is_not_given(audit):
    of_a = ["learned ANN TPC 1"]
    assert audit(False, of_a) == (
        "open: A %s waits for granted TPC 1 ANN of station B, of which no journal is given\n" % last(of_a), 1)


def test_a_journal_that_tells_of_later(audit):
    """B's journal goes on for more than a minute after the entry that waits, at ten milliseconds a line."""
    of_a, most = ["learned ANN TPC 1"], 6_005
    of_b = ["passed HV 1.%d OFF" % number for number in range(most)]
    assert audit(False, of_a, of_b) == ("open: A %s waits for granted TPC 1 ANN of station B, whose journal ends"
                                        " 2026-11-28T17:46:00Z though it tells of later\n" % last(of_a), 1)
    assert audit(False, of_a, of_b[:5_990])[0].endswith("whose journal ends 2026-11-28T17:45:59Z\n")


def test_a_journal_with_a_gap(audit):
    """B's second start has another epoch of TPC than one step could have left."""
    of_a, of_b = ["learned ANN TPC 3"], ["booted B 2", "stands TPC 3 ANN 0 settled 0", "passed TPC 2.0 OFF"]
    assert audit(False, of_a, of_b) == ("open: A %s waits for granted TPC 3 ANN of station B, whose journal has a gap"
                                        " before B line 3\nopen: gap before B line 3\n" % last(of_a), 1)
