"""`smi audit`: journals made from traces of `smi sim` are safe, and each forgery is told as a judge in Python tells it.
"""

import collections
import functools
import os
import random
import re
import resource

import pytest

import journals
import judges
import reasons
import running

TREES = ["worked.tree", "three.tree", "detector-local.tree"]
SEEDS = range(1, 5)
SAFE = re.compile(r"safe: (\d+) entries of (\d+) stations, (\d+) grants, (\d+) commands, (\S+) to (\S+)")
# Nights of which an entry is forged: each tree, seed and how many steps. And how many entries of a night in one way.
NIGHTS = [*((name, seed, 1500) for name in TREES[:2] for seed in SEEDS), (TREES[2], 1, 400), (TREES[2], 2, 400)]
PLACES = 3


@pytest.fixture(scope="module")
def night(program):
    """Returns a function that runs a drawn schedule, and returns the tree and the lines of the trace."""

    @functools.cache
    def run(name, seed, steps=400):
        path = running.example(name)
        out, err, status = running.run([program, "sim", path, "--seed", str(seed), "--steps", str(steps)])
        assert (err, status) == (b"", 0)
        return journals.Tree(running.text_of(path)), out.decode().splitlines()

    return run


@pytest.fixture
def audit(smi, folder):
    """Returns a function that writes journals to files, has them audited, and returns what is told and the status."""

    def run(tree, files, *words, **how):
        path = running.write(os.path.join(folder, "a.tree"), tree.text)
        paths = [running.write(os.path.join(folder, name + ".journal"), text) for name, text in files.items()]
        out, err, status = smi("audit", path, *paths, *words, **how)
        return tuple(text.decode().replace(folder + "/", "") for text in (out, err)) + (status,)

    return run


def files_of(tree, written, ended=()):
    """Returns the text of each station's file."""
    return {name: journals.file_text(tree, name, lines, name in ended) for name, lines in written.items() if lines}


def verdict_of(out):
    return out.split(":")[0]


@pytest.mark.parametrize("seed", SEEDS)
@pytest.mark.parametrize("name", TREES)
def test_journals_of_a_run_are_safe(night, audit, name, seed):
    tree, trace = night(name, seed)
    written = journals.journals_of(tree, trace)
    out, err, status = audit(tree, files_of(tree, written, tree.stations))
    assert (err, status, judges.judged(tree, written, set(tree.stations))[0]) == ("", 0, "safe")
    entries = [line for line in trace if not line.startswith("sent ")]
    said = SAFE.fullmatch(out.rstrip("\n"))
    assert said and [int(word) for word in said.groups()[:4]] == [
        len(entries), len(tree.stations),
        sum(line.startswith("granted ") for line in entries), sum(line.startswith("ran ") for line in entries)]


@pytest.mark.parametrize("name", TREES)
def test_merged_trace_is_safe_and_keeps_orders(night, audit, name):
    tree, trace = night(name, 7)
    written = journals.journals_of(tree, trace)
    out, err, status = audit(tree, files_of(tree, written, tree.stations), "--trace")
    assert (verdict_of(err), status) == ("safe", 0)
    judge, told = judges.Judge(tree), collections.defaultdict(list)
    for line in out.splitlines():
        entry = journals.entry_of(line)
        assert judge.look(entry)[0] == judges.FITS, line
        judge.take(entry)
        told[tree.teller(entry)].append(line)
    for station, lines in written.items():
        assert told[station] == [words for _, words in lines if words.split(" ")[0] not in journals.BLOCK]


def lose_last(entries):
    """Returns 1 if the last entry before a start was left by a save, so that the start's block tells it."""
    return 1 if entries and entries[-1].split(" ")[0] in journals.SAVED else 0


def lose_two(entries):
    """Returns how many of the last entries before a start its block may tell: the last one, and one that waited."""
    kinds = [words.split(" ")[0] for words in entries[-2:]]
    return lose_last(entries) and 1 + (len(kinds) == 2 and kinds[0] in journals.WAITING)


@pytest.mark.parametrize("lose", [lose_last, lose_two])
@pytest.mark.parametrize("seed", SEEDS)
@pytest.mark.parametrize("name", TREES)
def test_a_start_tells_what_was_lost(night, audit, name, seed, lose):
    tree, trace = night(name, seed)
    written = journals.journals_of(tree, trace, lose)
    whole = journals.journals_of(tree, trace)
    lost = sum(map(len, whole.values())) - sum(map(len, written.values()))
    out, err, status = audit(tree, files_of(tree, written, tree.stations))
    verdict, _ = judges.judged(tree, written, set(tree.stations))
    assert (err, verdict_of(out), status) == ("", verdict, int(verdict != "safe")), out
    if verdict == "safe":
        assert out.count("told by a start: ") == lost


@pytest.mark.parametrize("has_ends", [True, False], ids=["ended", "open"])
@pytest.mark.parametrize("way, kind", [(way, kind) for way, kinds in journals.WAYS.items() for kind in kinds])
def test_forgeries_are_told(night, audit, subtests, way, kind, has_ends):
    """One entry of a night is written twice, taken out or changed: the audit says which does not fit, where and why."""
    rng, told = random.Random(way + kind), 0
    for name, seed, steps in NIGHTS:
        tree, trace = night(name, seed, steps)
        ended = set(tree.stations) if has_ends else set()
        written = journals.journals_of(tree, trace)
        for lines, what in journals.forgeries(rng, tree, written, way, kind, PLACES):
            merge = judges.Merge(tree, lines, ended)
            told += merge.verdict() != "safe"
            with subtests.test(what, name=name, seed=seed):
                out, err, status = audit(tree, files_of(tree, lines, ended))
                assert (err, verdict_of(out), status) == ("", merge.verdict(), int(merge.verdict() != "safe")), out
                assert status == 0 or out in reasons.Verdict(merge).allowed()
    # nothing rests on what a station was shown
    assert (told > 0) == ((way, kind) != ("gone", "showed"))


@pytest.mark.parametrize("name", TREES)
def test_journals_that_are_cut_short_are_open_or_safe(night, audit, name):
    rng = random.Random(name)
    for seed in SEEDS:
        tree, trace = night(name, seed, 200)
        written = {station: lines[: rng.randint(1, len(lines))]
                   for station, lines in journals.journals_of(tree, trace).items()}
        verdict, _ = judges.judged(tree, written, set())
        out, err, status = audit(tree, files_of(tree, written))
        assert verdict in ("safe", "open")
        assert (err, verdict_of(out), status) == ("", verdict, int(verdict != "safe")), out


# A station, what its file says after the head, and what is told: `{}` is the name of the file.
BOOTED = "2026-11-28T17:45:00.000Z A 1 booted A 1\n"
AT = "2026-11-28T17:45:01.000Z "
FAULTS = [
    ("an unknown word", BOOTED + AT + "A 1 grabbed DCS 1 ANN\n", "journal A.journal line 3 fault 1\n"),
    ("a word short", BOOTED + AT + "A 1 granted DCS 1\n", "journal A.journal line 3 fault 2\n"),
    ("a zero before a number", BOOTED + AT + "A 1 granted DCS 01 ANN\n", "journal A.journal line 3 fault 3\n"),
    ("two blanks", BOOTED + AT + "A 1 granted  DCS 1 ANN\n", "journal A.journal line 3 fault 2\n"),
    ("no such day", BOOTED + AT.replace("11-28", "02-30") + "A 1 freed DCS 2\n", "journal A.journal line 3 fault 3\n"),
    ("no such domain", BOOTED + AT + "A 1 granted XYZ 1 ANN\n", "journal A.journal line 3 fault 5\n"),
    ("a long line", BOOTED + AT + "A 1 typed ANN " + "X" * 300 + "\n", "journal A.journal line 3 fault 10\n"),
    ("another station's line", BOOTED + AT + "B 1 booted B 1\n", "journal A.journal line 3 fault 13\n"),
    ("another station's entry", BOOTED + AT + "A 1 granted TPC 1 DCS\n", "journal A.journal line 3 fault 13\n"),
    ("a boot that goes back", BOOTED.replace(" 1 ", " 2 ").replace("A 1\n", "A 2\n") + BOOTED,
     "journal A.journal line 3 fault 14\n"),
    ("a block without a start", BOOTED + AT + "A 1 passed DCS 1.0 OFF\n" + AT + "A 1 stands DCS 1 ANN 0 settled 0\n",
     "journal A.journal line 4 fault 1\n"),
    ("no start", AT + "A 1 freed DCS 2\n", "journal A.journal line 2 fault 1\n"),
]


@pytest.mark.parametrize("text, told", [pytest.param(text, told, id=name) for name, text, told in FAULTS])
def test_lines_that_are_none(audit, text, told):
    tree = journals.Tree(running.text_of(running.example("worked.tree")))
    head = journals.file_text(tree, "A", [])
    assert audit(tree, {"A": head + text}) == ("", told, 1)


def test_journals_of_another_tree(audit):
    tree = journals.Tree(running.text_of(running.example("worked.tree")))
    head = journals.file_text(tree, "A", [])
    other = head.replace(" 17 ", " 18 ")
    assert audit(tree, {"A": other + BOOTED}) == ("", "journal A.journal line 1 fault 15\n", 1)
    changed = head[:-2] + ("0" if head[-2] != "0" else "1") + "\n"
    assert audit(tree, {"A": changed + BOOTED}) == ("", "journal A.journal line 1 fault 15\n", 1)


def test_a_torn_last_line_is_skipped(audit):
    tree = journals.Tree(running.text_of(running.example("worked.tree")))
    head = journals.file_text(tree, "A", [])
    out, err, status = audit(tree, {"A": head + BOOTED + AT + "A 1 granted DCS 1 A"})
    assert (verdict_of(out), err, status) == ("safe", "", 0)


def test_typed_lines_are_skipped(audit):
    tree = journals.Tree(running.text_of(running.example("worked.tree")))
    head = journals.file_text(tree, "A", [])
    typed = AT + "A 1 typed 1003 @1 order ANN take  DCS\n" + AT + "A 1 typed 0 # name ANNA\n"
    out, err, status = audit(tree, {"A": head + BOOTED + typed + AT + "A 1 ends\n"})
    assert (out, err, status) == (
        "safe: 1 entries of 1 stations, 0 grants, 0 commands, 2026-11-28T17:45:00Z to 2026-11-28T17:45:00Z\n", "", 0)


def halves(tree, station, lines, place):
    """Returns a journal in two files: the second goes on at a place within a boot, with a block."""
    account = journals.Account()
    for _, words in lines[:place]:
        if words.split(" ")[0] not in journals.BLOCK:
            account.note(tree, journals.entry_of(words))
    boot = lines[place - 1][0]
    block = ["continues %s %d" % (station, boot), *account.block(tree, True)]
    return lines[:place], [(boot, words) for words in block] + lines[place:]


def in_halves(tree, trace):
    """Returns the text of each station's first file, and of its second, which goes on about where half is told."""
    firsts, seconds = {}, {}
    for station, lines in journals.journals_of(tree, trace).items():
        place = next(number for number in range(len(lines) // 2, len(lines))
                     if lines[number][1].split(" ")[0] not in journals.BLOCK)
        first, second = halves(tree, station, lines, place)
        firsts[station + "-1"] = journals.file_text(tree, station, first, False)
        seconds[station + "-2"] = journals.file_text(tree, station, second, True, len(first))
    return firsts, seconds


@pytest.mark.parametrize("seed", SEEDS)
def test_files_that_go_on(night, audit, seed):
    tree, trace = night("three.tree", seed)
    firsts, seconds = in_halves(tree, trace)
    # the order of the files' names says nothing
    out, err, status = audit(tree, {**seconds, **firsts})
    assert (verdict_of(out), err, status) == ("safe", "", 0), out
    changed = {name: re.sub(r"(?m)^(\S+ \S+ \d+ stands \S+) (\d+) ", lambda it: "%s %d " % (it[1], int(it[2]) + 2),
                            text, count=1) for name, text in seconds.items()}
    assert changed != seconds
    out, err, status = audit(tree, {**firsts, **changed})
    assert (verdict_of(out), err, status) == ("open", "", 1), out
    assert "gap before " in out


def in_pieces(tree, station, lines, size):
    """Returns the texts of a journal in files of about this many lines: each but the first goes on, with a block."""
    account, texts, begun = journals.Account(), [], 0
    piece = []
    for number, (boot, words) in enumerate(lines):
        is_of_block = words.split(" ")[0] in journals.BLOCK
        if number - begun >= size and not is_of_block:
            texts.append(journals.file_text(tree, station, piece, False, begun))
            block = ["continues %s %d" % (station, lines[number - 1][0]), *account.block(tree, True)]
            piece, begun = [(lines[number - 1][0], words) for words in block], number
        piece.append((boot, words))
        if not is_of_block:
            account.note(tree, journals.entry_of(words))
    return [*texts, journals.file_text(tree, station, piece, True, begun)]


def test_more_files_than_a_process_may_open(night, audit):
    tree, trace = night("three.tree", 3)
    written = journals.journals_of(tree, trace)
    whole = audit(tree, files_of(tree, written, tree.stations))
    files = {"%s-%d" % (station, number): text for station, lines in written.items()
             for number, text in enumerate(in_pieces(tree, station, lines, 5))}
    assert len(files) > 40
    few = lambda: resource.setrlimit(resource.RLIMIT_NOFILE, (16, 16))
    out, err, status = audit(tree, files, preexec_fn=few)
    assert (out.split(",")[0], err, status) == (whole[0].split(",")[0], "", 0), out


@pytest.mark.parametrize("seed", SEEDS)
@pytest.mark.parametrize("name", TREES)
def test_journals_that_begin_in_the_middle(night, audit, name, seed):
    """They are safe by what their first blocks say, or open, because files begin at different moments."""
    tree, trace = night(name, seed)
    _, seconds = in_halves(tree, trace)
    out, err, status = audit(tree, seconds)
    assert (verdict_of(out), status) in (("safe", 0), ("open", 1)), out
    assert err == "" and (status == 1 or "assumed: the first block of " in out)


def test_journal_of_a_station_is_missing(night, audit):
    tree, trace = night("three.tree", 3)
    files = files_of(tree, journals.journals_of(tree, trace), tree.stations)
    del files["A"]
    out, err, status = audit(tree, files)
    assert (verdict_of(out), err, status) == ("open", "", 1), out
    assert all(line.startswith("open: ") for line in out.splitlines())
    assert " of station A, of which no journal is given" in out


def test_an_older_store_is_a_gap(night, audit):
    """A start that loads less than its journal tells: the store was put back."""
    tree, trace = night("three.tree", 3)
    written = journals.journals_of(tree, trace)
    station, lines = max(written.items(), key=lambda it: len(it[1]))
    boot = lines[-1][0] + 1
    written[station] = lines + [(boot, "booted %s %d" % (station, boot))]
    out, err, status = audit(tree, files_of(tree, written, tree.stations))
    assert (verdict_of(out), err, status) == ("open", "", 1), out
    assert "open: gap before %s.journal line %d\n" % (station, len(lines) + 2) in out
