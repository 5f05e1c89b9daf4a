"""Tests of the gate: what it reads off a command, what sums rest on, the record, and the order in which libraries are
built. Nothing is proved.
"""

import collections
import glob
import os
import re
import sys
import tempfile
import threading
import time
import unittest
from unittest import mock

import edits
import gate
import kit
import libraries
import refusals
from running import ROOT, printed, text_of


class Crate(collections.namedtuple("Crate", "name deps folder lines", defaults=((), "", 60))):
    """A crate as the tools see it."""
    of_kit = ()

    def count(self, _pattern):
        return self.lines


class Patched(unittest.TestCase):
    """A test in which names of the tools are others, and which has a folder of its own."""

    def patch(self, of, name, how):
        patch = mock.patch.object(of, name, how)
        patch.start()
        self.addCleanup(patch.stop)

    def folder(self):
        made = tempfile.TemporaryDirectory()
        self.addCleanup(made.cleanup)
        return made.name

    def write(self, path, text):
        os.makedirs(os.path.dirname(path), exist_ok=True)
        with open(path, "w", encoding="utf-8") as file:
            file.write(text)


class Runs(unittest.TestCase):
    """What the gate reads off a command."""

    def run_of(self, code):
        return printed(gate.run, [sys.executable, "-c", code])[1]

    def test_last_line(self):
        for said, wanted in [("3 passed, 1 failed", (3, 1)), ("one\n3 passed, 0 failed", (3, 0)),
                             ("3 passed, 0 failed\nand more", (0, 1)), ("3 passed", (0, 1)), ("", (0, 1)),
                             (" 3 passed, 0 failed", (0, 1)), ("1 passed, 9 failed\n3 passed, 0 failed", (3, 0))]:
            self.assertEqual(self.run_of("print(%r)" % said), wanted, said)

    def test_status(self):
        for end, wanted in [("raise SystemExit(1)", (3, 1)), ("import os; os.abort()", (3, 1)), ("", (3, 0))]:
            self.assertEqual(self.run_of("print('3 passed, 0 failed', flush=True); " + end), wanted, end)


class Gates(Patched):
    """The whole gate, with commands that do nothing."""

    def gate(self, failing, words=(), changed=(), times=9):
        """Returns what the gate prints, its status, and what it runs, if those with a text fail so many times."""
        ran, left = [], {it: times for it in failing}

        def run(given):
            name = " ".join(given[-1:] if given[0] == "rt" else given[1:])
            ran.append(name)
            fails = next((it for it in left if it in name and left[it]), None)
            left.update({fails: left[fails] - 1} if fails else {})
            return (1, 1) if fails else (2, 0)

        for of, name, how in [(gate, "run", run), (gate, "take_program", lambda since: None),
                              (gate, "try_mutants", lambda is_whole, since: (5, 0, "; 7 not tried again")),
                              (refusals, "changed", lambda: [Crate(it) for it in changed]),
                              (sys, "argv", ["gate.py", *words])]:
            self.patch(of, name, how)
        said, status = printed(gate.main)
        return said.splitlines(), status, ran

    def test_all_is_well(self):
        lines, status, ran = self.gate([])
        self.assertEqual((lines[-1], status), ("%d passed, 0 failed" % (2 * len(ran) + 5), 0))
        self.assertIn("mutants: 5 passed, 0 failed; 7 not tried again", "\n".join(lines))
        for name in ran[3:]:
            self.assertTrue(os.path.isfile(os.path.join(ROOT, name.split()[0])), name)

    def test_what_fails_is_run_once_more(self):
        for times, wanted, said in [(1, 0, "2 passed, 0 failed"), (2, 1, "1 passed, 1 failed")]:
            lines, status, ran = self.gate(["soak.py"], times=times)
            self.assertEqual((status, ran.count("tests/soak.py bin/smi --seconds 40")), (wanted, 2))
            self.assertIn("tests/soak.py: %s, at the second try" % said, "\n".join(lines))

    def test_of_the_tests_only_those_that_failed_are_run_once_more(self):
        for times, wanted, said in [(1, 0, "3 passed, 0 failed"), (2, 1, "2 passed, 1 failed")]:
            lines, status, ran = self.gate(["-m alone"], times=times)
            self.assertEqual((status, ran[2:4]), (wanted, ["-m pytest tests -m alone", ran[2] + " --last-failed"]))
            self.assertIn("tests alone: %s, at the second try" % said, "\n".join(lines))

    def test_if_the_proofs_fail_nothing_else_runs(self):
        self.assertEqual(self.gate(["ci"])[1:], (1, ["ci"]))

    def test_mutants_that_are_not_recorded_end_it_at_once(self):
        lines, status, ran = self.gate([], changed=["one", "two"])
        self.assertEqual((lines[-1], status, ran), ("0 passed, 2 failed", 1, []))
        self.assertIn("make record CRATE='one two'", lines[0])
        self.assertEqual(self.gate([], ["--all"], changed=["one"])[1], 0)

    def test_mutants_are_tried_as_long_as_the_gate_is_in_time(self):
        self.patch(os, "cpu_count", lambda: 2)
        self.patch(gate.time, "time", lambda: 1000 * 60)
        minutes = [gate.budget((1000 - since) * 60) / 60 for since in (0, 60, 105, 110, 126, 128, 200)]
        self.assertEqual(minutes, [50, 50, 50, 40, 8, 5, 5])

    def test_words_that_it_does_not_know(self):
        _, status, ran = self.gate([], words=["--everything"])
        self.assertEqual((status.split(" ")[0], ran), ("usage:", []))


class Records(Patched):
    """The record of mutants that were refused."""

    def setUp(self):
        self.top, self.below, self.untouched = self.folder(), {}, set()
        crates = [Crate(name, (), os.path.join(self.top, "crates", name)) for name in ("smi_a", "smi_b", "smi_c")]
        for crate in crates:
            self.write(os.path.join(crate.folder, "src", "lib.rt"), crate.name)
            self.write(os.path.join(crate.folder, "edits", "one.edit"), "old: first\nnew: second third\n")
        for of, name, how in [(kit, "ROOT", self.top), (refusals, "RECORD", os.path.join(self.top, "edits.ok")),
                              (kit, "crates", lambda names=(): [it for it in crates if not names or it.name in names]),
                              (kit, "judges", lambda: "logic"), (kit, "below_sum", lambda it: self.below.get(it.name, "0" * 64)),
                              (edits, "build_below", lambda it: None), (refusals, "keep", lambda it, line: None),
                              (refusals, "is_untouched", lambda it, line: it.name in self.untouched)]:
            self.patch(of, name, how)
        refusals.write({it.name: refusals.line_of(it)[:2] + ["2026-01-0%d" % (9 - at)] for at, it in enumerate(crates)})

    def change(self, name):
        self.write(os.path.join(self.top, "crates", name, "src", "lib.rt"), "changed")

    def record(self, *names, passing=()):
        """Records, and returns which crates were tried, if the mutants of some are not refused."""
        tried = []

        def try_all(crates, **_how):
            tried.extend(sorted(it.name for it in crates))
            return {it.name: [mock.Mock(how=edits.PASSED if it.name in passing else edits.REFUSED)] for it in crates}

        self.patch(edits, "try_all", try_all)
        said, well = printed(refusals.record, list(names))
        return tried, well, said.splitlines()[-1]

    def test_what_has_changed(self):
        self.assertEqual((refusals.changed(), refusals.over_changed()), ([], []))
        self.change("smi_b")
        self.below.update(dict.fromkeys(("smi_a", "smi_b", "smi_c"), "1" * 64))
        self.assertEqual([it.name for it in refusals.changed()], ["smi_b"])
        # the oldest line first
        self.assertEqual([it.name for it in refusals.over_changed()], ["smi_c", "smi_a"])

    def test_recording(self):
        self.change("smi_b")
        self.below["smi_a"] = "1" * 64
        self.assertEqual(self.record(passing=["smi_a"]), (["smi_a", "smi_b"], False, "1 refused, 1 not"))
        self.assertEqual(self.record(), (["smi_a"], True, "1 refused, 0 not"))
        self.assertEqual((refusals.changed(), refusals.over_changed()), ([], []))
        self.assertEqual(self.record("smi_c"), (["smi_c"], True, "1 refused, 0 not"))

    def test_an_untouched_crate_keeps_its_line_and_day(self):
        self.below.update(dict.fromkeys(("smi_a", "smi_c"), "1" * 64))
        self.untouched = {"smi_c"}
        self.assertEqual(self.record()[0], ["smi_a"])
        self.assertEqual(refusals.read()["smi_c"][1:], ["1" * 64, "2026-01-07"])

    def test_adopting_what_a_gate_has_printed(self):
        self.change("smi_b")
        printed(refusals.adopt, os.path.join(self.top, "crates", "smi_a", "src", "lib.rt"))
        lines = refusals.read()
        log = "\n".join("> edits.ok: %s %s %s 2026-02-01" % (name, lines[name][0], "2" * 64) for name in ("smi_a", "smi_b"))
        self.write(os.path.join(self.top, "log"), log)
        printed(refusals.adopt, os.path.join(self.top, "log"))
        self.assertEqual([it[1:] for it in refusals.read().values()],
                         [["2" * 64, "2026-02-01"], lines["smi_b"][1:], lines["smi_c"][1:]])

    def test_words(self):
        self.assertEqual(refusals.words_brought(kit.crates()[0]), {"second", "third"})
        text = "use other.{one}\npub fn one ( ) -> u16\n    ensures { result ≡ 1 } ;\nabbrev pub two : ℕ\npub enum Six { A }\n"
        for old, new, names in [("≡ 1", "≡ 2", {"one"}), (" two", " three", {"two", "three"}), (".{one}", ".{two}", set()),
                                ("A }", "A , B }", {"Six", "pub", "enum", "A", "B"}), ("", "", set())]:
            told = [[["a", "x.rt", it]] for it in (text, text.replace(old, new, 1))]
            self.assertEqual(refusals.names_changed(*told), names, (old, new))


class Bodies(unittest.TestCase):
    """Which function a mutant is in."""

    TEXT = """impl<L> Served for Side<L>
{
    fn one(&self) -> u16 {
        self.one
    }

    fn with_a_clause(&self) -> u16
        ensures { result ≡ self.now.two }
    {
        self.two
    }

    fn of_many<
        A: Read + Drop,
    >(
        &mut self,
        response: &mut Response,
    ) -> Result<(), AllocError> {
        self.answer(response)
    }

    fn bounded<A>(
        &self,
    ) -> Result<A, AllocError>
    where
        A: Read,
    {
        self.three
    }
}
"""

    def test_function_of(self):
        for words, name in [("self.one", "one"), ("self.two\n", "with_a_clause"), ("self.answer", "of_many"),
                            ("self.three", "bounded"), ("self.now.two", None), ("Side<L>", None),
                            ("response: &mut Response", None), ("A: Read,", None),
                            ("self.one\n    }\n\n    fn with_a_clause", None)]:
            start = self.TEXT.index(words)
            found = edits.enclosing(self.TEXT, start, start + len(words))
            self.assertEqual(found and found[1], name, words)


class Parts(unittest.TestCase):
    """In which parts mutants are tried, and until when."""

    def test_parts(self):
        found = [mock.Mock(path=str(at), function="f%d" % (at // 3)) for at in range(2 * edits.MOST_OF_A_PART + 1)]
        parts = edits.parts_of(found)
        paths = sorted(it.path for it in found)
        self.assertEqual([len(parts), sorted(it.path for of in parts for it in of)], [3, paths])
        for of in parts:
            self.assertEqual(len({it.function for it in of}), len(of))
        self.assertEqual(edits.parts_of([]), [])

    def test_no_time_is_left(self):
        one = mock.Mock(how=edits.AGAIN)
        edits.try_together(Crate("one"), [one], "", edits.Budget(0))
        self.assertEqual((one.how, edits.summary({"one": [one], "two": None})), (edits.UNTRIED, (0, 1, 1)))


class Sums(Patched):
    """What the sums of a crate's mutants rest on."""

    def test_own_sum(self):
        self.patch(kit, "ROOT", self.folder())
        self.patch(kit, "judges", lambda: "logic")
        crate = Crate("one", folder=os.path.join(kit.ROOT, "crates", "one"))

        def after(path, text):
            self.write(os.path.join(crate.folder, path), text)
            return kit.own_sum(crate)

        for path, text in [("src/lib.rt", "// said\nfn one() {}\n"), ("proofs/One.antt", "-- said\none = 1\n"),
                           ("edits/one.edit", "function: one\n")]:
            before = after(path, text)
        for path, text in [("src/lib.rt", "    // another\nfn one() {}\n"), ("proofs/One.antt", "-- another\none = 1\n"),
                           ("out/one.rt", "fn one() {}\n")]:
            self.assertEqual(after(path, text), before, path)
        for path, text in [("src/lib.rt", "fn two() {}\n"), ("src/lib.rt", "fn one() {} // more\n"),
                           ("proofs/One.antt", "one = 2\n"), ("proofs/One.antt", "// said\none = 1\n"),
                           ("edits/one.edit", "function: two\n"), ("src/two.rt", ""), ("specs/One.antt", "one = 1\n")]:
            was, before = before, after(path, text)
            self.assertNotEqual(before, was, (path, text))
        for name, how in [("RULES", "another"), ("judges", lambda: "another logic")]:
            self.patch(kit, name, how)
            was, before = before, kit.own_sum(crate)
            self.assertNotEqual(before, was, name)

    def test_seen(self):
        """What was seen refused counts until a file of the crate, what is below it, or the mutant is another."""
        self.patch(kit, "ROOT", self.folder())
        self.patch(kit, "judges", lambda: "logic")
        self.patch(kit, "below_sum", lambda crate: "below")
        crate = Crate("one", folder=os.path.join(kit.ROOT, "crates", "one"))
        found = []
        for name in ("first", "second"):
            self.write(os.path.join(crate.folder, "edits", name + ".edit"), name)
            found.append(mock.Mock(path=os.path.join(crate.folder, "edits", name + ".edit"), how=edits.AGAIN, owner=crate))
        self.write(os.path.join(crate.folder, "out", "stamp"), "")
        self.write(os.path.join(crate.folder, "src", "lib.rt"), "fn one() {}\n")
        edits.Seen(crate).add(found[:1])

        def known():
            for it in found:
                it.how = edits.AGAIN
            edits.before(crate, found)
            return [it.how == edits.REFUSED for it in found]

        self.assertEqual(known(), [True, False])
        edits.Seen(crate).add(found[1:])
        self.assertEqual(known(), [True, True])
        self.write(found[0].path, "another first")
        self.assertEqual(known(), [False, True])
        self.write(os.path.join(crate.folder, "src", "lib.rt"), "fn two() {}\n")
        self.assertEqual(known(), [False, False])
        self.write(os.path.join(crate.folder, "src", "lib.rt"), "fn one() {}\n")
        self.assertEqual(known(), [False, True])
        self.patch(kit, "below_sum", lambda crate: "another below")
        self.assertEqual(known(), [False, False])

    def test_what_other_crates_can_read(self):
        seen = "pub fn one ( ) -> u16\n    ensures { result ≡ 1 } ;\n"
        hidden = "fn two ( ) -> u16\n    ensures { result ≡ 2 } ;\n"
        trait = "pub trait Link {\nfn send ( & self ) ;\n}\n"
        of_trait = "impl < L : Link > Link for Wire < L > as WireLink where {\n%s}\n" % hidden
        for text, wanted in [
                (seen, seen), (hidden, ""), (seen + hidden + seen, seen + seen), (trait, trait), (trait + hidden, trait),
                ("pub ( crate ) " + hidden, ""), ("pub ( super ) const " + hidden, ""),
                ("# [ inline ( never ) ] " + hidden, ""), ("# [ inline ( always ) ] " + seen, "# [ inline ( always ) ] " + seen),
                (of_trait, of_trait), ("# [ read_as = \"1\" ] " + of_trait + hidden, "# [ read_as = \"1\" ] " + of_trait),
                ("impl Wire {\n%s%s}\n" % (seen, hidden), "impl Wire {\n%s}\n" % seen),
                ("pub const MOST : u16 = ( 8_u16 ) ;\n", "pub const MOST : u16 = ( 8_u16 ) ;\n")]:
            self.assertEqual(kit.public(text), wanted, text)

    def test_each_sum_is_computed_once_in_a_call(self):
        class Summed(Crate):
            asked = []

            def stamp(self):
                self.asked.append(self.name)
                return self.name + "".join(dep.stamp() for dep in self.deps)

        low = Summed("low")
        high = Summed("high", (Summed("left", (low,)), Summed("right", (low,))))
        plain = high.stamp()
        kit.sum_each_once(Summed)
        for _ in range(2):
            Summed.asked.clear()
            self.assertEqual((high.stamp(), sorted(Summed.asked)), (plain, ["high", "left", "low", "right"]))


class Libraries(Patched):
    """In which order libraries are built, and by how many jobs."""

    def crates(self):
        one = Crate("one")
        two, three = Crate("two", (one,)), Crate("three", (one,))
        return [one, two, three, Crate("four", (two,)), Crate("five")]

    def begun(self, free, **chains):
        found = libraries.begun([Crate(name) for name in chains], free, chains, 100)
        return {crate.name: jobs for crate, jobs in found.items()}

    def test_jobs(self):
        self.assertEqual(self.begun(4, short=10, long=100, middle=50, other=20), {"long": 2, "middle": 1, "other": 1})
        self.assertEqual(self.begun(3, one=50, two=40, three=30, four=20), {"one": 1, "two": 1, "three": 1})
        self.assertEqual(self.begun(2, long=100, short=10), {"long": 1, "short": 1})
        for free in range(9):
            for count in range(1, 9):
                jobs = self.begun(free, **{"it%d" % it: 100 - it for it in range(count)})
                self.assertEqual(sum(jobs.values()), free, (free, count))

    def built(self, lanes, failing=(), slow=()):
        """Returns which libraries are begun, whether all are there, whether each had all below it, the most jobs at a
        time, and which were awaited."""
        begun, done, at_work, seen, awaited, lock = [], set(), {}, [], set(), threading.Lock()

        def build(crate, jobs, is_awaited):
            with lock:
                begun.append(crate.name)
                at_work[crate.name] = jobs
                seen.append((all(it.name in done for it in crate.deps), sum(at_work.values())))
                awaited.update([crate.name] if is_awaited else [])
            time.sleep(0.2 if crate.name in slow else 0.01)
            with lock:
                del at_work[crate.name]
                done.update([] if crate.name in failing else [crate.name])
            return crate.name not in failing, "why\n", 1

        self.patch(libraries, "build", build)
        _, well = printed(libraries.build_all, self.crates(), lanes)
        return begun, well, all(it for it, _ in seen), max(it for _, it in seen), awaited

    def test_each_after_those_that_it_needs_and_long_chains_first(self):
        for lanes in (1, 2, 4):
            begun, well, is_sound, most, awaited = self.built(lanes)
            self.assertEqual((sorted(begun), well, is_sound), (sorted(it.name for it in self.crates()), True, True))
            self.assertLessEqual(most, lanes)
            self.assertLessEqual({"one", "two", "four"}, awaited)
        self.assertEqual(self.built(1)[0][:2], ["one", "two"])

    def test_the_first_that_fails_ends_it(self):
        self.assertEqual(self.built(1, ["two"])[:2], (["one", "two"], False))
        self.assertFalse(self.built(2, ["one"], ["five"])[1], "one beside it ends well after it")


class Borrowed(unittest.TestCase):
    """What the tools take of the toolchain's own script is there: none of these names is promised to anybody."""

    def test_each_is_there(self):
        taken, holders = {}, {"rt": kit.rt, "rtlib": kit.rtlib, "crate": kit.crates()[0]}
        for path in glob.glob(os.path.join(ROOT, "tools", "*.py")):
            text = text_of(path)
            if re.search(r"^import kit$", text, flags=re.M) or path.endswith("kit.py"):
                for of, name in re.findall(r"\b(rt|rtlib|crate)\.([A-Za-z_]\w*)", text):
                    taken[of, name] = holders[of]
        self.assertGreater(len(taken), 15)
        self.assertEqual([it for it, of in taken.items() if not hasattr(of, it[1])], [])
