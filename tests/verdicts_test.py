"""Tests of the judges of nodes: what soak and chaos see in made-up rows, answers and lines, and what the bad network
does. No node runs.
"""

import collections
import random
import time
import types
import unittest
from unittest import mock

import chaos
import experiment
import hierarchy
import layout
import trials
from bad_network import Network
from verdicts import Done, Ranks, Shown, commanders, under_way, unanswered, unknown_grants
from wires import HOST, socket_at


def record_row(kind, holder, epoch, last, busy, links=b""):
    """Returns the row of a domain (docs/FORMATS.md, "Stable rows")."""
    return (bytes([2, kind]) + holder.to_bytes(2, "big") + epoch.to_bytes(8, "big") + last.to_bytes(4, "big")
            + bytes([busy]) + bytes(5) + (1 if links else 0).to_bytes(2, "big") + links)


def link_of(domain, form, epoch, number=0, pending=0):
    """Returns a link in a row, with this many commands pending."""
    more = (pending - 1).to_bytes(2, "big") + bytes(4 * (pending - 1)) if form == 5 else b""
    return domain.to_bytes(2, "big") + bytes([form, 0]) + epoch.to_bytes(8, "big") + number.to_bytes(4, "big") \
        + bytes(4) + more


def operator_row(*links):
    return bytes([3, 0]) + len(links).to_bytes(2, "big") + b"".join(links)


class Soak(unittest.TestCase):
    """Whatever is wrong with what operators were told and with rows is seen, and nothing else."""

    def events(self, *told):
        return [(at, *event) for at, event in enumerate(told)]

    def test_one_commander(self):
        took = [("told", "ANN", "take DCS", "0"), ("ordered", "ANN", "drop DCS"), ("told", "ANN", "drop DCS", "0"),
                ("told", "BOB", "take DCS", "0")]
        self.assertEqual(commanders(self.events(*took)), [])
        self.assertEqual(commanders(self.events(took[0], took[0])), [])
        self.assertEqual(commanders(self.events(took[0], ("told", "BOB", "take DCS", "5"))), [])
        self.assertEqual(commanders(self.events(took[0], ("told", "BOB", "take TPC", "0"))), [])

    def test_two_commanders(self):
        for between in [[], [("ordered", "BOB", "drop DCS")], [("ordered", "ANN", "drop TPC")]]:
            found = commanders(self.events(("told", "ANN", "take DCS", "0"), *between,
                                                ("told", "BOB", "take DCS", "0")))
            self.assertEqual(found, ["BOB was told to have DCS, which ANN has"])

    def test_what_is_told_by_its_moment(self):
        late = [(2, "told", "BOB", "take DCS", "0"), (0, "told", "ANN", "take DCS", "0"),
                (1, "ordered", "ANN", "drop DCS")]
        self.assertEqual(commanders(late), [])

    def gone_back(self, key, before, after):
        """Returns what a reading of a row finds after another one."""
        seen = Ranks()
        return [*seen.faults({key: before}), *seen.faults({key: after})]

    def test_rows_that_go_back(self):
        boots = [bytes([2, 0, 0, 0]) + it.to_bytes(4, "big") for it in (1, 2)]
        records = [record_row(1, 1, 1, 0, 0), record_row(1, 1, 1, 1, 1), record_row(1, 1, 1, 1, 0),
                   record_row(0, 0, 2, 0, 0)]
        links = [operator_row(link_of(1, 2, epoch)) for epoch in (1, 3)]
        for key, rows in [((1, 0, 0), boots), ((1, 1, 0), records), ((1, 0, 1), links)]:
            for before, after in zip(rows, rows[1:]):
                self.assertEqual(self.gone_back(key, before, after), [])
                self.assertEqual(self.gone_back(key, before, before), [])
                self.assertEqual(len(self.gone_back(key, after, before)), 1, key)

    def grants(self, record, *links):
        return unknown_grants({(1, 1, 0): record, (1, 0, 1): operator_row(*links)})

    def test_grants_that_are_known(self):
        held = record_row(1, 1, 3, 2, 0)
        for link in [link_of(1, 2, 3, 2), link_of(1, 3, 3, 3, 1), link_of(1, 5, 3, 4, 2), link_of(1, 4, 3)]:
            self.assertEqual(self.grants(held, link), [])
        self.assertEqual(self.grants(record_row(1, 1, 3, 0, 0), link_of(1, 1, 2)), [])
        self.assertEqual(self.grants(record_row(0, 0, 4, 0, 0), link_of(1, 0, 4)), [])

    def test_grants_that_are_not(self):
        held = record_row(1, 1, 3, 2, 0)
        for record, link in [
                (held, link_of(1, 0, 3)), (held, link_of(1, 1, 3)), (held, link_of(1, 2, 5, 2)),
                (held, link_of(1, 2, 3, 1)), (held, link_of(1, 2, 3, 3)),
                (record_row(1, 1, 3, 1, 1), link_of(1, 3, 3, 2, 1)), (record_row(1, 2, 3, 2, 0), link_of(1, 2, 3, 2)),
                (record_row(0, 0, 4, 0, 0), link_of(1, 2, 3, 2))]:
            self.assertNotEqual(self.grants(record, link), [], (record, link))
        self.assertEqual(len(unknown_grants({(1, 1, 0): held})), 1)
        links = operator_row(link_of(1, 2, 3, 2))
        found = unknown_grants({(1, 1, 0): held, (1, 0, 1): links, (1, 0, 2): links})
        self.assertEqual(found, ["(1, 2) holds domain 1 at epoch 3, whose record is (1, 1, 3)"])


class Chaos(unittest.TestCase):
    """The same of what nodes show and do, and of orders that wait."""

    def shown(self, *lines):
        """Returns what is wrong with lines, each of a node in a boot, an object, a version and a state."""
        seen = Shown()
        return [fault for fault in (seen.fault(*line) for line in lines) if fault]

    def test_states_that_go_on(self):
        node = ("K1", 1)
        for lines in [
                [(node, "V1", (1, 2), "OFF"), (node, "V1", (1, 3), "READY"), (node, "V1", (2, 0), "OFF")],
                [(node, "V1", (1, 2), "OFF"), (node, "V1", (1, 2), "OFF")],
                # another object, another node, and the same node in its next boot
                [(node, "V1", (1, 2), "OFF"), (node, "V2", (1, 1), "READY")],
                [(node, "V1", (1, 2), "OFF"), (("K2", 1), "V1", (1, 1), "READY")],
                [(node, "V1", (1, 2), "OFF"), (("K1", 2), "V1", (1, 1), "READY")]]:
            self.assertEqual(self.shown(*lines), [], lines)

    def test_states_that_go_back(self):
        node = ("K1", 1)
        for before, after in [((1, 2), (1, 1)), ((2, 0), (1, 9)), ((1, 10), (1, 9))]:
            found = self.shown((node, "V1", before, "OFF"), (node, "V1", after, "READY"))
            self.assertEqual(found, ["('K1', 1) shows V1 in version %s, after %s" % (after, before)])
        # what went back once is the last that was shown
        self.assertEqual(len(self.shown(*((node, "V1", (1, it), "OFF") for it in (2, 1, 2, 1)))), 2)

    def test_versions_with_two_states(self):
        for other in (("K1", 1), ("K2", 1)):
            found = self.shown((("K1", 1), "V1", (1, 2), "OFF"), (other, "V1", (1, 2), "READY"))
            self.assertEqual(len(found), 1)

    def test_actions(self):
        done = Done()
        command = ("R0", "1", "1")
        for device, action, of in [("V1", "STEP", command), ("V2", "STEP", command), ("V1", "STEP", ("R0", "1", "2")),
                                   ("V1", "STEP", ("R0", "3", "1")), ("V1", "STEP", ("R1", "1", "1"))]:
            self.assertEqual(done.fault(device, action, *of), "")
        for action in ("STEP", "BACK"):
            self.assertIn("was done there before", done.fault("V2", action, *command))

    def test_what_is_under_way(self):
        rest = {(1, 1, 0): record_row(1, 1, 3, 2, 0), (1, 0, 1): operator_row(link_of(1, 2, 3, 2), link_of(2, 0, 2))}
        self.assertEqual(under_way(rest), [])
        self.assertEqual(under_way({(1, 1, 0): record_row(1, 1, 3, 2, 1)}), ["domain 1 is at work"])
        for link in [link_of(1, 1, 2), link_of(1, 3, 3, 3, 1), link_of(1, 4, 3), link_of(1, 5, 3, 4, 2)]:
            self.assertEqual(len(under_way({(1, 0, 1): operator_row(link)})), 1)
            self.assertEqual(len(under_way({(1, 1, 0): record_row(1, 1, 3, 2, 0, link)})), 1)

    def test_orders_that_wait(self):
        self.assertEqual(unanswered([], 10), [])
        self.assertEqual(unanswered([("O1", "take R0", 3)], 10), ["take R0 of O1 was not answered in 7 seconds"])

    def ended(self, err, status):
        """Returns what is wrong with the end of a node that was killed."""
        trial = mock.Mock()
        trial.violated = (found := []).append
        trials.Trial.look_at_end(trial, "K1", mock.Mock(end=lambda: ([], err, status)))
        return found

    def test_ends_of_nodes(self):
        self.assertEqual(self.ended(["line 1 fault 1"], -9), [])
        for err, status in [([], 0), ([], 3), ([], -6), (["stopped"], 3), (["journal fault"], -9)]:
            self.assertEqual(self.ended(err, status),
                             ["node K1 ended with status %d and told %s" % (status, err)])

    def test_nodes_that_do_not_end(self):
        trial = mock.Mock()
        trials.Trial.look_at_end(trial, "K1", mock.Mock(end=lambda: None))
        self.assertEqual(trial.violated.call_count, 1)


def world():
    """Returns what guests see of a chaos, without nodes, and the violations that they find."""
    made = types.SimpleNamespace(said=types.SimpleNamespace(seed=1, pause=1), boots=collections.Counter(), events=[],
                                 count=collections.Counter(), shown=Shown(), done=Done(), violations=[])
    made.note, made.violated = lambda *event: made.events.append(event), made.violations.append
    return made


class Guests(unittest.TestCase):
    """Operators and watchers take the lines that they have to be told, and no others."""

    def answered(self, order, *lines):
        """Returns the violations of what an operator is told who gave an order, and what he noted."""
        made = world()
        operator = experiment.Operator(made, "O1")
        operator.waiting["@1"] = (order, 0)
        for line in lines:
            operator.hear(line.split(" "))
        return made.violations, made.events

    def test_answers(self):
        for order, line in [("take R0", "@1 told O1 take R0 0"), ("include R0 R0_1", "@1 told O1 include R0 R0_1 5"),
                            ("ask R0", "@1 told O1 ask R0 O2 1 3 settled 0"), ("ask R0", "@1 replaced O1 ask R0"),
                            ("do R0 STEP", "@1 told O1 do R0 STEP 22")]:
            self.assertEqual(self.answered(order, line)[0], [], line)
        self.assertEqual(self.answered("take R0", "@1 told O1 take R0 0")[1], [("told", "O1", "take R0", "0")])

    def test_answers_that_are_none(self):
        for line in ["@1 told O1 take R0 33", "@1 told O1 take R0 7", "@1 told O2 take R0 0", "@1 told O1 take R1 0",
                     "@1 told O1 take R0", "@1 fault 5: R0 is no domain", "@2 told O1 take R0 0", "full",
                     "@1 replaced O1 ask R0", "@1 told O1 ask R0 free 0 0 settled 0"]:
            found, noted = self.answered("take R0", line)
            self.assertEqual((len(found), noted), (1, []), line)
        self.assertEqual(len(self.answered("take R0", *2 * ["@1 told O1 take R0 0"])[0]), 1)

    def watched(self, *lines):
        made = world()
        watcher = experiment.Watcher(made, "K1")
        for line in lines:
            watcher.hear(line.split(" "))
        return made.violations

    def test_lines(self):
        self.assertEqual(self.watched(
            "@a actions 200", "@f board V1 1.2 OFF", "@f board V1 1.3 READY", "@a acted V1 STEP 1.3 READY R0 1 1",
            "@a acted V1 STEP 1.4 RUNNING R0 1 2", "@f board V1 1.4 RUNNING", "@r told report V1 BAD 0",
            "@a missed 3"), [])

    def test_lines_that_are_wrong(self):
        acted = "@a acted V1 STEP 1.3 READY R0 1 1"
        for lines in [("@f board V1 1.2 OFF", "@f board V1 1.1 OFF"), ("@f board V1 1.2 OFF", "@f board V1 1.2 READY"),
                      (acted, acted), (acted, "@f board V1 1.3 OFF"), ("@r told report V1 BAD 26",), ("@a actions 3",),
                      ("full",), ("@f fault 1: what",), (acted, "@a acted V1 STEP 1.2 OFF R0 1 2")]:
            self.assertEqual(len(self.watched(*lines)), 1, lines)

    def unlike(self, domain, station, shown):
        """Returns what is found if all show the domains as OFF, but a station shows one so."""
        watchers = {name: types.SimpleNamespace(newest=dict.fromkeys(experiment.DOMAINS, ["1.0", "OFF"]))
                    for name in experiment.STATIONS}
        watchers[station].newest[domain] = shown
        return chaos.Chaos.unlike(types.SimpleNamespace(watchers=watchers))

    def test_states_that_are_not_shown(self):
        station, above = experiment.DOMAINS["R0_1"]
        for place, shown, count in [(station, ["1.0", "OFF"], 0), (experiment.DOMAINS[above][0], ["1.1", "READY"], 1),
                                    (station, ["1.1", "READY"], 1), (station, None, 1), ("C1", None, 0)]:
            self.assertEqual(len(self.unlike("R0_1", place, shown)), count, (place, shown))


class Experiment(unittest.TestCase):
    """The tree is as large as is said, and garbage is none of its datagrams."""

    def test_tree(self):
        made = hierarchy.of_lines("\n".join(experiment.tree_lines(range(9000, 9030))).split("\n"))
        self.assertEqual([len(made.stations), len(made.operators), len(made.domains), len(made.devices)],
                         [30, 30, 60, 200])
        for name, (station, above) in experiment.DOMAINS.items():
            self.assertTrue(above is None or station != experiment.DOMAINS[above][0], name)

    def test_garbage(self):
        draw = random.Random(1)
        found = [chaos.garbage(draw) for _ in range(20_000)]
        lawful = [it for it in found if layout.refusal(it) == 0]
        self.assertTrue(0 < len(lawful) < len(found))
        self.assertNotIn(experiment.NUMBER, [layout.values(it)["tree"] for it in lawful])


class Networks(unittest.TestCase):
    """The network does to a datagram what it is told to do, and passes on any other once."""

    FIELDS = {layout.TAKE: {"holder_kind": 1, "holder": 1}, layout.WATCH: {"echo": 1}}

    def passed(self, before=lambda network: None, kind=layout.TAKE, thinned=0, **rates):
        """Returns how often a datagram comes that the first station sends to the second one."""
        data, found = layout.datagram(kind, **{"from": 1}, to=2, subject=1, **self.FIELDS[kind]), 0
        with socket_at(0) as sink, socket_at(0) as out:
            network = Network({"A": 1, "B": sink.getsockname()[1]}, {"loss": 0, "repeat": 0, "delay": 0, **rates}, 1,
                              latest=0.01, thinned=thinned)
            before(network)
            out.sendto(data, (HOST, network.ports["B"]))
            until = time.monotonic() + 0.1
            while time.monotonic() < until:
                network.turn()
            try:
                while sink.recv(64) == data:
                    found += 1
            except BlockingIOError:
                return found, {name for name, count in network.count.items() if count}

    def test_rates(self):
        self.assertEqual(self.passed(), (1, {"passed on"}))
        self.assertEqual(self.passed(loss=1), (0, {"lost"}))
        self.assertEqual(self.passed(delay=1), (1, {"delayed", "passed on"}))
        found, count = self.passed(repeat=1)
        self.assertTrue(found >= 2 and count == {"repeated", "passed on"})

    def test_partitions(self):
        for numbers, wanted in [([1], 0), ([2], 0), ([1, 2], 1), ([3], 1)]:
            self.assertEqual(self.passed(lambda network, it=numbers: network.part(it, 60))[0], wanted, numbers)
        self.assertEqual(self.passed(lambda network: network.part([1], 0))[0], 1)

    def test_healing(self):
        def part_and_heal(network):
            network.part([1], 60)
            network.heal()

        self.assertEqual(self.passed(part_and_heal, loss=1, repeat=1, delay=1), (1, {"passed on"}))

    def test_watches(self):
        self.assertEqual(self.passed(kind=layout.WATCH, thinned=1), (0, {"thinned"}))
        self.assertEqual([self.passed(thinned=1)[0], self.passed(kind=layout.WATCH)[0]], [1, 1])
