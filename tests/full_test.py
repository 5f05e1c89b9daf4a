"""Nodes over a full tree, one of which keeps all domains and is killed and started again, also on rows of the first
schema. Expected lines are those of docs/FORMATS.md, "A node's lines".
"""

import collections
import sqlite3

import running
import stores
from full import BELOW, CREW, DEVICES, DOMAINS, KEEPER, LAST, OPERATORS, ROOTS, SOON, Detector, child, domains, root


def is_shown(node, name, wanted):
    """Returns true once a node shows an object so, or false if it does not in time."""
    return running.at_last(lambda: node.ask("show " + name), wanted, SOON) == wanted


def check_begun(detector, subtests):
    """Each node that was started listens at its own address."""
    came = {station: detector.ask(station, "show " + root(1)) for station in detector.nodes}
    with subtests.test("stations at addresses of their own begin"):
        assert came == dict.fromkeys(came, "board R1 none")


def check_crew(detector, subtests):
    """Each of eight operators of one station takes a root of another's, includes what is below, and configures it."""
    told = {it: [] for it in range(1, OPERATORS + 1)}
    wanted = {}
    for it in told:
        orders = ["take " + root(it)]
        orders += ["include %s %s" % (root(it), child(it, place)) for place in range(1, BELOW + 1)]
        orders += ["do %s CONFIGURE" % root(it)]
        wanted[it] = ["told OP%d %s 0" % (it, order) for order in orders]
        told[it] = [detector.ask(CREW, "order OP%d %s" % (it, order)) for order in orders]
    for it, lines in told.items():
        with subtests.test("operator %d of eight commands a root and what is below it" % it):
            assert lines == wanted[it]
    others = [detector.ask(CREW, "order OP%d do %s START" % (it % OPERATORS + 1, root(it))) for it in told]
    with subtests.test("nobody commands another one's root"):
        assert others == ["told OP%d do %s START 21" % (it % OPERATORS + 1, root(it)) for it in told]


def check_far(detector, subtests):
    """Stations before and after the crew's reach the keeper, and its answers reach them."""
    for station, name in [(1, "FIRST"), (LAST, "ALONE")]:
        records = [detector.ask(station, "order %s ask %s" % (name, root(it))) for it in range(1, ROOTS + 1)]
        with subtests.test("station %d is told that each root is held by its own operator" % station):
            assert records == ["told %s ask %s OP%d 1 %d settled 0" % (name, root(it), it, BELOW + 1)
                               for it in range(1, ROOTS + 1)]
        refused = detector.ask(station, "order %s take %s" % (name, root(1)))
        with subtests.test("station %d is told who holds a root" % station):
            assert refused == "told %s take %s 5" % (name, root(1))


def check_shown(detector, boot, state, sequence, subtests):
    """Every object is watched by the crew, and comes to be shown."""
    names = [name for name, _ in domains()]
    names += ["%s_D%d" % (name, place) for name in list(names) for place in range(1, DEVICES + 1)]
    if boot == 1:
        told = [detector.ask(CREW, "order OP%d watch %s" % (1 + at % OPERATORS, name)) for at, name in enumerate(names)]
        with subtests.test("all %d objects can be watched" % len(names)):
            assert told == ["told OP%d watch %s 0" % (1 + at % OPERATORS, name) for at, name in enumerate(names)]
    # (if one is missing, the test does not wait for others)
    missing = next((name for name in names if not is_shown(
        detector.nodes[CREW], name, "board %s %d.%d %s" % (name, boot, sequence, state))), None)
    with subtests.test("all %d objects are shown at boot %d%s"
        % (len(names), boot, ", but " + missing if missing else "")):
        assert missing is None


def check_restart(detector, subtests):
    """The keeper of all domains is killed and started again: it has its rows, and goes on."""
    detector.nodes[KEEPER].kill()
    before = dict(stores.rows_in(detector.store(KEEPER)))
    with subtests.test("a keeper of 128 domains has a row of each"):
        assert len(before) == DOMAINS + 1
    detector.start(KEEPER)
    told = detector.ask(CREW, "order OP%d do %s START" % (OPERATORS, root(OPERATORS)))
    with subtests.test("a keeper of 128 domains starts again"):
        assert told == "told OP%d do %s START 0" % (OPERATORS, root(OPERATORS))
    record = detector.ask(CREW, "order OP1 ask %s" % root(1))
    with subtests.test("it knows who holds what"):
        assert record == "told OP1 ask %s OP1 1 %d settled 0" % (root(1), BELOW + 1)
    # what devices are in is not stable: each shows its first state until it is reported
    check_shown(detector, 2, "OFF", 0, subtests)
    detector.nodes[KEEPER].kill()
    after = dict(stores.rows_in(detector.store(KEEPER)))
    with subtests.test("it has all its rows"):
        assert sorted(after) == sorted(before)
    with subtests.test("it has started twice"):
        assert after[(KEEPER, 0, 0)] == "0200000000000002"
    left = {key: row for key, row in before.items() if key[1] and not begins_with(key, root(OPERATORS))}
    with subtests.test("the rows of other roots are unchanged"):
        assert all(after[key] == row for key, row in left.items())


def write_older(path):
    """Writes the rows of a store as they were in the first schema.

    Those that name no newer verb and no mode differ in their first byte alone.
    """
    with sqlite3.connect(path) as file:
        rows = file.execute("SELECT rowid, bytes FROM stable_rows").fetchall()
        file.executemany("UPDATE stable_rows SET bytes = ? WHERE rowid = ?", [(b"\1" + it[1:], at) for at, it in rows])
    file.close()


def check_migrated(detector, subtests):
    """The keeper of all domains and the crew's station start on rows of the first schema.

    Each row is saved in the newest schema, and says what it said.
    """
    before, after = {}, {}
    for station in (KEEPER, CREW):
        detector.nodes[station].kill()
        write_older(detector.store(station))
        before.update(stores.rows_in(detector.store(station)))
    counts = collections.Counter(row[:2] for row in before.values())
    with subtests.test("rows of the first schema"):
        assert counts == {"01": DOMAINS + OPERATORS + 2}
    for station in (KEEPER, CREW):
        detector.start(station)
    told = detector.ask(CREW, "order OP1 do %s START" % root(1))
    with subtests.test("stations start on rows of the first schema"):
        assert told == "told OP1 do %s START 0" % root(1)
    for station in (KEEPER, CREW):
        detector.nodes[station].kill()
        after.update(stores.rows_in(detector.store(station)))
    counts = collections.Counter(row[:2] for row in after.values())
    with subtests.test("all rows are saved anew in their newest schema"):
        assert counts == {"02": DOMAINS + 2, "03": OPERATORS}
    # what OP1 has ordered since, and the boots, are others
    same = [key for key in before if key[1] and not begins_with(key, root(1)) or key[2] > 1]
    with subtests.test("they say what they said"):
        assert {key: after[key][2:] for key in same} == {key: before[key][2:] for key in same}


def begins_with(key, name):
    """Returns true if the domain of a row is this root or below it."""
    own = list(domains())[key[1] - 1]
    return name in own


def test_full(folder, start_node, subtests):
    """A crew, stations that are far from it, a keeper that is killed, and rows of the first schema."""
    detector = Detector(folder, start_node)
    for station in (1, CREW, KEEPER, LAST):
        detector.start(station)
    check_begun(detector, subtests)
    check_crew(detector, subtests)
    check_far(detector, subtests)
    assert not detector.mute, "a station that answers no more is not asked for all objects"
    check_shown(detector, 1, "READY", 1, subtests)
    ended = [station for station, node in detector.nodes.items() if node.child.poll() is not None]
    with subtests.test("no node ended by itself"):
        assert not ended
    check_restart(detector, subtests)
    check_migrated(detector, subtests)
