"""The history of a screen: that it has what the nodes showed and what was ordered, and outlasts the screen.

What is told is compared with what a follower of the nodes was told, with the picture, and with docs/FORMATS.md, "The
history of a screen".
"""

import collections
import json
import os
import shutil
import subprocess
import time

import pytest

import nodes
import running
import screens
from running import DEADLINE

Past = collections.namedtuple("Past", "head entries")
World = collections.namedtuple("World", "tree crews screen path")
# How many entries are kept, and how many are looked through for one request.
MOST, AT_ONCE = 1_048_576, 10_000
DAY = 86_400_000
FAULTY = (400, b"this is no query: object=NAME&from=SECOND&to=SECOND&after=NUMBER")


def past(screen, query=""):
    """Returns what a screen tells of its past."""
    status, body = screen.get("/api/history" + query)
    assert status == 200
    head, *entries = map(json.loads, body.decode().splitlines())
    return Past(head, entries)


def texts(screen, query=""):
    return [it["text"] for it in past(screen, query).entries]


@pytest.fixture
def home(folder):
    """Returns the path of the worked tree with a screen."""
    ports = nodes.free_ports(3)
    return nodes.write_tree(folder, None, screens.with_screen(nodes.tree_lines(ports[:2]), ports[2]))


@pytest.fixture
def start_past(folder, home, start_screen):
    """Returns a function that starts a screen on its store and the file of its history."""
    path = os.path.join(folder, "past")
    return lambda *more: start_screen(home, screens.store_of(folder, "screen"),
                                      more=("--endless", "--history", path, *more)), path


@pytest.fixture
def world(folder, home, start_node, start_past):
    """Returns the worked tree with two nodes, whose consoles are in the folder, and a screen that keeps its history."""
    start, path = start_past
    crews = {name: start_node(home, name, screens.store_of(folder, name), "--endless", "--console",
                              os.path.join(folder, name + ".sock")) for name in "AB"}
    screen = start("--orders", os.path.join(folder, "A.sock"))
    assert screen.is_up() and screen.has_console()
    return World(home, crews, screen, path)


def versions(lines):
    """Returns the versions and states of each object in lines of boards, in their order."""
    found = collections.defaultdict(list)
    for line in lines:
        words = line.split()
        if words[0] == "board":
            found[words[1]].append((tuple(map(int, words[2].split("."))), words[3]))
    return found


def played(world):
    """Plays a run on the worked tree, from the page and from nodes, and returns the page's orders with their ends."""
    crews, screen = world.crews, world.screen
    assert crews["B"].ask("report HV OFF") == "told report HV OFF 0"
    given = ["ANN take DCS", "ANN include DCS TPC", "ANN do DCS CONFIGURE", "ANN exclude DCS TPC", "ANN take DCS"]
    return [(text, screen.order(text)) for text in given]


def test_seen(world, subtests):
    """All that the nodes showed, who held what, and what was ordered from the page."""
    screen = world.screen
    orders = played(world)
    picture = screen.picture()
    assert running.is_so(lambda: len([it for it in texts(screen) if it.startswith("ended")]) == len(orders))
    told = past(screen)
    lines = [it["text"] for it in told.entries]
    with subtests.test("numbers"):
        assert [it["number"] for it in told.entries] == list(range(1, told.head["count"] + 1))
    with subtests.test("times"):
        assert all(abs(it["at"] / 1000 - time.time()) < 2 * DEADLINE for it in told.entries)
    with subtests.test("states rise"):
        assert all(rows == sorted(set(rows)) for rows in versions(lines).values())
    with subtests.test("the last states are those of the picture"):
        shown = {it["name"]: it["shown"] for it in picture["domains"] + picture["devices"] if it["shown"]}
        assert {name: rows[-1] for name, rows in versions(lines).items()} == {
            name: ((it["boot"], it["sequence"]), it["state"]) for name, it in shown.items()}
    with subtests.test("states of the nodes"):
        assert [state for _, state in versions(lines)["HV"]][-2:] == ["OFF", "READY"]
    with subtests.test("who held it"):
        records = [it.split()[2:4] for it in lines if it.startswith("record TPC ")]
        assert [it for at, it in enumerate(records) if it not in records[:at]] == [
            ["free", "0"], ["domain", "DCS"], ["free", "2"]]
    with subtests.test("orders"):
        numbered = [it.split(" ", 2) for it in lines if it.startswith(("given", "ended"))]
        wanted = [[[str(n), "order " + text], [str(n), "told %s %d" % (text, code)]] for n, (text, code) in
                  enumerate(orders, 1)]
        assert [it[1:] for it in numbered] == [it for pair in wanted for it in pair]
        assert [it[0] for it in numbered] == ["given", "ended"] * len(orders)
    with subtests.test("acknowledged"):
        line = "acknowledge device HV ANN"
        assert screen.give(line, target="/api/alarms") == (200, b"acknowledged")
        assert running.is_so(lambda: texts(screen)[-1] == "acknowledged device HV ANN")


def test_queries(world, subtests):
    """Which entries a query is answered with."""
    screen = world.screen
    played(world)
    assert running.is_so(lambda: any(it.startswith("ended 5") for it in texts(screen)))
    every = past(screen).entries
    for word in ("TPC", "HV", "ANN", "DCS", "TP", "nothing"):
        with subtests.test(word):
            assert past(screen, "?object=" + word).entries == [it for it in every if word in it["text"].split(" ")]
    half = every[len(every) // 2]
    second = half["at"] // 1000
    for query, holds in [("from=%d" % second, lambda it: it["at"] // 1000 >= second),
                         ("to=%d" % second, lambda it: it["at"] // 1000 <= second),
                         ("from=%d&to=%d" % (second, second), lambda it: it["at"] // 1000 == second),
                         ("from=%d" % (second + 1000), lambda it: False),
                         ("after=%d" % half["number"], lambda it: it["number"] > half["number"]),
                         ("object=TPC&after=%d&x=y&&" % half["number"],
                          lambda it: it["number"] > half["number"] and "TPC" in it["text"].split(" ")),
                         ("after=0", lambda it: True), ("", lambda it: True), ("objects=TPC", lambda it: True)]:
        with subtests.test(query):
            assert past(screen, "?" + query).entries == [it for it in every if holds(it)]
    for query in ("from=", "from=x", "to=-1", "after=12345678901", "after=1.5", "from=1&from=x&to=y"):
        with subtests.test(query):
            assert screen.get("/api/history?" + query) == FAULTY
    with subtests.test("the head"):
        count = past(screen).head["count"]
        assert past(screen, "?after=7").head == {"count": count, "saved": past(screen).head["saved"], "after": 7,
                                                 "upto": 7 + AT_ONCE, "oldest": every[0]["at"]}
    with subtests.test("after all"):
        assert past(screen, "?after=%d" % (count + 9)) == Past(
            {**past(screen).head, "after": count + 9, "upto": count + 9 + AT_ONCE}, [])
    with subtests.test("from a second on"):
        first = next(it for it in every if it["at"] // 1000 >= second)
        assert past(screen, "?from=%d" % second).head["after"] == first["number"] - 1
    with subtests.test("from a second that nothing is of yet"):
        assert past(screen, "?from=%d" % (second + 1000)).head["after"] == count


def test_silence(world, start_node, folder):
    """A station that is killed falls silent, and is heard again."""
    screen, crews = world.screen, world.crews
    crews["B"].kill()
    assert running.is_so(lambda: "silent TPC" in texts(screen))
    assert "silent DCS" not in texts(screen)
    start_node(world.tree, "B", screens.store_of(folder, "B"), "--endless")
    assert running.is_so(lambda: "heard TPC" in texts(screen))
    assert [it for it in texts(screen) if it.split()[0] in ("silent", "heard")] == ["silent TPC", "heard TPC"]


def whole(it):
    return it["at"], it["text"]


def test_outlasts(world, start_past, subtests):
    """A screen that is killed and started again has all that was saved, whatever became of the file's end."""
    start, path = start_past
    played(world)
    screen = world.screen
    assert running.is_so(lambda: past(screen).head["saved"] == past(screen).head["count"])
    before = past(screen)
    screen.end()
    saved = running.read(path)
    with subtests.test("the file"):
        lines = "".join("%d %s\n" % whole(it) for it in before.entries).encode()
        assert saved.startswith(lines)
    running.write(path, saved + b"1790000000123 board\"TPC 1.1 X\nnonsense\n\n1790000000124 board TPC 9.9 REA")
    screen = start()
    assert screen.is_up()
    after = past(screen)
    with subtests.test("all is there, and first"):
        assert [whole(it) for it in after.entries[:len(before.entries)]] == [whole(it) for it in before.entries]
    with subtests.test("nothing of the torn line"):
        assert not [it for it in after.entries if "9.9" in it["text"] or '"' in it["text"]]
    with subtests.test("the file is clean again"):
        assert running.is_so(lambda: past(screen).head["saved"] > before.head["count"])
        assert b"nonsense" not in running.read(path) and b"9.9" not in running.read(path)


def test_no_file(world, subtests):
    """A file that is taken away ends no screen: it goes on, and tells what is saved."""
    screen, path = world.screen, world.path
    assert running.is_so(lambda: past(screen).head["saved"] > 0)
    os.remove(path)
    played(world)
    assert running.is_so(lambda: any(it.startswith("ended 5") for it in texts(screen)))
    with subtests.test("it is not saved"):
        time.sleep(1)
        assert past(screen).head["saved"] < past(screen).head["count"]
    with subtests.test("there is no file"):
        assert not os.path.exists(path)


def test_faults(smi, folder, home, subtests):
    """A file that can't be had at the start."""
    store, http = screens.store_of(folder, "faults"), "127.0.0.1:%d" % screens.tcp_port()
    for name, path in [("no folder", os.path.join(folder, "none", "past")), ("a folder", folder)]:
        with subtests.test(name):
            told = smi("screen", home, "SCREEN", store, "--http", http, "--history", path, "--turns", "3")
            assert told == (b"", b"history fault\n", 3)
    with subtests.test("without"):
        assert smi("screen", home, "SCREEN", store, "--http", http, "--turns", "3") == (b"", b"", 0)
    for days, told in [("1", (b"", b"", 0)), ("366", (b"", b"", 0)), *(
            (word, (b"", b"wrong line\n", 2)) for word in ("0", "367", "x", "-1", ""))]:
        with subtests.test("days " + days):
            assert smi("screen", home, "SCREEN", store, "--http", http, "--turns", "3", "--history-days", days) == told


def test_without(folder, home, start_screen, subtests):
    """Without a file the past is told too, and none of it is saved."""
    screen = start_screen(home, screens.store_of(folder, "screen"))
    assert screen.is_up()
    with subtests.test("before anything was seen"):
        assert past(screen) == Past({"count": 0, "saved": 0, "after": 0, "upto": AT_ONCE, "oldest": 0}, [])


def test_days(start_past, subtests):
    """Entries are kept for some days, in memory and in the file."""
    start, path = start_past
    now = int(1000 * time.time())
    lines = ["%d board HV 1.%d READY" % (now - int(days * DAY), at) for at, days in
             enumerate((400, 365, 40, 32, 30.9, 20, 2.1, 1.9, 0.5))]
    for more, kept in [((), 5), (("--history-days", "366"), 8), (("--history-days", "2"), 2),
                       (("--history-days", "1"), 1)]:
        running.write(path, "".join(it + "\n" for it in lines))
        screen = start(*more)
        assert screen.is_up()
        with subtests.test("told: " + " ".join(more)):
            assert ["%d %s" % whole(it) for it in past(screen).entries] == lines[-kept:]
        screen.end()
        with subtests.test("in the file: " + " ".join(more)):
            assert running.read(path).decode().splitlines()[:kept] == lines[-kept:]


@pytest.fixture
def clock(folder):
    """Returns a function that sets by how many milliseconds the clock of a screen is ahead, and its environment."""
    subprocess.run(["cc", "-shared", "-fPIC", "-O1", "-o", os.path.join(folder, "clock.so"),
                    os.path.join(running.HERE, "clock.c")], check=True)
    path = os.path.join(folder, "ahead")

    def put(milliseconds):
        running.write(path + ".new", "%d" % milliseconds)
        os.rename(path + ".new", path)

    put(0)
    # by its name, because a list of paths is split at each space
    return put, {**os.environ, "LD_PRELOAD": "clock.so", "LD_LIBRARY_PATH": folder, "AHEAD": path}


def test_midnight(folder, home, start_node, start_screen, clock, subtests):
    """At the first look of a day all is noted that is known, and what is too old is gone."""
    put, environment = clock
    crews = {name: start_node(home, name, screens.store_of(folder, name), "--endless") for name in "AB"}
    screen = start_screen(home, screens.store_of(folder, "screen"), more=("--endless", "--history-days", "3"),
                          env=environment)
    assert screen.is_up()
    assert crews["B"].ask("report HV OFF") == "told report HV OFF 0"
    assert crews["A"].ask("order ANN take DCS") == "told ANN take DCS 0"
    assert screen.waits_for(lambda it: all(one["shown"] for one in it["domains"]))
    crews["B"].kill()
    assert running.is_so(lambda: "silent TPC" in texts(screen))
    with subtests.test("before"):
        assert not [it for it in texts(screen) if it.startswith("since")]
    before = past(screen).entries
    newest = {tuple(it["text"].split()[:2]): it for it in before}
    midnight = (int(1000 * time.time()) // DAY + 1) * DAY
    put(midnight - int(1000 * time.time()) + 1000)
    assert running.is_so(lambda: any(it.startswith("since") for it in texts(screen)))
    after = past(screen, "?from=%d" % (midnight // 1000))
    known = [it["text"].split(" ", 2) for it in after.entries if it["text"].startswith("since")]
    with subtests.test("each is known, and since when"):
        wanted = {key: it for key, it in newest.items() if key[0] in ("board", "record")}
        assert {tuple(text.split()[:2]): text for _, _, text in known} == {
            key: it["text"] for key, it in wanted.items()}
        assert all(abs(int(at) - wanted[tuple(text.split()[:2])]["at"] - (midnight - int(1000 * time.time()) + 1000))
                   < 60_000 + 1000 * DEADLINE for _, at, text in known)
    with subtests.test("who reads from midnight on misses nothing before it"):
        assert after.head["after"] == before[-1]["number"]
    with subtests.test("who is silent"):
        assert [it["text"] for it in after.entries if it["text"].startswith("silent")] == ["silent TPC"]
    with subtests.test("once a day"):
        time.sleep(1)
        assert len([it for it in texts(screen) if it.startswith("since")]) == len(known)
    put(midnight + 3 * DAY - int(1000 * time.time()) + 10_000)
    with subtests.test("three days later all of before is gone"):
        assert running.is_so(lambda: past(screen).head["oldest"] > midnight + DAY)
        assert all(it["text"].startswith(("since", "silent", "record", "board")) for it in past(screen).entries)
        assert past(screen).entries[0]["number"] > before[-1]["number"]


@pytest.mark.alone
def test_large(folder, start_past, subtests):
    """A file of more entries than are kept: the newest are there, in pieces, and soon."""
    start, path = start_past
    count = MOST + 8_928
    first = int(1000 * time.time()) - 20 * count
    lines = ["%d board HV%d 1.%d READY" % (first + 10 * n, n % 512, n) for n in range(count)]
    running.write(path, "".join(it + "\n" for it in lines))
    begun = time.monotonic()
    screen = start()
    assert screen.is_up()
    print("FIGURE up after %.2f s, %d KiB" % (time.monotonic() - begun, screen.memory()))
    found, after, waited = [], 0, []
    assert past(screen).head["oldest"] == first + 10 * (count - MOST)
    while True:
        begun = time.monotonic()
        piece = past(screen, "?after=%d" % after)
        waited.append(time.monotonic() - begun)
        found += piece.entries
        after = piece.head["upto"]
        if after >= piece.head["count"]:
            break
    print("FIGURE pieces", ["%.3f" % it for it in waited])
    with subtests.test("the newest are kept"):
        assert ["%d %s" % whole(it) for it in found] == lines[-MOST:]
    with subtests.test("numbers"):
        assert (found[0]["number"], found[-1]["number"]) == (count - MOST + 1, count)
    with subtests.test("the newest without a number"):
        assert past(screen).entries == found[-AT_ONCE:]
    with subtests.test("by name"):
        assert past(screen, "?object=HV7").entries == [it for it in found[-AT_ONCE:] if " HV7 " in it["text"]]
    second = (first + 10 * count) // 1000 - 600
    before = len([it for it in found if it["at"] // 1000 < second])
    with subtests.test("from a second on"):
        told = past(screen, "?from=%d" % second)
        assert told.head["after"] == found[before - 1]["number"]
        assert told.entries == found[before:before + AT_ONCE]
    with subtests.test("between two seconds"):
        wanted = [it for it in found if second <= it["at"] // 1000 <= second + 1]
        assert past(screen, "?from=%d&to=%d" % (second, second + 1)).entries == wanted
    shutil.rmtree(os.path.join(folder, "none"), ignore_errors=True)
