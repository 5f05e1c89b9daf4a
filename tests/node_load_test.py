"""Nodes under load and at rest: what they count, how soon they answer, and that a flood holds up no order."""

import itertools
import os
import signal
import socket
import sys
import threading
import time

import pytest

import nodes
import stores
import wires
from running import text_of

# How long the answer of a flooded node may take, in seconds; and if the flood is all that one process can send, because
# most datagrams of other stations are lost then.
SOON, LATER = 15, 60


def counts_of(node):
    """Returns what a node has counted, by name."""
    words = node.ask("@c counts").split()
    assert words[:2] == ["@c", "counts"], words
    return dict(zip(words[2::2], map(int, words[3::2])))


def drops_of(port):
    """Returns how many datagrams the system has dropped at a port of this machine, by its own table."""
    with open("/proc/net/udp", encoding="ascii") as file:
        lines = [line.split() for line in file][1:]
    return sum(int(words[-1]) for words in lines if words[1] == "0100007F:%04X" % port)


def drowned(node, port):
    """Sends more datagrams than there is room for while a node is stopped, and returns how many are dropped."""
    node.child.send_signal(signal.SIGSTOP)
    with socket.socket(socket.AF_INET, socket.SOCK_DGRAM) as other:
        for _ in range(20_000):
            other.sendto(b"x", ("127.0.0.1", port))
    node.child.send_signal(signal.SIGCONT)
    return drops_of(port)


def check_dropped(node, port, subtests):
    """Datagrams for which there is no room are dropped, and counted."""
    flooded = drowned(node, port)
    with subtests.test("datagrams for which there is no room are dropped"):
        assert flooded > 0
    time.sleep(1.5)
    with subtests.test("and told as the system counts them"):
        assert counts_of(node)["dropped"] == drops_of(port)


@pytest.mark.alone
def test_count(folder, ports, tree, start_node, subtests):
    """What a node counts: each number rises by what was done to it."""
    node = start_node(tree, "A", os.path.join(folder, "A"), "--endless")
    first, begun = counts_of(node), time.monotonic()
    names = ["received", "sent", "unsent", "ticks", "faults", "saved", "unsaved", "unmade"]
    names += ["refused%d" % refusal for refusal in [*range(1, 10), *range(21, 27)]] + ["foreign"]
    with subtests.test("names of counts"):
        assert list(first) == names + ["dropped"]
    ask = bytes.fromhex("534d01010002000100010000" + "00" * 18 + "0011" + "00" * 12)
    refused = {1: b"x" * 43, 2: b"T" + ask[1:], 3: ask[:2] + b"\x03" + ask[3:], 4: ask[:3] + b"\x09" + ask[4:],
               5: ask[:9] + b"\x00" + ask[10:], 6: ask[:43] + b"\x01", 7: ask[:31] + b"\x12" + ask[32:],
               8: ask[:7] + b"\x02" + ask[8:], 9: ask[:9] + b"\x02" + ask[10:]}
    with socket.socket(socket.AF_INET, socket.SOCK_DGRAM) as other:
        for refusal, data in refused.items():
            for _ in range(refusal):
                other.sendto(data, ("127.0.0.1", ports[0]))
        other.sendto(ask, ("127.0.0.1", ports[0]))
    told = [node.ask("order ANN " + order) for order in ("drop DCS", "take DCS", "take DCS", "exclude DCS DCS")]
    time.sleep(0.5)
    later = counts_of(node)
    risen = {name: later[name] - first[name] for name in names}
    with subtests.test("orders that are counted"):
        assert told == [
            "told ANN drop DCS 21", "told ANN take DCS 0", "told ANN take DCS 23", "told ANN exclude DCS DCS 2"]
    # Four orders, and so four wake-ups, of no bytes. Each datagram that is refused is one that came.
    with subtests.test("refused datagrams are counted"):
        assert [risen["refused%d" % it] for it in range(1, 10)] == [5, *range(2, 10)]
    with subtests.test("one names no station as its sender, and wake-ups have no bytes"):
        assert risen["foreign"] == 1
    with subtests.test("refused orders are counted"):
        assert [risen["refused%d" % it] for it in range(21, 27)] == [1, 0, 1, 0, 0, 0]
    # The link takes, the record is granted, the link learns it; the command is issued, runs and is heard of.
    with subtests.test("saves are counted"):
        assert [risen["saved"], later["unsaved"] == later["unmade"] == 0] == [6, True]
    # Besides those refused and the wake-ups: the question, and what the station sent to itself, TAKE, TELL, RUN and
    # TELL. A tick between an order and its answer sends once more, and is answered once more.
    more = risen["received"] - sum(refused) - 4 - 1 - 4
    with subtests.test("datagrams that came are counted"):
        assert more in range(0, 2 * risen["ticks"] + 1, 2)
    with subtests.test("ticks are counted"):
        assert [10 < risen["ticks"] < 100 * (time.monotonic() - begun) + 10, later["faults"]] == [True, 0]
    # Each tick repeats the WATCH of TPC; beside these went four datagrams to itself with those that were sent again,
    # and the TELL to B. Counts that are read one after the other may differ by one.
    went = risen["sent"] + risen["unsent"] - risen["ticks"] - more
    with subtests.test("datagrams that went are counted"):
        assert went in (4, 5, 6)
    with subtests.test("none was dropped"):
        assert [later["dropped"], drops_of(ports[0])] == [0, 0]
    check_dropped(node, ports[0], subtests)


@pytest.mark.alone
def test_endless(folder, ports, tree, start_node, subtests):
    """More than two million turns of a node, by a flood of datagrams that are none; it keeps what it had, and answers
    meanwhile. A signal ends it, and what was answered is saved."""
    words = [tree, "B", os.path.join(folder, "B"), "--endless"]
    node = start_node(*words)
    told = [node.ask(line) for line in ("report HV READY", "order BOB watch HV", "order BOB take TPC")]
    counts, took, until = counts_of(node), [], time.monotonic() + 300
    with socket.socket(socket.AF_INET, socket.SOCK_DGRAM) as other:
        other.connect(("127.0.0.1", ports[1]))
        while counts["received"] < 2_100_000 and time.monotonic() < until:
            for _ in range(20_000):
                other.send(b"x")
            begun = time.monotonic()
            counts = counts_of(node)
            took.append(time.monotonic() - begun)
    with subtests.test("two million turns"):
        assert counts["received"] >= 2_100_000
    with subtests.test("answered in a flood"):
        assert max(took) < SOON
    with subtests.test("states are kept over all turns"):
        assert [told, node.ask("show HV"), node.ask("order BOB take TPC")] == [
            ["told report HV READY 0", "told BOB watch HV 0",
            "told BOB take TPC 0"], "board HV 1.1 READY", "told BOB take TPC 23"]
    node.child.terminate()
    with subtests.test("ended by a signal"):
        assert node.end()[2] == -signal.SIGTERM
    node = start_node(*words, preexec_fn=lambda: signal.signal(signal.SIGINT, signal.SIG_DFL))
    node.ask("show HV")
    node.child.send_signal(signal.SIGINT)
    with subtests.test("ended by another signal"):
        assert node.end()[2] == -signal.SIGINT
    with subtests.test("what was answered is saved"):
        assert ((2, 2, 0), "020100020000000000000001" + "00" * 12) in stores.rows_in(words[2])


# The session of README.md: who types what, and what is printed. Station C comes up while the third line waits.
SESSION = [
    ("A", "order ANN take DCS", "told ANN take DCS 0"),
    ("A", "order ANN include DCS TPC", "told ANN include DCS TPC 0"),
    ("A", "order ANN include DCS MUON", "told ANN include DCS MUON 0"),
    ("A", "order ANN do DCS CONFIGURE", "told ANN do DCS CONFIGURE 0"),
    ("B", "order BOB take TPC", "told BOB take TPC 5"),
    ("A", "order ANN exclude DCS TPC", "told ANN exclude DCS TPC 0"),
    ("B", "order BOB take TPC", "told BOB take TPC 0"),
    ("B", "order BOB do TPC START", "told BOB do TPC START 0"),
    ("B", "order BOB drop TPC", "told BOB drop TPC 0"),
    ("A", "order ANN include DCS TPC", "told ANN include DCS TPC 0"),
    ("A", "show TPC", "board TPC 1.2 RUNNING"),
]
LATE, GIVEN_BACK = SESSION[2], SESSION[5:]


def asked_until(node, line, wanted, patience):
    """Returns what a node answers to a line: an order once, and what it shows until it is what is wanted."""
    until = time.monotonic() + patience
    answer = node.ask(line, patience)
    while line.startswith("show") and answer not in (wanted, None) and time.monotonic() < until:
        time.sleep(0.02)
        answer = node.ask(line, patience)
    return answer


def play(begun, start_late, seconds):
    """Types the session, and its end repeatedly for this long. Returns each line with its answer."""
    until, told = time.monotonic() + seconds, []
    for entry in itertools.chain(SESSION, itertools.cycle(GIVEN_BACK)):
        name, line, wanted = entry
        late = threading.Timer(0.3, start_late) if entry is LATE else None
        late and late.start()
        told.append((name, line, asked_until(begun[name], line, wanted, LATER)))
        late and late.join()
        is_over = len(told) >= len(SESSION) and time.monotonic() > until
        if told[-1] != entry or is_over and entry is SESSION[-1]:
            return told


@pytest.mark.alone
def test_flooded(folder, start_node, subtests):
    """Single bytes come to a node as fast as they can be sent, for a second and a half: each order is answered."""
    ports, begun = nodes.free_ports(3), {}
    tree = nodes.write_tree(folder, ports)

    def start(name):
        begun[name] = start_node(tree, name, os.path.join(folder, name), "--endless")
        wires.when_bound(ports["ABC".index(name)])

    start("A")
    start("B")
    flood = wires.Sender(ports[0], 0, [(0, b"x")])
    told = play(begun, lambda: start("C"), 1.5)
    is_whole = flood.is_running() and all(node.child.poll() is None for node in begun.values())
    _, _, speed = flood.end()
    for node in begun.values():
        node.kill()
    wanted = list(itertools.islice(itertools.chain(SESSION, itertools.cycle(GIVEN_BACK)), len(told)))
    if told != wanted:
        print("answered %s in place of %s" % (told[-1], wanted[-1]), file=sys.stderr)
    with subtests.test("a flooded node: each order is answered"):
        assert [len(told) >= len(SESSION), told] == [True, wanted]
    with subtests.test("a flooded node: it runs on, and so does the flood"):
        assert is_whole
    with subtests.test("a flooded node: how much comes"):
        assert speed > 2_000


@pytest.mark.alone
def test_rest(folder, tree, start_node, subtests):
    """A node at rest leaves the processor alone, and an order to it is served at once."""
    node = start_node(tree, "A", os.path.join(folder, "store"), "--turns", nodes.SOME)
    node.ask("order ANN watch TPC")

    def used():
        fields = text_of("/proc/%d/stat" % node.child.pid).rsplit(")", 1)[1].split()
        return (int(fields[11]) + int(fields[12])) / os.sysconf("SC_CLK_TCK")

    before, begun = used(), time.monotonic()
    time.sleep(3)
    with subtests.test("a node at rest"):
        assert (used() - before) / (time.monotonic() - begun) < 0.05
    took = []
    for _ in range(50):
        time.sleep(0.003)
        begun = time.monotonic()
        node.ask("order ANN watch TPC")
        took.append(time.monotonic() - begun)
    node.kill()
    # A turn of a node that nothing wakes takes ten milliseconds. An order to watch saves nothing.
    with subtests.test("an order to a node at rest"):
        assert sorted(took)[len(took) // 2] < 0.005
