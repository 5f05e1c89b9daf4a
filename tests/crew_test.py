"""What a crew asks of a node: a waiting order holds up no other domain, and a dead device program is seen everywhere.

Stations that are away are those that were never started. Nodes, device programs and the screen are processes.
"""

import os
import selectors
import signal
import subprocess
import sys
import time

import pytest

import lunskaf
import nodes
import running
import screens
from consoles import BUSY, Console, said_once, timed, wait_for
from running import DEADLINE, at_last, example

# How soon an order about a healthy domain is answered beside others that wait, unless the machine is so busy that none
# is answered as soon, and how soon a will is seen everywhere.
SOON, SEEN = 0.1, 1.0
# How long it is watched that an order does wait.
WAITS = 0.7
# How many device programs and how many people are at one station, and how many places each console has.
PROGRAMS, PEOPLE, PLACES = 52, 4, 128
# How many programs flood a node at once, for how many seconds, and how many lines of each are under way.
FLOODS, FLOOD, UNDER_WAY = 48, 2.0, 32

# A run of a crew over two stations, and domains of three stations that may be away.
TREE = """tree 5
state UNKNOWN
state OFF
state READY
state RAMPING
state ERROR
action GO
action STOP
station HERE 127.0.0.1:%d
station SIDE 127.0.0.1:%d
station EAST 127.0.0.1:%d
station WEST 127.0.0.1:%d
station SCREEN 127.0.0.1:%d
operator ANN HERE
operator BOB HERE
operator SID SIDE
operator WATCHER SCREEN
devclass DEV UNKNOWN
move DEV OFF GO READY
move DEV READY STOP OFF
unitclass UNIT UNKNOWN
accept UNIT GO
accept UNIT STOP
any UNIT UNKNOWN UNKNOWN
any UNIT OFF OFF
any UNIT READY READY
domain RUN HERE UNIT -
domain NEAR HERE UNIT RUN
domain BESIDE SIDE UNIT RUN
domain LEFT EAST UNIT -
domain FIRST WEST UNIT -
domain SECOND WEST UNIT -
domain THIRD WEST UNIT -
domain FOURTH WEST UNIT -
"""
DEVICES = ["device N%d NEAR DEV" % number for number in range(1, 17)] + ["device B BESIDE DEV", "device E LEFT DEV"]


class Place:
    """The nodes of a crew, of which HERE and SIDE run at first."""

    def __init__(self, folder, start_node, tree=None):
        self.folder, self.start_node = folder, start_node
        lines = (TREE % tuple(nodes.free_ports(5))).splitlines() + DEVICES
        self.tree = nodes.write_tree(folder, None, tree or lines)
        self.nodes = {}

    def where(self, station, kind="people"):
        return os.path.join(self.folder, "%s.%s" % (station, kind))

    def start(self, station):
        """Starts a node with a console for people and one for programs, and waits until it listens."""
        self.nodes[station] = self.start_node(
            self.tree, station, os.path.join(self.folder, station), "--endless", "--console", self.where(station),
            "--console", self.where(station, "devices"))
        wait_for(self.where(station, "devices"), self.nodes[station])

    def client(self, station):
        return lunskaf.Node(self.where(station), patience=DEADLINE)

    def waiting(self):
        """Returns how many orders wait at HERE."""
        with self.client("HERE") as node:
            return len(node.under_way())

    def begin_run(self):
        """Has ANN hold the run, with all that is below it READY."""
        with self.client("HERE") as here, self.client("SIDE") as side:
            for line in DEVICES[:16]:
                here.report(line.split()[1], "OFF")
            side.report("B", "OFF")
            here.take("ANN", "RUN")
            for child in ("NEAR", "BESIDE"):
                here.include("ANN", "RUN", child)
            here.do("ANN", "RUN", "GO")


@pytest.fixture
def place(folder, start_node):
    """Returns the crew's nodes, of which HERE and SIDE run."""
    made = Place(folder, start_node)
    for station in ("HERE", "SIDE"):
        made.start(station)
    return made


@pytest.mark.alone
def test_waiting(place, subtests):
    """A question to a station that is away, and a take at another one, hold up no order about a healthy run."""
    place.begin_run()
    here, other = place.nodes["HERE"], Console(place.where("HERE"))
    usual = timed(here.ask, ["@u order ANN do RUN " + it for it in ("STOP", "GO") * 5])[1]
    here.say("@q order ANN ask LEFT")
    other.say("@t order ANN take FIRST\n")
    with subtests.test("both wait"):
        assert at_last(place.waiting, 2) == 2
    for name, ask, line, wanted in [
            ("standard input, with a tag", here.ask, "@s order ANN do RUN STOP", "@s told ANN do RUN STOP 0"),
            ("a connection", Console(place.where("HERE")).ask, "order ANN do RUN GO", "told ANN do RUN GO 0"),
            ("a connection, with a tag", other.ask, "@c order ANN do RUN STOP", "@c told ANN do RUN STOP 0"),
            ("a mode of a child", other.ask, "@m order ANN manual RUN NEAR", "@m told ANN manual RUN NEAR 0"),
            ("a watch", other.ask, "@w order ANN watch B", "@w told ANN watch B 0"),
            ("another operator", other.ask, "@o order BOB ask RUN", "@o told BOB ask RUN ANN 1 17 settled 0")]:
        told, took = timed(ask, [line])
        with subtests.test("answered: " + name):
            assert told == [wanted]
        with subtests.test("soon: " + name):
            assert took[0] < max(SOON, BUSY * max(usual))
    with subtests.test("the others still wait"):
        assert place.waiting() == 2
    place.start("EAST")
    with subtests.test("a question is answered when its station is there"):
        assert here.next() == "@q told ANN ask LEFT free 0 0 settled 0"
    place.start("WEST")
    with subtests.test("and so is a take"):
        assert other.line() == "@t told ANN take FIRST 0"


def test_fifth(place, subtests):
    """Orders about four domains wait at once. One about a fifth waits for them, and goes on when one has ended."""
    place.begin_run()
    console, more = Console(place.where("HERE")), Console(place.where("HERE"))
    taken = ("LEFT", "FIRST", "SECOND", "THIRD")
    console.say("".join("@%s order ANN take %s\n" % (it, it) for it in taken))
    with subtests.test("orders about four domains wait"):
        assert at_last(place.waiting, 4) == 4
    with subtests.test("those of another operator do not wait for them"):
        assert more.ask("order BOB take BESIDE") == "told BOB take BESIDE 5"
    with subtests.test("nor does a question"):
        assert more.ask("order ANN ask RUN") == "told ANN ask RUN ANN 1 3 settled 0"
    more.say("order ANN do RUN STOP\n")
    more.socket.settimeout(WAITS)
    with subtests.test("a fifth domain waits"):
        assert [more.line(), place.waiting()] == [None, 5]
    more = lines_after(more)
    place.start("EAST")
    with subtests.test("one of the four has ended"):
        assert console.line() == "@LEFT told ANN take LEFT 0"
    with subtests.test("so the fifth goes on"):
        assert more.line() == "told ANN do RUN STOP 0"
    place.start("WEST")
    with subtests.test("and so do the others"):
        assert sorted(console.line() for _ in range(3)) == ["@%s told ANN take %s 0" % (it, it) for it in
                                                            sorted(taken[1:])]


def lines_after(console):
    """Returns a console whose lines can be read again after a time-out."""
    console.socket.settimeout(DEADLINE)
    console.lines = console.socket.makefile("r", encoding="ascii", newline="\n")
    return console


def test_one_domain(place, subtests):
    """Orders about one domain keep their order, from whichever connection they come."""
    both = [Console(place.where("HERE")) for _ in range(2)]
    orders = ["take LEFT", "do LEFT GO", "do LEFT STOP", "do LEFT GO", "drop LEFT", "take LEFT", "do LEFT STOP"]
    for number, order in enumerate(orders, 1):
        both[number % 2].say("@%d order ANN %s\n" % (number, order))
        with subtests.test("it waits: %d %s" % (number, order)):
            assert at_last(place.waiting, number) == number
    told, where = [], place.where("EAST")
    place.start("EAST")
    with lunskaf.Node(where) as east:
        east.report("E", "OFF")
    for number, order in enumerate(orders, 1):
        told.append(both[number % 2].line())
    with subtests.test("each is done"):
        assert told == ["@%d told ANN %s 0" % it for it in enumerate(orders, 1)]
    with lunskaf.Node(place.where("HERE")) as here:
        with subtests.test("in the order in which they were given"):
            assert here.ask("ANN", "LEFT") == lunskaf.Record("LEFT", "ANN", 3, 1, "settled", 0)


def test_replaced(place, subtests):
    """A newer question of the same operator replaces one that waits, which is told so at once."""
    console, client = Console(place.where("HERE")), lunskaf.Node(place.where("HERE"))
    console.say("@1 order ANN ask LEFT\n")
    assert at_last(place.waiting, 1) == 1
    begun = time.monotonic()
    console.say("@2 order ANN ask FIRST\n")
    with subtests.test("the one before is told"):
        assert console.line() == "@1 replaced ANN ask LEFT"
    with subtests.test("at once"):
        assert time.monotonic() - begun < SEEN
    with subtests.test("a question of another operator replaces none"):
        assert client.ask("BOB", "RUN").holder == "free"
    with subtests.test("nor does one that is answered"):
        assert place.waiting() == 1
    console.say("@3 order ANN ask LEFT\n")
    with subtests.test("the newest alone waits"):
        assert [console.line(), place.waiting()] == ["@2 replaced ANN ask FIRST", 1]
    place.start("EAST")
    with subtests.test("and is answered"):
        assert console.line() == "@3 told ANN ask LEFT free 0 0 settled 0"
    with subtests.test("of a program the one before raises"):
        program = subprocess.Popen([sys.executable, "-c", ASKS, place.where("HERE"), os.path.join(running.ROOT, "tools")],
                                   stdout=subprocess.PIPE, text=True)
        assert at_last(place.waiting, 1) == 1
        console.say("@4 order ANN ask SECOND\n")
        assert program.communicate(timeout=DEADLINE)[0] == "Replaced\n"
    client.close()


def test_withdraw(place, subtests):
    """An order that waits for one before it is taken back by its own connection alone, and is never given."""
    console, other = Console(place.where("HERE")), Console(place.where("HERE"))
    console.say("@1 order ANN take LEFT\n@2 order ANN drop LEFT\n@3 order ANN take LEFT\n")
    assert at_last(place.waiting, 3) == 3
    with subtests.test("another connection has no such order"):
        assert other.ask("withdraw 2") == "unknown 2"
    with subtests.test("one that waits"):
        console.say("@w withdraw 2\n")
        assert [console.line(), console.line()] == ["@2 withdrawn", "@w withdrawn 2"]
    with subtests.test("it is under way no more"):
        assert place.waiting() == 2
    with subtests.test("once"):
        assert console.ask("@w withdraw 2") == "@w unknown 2"
    with subtests.test("one that its station has taken"):
        assert console.ask("@w withdraw 1") == "@w begun 1"
    with subtests.test("a line without a tag"):
        assert other.ask("withdraw 1") == "unknown 1"
    with subtests.test("wrong lines"):
        assert [console.ask("@w withdraw"), console.ask("@w withdraw 1 2")] == [
            "@w fault 2: too few words, or too many"] * 2
    with subtests.test("a program's order for which it waits no longer"), place.client("HERE") as program:
        ends = []
        for domain in ("LEFT", "FIRST"):
            with pytest.raises(lunskaf.TimeOut) as raised:
                program.take("ANN", domain, patience=0.3)
            ends.append(raised.value.is_withdrawn)
        assert (ends, place.waiting()) == ([True, False], 3)
    place.start("EAST")
    with subtests.test("the others are given"):
        assert [console.line(), console.line()] == ["@1 told ANN take LEFT 0", "@3 told ANN take LEFT 23"]
    with subtests.test("and the one taken back is not"):
        assert console.ask("@4 order ANN ask LEFT") == "@4 told ANN ask LEFT ANN 1 0 settled 0"


def test_many_withdrawn(place, subtests):
    """Of three hundred orders about one domain all but the first are taken back, and further lines are taken then."""
    console = Console(place.where("HERE"))
    console.say("@1 order ANN take LEFT\n")
    assert at_last(place.waiting, 1) == 1
    console.say("".join("@%d order ANN take LEFT\n" % n for n in range(2, 252)))
    assert at_last(place.waiting, 251) == 251
    console.say("".join("@w withdraw %d\n" % n for n in range(2, 252)))
    with subtests.test("each is told, in its order"):
        assert [console.line() for _ in range(500)] == [
            line for n in range(2, 252) for line in ("@%d withdrawn" % n, "@w withdrawn %d" % n)]
    with subtests.test("the first goes on"):
        assert place.waiting() == 1
    place.start("EAST")
    assert console.line() == "@1 told ANN take LEFT 0"


def test_commands_join(place, subtests):
    """Eight commands on a domain are under way together, and a ninth waits; an order that is none waits for all."""
    place.begin_run()
    place.nodes["SIDE"].kill()
    console = Console(place.where("HERE"))
    console.say("".join("@%d order ANN do RUN STOP\n" % n for n in range(1, 11)) + "@d order ANN drop RUN\n")
    assert at_last(place.waiting, 11) == 11
    with subtests.test("eight have begun"):
        assert [console.ask("@w withdraw %d" % n) for n in range(1, 9)] == ["@w begun %d" % n for n in range(1, 9)]
    with subtests.test("the others wait"):
        console.say("@w withdraw 9\n@w withdraw d\n")
        assert [console.line() for _ in range(4)] == ["@9 withdrawn", "@w withdrawn 9", "@d withdrawn", "@w withdrawn d"]
    place.start("SIDE")
    with subtests.test("all that are left end, in their order"):
        # (8 says that the end of one was not seen, because a later one had begun)
        assert [console.line().replace("STOP 8", "STOP 0") for _ in range(9)] == [
            "@%d told ANN do RUN STOP 0" % n for n in (1, 2, 3, 4, 5, 6, 7, 8, 10)]


# Asks for a domain whose station is away, and prints what that raises.
ASKS = """
import sys
sys.path.insert(0, sys.argv[2])
import lunskaf
try:
    lunskaf.Node(sys.argv[1]).ask("ANN", "FIRST")
except Exception as error:
    print(type(error).__name__)
"""


def program_of(place, device, *words, **how):
    """Starts a device program of a device of HERE, at the console for programs."""
    words = [sys.executable, example("supply.py"), place.where("HERE", "devices"), device, *words]
    return subprocess.Popen(words, stdin=subprocess.PIPE, stdout=subprocess.PIPE, text=True, **how)


@pytest.fixture
def programs():
    """Returns a list of device programs, which are killed when the test ends."""
    begun = []
    yield begun
    for program in begun:
        program.kill()
        program.communicate()


@pytest.mark.alone
def test_last_will(folder, place, start_screen, programs, subtests):
    """A device program that is killed is shown in the state of its will: at its node, at another, and on the screen."""
    screen = start_screen(place.tree, os.path.join(folder, "SCREEN"))
    assert screen.is_up()
    here, side = place.client("HERE"), place.client("SIDE")
    side.watch("SID", "N1")
    programs.append(program_of(place, "N1"))

    def seen():
        """Returns the state of the device at its node, at a node that watches it, and on the screen."""
        shown = side.show("N1")
        return ({it.object: it.state for it in here.states()}["N1"], shown and shown.state,
                screens.states_of(screen.picture()).get("N1"))

    with subtests.test("its state is seen everywhere"):
        assert at_last(seen, ("OFF",) * 3) == ("OFF",) * 3
    begun = time.monotonic()
    programs[0].send_signal(signal.SIGKILL)
    with subtests.test("its end is seen everywhere"):
        assert at_last(seen, ("UNKNOWN",) * 3, pause=0.01) == ("UNKNOWN",) * 3
    with subtests.test("within a second"):
        assert time.monotonic() - begun < SEEN
    programs.append(program_of(place, "N1"))
    with subtests.test("a program that is started again reports again"):
        assert at_last(seen, ("OFF",) * 3) == ("OFF",) * 3
    place.begin_run()
    with subtests.test("an action is done at it"):
        assert at_last(seen, ("READY",) * 3) == ("READY",) * 3
    programs[1].kill()
    with subtests.test("and none is done once it is gone"):
        assert at_last(seen, ("UNKNOWN",) * 3) == ("UNKNOWN",) * 3
        here.do("ANN", "RUN", "STOP")
        time.sleep(0.2)
        assert seen() == ("UNKNOWN",) * 3
    for node in (here, side):
        node.close()


def test_wills(place, subtests):
    """The line `will`: several of one connection, the newest of a device, and how the connection ends."""
    here = place.client("HERE")

    def states(*names):
        found = {it.object: it.state for it in here.states()}
        return [found[it] for it in names]

    console = Console(place.where("HERE", "devices"))
    for line, told in [("will N1 ERROR", "will N1 ERROR"), ("@t will N2 ERROR", "@t will N2 ERROR"),
                       ("will N2 OFF", "will N2 OFF"),
                       ("will NOBODY OFF", "line 4 fault 5: NOBODY is no device of the tree"),
                       ("will N1 ASLEEP", "line 5 fault 5: ASLEEP is no state of the tree"),
                       ("report N1 READY", "told report N1 READY 0"), ("report N3 READY", "told report N3 READY 0")]:
        with subtests.test(line):
            assert console.ask(line) == told
    with subtests.test("nothing is reported while it lasts"):
        assert states("N1", "N2", "N3") == ["READY", "UNKNOWN", "READY"]
    console.close()
    with subtests.test("closed"):
        assert at_last(lambda: states("N1", "N2", "N3"), ["ERROR", "OFF", "READY"]) == ["ERROR", "OFF", "READY"]
    odd = Console(place.where("HERE", "devices"))
    odd.ask("will N3 ERROR")
    said_once(odd, "states\n" * 100_000)
    with subtests.test("one that takes nothing of what it is told"):
        assert at_last(lambda: states("N3"), ["ERROR"]) == ["ERROR"]
    odd.close()
    here.close()


@pytest.mark.alone
def test_full_station(place, programs, subtests):
    """52 device programs and four people at one station: none is refused, and programs take no place of a person."""
    place.nodes["HERE"].kill()
    lines = running.text_of(place.tree).splitlines()[:-len(DEVICES)]
    lines += ["domain PART%d HERE UNIT NEAR" % part for part in range(4)]
    devices = ["P%d" % number for number in range(PROGRAMS)]
    lines += ["device %s PART%d DEV" % (name, number // 16) for number, name in enumerate(devices)] + DEVICES
    place = Place(os.path.dirname(place.tree), place.start_node, lines)
    for name in ("HERE", "HERE-tree", "HERE-wal"):
        if os.path.exists(os.path.join(place.folder, name)):
            os.remove(os.path.join(place.folder, name))
    place.start("HERE")
    people = [Console(place.where("HERE")) for _ in range(PEOPLE)]
    with subtests.test("people are there"):
        assert [it.ask("show N1") for it in people] == ["board N1 none"] * PEOPLE
    programs.extend(program_of(place, name) for name in devices)
    here = place.client("HERE")

    def reported():
        found = {it.object: it.state for it in here.states()}
        return sum(found[it] == "OFF" for it in devices)

    with subtests.test("each program reports its device"):
        assert at_last(reported, PROGRAMS, 2 * DEADLINE) == PROGRAMS
    with subtests.test("people are still answered"):
        assert [it.ask("show N1") for it in people] == ["board N1 none"] * PEOPLE
    rest = [Console(place.where("HERE", "devices")) for _ in range(PLACES - PROGRAMS)]
    with subtests.test("the console for programs has %d places" % PLACES):
        assert [it.ask("show N1") for it in rest] == ["board N1 none"] * len(rest)
    with subtests.test("and no more"):
        assert Console(place.where("HERE", "devices")).line() == "full"
    with subtests.test("a program is told so"):
        with pytest.raises(lunskaf.Full), lunskaf.Node(place.where("HERE", "devices")) as node:
            node.show("N1")
    late = program_of(place, "N1", stderr=subprocess.PIPE)
    programs.append(late)
    with subtests.test("and a device program says so, and waits for a place"):
        assert late.stderr.readline().startswith("N1: full: the node at ")
    with subtests.test("a person is answered all the same"):
        assert Console(place.where("HERE")).ask("show N1") == "board N1 none"
    for console in rest:
        console.close()
    with subtests.test("the program gets its place"):
        assert at_last(lambda: {it.object: it.state for it in here.states()}["N1"], "OFF") == "OFF"
    here.close()


def flooded(where, line):
    """Floods a node with a line from many connections at once. Returns how often each of them was answered."""
    answers, ready = [0] * FLOODS, selectors.DefaultSelector()
    for number in range(FLOODS):
        one = lunskaf.connected(where, DEADLINE)
        one.sendall(line * UNDER_WAY)
        ready.register(one, selectors.EVENT_READ, number)
    end = time.monotonic() + FLOOD
    while time.monotonic() < end:
        for key, _ in ready.select(0.1):
            count = key.fileobj.recv(65_536).count(b"\n")
            answers[key.data] += count
            key.fileobj.sendall(line * count)
    for key in list(ready.get_map().values()):
        key.fileobj.close()
    return answers


@pytest.mark.alone
def test_floods_share(place):
    """Programs that flood a node with reports, more than it can take, are each answered their share."""
    answers = flooded(place.where("HERE", "devices"), b"@r report N1 READY\n")
    assert min(answers) > sum(answers) / FLOODS / 4, answers


def test_numbers(place, subtests):
    """`actions --with numbers` names the command: the domain at which it ran, the epoch of its grant, its number."""
    place.begin_run()
    told, plain = Console(place.where("HERE", "devices")), Console(place.where("HERE", "devices"))
    with subtests.test("of one device"):
        assert told.ask("actions --with numbers N1") == "actions 1"
    with subtests.test("of all devices"):
        assert plain.ask("@p actions") == "@p actions %d" % len(DEVICES)
    with place.client("HERE") as here:
        here.do("ANN", "RUN", "STOP")
        with subtests.test("it is told"):
            assert told.line() == "acted N1 STOP 1.3 OFF NEAR 1 2"
        with subtests.test("the old form has no numbers"):
            assert plain.line().startswith("@p acted N") and len(plain.line().split()) == 6
        stream = here.actions("N1", on_start=lambda: here.do("ANN", "RUN", "GO"))
        with subtests.test("to a program"):
            assert next(stream) == lunskaf.Acted("N1", "GO", 1, 4, "READY", "NEAR", 1, 3)


def test_modes(place, subtests):
    """`modes` tells in which mode each child of a domain is, if that domain is kept here."""
    place.begin_run()
    with place.client("HERE") as here, place.client("SIDE") as side:
        for deed, wanted in [(None, "included"), (here.manual, "manual"), (here.ignore, "ignored"),
                             (here.include, "included"), (here.exclude, "out")]:
            if deed is not None:
                deed("ANN", "RUN", "BESIDE")
            with subtests.test(wanted):
                assert here.modes() == {"NEAR": "included", "BESIDE": wanted}
        with subtests.test("the station of the child does not know it"):
            assert side.modes() == {}
    with subtests.test("at the end is how many they are"):
        console = Console(place.where("HERE"))
        assert [console.ask("modes"), console.line(), console.line()] == [
            "mode NEAR included", "mode BESIDE out", "modes 2"]


def test_supply_gone(place, programs, subtests):
    """A deed that raises: the device is reported in the state of its will, and the program goes on."""
    programs.append(subprocess.Popen([sys.executable, "-c", RAISES, place.where("HERE", "devices"),
                                      os.path.join(running.ROOT, "tools")], stderr=subprocess.PIPE, text=True))
    with place.client("HERE") as here:
        def state():
            return {it.object: it.state for it in here.states()}["N1"]

        assert at_last(state, "OFF") == "OFF"
        here.take("ANN", "NEAR")
        here.do("ANN", "NEAR", "GO")
        with subtests.test("the state of its will"):
            assert at_last(state, "ERROR") == "ERROR"
        here.do("ANN", "NEAR", "STOP")
        with subtests.test("it does the next action"):
            assert at_last(state, "OFF") == "OFF"
    programs[0].kill()
    told = programs[0].stderr.read()
    with subtests.test("it is told on standard error"):
        assert told.startswith("N1: GO: Traceback ") and told.count("ZeroDivisionError") == 1


# A device program whose deed for GO raises, and whose will is ERROR.
RAISES = """
import sys
sys.path.insert(0, sys.argv[2])
import lunskaf
device = lunskaf.Device(lunskaf.Node(sys.argv[1]), "N1", will="ERROR")
device.on_start(lambda: device.report("OFF"))
device.on("GO", lambda acted: 1 / 0)
device.on("STOP", lambda acted: device.report("OFF"))
device.run()
"""


def test_lost_is_told(place, subtests):
    """`follow` and `actions` of tools/lunskaf.py call back when their connection is lost."""
    with place.client("HERE") as here:
        found = []
        followed = here.follow("N1", on_lost=lambda: found.append("lost"))
        with subtests.test("a state"):
            assert next(followed) == lunskaf.Shown("N1", 1, 0, "UNKNOWN")
        place.nodes["HERE"].kill()
        place.start("HERE")
        with subtests.test("a state after a new start"):
            assert [next(followed), found] == [lunskaf.Shown("N1", 2, 0, "UNKNOWN"), ["lost"]]
    nowhere = lunskaf.Node(os.path.join(place.folder, "nowhere"))
    with subtests.test("if there is no node at first"):
        class Away(Exception):
            """Raised to end what would wait for a node without end."""

        def end():
            raise Away
        for told in (nowhere.follow("N1", on_lost=end), nowhere.actions("N1", on_lost=end, own=False)):
            with pytest.raises(Away):
                next(told)
