"""Clients of consoles: tools/lunskaf.py for programs, tools/console.py for people, and the programs of devices."""

import os
import re
import signal
import socket
import subprocess
import sys
import threading
import time

import pytest

import deb
import hierarchy
import lines
import lunskaf
import nodes
import running
import screens
from consoles import Place, wait_for
from running import DEADLINE, at_last

# tools/console.py, and how soon it says what it says at once, with the start of Python.
CONSOLE = [sys.executable, os.path.join(running.ROOT, "tools", "console.py")]
AT_ONCE = 4


@pytest.fixture
def place(folder, start_node):
    """Returns a node with a console."""
    return Place(folder, start_node)


def test_client(place, subtests):
    """tools/lunskaf.py: what its calls answer and raise, also if the node goes and comes again."""
    node = lunskaf.Node(place.where, patience=2)
    node.take("ANN", "TOP")
    node.include("ANN", "TOP", "LEFT")
    node.report("L", "OFF")
    node.do("ANN", "TOP", "GO")
    with subtests.test("ask"):
        assert node.ask("ANN", "LEFT") == lunskaf.Record("LEFT", "TOP", 1, 1, "settled", 0)
    wanted = {"TOP": "READY", "LEFT": "READY", "RIGHT": "OFF", "L": "READY", "R": "OFF"}
    # a command has run when its answer is there, and the states may be on their way
    with subtests.test("states"):
        assert at_last(lambda: {shown.object: shown.state for shown in node.states()}, wanted) == wanted
    with subtests.test("counts"):
        assert [node.counts()["saved"] > 0, node.counts()["refused21"]] == [True, 0]
    with subtests.test("show"):
        assert node.show("L") is None
    with subtests.test("refused"):
        assert raised(lambda: node.do("BOB", "LEFT", "GO")) == (lunskaf.Refused, 21)
    with subtests.test("fault"):
        assert raised(lambda: node.take("ANN", "NOBODY")) == (lunskaf.Fault, 5)
    with subtests.test("time-out"):
        assert raised(lambda: node.include("ANN", "TOP", "FAR", patience=0.3)) == (lunskaf.TimeOut, None)
    with subtests.test("under way"):
        assert [(it.operator, it.order) for it in node.under_way()] == [("ANN", "include TOP FAR")]
    followed = node.follow("L")
    with subtests.test("follow"):
        assert (next(followed).state, node.report("L", "OFF"), next(followed).state) == ("READY", None, "OFF")
    place.node.kill()
    with subtests.test("lost"):
        assert raised(lambda: node.show("L"))[0] is lunskaf.Lost
    place.start()
    with subtests.test("connected anew"):
        assert node.ask("ANN", "TOP").holder == "ANN"
    with subtests.test("follow goes on after a restart"):
        assert next(followed) == lunskaf.Shown("L", 2, 0, "OFF")
    node.close()


def raised(call):
    """Returns what a call raises, and its code if it has one."""
    try:
        call()
    except (lunskaf.Refused, lunskaf.Fault, lunskaf.Lost, lunskaf.TimeOut) as error:
        return type(error), getattr(error, "code", None)
    return None, None


def test_supply(folder, start_node, subtests):
    """A supply of examples/supply.py ramps, trips and recovers, and tells a node that was started again."""
    text = running.read(running.example("detector.tree")).decode()
    for number, port in zip(range(11, 17), nodes.free_ports(6)):
        text = text.replace("10.20.0.%d:9000" % number, "127.0.0.1:%d" % port)
    tree, where = nodes.write_tree(folder, None, text.splitlines()), os.path.join(folder, "console")
    words = [tree, "TRACKER", os.path.join(folder, "store"), "--endless", "--console", where]
    process = start_node(*words)
    script = [sys.executable, running.example("supply.py"), where, "PIXEL_HV1", "0.5"]
    supply = subprocess.Popen(script, stdin=subprocess.PIPE, stdout=subprocess.PIPE, text=True)
    # a state that never comes ends the supply, and with it what is read here
    watch = threading.Timer(6 * DEADLINE, supply.kill)
    watch.start()

    def seen(state):
        """Returns true if the supply sees its device come into a state, after others."""
        for _ in range(10):
            if supply.stdout.readline().split()[1:] == [state]:
                return True
        return False

    with subtests.test("a supply reports what it is in"):
        assert seen("OFF")
    with lunskaf.Node(where) as node:
        node.take("TRK_EXPERT", "PIXEL_HV")
        node.do("TRK_EXPERT", "PIXEL_HV", "GO_STANDBY")
        with subtests.test("an action has it ramp, and it tells when it is there"):
            assert seen("RAMPING") and seen("STANDBY")
        node.do("TRK_EXPERT", "PIXEL_HV", "CONFIGURE")
        with subtests.test("it ramps up"):
            assert seen("RAMPING") and seen("READY")
        supply.stdin.write("trip\n")
        supply.stdin.flush()
        with subtests.test("it trips"):
            assert seen("ERROR")
        node.do("TRK_EXPERT", "PIXEL_HV", "RECOVER")
        with subtests.test("and recovers"):
            assert seen("OFF")
        node.do("TRK_EXPERT", "PIXEL_HV", "GO_STANDBY")
        with subtests.test("a second time"):
            assert seen("STANDBY")
    process.kill()
    start_node(*words)
    with subtests.test("a node that was started again is told"):
        assert seen("STANDBY")
    with lunskaf.Node(where) as node:
        with subtests.test("and has it"):
            assert at_last(lambda: {it.object: it.state for it in node.states()}["PIXEL_HV1"], "STANDBY") == "STANDBY"
    watch.cancel()
    supply.kill()


# Where each action has a supply of detector.tree ramp to.
LOW = {"GO_STANDBY": "READY", "SWITCH_OFF": "OFF", "RECOVER": "OFF"}
HIGH = {"GO_STANDBY": "STANDBY", "CONFIGURE": "READY", "SWITCH_OFF": "OFF", "RECOVER": "OFF"}


class Drivers:
    """The device programs of a station: they do its actions, let what ramps arrive, and tell a new start."""

    def __init__(self, where, devices, first):
        self.node, self.states = lunskaf.Node(where), {device: first for device in devices}
        self.ramps, self.stopped = {}, threading.Event()
        threading.Thread(target=self.run, daemon=True).start()

    def report(self, device, state):
        self.states[device] = state
        try:
            self.node.report(device, state)
        except (lunskaf.Lost, lunskaf.TimeOut):
            # the node is away: its devices are UNKNOWN when it is back, and told then
            pass

    def begin(self):
        for device, state in self.states.items():
            self.report(device, state)

    def arrive(self, device, ramp, state):
        if self.ramps.get(device) is ramp and not self.stopped.is_set():
            self.report(device, state)

    def run(self):
        for acted in self.node.actions(*self.states, on_start=self.begin):
            if self.stopped.is_set():
                return
            self.states[acted.device] = acted.state
            goal = (LOW if "_LV" in acted.device else HIGH).get(acted.action)
            if acted.state == "RAMPING" and goal:
                # a ramp that is under way turns round
                ramp = self.ramps[acted.device] = object()
                threading.Timer(0.2, self.arrive, [acted.device, ramp, goal]).start()


class Detector:
    """The example detector on this machine: its nodes with their consoles, and the device programs of all stations."""

    def __init__(self, folder, start_node, subtests):
        self.folder, self.start_node, self.subtests = folder, start_node, subtests
        text = running.read(running.example("detector-local.tree")).decode()
        ports = iter(nodes.free_ports(7))
        text = re.sub(r"^(station \S+) .*$", lambda it: "%s 127.0.0.1:%d" % (it[1], next(ports)), text, flags=re.M)
        self.path = nodes.write_tree(folder, None, text.splitlines())
        self.tree = hierarchy.read(self.path)
        self.nodes, self.consoles, self.drivers = {}, {}, {}
        # the screen's station keeps no domain, and is not needed here
        for station in dict.fromkeys(self.tree.station_of(domain) for domain in self.tree.domains):
            self.start(station)
            self.consoles[station] = lunskaf.Node(self.where(station))
            devices = [line.split()[1] for line in lines.lines(self.tree, "report", station, "OFF")]
            first = "READY" if station == "SERVICES" else "OFF"
            self.drivers[station] = Drivers(self.where(station), devices, first)

    def where(self, station):
        return os.path.join(self.folder, station + ".console")

    def start(self, station):
        words = [self.path, station, os.path.join(self.folder, station), "--endless", "--console", self.where(station)]
        self.nodes[station] = self.start_node(*words)
        wait_for(self.where(station), self.nodes[station])

    def order(self, operator, *words):
        """Gives an order at its operator's station, and returns how it ended."""
        home = self.tree.operators[operator]
        try:
            self.consoles[home].order(operator, *words)
            return 0
        except lunskaf.Refused as refused:
            return refused.code

    def state(self, name, wanted):
        """Returns the state that an object comes into, by the station that keeps it, or the last one seen."""
        console = self.consoles[self.tree.station_of(name)]
        return at_last(lambda: {it.object: it.state for it in console.states()}.get(name), wanted)

    def is_in(self, name, **states):
        """Checks that these objects come into these states."""
        came = {it: self.state(it, wanted) for it, wanted in states.items()}
        with self.subtests.test(name):
            assert came == states

    def orders(self, name, operator, *texts, **states):
        """Checks that these orders end with 0, one after the other, and that these objects then come into these states.
        """
        codes = [self.order(operator, *text.split()) for text in texts]
        came = {it: self.state(it, wanted) for it, wanted in states.items()}
        with self.subtests.test(name):
            assert (codes, came) == ([0] * len(texts), states)

    def end(self):
        """Stops the device programs. The nodes end with the test."""
        for drivers in self.drivers.values():
            drivers.stopped.set()


def test_shift(folder, start_node, subtests):
    """A shift over the example detector, all of whose devices are programs at the consoles of its nodes."""
    detector = Detector(folder, start_node, subtests)
    orders, is_in = detector.orders, detector.is_in
    is_in("all devices are reported", PIXEL_HV="OFF", MONITOR="OFF", RACKS="READY")
    for operator, domain in [("TRK_EXPERT", "TRK"), ("CAL_EXPERT", "CAL"), ("MUO_EXPERT", "MUO"),
                             ("TRG_EXPERT", "TRG"), ("RUN_CONTROL", "DAQ")]:
        made = [line.split(" ", 2)[2] for line in lines.lines(detector.tree, "include", operator, domain)]
        orders("%s includes what is below %s" % (operator, domain), operator, *made)
    parts = ["include EXPERIMENT " + it for it in ("TRK", "CAL", "MUO", "TRG", "DAQ")]
    orders("one person commands the detector", "SHIFT_LEADER", "take EXPERIMENT", *parts)
    orders("standby", "SHIFT_LEADER", "do EXPERIMENT GO_STANDBY", EXPERIMENT="STANDBY")
    orders("all high voltages ramp", "SHIFT_LEADER", "do EXPERIMENT CONFIGURE", EXPERIMENT="READY")
    orders("a run", "SHIFT_LEADER", "do EXPERIMENT START", EXPERIMENT="RUNNING")
    detector.drivers["TRACKER"].report("PIXEL_HV7", "ERROR")
    is_in("a trip", EXPERIMENT="ERROR")
    orders("the tracker is taken out", "SHIFT_LEADER", "exclude EXPERIMENT TRK", EXPERIMENT="RUNNING")
    orders("and recovers", "TRK_EXPERT", "take TRK", "do TRK STOP", "do TRK RECOVER", "do TRK GO_STANDBY",
           TRK="STANDBY")
    orders("and ramps", "TRK_EXPERT", "do TRK CONFIGURE", TRK="READY")
    with subtests.test("nobody else commands it"):
        assert detector.order("SHIFT_LEADER", "include", "EXPERIMENT", "TRK") == 5
    orders("it is given back", "TRK_EXPERT", "drop TRK")
    orders("and runs with the others", "SHIFT_LEADER", "include EXPERIMENT TRK", "do EXPERIMENT START",
           EXPERIMENT="RUNNING")
    detector.nodes["MUON"].kill()
    orders("a station dies", "SHIFT_LEADER", "manual EXPERIMENT MUO", "do EXPERIMENT STOP", TRK="READY")
    detector.start("MUON")
    is_in("its devices tell what they are in", MUO="RUNNING")
    orders("it stops with the others", "SHIFT_LEADER", "include EXPERIMENT MUO", "do EXPERIMENT STOP",
           EXPERIMENT="READY")
    orders("all goes back", "SHIFT_LEADER", "do EXPERIMENT GO_STANDBY", EXPERIMENT="STANDBY")
    orders("and off", "SHIFT_LEADER", "do EXPERIMENT SWITCH_OFF", EXPERIMENT="OFF")
    detector.end()


def test_people(place, subtests):
    """tools/console.py: what is typed is answered, and the end of the input is its end; one line as words."""

    def ran(words, text=None):
        done = subprocess.run(CONSOLE + words, input=text, stdout=subprocess.PIPE, text=True, timeout=DEADLINE,
                              check=False)
        return done.stdout.splitlines(), done.returncode

    lines, status = ran(["--tree", place.tree, place.where], "order ANN take LEFT\n@x show L\nhelp\n")
    with subtests.test("a console for people"):
        assert (sorted(lines[:2]), lines[-1], status) == (
            ["@x board L none", "told ANN take LEFT 0"], "help %d" % (len(lines) - 3), 0)
    for line, told, status in [("order ANN ask LEFT", "told ANN ask LEFT ANN 1 0 settled 0", 0),
                               ("order BOB take LEFT", "told BOB take LEFT 5", 1),
                               ("order BOB grab LEFT", "line 1 fault 1: a word that no line has there", 1),
                               ("@x order BOB grab LEFT", "@x fault 1: a word that no line has there", 1),
                               ("version", "version " + deb.version(), 0), ("show L", "board L none", 0),
                               ("@x report L OFF", "@x told report L OFF 0", 0)]:
        with subtests.test("one line: " + line):
            assert ran([place.where, *line.split()]) == ([told], status)
    with lunskaf.Node(place.where) as node, subtests.test("a program asks for the version"):
        assert node.version() == deb.version()
    with subtests.test("a line that is answered by several"):
        assert ran([place.where, "modes"]) == (["mode LEFT out", "mode RIGHT out", "mode FAR out", "modes 3"], 0)
    waiting = begun([place.where, "order", "ANN", "ask", "FAR"])
    with lunskaf.Node(place.where) as node:
        assert at_last(lambda: len(node.under_way()), 1, DEADLINE) == 1
    with subtests.test("a question in the place of one that waits"):
        assert ran([place.where, "order", "ANN", "ask", "LEFT"]) == (["told ANN ask LEFT ANN 1 0 settled 0"], 0)
    with subtests.test("which is told so"):
        assert ended(waiting) == (["replaced ANN ask FAR"], [], 1)
    with subtests.test("what is reported when the console ends"):
        assert ran([place.where, "will", "L", "READY"]) == (["will L READY"], 0)


# tools/console.py with a short patience.
HASTY = "import sys; sys.path.insert(0, sys.argv.pop(1)); import console; console.SILENCE = 1; console.main()"


def test_a_node_that_hangs(place, subtests):
    """A console tells of a node that is stopped and answers nothing, and not of an order that waits."""
    words = [sys.executable, "-c", HASTY, os.path.join(running.ROOT, "tools"), place.where]
    waiting = subprocess.Popen([*words, "order", "ANN", "take", "FAR"], stderr=subprocess.PIPE, stdout=subprocess.PIPE,
                               text=True)
    talk = subprocess.Popen(words, stdin=subprocess.PIPE, stderr=subprocess.PIPE, stdout=subprocess.PIPE, text=True)
    talk.stdin.write("order BOB take FAR\nshow L\n")
    talk.stdin.flush()
    time.sleep(3)
    os.kill(place.node.child.pid, signal.SIGSTOP)
    one = subprocess.Popen([*words, "show", "L"], stderr=subprocess.PIPE, stdout=subprocess.PIPE, text=True)
    with subtests.test("the one that types"):
        assert talk.stderr.readline() == "the node answers nothing: it may hang\n"
    with subtests.test("the one with one line"):
        assert one.stderr.readline() == "the node answers nothing: it may hang\n"
    os.kill(place.node.child.pid, signal.SIGCONT)
    with subtests.test("it goes on"):
        assert talk.stderr.readline() == "the node answers again\n"
    with subtests.test("what was asked is answered"):
        assert one.communicate(timeout=DEADLINE) == ("board L none\n", "the node answers again\n")
    for it in (waiting, talk):
        it.kill()
    with subtests.test("nothing is told of an order that waits"):
        assert waiting.communicate() == ("", "")
    with subtests.test("nor is what the console itself asks"):
        assert talk.communicate()[0] == ""


def begun(words, **how):
    """Starts a console for people, and returns its process."""
    return subprocess.Popen(CONSOLE + words, stdout=subprocess.PIPE, stderr=subprocess.PIPE, text=True, **how)


def ended(console):
    """Returns what a console prints from now on, its standard error, and its status, or None if it does not end."""
    try:
        out, told = console.communicate(timeout=DEADLINE)
    except subprocess.TimeoutExpired:
        console.kill()
        return None
    return out.splitlines(), told.splitlines(), console.returncode


@pytest.mark.alone
def test_without_a_node(folder, start_node, subtests):
    """tools/console.py without a node: it is told at once, or a node is waited for if that is asked."""
    nowhere, file = os.path.join(folder, "nowhere"), os.path.join(folder, "file")
    socket.socket(socket.AF_UNIX).bind(file)
    port = "127.0.0.1:%d" % screens.tcp_port()
    for where, why in [(nowhere, "[Errno 2] No such file or directory"), (file, "[Errno 111] Connection refused"),
                       (port, "[Errno 111] Connection refused")]:
        begun_at = time.monotonic()
        told = ended(begun([where, "help"]))
        with subtests.test("where nobody listens: " + why):
            assert told == ([], ["no console at %s: %s" % (where, why)], 3)
        with subtests.test("it is told at once"):
            assert time.monotonic() - begun_at < AT_ONCE
    begun_at = time.monotonic()
    told = ended(begun(["--wait", nowhere, "help"]))
    with subtests.test("with --wait it is told later"):
        assert [time.monotonic() - begun_at > 5, told] == [
            True, ([], ["no console at %s: [Errno 2] No such file or directory" % nowhere], 3)]
    where = os.path.join(folder, "console")
    early = begun(["--wait", where, "show", "L"])
    time.sleep(1)
    Place(folder, start_node)
    with subtests.test("with --wait a node that comes later is found"):
        assert ended(early) == (["board L none"], [], 0)


GONE = (["connection lost"], 3)


@pytest.mark.parametrize("words, first", [
    (["follow"], "board TOP 1.0 OFF"), (["follow", "L"], "board L 1.0 OFF"), (["actions"], "actions 3"),
    (["@a", "actions", "L"], "@a actions 1")], ids=str)
def test_lost(place, words, first, subtests):
    """tools/console.py whose node ends while it tells without end: the status says so."""
    console = begun([place.where, *words])
    with subtests.test("it is told"):
        assert console.stdout.readline().rstrip() == first
    place.node.kill()
    with subtests.test("and so is the end of its node"):
        assert ended(console)[1:] == GONE


def test_cut(place, subtests):
    """tools/console.py if the node ends before all is answered, and if it does not."""
    order = begun([place.where, "order", "ANN", "take", "FAR"])
    piped = begun([place.where], stdin=subprocess.PIPE)
    piped.stdin.write("show L\norder BOB take FAR\n")
    piped.stdin.close()
    piped.stdin = None
    typed = begun([place.where], stdin=subprocess.PIPE)
    typed.stdin.write("show L\n")
    typed.stdin.flush()
    with lunskaf.Node(place.where) as node:
        with subtests.test("two orders wait"):
            assert [at_last(lambda: len(node.under_way()), 2, DEADLINE), typed.stdout.readline()] == [
                2, "board L none\n"]
    whole = begun([place.where], stdin=subprocess.PIPE).communicate("show L\nfollow NOBODY\n", timeout=DEADLINE)
    with subtests.test("an input that has ended, and is answered to its end, is no loss"):
        assert whole == ("board L none\nline 2 fault 5: NOBODY is no domain or device of the tree\n", "")
    place.node.kill()
    with subtests.test("an order that waits"):
        assert ended(order) == ([], *GONE)
    with subtests.test("an input that has ended, but for an order that waits"):
        assert ended(piped) == (["board L none"], *GONE)
    # its input stays open: communicate would end it
    told = [typed.stderr.readline().rstrip()], typed.wait(DEADLINE)
    with subtests.test("an input that has not ended"):
        assert told == GONE
    typed.communicate()
