"""What an audit says of nights that were not honest: forged datagrams, a second process of a station, a store that was
put back or lost its last saves, and another tree. The bytes of the datagrams and the words of the verdicts are those of
docs/FORMATS.md.
"""

import os
import shutil
import signal
import socket
import subprocess

import pytest

import layout
import nodes
import running
from layout import datagram

A, B = 1, 2
DCS, TPC = 1, 2
OPERATOR, DOMAIN = 1, 2


class Night:
    """Stations A and B of the worked tree, which write journals, and somebody who forges datagrams to them."""

    def __init__(self, program, folder, ports, start_node):
        self.program, self.folder, self.ports, self.start_node = program, folder, ports, start_node
        self.tree, self.night = nodes.write_tree(folder, ports), os.path.join(folder, "night")
        self.running = {}

    def store(self, station):
        return os.path.join(self.folder, station)

    def start(self, station, *words):
        before = self.files(station)
        node = self.start_node(self.tree, station, self.store(station), "--endless", "--journal", self.night, *words)
        self.begun(station, before)
        self.running[station] = node
        return node

    def begun(self, station, before):
        """Returns the file that a start begins, once it has a line after its block: a block at the end may be torn."""
        new = lambda: [it for it in self.files(station) if it not in before and b" passed " in running.read(it)]
        assert running.is_so(new)
        return new()[0]

    def kill(self, station):
        self.running.pop(station).kill()

    def files(self, station):
        names = os.listdir(self.night) if os.path.isdir(self.night) else []
        return [os.path.join(self.night, it) for it in sorted(names) if it.startswith(station + "-")]

    def lines(self, station):
        """Returns the lines of a station's journals, each with its place: the file, and the line in it."""
        return [("%s line %d" % (path, number), line) for path in self.files(station)
                for number, line in enumerate(running.read(path).decode().splitlines(), 1)]

    def says(self, station, words):
        """Returns true once a journal of the station has an entry of these words."""
        return running.is_so(lambda: any(line.endswith(" " + words) for _, line in self.lines(station)))

    def where(self, station, words):
        """Returns the place of an entry that a station's journals have once, and the entry."""
        [place] = [place for place, line in self.lines(station) if line.endswith(" " + words)]
        return "%s: %s" % (place, words)

    def until(self, station):
        """Returns the words that say how far the journal of a station goes."""
        return "station %s, whose journal ends %sZ" % (station, self.lines(station)[-1][1].split(".")[0])

    def forge(self, station, data, host="127.0.0.1"):
        """Sends a datagram to a station, from a port of this host."""
        with socket.socket(socket.AF_INET, socket.SOCK_DGRAM) as out:
            out.bind((host, 0))
            out.sendto(data, ("127.0.0.1", self.ports[station - 1]))

    def forge_run(self, argument):
        """Has TPC run an action that DCS, which holds it, never handed on."""
        self.forge(B, datagram(layout.RUN, **{"from": A}, to=B, subject=TPC, holder_kind=DOMAIN, holder=DCS, code=1,
                               epoch=1, number=1, argument=argument))

    def forge_drop(self):
        """Has TPC given back, which DCS goes on to hold."""
        self.forge(B, datagram(layout.DROP, **{"from": A}, to=B, subject=TPC, holder_kind=DOMAIN, holder=DCS, epoch=1))

    def include(self):
        """Has DCS, which ANN holds, hold TPC."""
        node = self.running["A"]
        assert node.ask("order ANN take DCS") == "told ANN take DCS 0"
        assert node.ask("order ANN include DCS TPC") == "told ANN include DCS TPC 0"

    def audit(self, tree=None):
        """Ends all nodes, and returns the status of an audit and what it says."""
        for station in list(self.running):
            self.kill(station)
        paths = self.files("A") + self.files("B")
        done = subprocess.run([self.program, "audit", tree or self.tree, *paths], capture_output=True, text=True,
                              check=False, timeout=running.DEADLINE)
        return done.returncode, done.stdout + done.stderr


@pytest.fixture
def night(program, folder, ports, start_node):
    return Night(program, folder, ports, start_node)


@pytest.fixture
def both(night):
    """Returns a night in which both stations run."""
    night.start("A")
    night.start("B")
    return night


def test_an_honest_night_is_safe(both):
    both.include()
    status, said = both.audit()
    assert (status, said.split(":")[0]) == (0, "safe")


def test_a_forged_run_is_told(both):
    """The run waits for what A never did, and what A was shown of it waits for what B passed after the run: a ring."""
    both.include()
    both.forge_run(argument=1)
    assert both.says("B", "ran TPC 1 1 do CONFIGURE") and both.says("A", "showed A TPC 1.1 READY")
    assert both.audit() == (1, "unsafe: %s waits for a run of DCS that is handed on of station A, whose journal waits"
                            " too\n" % both.where("B", "ran TPC 1 1 do CONFIGURE"))


def test_a_forged_run_that_nobody_saw_is_told(both):
    """Its action moves no device, so nothing was shown of it. A's journal might go on with what it waits for."""
    both.include()
    both.forge_run(argument=2)
    assert both.says("B", "settled TPC 1 1 0")
    assert both.audit() == (1, "open: %s waits for a run of DCS that is handed on of %s\n" % (
        both.where("B", "ran TPC 1 1 do START"), both.until("A")))


def test_a_forged_run_in_the_place_of_a_true_one_is_told(both):
    """TPC has run a command under the number of the one that DCS hands on, and it was another."""
    both.include()
    both.forge_run(argument=2)
    assert both.says("B", "settled TPC 1 1 0")
    assert both.running["A"].ask("order ANN do DCS CONFIGURE") == "told ANN do DCS CONFIGURE 0"
    assert both.audit() == (1, "unsafe: %s, which is no command that is handed on by DCS\n" % both.where(
        "B", "ran TPC 1 1 do START"))


def test_two_commanders_by_a_forged_drop_are_told(both):
    """BOB takes what DCS goes on to hold. That is open as long as A's journal may go on with a drop of DCS."""
    both.include()
    both.forge_drop()
    assert both.says("B", "freed TPC 2")
    assert both.running["B"].ask("order BOB take TPC") == "told BOB take TPC 0"
    both.running["A"].say("order ANN do DCS CONFIGURE")
    assert both.says("A", "ran DCS 1 2 do CONFIGURE")
    assert both.audit() == (1, "open: %s waits for letgo DCS TPC 1 of %s\n" % (
        both.where("B", "freed TPC 2"), both.until("A")))


def test_a_forged_drop_is_told(both):
    both.include()
    both.forge_drop()
    assert both.says("B", "freed TPC 2")
    assert both.audit() == (1, "open: %s waits for letgo DCS TPC 1 of %s\n" % (
        both.where("B", "freed TPC 2"), both.until("A")))


@pytest.mark.parametrize("is_forged", [False, True])
def test_what_soaks_end_in(both, is_forged):
    """Soaks, chaos and crowds fail if the night that they leave is not safe, and print the verdict's first line."""
    both.include()
    if is_forged:
        both.forge_drop()
        assert both.says("B", "freed TPC 2")
    _, said = both.audit()
    assert nodes.audit(both.program, both.tree, both.night) == (not is_forged, said.split("\n")[0])


def test_a_soak_without_journals_is_not_safe(night):
    assert not nodes.audit(night.program, night.tree, night.night)[0]


def test_a_forged_tell_is_told(night):
    """B begins after it, so that no take of A reaches it."""
    node = night.start("A")
    assert node.ask("order ANN take DCS") == "told ANN take DCS 0"
    node.say("@1 order ANN include DCS TPC")
    assert night.says("A", "ran DCS 1 1 include TPC")
    night.forge(A, datagram(layout.TELL, **{"from": B}, to=A, subject=TPC, holder_kind=DOMAIN, holder=DCS, epoch=1))
    assert night.says("A", "learned DCS TPC 1")
    night.start("B")
    assert night.audit() == (1, "open: %s waits for granted TPC 1 DCS of %s\n" % (
        night.where("A", "learned DCS TPC 1"), night.until("B")))


def test_a_forged_state_is_told(both):
    both.include()
    both.forge(A, datagram(layout.STATE, **{"from": B}, to=A, subject=TPC, echo=1, boot=1, sequence=9, code=3))
    assert both.says("A", "showed A TPC 1.9 RUNNING")
    assert both.audit() == (1, "open: %s waits for passed TPC 1.9 RUNNING of %s\n" % (
        both.where("A", "showed A TPC 1.9 RUNNING"), both.until("B")))


def test_a_forged_take_gives_a_grant_that_nobody_learns_of(both):
    both.forge(B, datagram(layout.TAKE, **{"from": A}, to=B, subject=TPC, holder_kind=OPERATOR, holder=1, epoch=0))
    assert both.says("B", "granted TPC 1 ANN")
    status, said = both.audit()
    assert (status, said.split(":")[0]) == (0, "safe")


def unread(node):
    """Returns how many datagrams the node has refused for their length."""
    words = node.ask("@c counts").split()
    return int(words[words.index("refused1") + 1])


@pytest.mark.parametrize("words, host, is_heard", [
    ((), "127.0.0.1", True), ((), "127.0.0.2", False), (("--sources", "host"), "127.0.0.2", False),
    (("--sources", "exact"), "127.0.0.1", False), (("--sources", "exact"), "127.0.0.2", False),
    (("--sources", "any"), "127.0.0.2", True)])
def test_where_a_datagram_has_to_come_from(night, words, host, is_heard):
    """A forged take from a host is granted, or refused as one without bytes. Those of the stations are always heard."""
    other, node = night.start("A", *words), night.start("B", *words)
    assert other.ask("order ANN ask TPC") == "told ANN ask TPC free 0 0 settled 0"
    before = unread(node)
    for _ in range(3):
        night.forge(B, datagram(layout.TAKE, **{"from": A}, to=B, subject=TPC, holder_kind=OPERATOR, holder=1, epoch=0),
                    host)
    if is_heard:
        assert night.says("B", "granted TPC 1 ANN")
    else:
        assert running.is_so(lambda: unread(node) >= before + 3)
        assert other.ask("order ANN ask TPC") == "told ANN ask TPC free 0 0 settled 0"
        assert other.ask("order ANN take TPC") == "told ANN take TPC 0"


def copied(night, station):
    """Copies the store of a station that does not run now, with what belongs to it, and returns how to put it back."""
    names = [it for it in os.listdir(night.folder) if it == station or it.startswith(station + "-")]
    for name in names:
        shutil.copy(os.path.join(night.folder, name), os.path.join(night.folder, "copy " + name))
    return [(os.path.join(night.folder, "copy " + name), os.path.join(night.folder, name)) for name in names]


def put_back(copies):
    for copy, path in copies:
        shutil.copy(copy, path)


def started_last(night, start):
    """Starts a node of B, and returns the file that its journal begins."""
    before = night.files("B")
    start()
    return night.begun("B", before)


@pytest.mark.parametrize("words", [(), ("--accept-older",)], ids=["with its label", "below its label"])
@pytest.mark.parametrize("starts", [1, 2])
@pytest.mark.parametrize("has_taken", [True, False])
def test_a_store_that_was_put_back_is_told(night, has_taken, starts, words):
    """The store is of an earlier start, so a boot comes twice, whatever was lost: fault 14 of the line that says it."""
    night.start("B")
    night.kill("B")
    copies = [it for it in copied(night, "B") if not words or not it[1].endswith("-tree")]
    for _ in range(starts):
        node = night.start("B")
        if has_taken:
            assert node.ask("order BOB take TPC") == "told BOB take TPC 0"
            assert node.ask("order BOB drop TPC") == "told BOB drop TPC 0"
        night.kill("B")
    put_back(copies)
    name = started_last(night, lambda: night.start("B", *words))
    night.start("A")
    assert night.audit() == (1, "journal %s line 2 fault 14\n" % name)


@pytest.mark.parametrize("operator, station", [("ANN", "A"), ("BOB", "B")])
def test_a_store_that_lost_its_last_saves_is_told(both, operator, station):
    """No start was lost, so boots rise. The row of TPC says less than the journal, and so does BOB's if he took it."""
    # (a node that rests copies its log into its store now and then, so it may not run meanwhile)
    both.running["B"].child.send_signal(signal.SIGSTOP)
    copies = copied(both, "B")
    both.running["B"].child.send_signal(signal.SIGCONT)
    assert both.running[station].ask("order %s take TPC" % operator) == "told %s take TPC 0" % operator
    # A ends first, so that it is shown nothing of the start after the gap
    for it in "AB":
        both.kill(it)
    put_back(copies)
    name = started_last(both, lambda: both.start("B"))
    assert both.audit() == (1, "open: gap before %s line 2\n" % name)


@pytest.mark.parametrize("takes", ["", "first", "second", "first second"])
def test_a_second_process_of_a_station_is_told(both, takes):
    """Both begin with one store, so its next boot comes twice, whatever the two do."""
    both.kill("B")
    copied(both, "B")
    for name in os.listdir(both.folder):
        if name.startswith("copy B"):
            shutil.copy(os.path.join(both.folder, name), os.path.join(both.folder, name.replace("copy B", "second B")))
    first = both.start("B")
    assert "first" not in takes or first.ask("order BOB take TPC") == "told BOB take TPC 0"
    tree = os.path.join(both.folder, "second")
    os.mkdir(tree)
    path = nodes.write_tree(tree, [both.ports[0], nodes.free_ports(1)[0]])
    line = [path, "B", os.path.join(both.folder, "second B"), "--endless", "--journal", both.night]
    begun = []
    name = started_last(both, lambda: begun.append(both.start_node(*line)))
    assert "second" not in takes or begun[0].ask("order BOB take TPC") == "told BOB take TPC 0"
    begun[0].kill()
    assert both.audit() == (1, "journal %s line 2 fault 14\n" % name)


def test_a_tree_with_another_rule_is_told(both):
    both.include()
    lines = [line.replace("all UNIT READY READY", "all UNIT READY RUNNING") for line in nodes.tree_lines(both.ports)]
    other = os.path.join(both.folder, "other")
    os.mkdir(other)
    status, said = both.audit(nodes.write_tree(other, both.ports, lines))
    assert (status, said) == (1, "journal %s line 1 fault 15\n" % both.files("A")[0])


def answers(node, *lines):
    """Returns the answers to lines with tags, without these, or None for one that is not answered in time."""
    told = []
    for place, line in enumerate(lines):
        node.say("@%d %s" % (place, line))
        told.append((node.next(3) or "").removeprefix("@%d told " % place) or None)
    return told


def test_what_heals_a_forged_drop(both):
    """What docs/NETWORK.md says that a forged datagram does, and what heals it."""
    ann, bob = both.running["A"], both.running["B"]
    assert ann.ask("order ANN take DCS") == "told ANN take DCS 0"
    drop = datagram(layout.DROP, **{"from": A}, to=A, subject=DCS, holder_kind=OPERATOR, holder=1, epoch=1)
    both.forge(A, drop)
    assert both.says("A", "freed DCS 2")
    healing = ["order ANN take DCS", "order ANN drop DCS", "order ANN take DCS", "order ANN do DCS CONFIGURE"]
    assert answers(ann, *healing) == ["ANN take DCS 23", "ANN drop DCS 0", "ANN take DCS 0", "ANN do DCS CONFIGURE 0"]
    both.forge(A, datagram(layout.DROP, **{"from": A}, to=A, subject=DCS, holder_kind=OPERATOR, holder=1, epoch=3))
    assert both.says("A", "freed DCS 4")
    assert answers(bob, "order BOB take DCS", "order BOB drop DCS") == ["BOB take DCS 0", "BOB drop DCS 0"]
    assert answers(ann, "order ANN do DCS CONFIGURE", "order ANN drop DCS", "order ANN ask DCS") == [
        None, None, "ANN ask DCS free 6 0 settled 0"]


def test_what_heals_a_forged_tell(night):
    ann, told = night.start("A"), None
    ann.say("@9 order ANN take TPC")
    while told is None:
        # (it does nothing before the take is under way)
        night.forge(A, datagram(layout.TELL, **{"from": B}, to=A, subject=TPC, holder_kind=OPERATOR, holder=1, epoch=1))
        told = ann.next(0.5)
    assert told == "@9 told ANN take TPC 0"
    bob = night.start("B")
    assert answers(ann, "order ANN ask TPC", "order ANN drop TPC") == ["ANN ask TPC free 0 0 settled 0", None]
    assert answers(bob, "order BOB take TPC", "order BOB drop TPC") == ["BOB take TPC 0", "BOB drop TPC 0"]
    assert ann.next() == "@1 told ANN drop TPC 0"
    assert answers(ann, "order ANN take TPC", "order ANN do TPC CONFIGURE") == [
        "ANN take TPC 0", "ANN do TPC CONFIGURE 0"]
