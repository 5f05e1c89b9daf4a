"""What single forged datagrams bring about, and what heals it: docs/NETWORK.md, "What a forged datagram does".

Forged DROPs and TELLs are in tests/forgery_test.py and tests/settle_test.py. Nodes believe these datagrams because they
come from the host of the station that they name.
"""

import pytest

import layout
from forgery_test import A, B, DCS, OPERATOR, TPC, Night
from layout import datagram
from running import at_last

ANN, LAST = 1, 4_000_000_000
DO, EXCLUDE = 1, 3
CONFIGURE, ERROR = 1, 4
MANY, AT_ONCE = 1000, 100
# For how long it is watched that something is not shown, in seconds.
WATCHED = 1.5


@pytest.fixture
def night(program, folder, ports, start_node):
    """Returns a night in which both stations run."""
    made = Night(program, folder, ports, start_node)
    made.start("A")
    made.start("B")
    return made


def restart(night, station):
    night.kill(station)
    return night.start(station)


def ask(night, station, *lines):
    """Returns what a node answers to orders, of each the end after its words."""
    return [night.running[station].ask("order " + it).removeprefix("told %s " % it) for it in lines]


def order(kind, **fields):
    """Returns a datagram to A in the name of ANN, about DCS."""
    return datagram(kind, **{"from": A}, to=A, subject=DCS, holder_kind=OPERATOR, holder=ANN, **fields)


def heard(night, station):
    """Waits until a station has heard what was sent to it: a datagram of another tree after that is counted."""
    node = night.running[station]

    def refused():
        words = node.ask("@c counts").split(" ")
        return int(words[words.index("refused7") + 1])
    before = refused()
    night.forge("AB".index(station) + 1, datagram(layout.ASK, **{"from": A}, to=A, subject=DCS, tree=18))
    assert at_last(refused, before + 1) == before + 1


def shown(night, wanted):
    """Returns what A shows of TPC, once it is what is wanted or too late."""
    return at_last(lambda: night.running["A"].ask("show TPC"), wanted)


def test_a_forged_take(night, subtests):
    night.forge(A, order(layout.TAKE, epoch=0))
    assert night.says("A", "granted DCS 1 ANN")
    with subtests.test("others are told that she holds the domain"):
        assert ask(night, "B", "BOB take DCS") == ["5"]
    with subtests.test("she takes it and drops it"):
        assert ask(night, "A", "ANN take DCS", "ANN drop DCS") == ["0", "0"]
    with subtests.test("then others can take it"):
        assert ask(night, "B", "BOB take DCS", "BOB drop DCS") == ["0", "0"]


def test_a_forged_run(night, subtests):
    assert ask(night, "A", "ANN take DCS", "ANN include DCS TPC", "ANN do DCS CONFIGURE") == ["0"] * 3
    assert shown(night, "board TPC 1.1 READY") == "board TPC 1.1 READY"
    night.forge(A, order(layout.RUN, epoch=1, number=3, code=EXCLUDE, argument=TPC))
    with subtests.test("the forged command runs"):
        assert night.says("A", "ran DCS 1 3 exclude TPC")
        assert ask(night, "A", "ANN ask TPC") == ["free 2 0 settled 0"]
    with subtests.test("her own of that number is told as done"):
        assert ask(night, "A", "ANN do DCS START") == ["0"]
    with subtests.test("and has not run"):
        assert (ask(night, "A", "ANN ask DCS"), shown(night, "board TPC 1.1 READY")) == (
            ["ANN 1 3 settled 0"], "board TPC 1.1 READY")
    with subtests.test("the next commands run"):
        assert ask(night, "A", "ANN include DCS TPC", "ANN do DCS START", "ANN ask DCS") == [
            "0", "0", "ANN 1 5 settled 0"]
        assert shown(night, "board TPC 1.2 RUNNING") == "board TPC 1.2 RUNNING"


def test_a_thousand_forged_runs(night, subtests):
    assert ask(night, "A", "ANN take DCS") == ["0"]
    for first in range(1, MANY + 1, AT_ONCE):
        for number in range(first, first + AT_ONCE):
            night.forge(A, order(layout.RUN, epoch=1, number=number, code=DO, argument=CONFIGURE))
        wanted = ["ANN 1 %d settled 0" % (first + AT_ONCE - 1)]
        assert at_last(lambda: ask(night, "A", "ANN ask DCS"), wanted) == wanted
    with subtests.test("her commands are told as ended unseen"):
        assert ask(night, "A", "ANN do DCS CONFIGURE", "ANN do DCS START") == ["8", "8"]
    with subtests.test("she drops the domain and takes it"):
        assert ask(night, "A", "ANN drop DCS", "ANN take DCS") == ["0", "0"]
    with subtests.test("then they run"):
        assert ask(night, "A", "ANN do DCS CONFIGURE", "ANN ask DCS") == ["0", "ANN 3 1 settled 0"]


def test_a_forged_tell_if_nobody_waits(night, subtests):
    assert ask(night, "A", "ANN take DCS", "ANN ask TPC") == ["0", "free 0 0 settled 0"]
    for _ in range(3):
        night.forge(A, datagram(layout.TELL, **{"from": B}, to=A, subject=TPC, epoch=layout.LAST_EPOCH))
    heard(night, "A")
    with subtests.test("an include is granted"):
        assert ask(night, "A", "ANN include DCS TPC", "ANN ask TPC") == ["0", "DCS 1 0 settled 0"]
    with subtests.test("and a take, once it is free"):
        assert ask(night, "A", "ANN exclude DCS TPC", "ANN take TPC", "ANN ask TPC") == [
            "0", "0", "ANN 3 0 settled 0"]


def test_a_forged_state(night, subtests):
    assert shown(night, "board TPC 1.0 OFF") == "board TPC 1.0 OFF"
    night.forge(A, datagram(layout.STATE, **{"from": B}, to=A, subject=TPC, echo=1, code=ERROR, boot=LAST,
                            sequence=LAST))
    forged = "board TPC %d.%d ERROR" % (LAST, LAST)
    with subtests.test("the forged state is shown"):
        assert shown(night, forged) == forged
    assert night.running["B"].ask("report HV READY") == "told report HV READY 0"
    with subtests.test("and no true one"):
        assert is_kept(night, forged)
    restart(night, "B")
    with subtests.test("also after a start of the station that keeps it"):
        assert is_kept(night, forged)
    restart(night, "A")
    with subtests.test("a start of the station that watches heals it"):
        assert shown(night, "board TPC 2.0 OFF") == "board TPC 2.0 OFF"


def test_a_forged_watch(night, subtests):
    assert shown(night, "board TPC 1.0 OFF") == "board TPC 1.0 OFF"
    night.forge(B, datagram(layout.WATCH, **{"from": A}, to=B, subject=TPC, echo=LAST))
    heard(night, "B")
    assert night.running["B"].ask("report HV READY") == "told report HV READY 0"
    with subtests.test("nothing new is shown"):
        assert is_kept(night, "board TPC 1.0 OFF")
    restart(night, "A")
    with subtests.test("nor anything after a start of the station that watches"):
        assert is_kept(night, "board TPC none")
    restart(night, "B")
    assert night.running["B"].ask("report HV READY") == "told report HV READY 0"
    with subtests.test("a start of the station that keeps it heals it"):
        assert shown(night, "board TPC 2.1 READY") == "board TPC 2.1 READY"


def is_kept(night, wanted):
    """Returns true if A shows this of TPC, and nothing else for a while."""
    other = at_last(lambda: night.running["A"].ask("show TPC") != wanted, True, WATCHED)
    return not other
