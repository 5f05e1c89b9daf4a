"""What the page says before an order: who is silent, what waits already, and what can be answered; and what it says of
modes, of orders that are withdrawn, and of who gave them.

The page runs in headless Chromium over made-up answers (tests/page_server.py). The sentences that are expected follow
from docs/HANDBOOK.md, "Orders from the screen".
"""

import json
import re

import pytest

import browsers
import page_server
from browser import GIVEN, LEADER, TOP, Hand, shows
from running import at_last, is_so

pytestmark = pytest.mark.skipif(not browsers.program(), reason="there is no browser (Debian's chromium)")
OTHERS = ["TRK", "CAL", "MUO", "TRG", "DAQ"]
# What of the tree each station keeps, at its top.
TOPS = {"TRK": "TRACKER", "CAL": "CALORIMETER", "MUO": "MUON", "TRG": "TRIGGER", "INFRA": "SERVICES"}


class Played:
    """A browser at the page of a detector that is made up: the shift leader holds all but the services."""

    def __init__(self):
        self.screen = page_server.MadeUp(page_server.tree_of(page_server.DETECTOR))
        self.silent = set()
        self.screen.is_heard = lambda station: station not in self.silent
        names = [it["name"] for it in self.screen.tree["domains"] + self.screen.tree["devices"]]
        self.screen.show(dict.fromkeys(names, "READY"), 60)
        holders = {it["name"]: it["parent"] for it in self.screen.tree["domains"]}
        self.screen.tell({**holders, TOP: LEADER, "INFRA": None})
        self.server = page_server.PageServer(self.screen)
        self.browser = browsers.Browser(browsers.program())
        self.browser.open(self.server.url)
        self.hand = Hand(self.browser)
        assert self.browser.waits_for("domains.size && !!picture") is not None and shows(self.browser, TOP, "READY")
        self.hand.choose(LEADER)

    def silence(self, *stations):
        """Has these stations alone be silent, and waits until the page knows it."""
        self.silent.clear()
        self.silent.update(stations)
        is_known = "[...domains.values()].every((d) => isSilent(d) === %s.includes(d.station))" % list(stations)
        assert self.browser.waits_for(is_known, 10) is not None

    def asks(self, domain, deed):
        """Returns what is asked before a deed, without its seconds, and what can be answered."""
        self.hand.open(domain)
        self.browser.run("document.querySelector('[data-deed=%s]').click()" % deed)
        words, choices = self.browser.run(
            "[document.getElementById('question-words').textContent,"
            " [...document.querySelectorAll('#choices button')].map((b) => b.textContent)]")
        focused = self.browser.run("document.activeElement.textContent")
        return re.sub(r"\b\d+ s\b", "N s", words), choices, focused

    def gives(self, line):
        """Has an order be given that waits, as if by any page, and returns its number once this page knows it."""
        self.screen.take_order("order " + line)
        number = len(self.screen.orders)
        assert self.browser.waits_for("given.some((it) => it.number === %d)" % number, 10) is not None
        return number

    def is_told(self, number):
        """Returns true once the page knows that an order has ended."""
        return self.browser.waits_for("given.some((it) => it.number === %d && !it.waits)" % number, 10) is not None

    def tells(self, modes):
        """Has the console tell these modes alone, and waits until the page knows them."""
        self.screen.modes = ["%s %s" % it for it in modes.items()]
        is_known = "[...domains.values()].every((d) => modeOf(d) === (%s[d.name] || ''))" % json.dumps(modes)
        assert self.browser.waits_for(is_known, 10) is not None

    def mode_in_box(self, domain):
        return self.browser.run("domains.get('%s').at.mode.textContent" % domain)

    def mode_in_details(self, domain):
        self.hand.open(domain)
        return self.browser.run("[...document.querySelectorAll('#more dt')].find((dt) => dt.textContent === 'mode')"
                                ".nextSibling.textContent")

    def fates(self):
        return [re.sub(r"\b\d+ s\b", "N s", text) for text in self.browser.run(GIVEN)]

    def end(self):
        self.browser.end()
        self.server.end()


@pytest.fixture(scope="module")
def played():
    made = Played()
    yield made
    made.end()


@pytest.fixture(autouse=True)
def calm(played):
    """Begins each test with no station silent, no order waiting, and nothing open."""
    played.hand.shut()
    for it in played.screen.orders:
        if it["waits"]:
            played.screen.end_order(it["number"], 0)
    played.screen.tell({TOP: LEADER})
    assert played.browser.waits_for("given.every((it) => !it.waits)", 10) is not None
    played.tells({})
    played.silence()
    yield
    assert played.browser.errors == []


ANYWAY = "%s anyway"
KEEPER = "%s, which keeps %s, has been silent for N s. %s will wait until it is back, and so will what " + LEADER \
    + " orders of %s after it."
HOLDS = "%s has been silent for N s. %s will hold " + TOP + ", and nobody will command %s until it is back."
# A silent station, the domain and the deed that are clicked, what is asked and what can be answered.
ASKED = [
    ("nothing is silent", "", TOP, "STOP", "STOP at EXPERIMENT?", ["yes, STOP", "cancel"]),
    ("a take of a silent station's domain", "SERVICES", "INFRA", "take", KEEPER % ("SERVICES", "INFRA", "take", "INFRA"),
     [ANYWAY % "take", "cancel"]),
    ("a take elsewhere", "MUON", "INFRA", "take", "take INFRA?", ["yes, take", "cancel"]),
    ("a drop at its silent keeper", "CONTROL", TOP, "drop", KEEPER % ("CONTROL", TOP, "drop", TOP),
     [ANYWAY % "drop", "cancel"]),
    ("a drop above a silent station", "MUON", TOP, "drop", "drop EXPERIMENT?", ["yes, drop", "cancel"]),
    ("a command at its silent keeper", "CONTROL", TOP, "STOP", KEEPER % ("CONTROL", TOP, "STOP", TOP),
     [ANYWAY % "STOP", "cancel"]),
    ("a command above a silent station", "MUON", TOP, "STOP", HOLDS % ("MUON", "STOP", "TRK, CAL, TRG, DAQ"),
     ["make MUO manual, then STOP", ANYWAY % "STOP", "cancel"]),
    ("a mode at its silent keeper", "CONTROL", "TRK", "manual", KEEPER % ("CONTROL", TOP, "manual", TOP),
     [ANYWAY % "manual", "cancel"]),
    ("a manual child of a silent station", "MUON", "MUO", "manual", "make MUO manual in EXPERIMENT?",
     ["yes, manual", "cancel"]),
    ("an exclude of a silent station's domain", "MUON", "MUO", "exclude", HOLDS % ("MUON", "exclude", "TRK, CAL, TRG, DAQ"),
     [ANYWAY % "exclude", "cancel"]),
    ("a command above two silent stations", "MUON CALORIMETER", TOP, "STOP", "CALORIMETER, MUON are silent. STOP will hold "
     + TOP + ", and nobody will command TRK, TRG, DAQ until they are back.",
     ["make CAL, MUO manual, then STOP", ANYWAY % "STOP", "cancel"]),
    ("an exclude of another one", "MUON", "TRK", "exclude", "exclude TRK from EXPERIMENT?", ["yes, exclude", "cancel"]),
]


@pytest.mark.parametrize("silent, domain, deed, words, choices", [pytest.param(*it, id=name) for name, *it in ASKED])
def test_silent(played, silent, domain, deed, words, choices):
    """A silent station that an order would wait for is told before, and what is dangerous is not the first answer."""
    played.silence(*silent.split())
    assert played.asks(domain, deed) == (words, choices, choices[0] if words.endswith("?") else "cancel")


def test_silent_keeper_alone_below(played):
    """No child is offered to be made manual at a keeper that is silent itself."""
    held = {it["name"]: it["parent"] for it in played.screen.tree["domains"] if it["parent"] == "INFRA"}
    played.screen.tell({"INFRA": LEADER, **held})
    played.silence("SERVICES")
    words, choices, focused = played.asks("INFRA", "RECOVER")
    played.screen.tell({"INFRA": None})
    assert words == KEEPER % ("SERVICES", "INFRA", "RECOVER", "INFRA")
    assert (choices, focused) == (["RECOVER anyway", "cancel"], "cancel")


STILL = LEADER + " has given %s N s ago, and it still waits%s. %s will wait until %s."


def test_same_domain_waits(played, subtests):
    """An order waits for those of the same operator about the same domain, and for no others."""
    first, first_of = played.gives(LEADER + " do %s STOP" % TOP), ("do EXPERIMENT STOP", "")
    with subtests.test("an order about the same domain"):
        assert played.asks(TOP, "START") == (STILL % (*first_of, "START", "it has ended"), ["START anyway", "cancel"],
                                             "cancel")
    with subtests.test("a mode that is ordered there"):
        assert played.asks("TRK", "manual")[0] == STILL % (*first_of, "manual", "it has ended")
    with subtests.test("an order about another domain"):
        assert played.asks("INFRA", "take")[0] == "take INFRA?"
    second = played.gives(LEADER + " manual %s TRK" % TOP)
    more = ", with 1 more about " + TOP
    with subtests.test("two that wait"):
        assert played.asks(TOP, "drop")[0] == STILL % ("do EXPERIMENT STOP", more, "drop", "they have ended")
    played.silence("MUON")
    words, choices, _ = played.asks(TOP, "STOP")
    with subtests.test("nothing is made manual after an order that waits"):
        assert words == STILL % ("do EXPERIMENT STOP", more, "STOP", "they have ended") + " " + HOLDS % (
            "MUON", "STOP", "TRK, CAL, TRG, DAQ") and choices == ["STOP anyway", "cancel"]
    listed = [LEADER + " do EXPERIMENT STOPwaits N s for station MUON, not from this page",
              LEADER + " manual EXPERIMENT TRKwaits N s until do EXPERIMENT STOP has ended, not from this page"]
    with subtests.test("how they are listed"):
        assert at_last(lambda: played.fates()[-2:], listed) == listed
    for number in (first, second):
        played.screen.end_order(number, 0)
    with subtests.test("nothing waits any more"):
        assert played.is_told(second)


def test_others_hold_up_nothing(played, subtests):
    """A question, and an order of another operator, hold up nobody."""
    played.gives(LEADER + " ask %s" % TOP)
    played.gives("RUN_CONTROL do %s STOP" % TOP)
    assert played.asks(TOP, "START")[0] == "START at EXPERIMENT?"


def test_lanes(played, subtests):
    """Orders about four domains wait at once, and then one about a fifth waits too."""
    places = ["PIXEL", "STRIP", "EM", "HAD"]
    for place in places[:3]:
        played.gives(LEADER + " take " + place)
    played.gives(LEADER + " take PIXEL")
    with subtests.test("three domains, one of them twice"):
        assert played.asks("INFRA", "take")[0] == "take INFRA?"
    played.gives(LEADER + " take " + places[3])
    words = "Orders of %s about 4 domains wait already (%s). take will wait until one of them has ended." % (
        LEADER, ", ".join("take " + it for it in places))
    with subtests.test("four domains"):
        assert played.asks("INFRA", "take") == (words, ["take anyway", "cancel"], "cancel")
    played.gives(LEADER + " take INFRA")
    with subtests.test("the fifth waits for the first"):
        listed = LEADER + " take INFRAwaits N s until take PIXEL has ended, not from this page"
        assert at_last(lambda: played.fates()[-1], listed) == listed


def test_busy(played, subtests):
    """A domain that has been at work for some time, by whomsoever, is told."""
    played.screen.tell({TOP: LEADER}, busy=True, since=played.screen.now() - 12_000)
    assert played.browser.waits_for("domains.get('%s').told.busy" % TOP, 10) is not None
    words = TOP + " has been at work on a command for N s. %s will wait until that has ended."
    with subtests.test("a command"):
        assert played.asks(TOP, "STOP")[0] == words % "STOP"
    with subtests.test("a mode"):
        assert played.asks("TRK", "manual")[0] == words % "manual"
    played.screen.tell({TOP: LEADER}, busy=True, since=played.screen.now() + 60_000)
    assert played.browser.waits_for("domains.get('%s').told.since > now()" % TOP, 10) is not None
    with subtests.test("a command that has just begun"):
        assert played.asks(TOP, "STOP")[0] == "STOP at EXPERIMENT?"


def test_manual(played, subtests):
    """What this page has made manual is said to be so, and its order is its own."""
    played.asks("MUO", "manual")
    played.hand.answer(0)
    given = "given.some((it) => it.line === 'order %s manual %s MUO' && it.waits)" % (LEADER, TOP)
    assert played.browser.waits_for(given, 10) is not None
    played.screen.end_order(len(played.screen.orders), 0)
    mode = "domains.get('%s').at.mode.textContent"
    with subtests.test("its box says so, and no other"):
        assert played.browser.waits_for(mode % "MUO" + " === 'manual'", 10) is not None
        assert played.browser.run(mode % "TRK") == ""
    listed = LEADER + " manual EXPERIMENT MUO0: done"
    with subtests.test("its order"):
        assert at_last(lambda: played.fates()[-1], listed) == listed
    played.silence("MUON")
    with subtests.test("nothing is asked about it"):
        assert played.asks(TOP, "STOP")[0] == "STOP at EXPERIMENT?"
    played.screen.tell({TOP: LEADER}, last=9)
    assert played.browser.waits_for("domains.get('%s').told.last === 9" % TOP, 10) is not None
    with subtests.test("until somebody else has ordered there"):
        assert played.browser.waits_for(mode % "MUO" + " === ''", 5) is not None
        assert played.asks(TOP, "STOP")[0] == HOLDS % ("MUON", "STOP", "TRK, CAL, TRG, DAQ")


def test_told_modes(played, subtests):
    """A mode that the console tells is in the details, and in the box if the child is manual or ignored."""
    played.tells({"TRK": "manual", "CAL": "ignored", "MUO": "included", "TRG": "out"})
    with subtests.test("boxes"):
        wanted = ["manual", "ignored", "", "", ""]
        assert at_last(lambda: [played.mode_in_box(name) for name in OTHERS], wanted) == wanted
    with subtests.test("details"):
        assert [played.mode_in_details(name) for name in OTHERS] == ["manual", "ignored", "included", "out",
                                                                     "mode unknown"]
    with subtests.test("details of what is held by nobody"):
        assert played.mode_in_details("INFRA") == "has none: it is not held by what is above"
    played.hand.open("TRK")
    with subtests.test("greyed: it is so already"):
        assert played.hand.button("manual") == ["true", "TRK is manual already"]
    with subtests.test("not greyed: another mode"):
        assert [played.hand.button(deed)[0] for deed in ("include", "ignore", "exclude")] == ["false"] * 3
    played.screen.has_console = False
    with subtests.test("without a console none is known"):
        assert is_so(lambda: played.mode_in_details("TRK") == "mode unknown", 10)
        assert is_so(lambda: played.mode_in_box("TRK") == "", 10)
    played.screen.has_console = True


def test_told_manual(played, subtests):
    """The console says whether a silent child is manual, no matter who has ordered there."""
    played.tells({"MUO": "manual"})
    played.silence("MUON")
    played.screen.tell({TOP: LEADER}, last=played.screen.frame)
    with subtests.test("manual"):
        assert played.asks(TOP, "STOP")[0] == "STOP at EXPERIMENT?"
    played.tells({"MUO": "included"})
    with subtests.test("included"):
        assert played.asks(TOP, "STOP")[0] == HOLDS % ("MUON", "STOP", "TRK, CAL, TRG, DAQ")
    number, line = len(played.screen.orders) + 1, "order %s manual %s MUO" % (LEADER, TOP)
    played.hand.answer(0)
    assert is_so(lambda: [it["line"] for it in played.screen.orders[number - 1:]] == [line], 10)
    played.screen.end_order(number, 0)
    with subtests.test("made so by this page, before the console tells it"):
        assert is_so(lambda: played.mode_in_box("MUO") == "manual", 2)
    assert is_so(lambda: len(played.screen.orders) == number + 1, 10)
    with subtests.test("but only for some seconds"):
        assert is_so(lambda: played.mode_in_box("MUO") == "", 10)


BUTTON = "[...document.querySelectorAll('#given button')].find((b) => b.getAttribute('aria-label') === 'withdraw %s')"


def test_withdraw(played, subtests):
    """An order that waits has a button that withdraws it, and one that has begun is told."""
    order, withdrawn = LEADER + " do %s STOP" % TOP, len(played.screen.orders) + 2
    number, button = played.gives(order), BUTTON % order
    assert played.browser.waits_for("!!" + button, 10) is not None
    played.browser.run(button + ".focus()")
    waits = "given.find((it) => it.number === %d).seconds >= 2" % number
    with subtests.test("the keyboard stays at it while the seconds go on"):
        assert played.browser.waits_for(waits, 10) is not None
        assert played.browser.run("document.activeElement === " + button)
    played.browser.run("%s.click(); %s.click()" % (button, button))
    with subtests.test("it is sent, once"):
        assert is_so(lambda: [it["line"] for it in played.screen.orders[number:]] == ["withdraw %d" % number], 5)
    played.screen.answer_line(number, "withdrawn")
    played.screen.answer_line(withdrawn, "withdrawn %d" % number)
    listed = order + "withdrawn, not from this page"
    with subtests.test("what became of it"):
        assert at_last(lambda: played.fates()[-1], listed) == listed
    with subtests.test("it has no button any more"):
        assert played.browser.run("!" + button)
    begun = played.gives(order)
    assert played.browser.waits_for("!!" + button, 10) is not None
    played.browser.run(button + ".click()")
    assert is_so(lambda: played.screen.orders[-1]["line"] == "withdraw %d" % begun, 5)
    played.screen.answer_line(len(played.screen.orders), "begun %d" % begun)
    with subtests.test("one that has begun"):
        words = order + " has begun and can't be withdrawn"
        assert is_so(lambda: played.browser.run("document.getElementById('told').textContent") == words, 10)
    with subtests.test("its list says so, wherever it is, and has no button"):
        assert is_so(lambda: "has begun and can't be withdrawn" in played.fates()[-1], 10)
        assert played.browser.run("!" + button)
    with subtests.test("lines that withdraw are no orders"):
        assert not [text for text in played.fates() if text.startswith("withdraw")]
        assert played.browser.run("given.every((it) => it.line.startsWith('order '))")


# The orders that the details of a domain list, with what became of them.
HERE = "[...document.querySelectorAll('#more .given li')].map((li) => [...li.querySelectorAll('b, span')]" \
    ".map((e) => e.textContent).join(' '))"


def test_orders_in_details(played, subtests):
    """The details of a domain say what became of the orders about it, because they hide the list of all."""
    played.hand.open(TOP)
    stop, other = LEADER + " do %s STOP" % TOP, LEADER + " take INFRA"
    number = played.gives(stop)
    played.gives(other)
    with subtests.test("one that waits"):
        assert is_so(lambda: any(it.startswith(stop + " waits") for it in played.browser.run(HERE)))
    played.screen.end_order(number, 0)
    with subtests.test("one that has ended"):
        assert is_so(lambda: stop + " 0: done, not from this page" in played.browser.run(HERE))
    with subtests.test("none about another domain"):
        assert not [it for it in played.browser.run(HERE) if it.startswith(other)]
    child = LEADER + " manual %s MUO" % TOP
    played.gives(child)
    played.hand.open("MUO")
    with subtests.test("one about a child, at the child"):
        assert is_so(lambda: any(it.startswith(child + " waits") for it in played.browser.run(HERE)))


def test_grant_not_seen(played, subtests):
    """A station that died before the screen was told of its last grant: the console knows that its domain is held."""
    played.screen.tell({"MUO": None})
    played.silence("MUON")
    with subtests.test("nobody tells that it is held"):
        assert played.asks(TOP, "STOP")[0] == "STOP at EXPERIMENT?"
    played.tells({"MUO": "out"})
    with subtests.test("it is not held"):
        assert played.asks(TOP, "STOP")[0] == "STOP at EXPERIMENT?"
    played.tells({"MUO": "included"})
    with subtests.test("it is held"):
        assert played.asks(TOP, "STOP")[:2] == (HOLDS % ("MUON", "STOP", "TRK, CAL, TRG, DAQ"), [
            "make MUO manual, then STOP", ANYWAY % "STOP", "cancel"])
    played.screen.tell({"MUO": TOP})


def test_operators(played, subtests):
    """Operators of the console's station alone are offered once that is known."""
    offered = "[...document.querySelectorAll('#operator option')].map((o) => o.value).filter((name) => name)"
    own = [it["name"] for it in played.screen.tree["operators"] if it["station"] == "CONTROL"]
    played.screen.end_order(played.gives(LEADER + " take TRK"), 5)
    with subtests.test("those of the console's station"):
        assert is_so(lambda: played.browser.run(offered) == own, 10)
    with subtests.test("the one who was chosen stays"):
        assert played.browser.run("document.getElementById('operator').value") == LEADER


# What is typed as a name, and what is sent of it, if anything.
TYPED = [("MARIA", "MARIA"), ("  Maria  Rossi ", "Maria  Rossi"), ("M#A\"R\\\\I\u00c4A\ufe0f", "MARIA"),
         ("x" * 40, "x" * 32), ("y" * 31 + " z", "y" * 31), ("~ !", "~ !"), ("  # ", None), ("", None)]
FIELD = "document.getElementById('my-name')"


def types_name(played, name):
    """Has a name in the place of another, and leaves the field."""
    # By a script: keys come to a page while the test goes on, and after what it asks next.
    played.browser.run("{ const e = %s; e.value = %s; e.dispatchEvent(new Event('input'));"
                       " e.dispatchEvent(new Event('blur')); }" % (FIELD, json.dumps(name)))


@pytest.mark.parametrize("typed, name", TYPED)
def test_name(played, typed, name):
    """Each order goes with the name of who is at the page, and the list of orders tells it."""
    types_name(played, typed)
    assert played.browser.run(FIELD + ".value") == (name or "")
    number, line = len(played.screen.orders) + 1, "order %s do %s STOP" % (LEADER, TOP)
    played.asks(TOP, "STOP")
    played.hand.answer(0)
    assert is_so(lambda: [(it["line"], it["by"]) for it in played.screen.orders[number - 1:]] == [(line, name)], 10)
    played.screen.end_order(number, 0)
    listed = line[len("order "):] + (" by " + name if name else "") + "0: done"
    assert at_last(lambda: played.fates()[-1:], [listed]) == [listed]


def test_names_of_several(played, subtests):
    """Orders of others are told with their names, a line that withdraws one has the name too, and the page keeps it."""
    types_name(played, "MARIA")
    order = LEADER + " do %s STOP" % TOP
    number = played.gives(order + " # PAUL")
    button = BUTTON % (order + " by PAUL")
    with subtests.test("another's name is told"):
        assert played.browser.waits_for("!!" + button, 10) is not None
    played.browser.run(button + ".click()")
    with subtests.test("who withdraws it is not who gave it"):
        wanted = [(order, "PAUL"), ("withdraw %d" % number, "MARIA")]
        assert is_so(lambda: [(it["line"].replace("order ", ""), it["by"])
                              for it in played.screen.orders[number - 1:]] == wanted, 5)
    for place in (number, number + 1):
        played.screen.answer_line(place, "withdrawn" if place == number else "withdrawn %d" % number)
    played.browser.open(played.server.url)
    with subtests.test("it is kept when the page is loaded again"):
        assert played.browser.waits_for("domains.size && !!picture") is not None
        assert played.browser.run(FIELD + ".value") == "MARIA"
    types_name(played, "")
    played.hand.choose(LEADER)
