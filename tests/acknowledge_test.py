"""Alarms that somebody has acknowledged, as the pages of a screen show them, and the token that a page may ask for.

The pages run in headless Chromium over made-up answers (tests/page_server.py). What is expected follows from
docs/HANDBOOK.md, "What you see" and "Orders from the screen".
"""

import pytest

import browsers
import page_server
from browser import LEADER, TOP, Hand, shows
from running import at_last

pytestmark = pytest.mark.skipif(not browsers.program(), reason="there is no browser (Debian's chromium)")
TOKEN = "0123456789abcdef"
# How soon a second page shows what was acknowledged on the first one, in seconds: one, and one more on a machine that
# others use.
SEEN = 1 + 1
# The alarms of a page: what each is of, and who is said to have acknowledged it.
LISTED = """[...document.querySelectorAll("#alarms .alarm > [data-alarm]")].map((b) =>
  [b.dataset.key, (b.querySelector("i") || {textContent: ""}).textContent])"""


class Pages:
    """Pages of one made-up screen, over a detector of which all is READY and held by the shift leader."""

    def __init__(self, count, **how):
        self.screen, self.silent = page_server.MadeUp(page_server.tree_of(page_server.DETECTOR), **how), set()
        self.screen.is_heard = lambda station: station not in self.silent
        names = [it["name"] for it in self.screen.tree["domains"] + self.screen.tree["devices"]]
        self.screen.show(dict.fromkeys(names, "READY"), 60)
        holders = {it["name"]: it["parent"] for it in self.screen.tree["domains"]}
        self.screen.tell({**holders, TOP: LEADER, "INFRA": None})
        self.server = page_server.PageServer(self.screen)
        self.browsers = []
        for _ in range(count):
            self.browsers.append(browsers.Browser(browsers.program()))
            self.browsers[-1].open(self.server.url)
        for it in self.browsers:
            assert it.waits_for("domains.size && !!picture") is not None and shows(it, TOP, "READY")

    def lists(self, at, wanted, seconds=10):
        """Returns the alarms that a page lists, once they are these or the time is over."""
        return at_last(lambda: dict(self.browsers[at].run(LISTED)), wanted, seconds, pause=0.05)

    def click(self, at, text, key=None):
        """Clicks the button of the alarms with this text, of one alarm or above them all."""
        of = ".alarm button[data-key=\"%s\"]" % key if key else ".alarm-head button"
        self.browsers[at].run("[...document.querySelectorAll('#alarms %s')].find((b) => b.textContent === '%s').click()"
                              % (of, text))

    def buttons(self, at):
        return self.browsers[at].run(
            "[...document.querySelectorAll('#alarms button')].map((b) => b.textContent)"
            ".filter((text) => text.startsWith('acknowledge'))")

    def end(self):
        for it in self.browsers:
            it.end()
        self.server.end()


@pytest.fixture
def pages(request):
    """Makes pages, which end with the test."""
    made = []

    def make(count, **how):
        made.append(Pages(count, **how))
        return made[0]

    yield make
    for it in made:
        it.end()


@pytest.mark.alone
def test_acknowledge(pages, subtests):
    """What is acknowledged on one page is so on another within a second, until it begins again."""
    two = pages(2)
    trip, other, station = "device PIXEL_HV7", "device EM_HV1", "station MUON"
    two.screen.show({"PIXEL_HV7": "ERROR", "EM_HV1": "ERROR"})
    with subtests.test("at first nobody has"):
        assert [two.lists(at, {trip: "", other: ""}) for at in (0, 1)] == [{trip: "", other: ""}] * 2
    two.click(0, "acknowledge", trip)
    with subtests.test("nobody is chosen"):
        assert [two.browsers[0].run("document.getElementById('told').textContent"), two.screen.acknowledged] == [
            "choose who acknowledges, at the top of the page", []]
    Hand(two.browsers[0]).choose(LEADER)
    two.click(0, "acknowledge", trip)
    wanted = {trip: "acknowledged by " + LEADER, other: ""}
    with subtests.test("the other page says who, soon"):
        assert two.lists(1, wanted, SEEN) == wanted
    with subtests.test("and so does this one"):
        assert two.lists(0, wanted) == wanted
    with subtests.test("it is offered no more"):
        assert sorted(two.buttons(0)) == ["acknowledge", "acknowledge all 1"]
    two.silent.add("MUON")
    two.screen.show({"PIXEL_HV7": "READY"})
    with subtests.test("a silent station is an alarm like any"):
        assert two.lists(1, {other: "", station: ""}) == {other: "", station: ""}
    two.screen.show({"PIXEL_HV7": "ERROR"})
    with subtests.test("the same thing again is a new alarm"):
        assert two.lists(1, {trip: "", other: "", station: ""}) == {trip: "", other: "", station: ""}
    Hand(two.browsers[1]).choose("RUN_CONTROL")
    two.click(1, "acknowledge all 3")
    wanted = dict.fromkeys((trip, other, station), "acknowledged by RUN_CONTROL")
    with subtests.test("all at once"):
        assert [two.lists(at, wanted) for at in (1, 0)] == [wanted] * 2
    with subtests.test("then nothing is offered"):
        assert [two.buttons(at) for at in (0, 1)] == [[], []]
    with subtests.test("each was sent once"):
        assert sorted(it["alarm"] for it in two.screen.acknowledged[1:]) == sorted(
            "%s RUN_CONTROL" % it for it in (trip, other, station))


def test_looking_on(pages):
    """A page that may not order offers nothing."""
    one = pages(1, key=None)
    one.screen.show({"PIXEL_HV7": "ERROR"})
    assert [one.lists(0, {"device PIXEL_HV7": ""}), one.buttons(0)] == [{"device PIXEL_HV7": ""}, []]


def test_token(pages, subtests):
    """A page without a key asks for the token: a wrong one is forgotten, and the right one is kept by the tab."""
    one = pages(1, key="", token=TOKEN)
    browser, hand = one.browsers[0], Hand(one.browsers[0])
    hand.choose(LEADER)
    hand.open(TOP)

    def title():
        return browser.run("document.querySelector('[data-deed=STOP]').title")

    def types(token):
        browser.run("{ const field = document.getElementById('token'); field.value = '%s';"
                    " field.dispatchEvent(new Event('change')); }" % token)

    with subtests.test("it is wanted"):
        assert at_last(title, "type the token for orders, at the top of the page") == (
            "type the token for orders, at the top of the page")
    types("not the token")
    one.screen.show({"PIXEL_HV7": "ERROR"})
    assert one.lists(0, {"device PIXEL_HV7": ""}) == {"device PIXEL_HV7": ""}
    one.click(0, "acknowledge", "device PIXEL_HV7")
    line = "acknowledge device PIXEL_HV7 " + LEADER
    with subtests.test("a wrong one is told"):
        assert at_last(lambda: browser.run("document.getElementById('told').textContent"),
                       line + ": the token is wrong, type it at the top of the page").endswith("top of the page")
    with subtests.test("and forgotten"):
        assert browser.run("document.getElementById('token').value") == ""
    types(TOKEN)
    one.click(0, "acknowledge", "device PIXEL_HV7")
    wanted = {"device PIXEL_HV7": "acknowledged by " + LEADER}
    with subtests.test("the right one is taken"):
        assert one.lists(0, wanted) == wanted
    browser.open(one.server.url)
    with subtests.test("it is kept when the page is loaded again"):
        assert browser.waits_for("domains.size && !!picture") is not None
        assert browser.run("document.getElementById('token').value") == TOKEN
    with subtests.test("it is not in the page"):
        assert TOKEN not in page_server.whole("")
