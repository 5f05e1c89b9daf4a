"""What the page makes of changes: that it shows the newest picture by them, and when it asks for a whole one.

The page runs in headless Chromium over made-up answers (tests/page_server.py), which tell changes as
docs/FORMATS.md, "What has changed as JSON", says.
"""

import time

import pytest

import browsers
import page_server
from browser import shows
from running import is_so

pytestmark = pytest.mark.skipif(not browsers.program(), reason="there is no browser (Debian's chromium)")
# A domain of the example detector.
DOMAIN = "TRK"


class Followed:
    """A browser at a page that is told changes."""

    def __init__(self):
        self.screen = page_server.MadeUp(page_server.tree_of(page_server.DETECTOR))
        self.screen.tells_changes = True
        names = [it["name"] for it in self.screen.tree["domains"] + self.screen.tree["devices"]]
        self.device = self.screen.tree["devices"][0]["name"]
        self.screen.show(dict.fromkeys(names, "READY"))
        self.screen.tell({it["name"]: None for it in self.screen.tree["domains"]})
        self.server = page_server.PageServer(self.screen)
        self.browser = browsers.Browser(browsers.program())
        self.browser.open(self.server.url)
        assert self.browser.waits_for("domains.size && !!picture") is not None

    def asked(self):
        """Returns the next queries for pictures, five of them."""
        del self.screen.pictures_asked[:]
        assert is_so(lambda: len(self.screen.pictures_asked) >= 5)
        return self.screen.pictures_asked[:5]

    def has(self):
        """Returns true once the page has the picture that the screen has, but for when domains were heard."""
        told = {it["name"]: [it["shown"], without_heard(it["told"])] for it in self.screen.picture()["domains"]}
        had = self.browser.run("newest ? newest.domains.map((d) => [d.name, d.shown, d.told]) : []")
        return {name: [shown, without_heard(record)] for name, shown, record in had} == told

    def sets_clock(self, time):
        """Sets the clock of the page's machine by what it told so far."""
        self.browser.run("(() => { const then = Date.now(), now = Date.now.bind(Date);"
                         " Date.now = () => (%s); })()" % time)

    def end(self):
        self.browser.end()
        self.server.end()


def without_heard(record):
    return record and {key: record[key] for key in record if key != "heard"}


@pytest.fixture(scope="module")
def followed():
    it = Followed()
    yield it
    it.end()


def test_changes(followed, subtests):
    """States, records and times of answers that come as changes are shown."""
    with subtests.test("it asks for changes"):
        assert is_so(lambda: all(it.startswith("since=") for it in followed.asked()))
    followed.screen.show({followed.device: "ERROR"})
    with subtests.test("a new state of a device"):
        assert followed.browser.waits_for("devices.get('%s').shown.state === 'ERROR'" % followed.device, 10) is not None
    followed.screen.show({DOMAIN: "RUNNING"})
    followed.screen.tell({DOMAIN: "SHIFT_LEADER"}, last=7)
    with subtests.test("a new state and a new record of a domain"):
        assert is_so(lambda: shows(followed.browser, DOMAIN, "RUNNING") and followed.has())
    before = followed.browser.run("domains.get('%s').told.heard" % DOMAIN)
    with subtests.test("a domain that is heard again and again"):
        assert followed.browser.waits_for("domains.get('%s').told.heard > %d" % (DOMAIN, before + 3000), 10) is not None
    with subtests.test("all that was told is still there"):
        assert followed.has() and followed.browser.run("devices.get('%s').shown.state" % followed.device) == "ERROR"


def test_whole(followed, subtests):
    """After a pause, once a minute, and after a start of the screen it asks for a whole picture."""
    for clock, what in (("now() + 2000", "after a pause of two seconds"),
                        ("then + 4 * (now() - then)", "once a minute, by a clock of four times the speed")):
        followed.screen.pictures_asked.clear()
        followed.sets_clock(clock)
        with subtests.test(what):
            assert is_so(lambda: any(it.startswith("after=") for it in followed.screen.pictures_asked))
        with subtests.test(what + ", and then for changes again"):
            assert is_so(lambda: all(it.startswith("since=") for it in followed.asked()))
    followed.screen.begun, followed.screen.frame = time.monotonic(), 0
    followed.screen.show({DOMAIN: "OFF"})
    with subtests.test("after a start of the screen"):
        text = "(document.querySelector('#main [data-domain=%s] .state') || {}).textContent" % DOMAIN
        assert is_so(lambda: followed.browser.run(text) == "OFF" and followed.has())
