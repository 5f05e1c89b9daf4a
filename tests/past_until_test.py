"""The past of the page until an earlier end, and of very many entries: what is loaded, and when.

The page runs in headless Chromium over a made-up history (tests/nights.py). What is expected is written by hand.
"""

import threading
import time

import pytest

import browsers
import page_server
from nights import BANDS, LISTED, MINUTE, NOW, WORDS, day, ten_days
from running import at_last

pytestmark = pytest.mark.skipif(not browsers.program(), reason="there is no browser (Debian's chromium)")
# How soon the first view of 100,000 entries has to be there, in milliseconds: half a second, and more on a machine that
# others use.
MANY, SOON = 100_000, 2_000
# What is listed of the eight hours until six o'clock of 20 November.
OLD_WORDS = ["2026-11-20 05:00:00 TRK is ERROR", "2026-11-19 23:00:00 TRK is READY"]
# How these eight hours are asked for: from the midnight before ten in the evening, and until six.
OLD_FROM, OLD_TO = "from=1795046400", "to=1795154400"


def test_until(night, subtests, monkeypatch):
    """The past until an earlier end is loaded by itself, is never said to be now, and stays until now is chosen."""
    browser, screen = night.browser, night.screen
    screen.past = ten_days(night.names)
    night.open()
    with subtests.test("at first the end is now"):
        assert [browser.run("by('past-until-now').getAttribute('aria-pressed')"), night.text("past-old")] == ["true", ""]
    monkeypatch.setattr(page_server, "LOOKED_AT", 2)
    night.until("2026-11-20T06:00")
    asked = [it for it in screen.asked if OLD_FROM in it or OLD_TO in it]
    with subtests.test("what is asked: from a midnight, then after what was looked at, until there is more than the end"):
        assert asked == [OLD_FROM + "&" + OLD_TO, "after=3&" + OLD_TO, "after=5&" + OLD_TO]
    with subtests.test("what is said of it"):
        assert [night.text(it) for it in ("past-old", "past-said", "past-shown")] == [
            "the 8 hours until 2026-11-20 06:00, not until now", "", "the page shows now"]
        assert browser.run("[document.querySelector('#time-line ol').getAttribute('aria-label'),"
                           " by('past-until-now').getAttribute('aria-pressed')]") == [
                               "time line of all until 2026-11-20 06:00:00", "false"]
    with subtests.test("the entries of these hours, with their days, and none beyond the end"):
        assert browser.run(LISTED) == OLD_WORDS
        assert browser.run("pastBook.list.map((it) => it.number)") == [2, 3, 4, 5, 6]
    with subtests.test("the bands of these hours"):
        assert browser.run(BANDS % "TRK") == [
            ["band", "OFF", "0%", "12.5%", "OFF from 2026-11-19 22:00:00 to 2026-11-19 23:00:00"],
            ["band", "READY", "12.5%", "75%", "READY from 2026-11-19 23:00:00 to 2026-11-20 05:00:00"],
            ["band", "ERROR", "87.5%", "12.5%", "ERROR from 2026-11-20 05:00:00 to 2026-11-20 06:00:00"],
            ["trip", "", "87.5%", "", "2026-11-20 05:00:00 TRK is ERROR"]]
    with subtests.test("the page shows now"):
        assert [night.state("TRK"), night.text("as-of-words")] == ["READY", ""]
    night.types("past-slider", "500")
    with subtests.test("a time in the middle"):
        assert [night.state("CAL"), night.state("TRK"), night.text("as-of-words"), night.text("past-shown")] == [
            "READY", "READY", "AS OF 2026-11-20 02:00:00, not now", "as of 2026-11-20 02:00:00"]
    night.types("past-slider", "1000")
    with subtests.test("the right edge is the end, and not now"):
        assert [night.state("TRK"), night.text("as-of-words")] == ["ERROR", "AS OF 2026-11-20 06:00:00, not now"]
    seen = []
    for button in ("past-before", "past-before", "past-after", "past-after"):
        night.click(button)
        seen.append(night.text("past-shown"))
    with subtests.test("steps"):
        assert seen == ["as of 2026-11-20 05:00:00", "as of 2026-11-19 23:00:00", "as of 2026-11-20 05:00:00",
                        "as of 2026-11-20 06:00:00"]
    night.click("back-to-now")
    with subtests.test("back to now shows the page as it is, and the past as it was"):
        assert [night.state("TRK"), night.text("as-of-words"), night.text("past-old"), browser.run(LISTED)] == [
            "READY", "", "the 8 hours until 2026-11-20 06:00, not until now", OLD_WORDS]
    screen.past = [*screen.past, (NOW, "board TRK 1.9 OFF")]
    time.sleep(2.5)
    with subtests.test("nothing newer is asked for"):
        assert screen.asked[-1] == asked[-1] and browser.run(LISTED) == OLD_WORDS
    monkeypatch.setattr(page_server, "LOOKED_AT", 10_000)
    screen.asked.clear()
    night.click("past-until-now")
    with subtests.test("now again"):
        newest = at_last(lambda: browser.run(LISTED)[:2], ["06:00:00 TRK is OFF", WORDS[0]], 5)
        assert newest == ["06:00:00 TRK is OFF", WORDS[0]]
        assert [screen.asked[0], night.text("past-old"), browser.run("by('past-until').value")] == ["", "", ""]
    with subtests.test("no faults"):
        assert browser.errors == []


def test_until_longer(night, subtests):
    """A longer time that has ended is asked for again, and a shorter one is there."""
    browser, screen = night.browser, night.screen
    screen.past = ten_days(night.names)
    night.open()
    night.until("2026-11-25T06:00")
    with subtests.test("eight hours"):
        assert browser.run(LISTED) == ["2026-11-25 05:30:00 TRK is STANDBY"]
    night.types("past-slider", "990")
    night.types("past-span", "168")
    with subtests.test("what was looked at is left, since its entries are forgotten"):
        assert [browser.run("isPast"), browser.waits_for("isWhole", 5) is not None] == [False, True]
    week = ["2026-11-25 05:30:00 TRK is STANDBY", "2026-11-20 06:01:00 TRK is OFF", "2026-11-20 06:00:00 TRK is READY",
            *OLD_WORDS, "2026-11-18 12:00:00 TRK is OFF"]
    with subtests.test("seven days"):
        assert [browser.run(LISTED), night.text("past-old")] == [
            week, "the 7 days until 2026-11-25 06:00, not until now"]
        # 24 November and 18 November, each at 0:00, until 25 November at 6:00
        assert [it for it in screen.asked if "to=" in it] == ["from=1795478400&to=1795586400",
                                                              "from=1794960000&to=1795586400"]
    screen.asked.clear()
    night.types("past-span", "1")
    with subtests.test("an hour of it is there"):
        assert [browser.run(LISTED), night.text("past-old"), screen.asked] == [
            week[:1], "the hour until 2026-11-25 06:00, not until now", []]
    night.types("past-span", "168")
    with subtests.test("and seven days still are"):
        assert [browser.run(LISTED), browser.run("isWhole"), screen.asked] == [week, True, []]


def test_kept_later(night, subtests):
    """Somebody is told since when entries are kept, if that is later than what was chosen begins."""
    browser = night.browser
    night.screen.past = ten_days(night.names)
    night.open()
    with subtests.test("all that was chosen is kept"):
        assert night.text("past-said") == ""
    night.until("2026-11-18T18:00")
    with subtests.test("part of it"):
        assert [night.text("past-said"), browser.run(BANDS % "TRK")] == ["kept since 2026-11-18 12:00", [
            ["band", "OFF", "0%", "100%", "OFF from 2026-11-18 12:00:00 to 2026-11-18 18:00:00"]]]
    night.until("2026-11-10T06:00")
    with subtests.test("nothing of it"):
        assert [night.text("past-said"), night.text("past-more"), browser.run(LISTED)] == [
            "kept since 2026-11-18 12:00", "no entries", []]
    night.screen.past = []
    night.load()
    night.click("past-open")
    with subtests.test("nothing at all"):
        assert at_last(lambda: night.text("past-more"), "no entries", 5) == "no entries"
        assert night.text("past-said") == ""


def test_late_answer(night, subtests):
    """An answer that comes after another end was chosen is of no use, and holds nothing up."""
    browser, screen, goes = night.browser, night.screen, threading.Event()
    screen.past = ten_days(night.names)
    night.open()
    screen.wait = lambda query: OLD_FROM in query and goes.wait(20)
    night.types("past-until", "2026-11-20T06:00")
    try:
        assert browser.waits_for("by('past-old').textContent.includes('2026-11-20')", 5) is not None
        with subtests.test("it is said that nothing is there yet"):
            assert [night.text("past-said"), night.text("past-more"), browser.run(LISTED)] == [
                "entries are on their way", "", []]
        with subtests.test("no state is drawn of which nothing is known"):
            assert browser.run(BANDS % "TRK") == []
        night.until("2026-11-25T06:00")
        wanted = ["2026-11-25 05:30:00 TRK is STANDBY"]
        with subtests.test("the other one is there at once"):
            assert browser.run(LISTED) == wanted
    finally:
        goes.set()
    time.sleep(1.5)
    with subtests.test("and the late one is not"):
        assert [browser.run(LISTED), browser.run("pastBook.list.map((it) => it.number)")] == [wanted, [9]]
    with subtests.test("no faults"):
        assert browser.errors == []


def test_until_coming(night, subtests):
    """While the entries of an earlier time come, nothing is drawn after the last one that is there."""
    browser, screen, goes = night.browser, night.screen, threading.Event()
    screen.past = ten_days(night.names)[:4] + [(day("2026-11-20 01:00") + it, "board CAL 1.%d READY" % (2 + it))
                                               for it in range(10_000)] + [(day("2026-11-20 05:00"), "board TRK 1.3 OFF")]
    night.click("past-open")
    screen.wait = lambda query: query.startswith("after=") and OLD_TO in query and goes.wait(20)
    night.types("past-until", "2026-11-20T06:00")
    try:
        assert browser.waits_for("pastBook.list.length === 10000 && upto === 10001", 10) is not None
        with subtests.test("up to the last one"):
            assert at_last(lambda: browser.run(BANDS % "TRK"), None)[1:] == [
                ["band", "READY", "12.5%", "25.035%", "READY from 2026-11-19 23:00:00 to 2026-11-20 01:00:09"]]
        night.browser.run("lookAt(placeOf(%d))" % day("2026-11-20 05:30"))
        with subtests.test("a time that is not there yet is as the last one"):
            assert night.state("TRK") == "READY"
    finally:
        goes.set()
    assert browser.waits_for("isWhole", 10) is not None
    with subtests.test("and is right once it is there"):
        assert [night.state("TRK"), night.text("as-of-words")] == ["OFF", "AS OF 2026-11-20 05:30:00, not now"]


def test_older_screen(night, subtests):
    """An older screen does not begin by a time, and notes nothing at midnight: all that it keeps is loaded."""
    browser, screen = night.browser, night.screen
    screen.is_old, screen.past = True, ten_days(night.names)
    screen.past[1:1] = [(day("2026-11-18 13:00") + it, "board CAL 1.%d READY" % it) for it in range(10_000)]
    night.open()
    with subtests.test("all is there"):
        assert browser.run("pastBook.list.length") == len(screen.past)
    night.until("2026-11-20T06:00")
    with subtests.test("what is asked"):
        assert [it for it in screen.asked if "to=" in it] == [
            OLD_FROM + "&" + OLD_TO, "after=0&" + OLD_TO, "after=10000&" + OLD_TO]
    with subtests.test("the same entries"):
        assert browser.run(LISTED) == OLD_WORDS
    night.until("2026-11-18T18:00")
    with subtests.test("since when it is kept, by its entries"):
        assert night.text("past-said") == "kept since 2026-11-18 12:00"


def test_strange_end(night, subtests):
    """An end that is still to come, or a part of a date, changes nothing."""
    browser = night.browser
    night.screen.past = ten_days(night.names)
    night.open()
    look = "[by('past-until').classList.contains('strange'), by('past-until').getAttribute('aria-invalid')]"
    night.types("past-until", "2026-12-01T06:00")
    with subtests.test("tomorrow"):
        assert at_last(lambda: browser.run(look), [True, "true"], 5) == [True, "true"]
        assert [night.text("past-old"), browser.run(LISTED)[0]] == ["", WORDS[0]]
    night.until("2026-11-20T06:00")
    with subtests.test("a time that has been"):
        assert browser.run(look) == [False, "false"]
    night.types("past-until", "")
    with subtests.test("an empty field is now"):
        assert at_last(lambda: night.text("past-old"), "", 5) == ""
        assert at_last(lambda: browser.run(LISTED)[:1], WORDS[:1], 5) == WORDS[:1]


def test_kept(night, subtests, monkeypatch):
    """All entries are loaded that are kept, each once, and those that come meanwhile."""
    monkeypatch.setattr(page_server, "KEPT", 25_500)
    texts = [(NOW - 60_000 + it, "board TRK 1.%d READY" % it) for it in range(40_000)]
    night.screen.past = texts[:-3]
    night.click("past-open")
    assert night.browser.waits_for("pastBook.list.length", 10) is not None
    night.screen.past = texts
    numbers = "[pastBook.list[0].number, pastBook.list.length, pastBook.list.every((it, at) => it.number === at + %d)]"
    # three of those that were kept at first are not any more, and may be loaded by then
    assert night.browser.waits_for("isWhole && upto === 40000", 20) is not None
    with subtests.test("no gap, and none twice"):
        first, count, is_whole = night.browser.run(numbers % night.browser.run("pastBook.list[0].number"))
        assert [first + count, is_whole] == [40_001, True] and first in (14_498, 14_501)
    night.screen.past = texts + [(NOW + it, "board TRK 2.%d READY" % it) for it in range(30_000)]
    with subtests.test("with a gap it begins again"):
        assert night.browser.waits_for("isWhole && upto === 70000", 20) is not None
        assert night.browser.run(numbers % 44_501) == [44_501, 25_500, True]


def test_keyboard_until(night, subtests):
    """The keyboard alone chooses an end, looks at a time of then, and leads back."""
    browser, here = night.browser, "document.activeElement.id"
    night.screen.past = ten_days(night.names)
    browser.key("h")
    assert browser.waits_for("isWhole && pastBook.list.length", 5) is not None
    for name in ["Tab", "Tab", *"11202026", *"0600A"]:
        browser.key(name)
    with subtests.test("a date is typed"):
        assert [browser.run(here), browser.run("by('past-until').value")] == ["past-until", "2026-11-20T06:00"]
    words = "the 8 hours until 2026-11-20 06:00, not until now"
    with subtests.test("and taken once it is complete"):
        assert at_last(lambda: night.text("past-old"), words, 5) == words
        assert at_last(lambda: browser.run(LISTED), OLD_WORDS, 5) == OLD_WORDS
        assert browser.run(here) == "past-until"
    with subtests.test("no key of the page is in a date"):
        assert browser.run("[by('past').hidden, document.activeElement.id]") == [False, "past-until"]
    for _ in range(8):
        browser.key("Tab")
        if browser.run(here) == "past-until-now":
            break
    browser.key("Enter")
    with subtests.test("a button leads to now"):
        assert at_last(lambda: browser.run(LISTED)[:1], WORDS[:1], 5) == WORDS[:1]
        assert [night.text("past-old"), browser.run(here)] == ["", "past-until-now"]


# A million entries of ten days, and from which of them a midnight is: 125,000 are of the last 30 hours, and 725,000 of
# the last 174.
MILLION, MILLION_STEP = 1_000_000, 864


@pytest.mark.alone
def test_million(night, subtests):
    """Of a million entries only those are loaded that the chosen time needs."""
    browser, screen, names = night.browser, night.screen, night.names
    screen.past = [(NOW - (MILLION - it) * MILLION_STEP, "board %s 1.%d %s" % (
        names[it % len(names)], it, ("READY", "RUNNING")[it // len(names) % 2])) for it in range(MILLION)]
    screen.asked.clear()
    night.click("past-open")
    newer = "after=%d" % MILLION

    def earlier():
        return [it for it in screen.asked if it != newer]

    def pieces(first, last):
        return ["after=%d" % it for it in range(first, last - 1, -10_000)]

    with subtests.test("eight hours: from the midnight before ten in the evening"):
        assert browser.waits_for("isWhole", 30) is not None
        assert earlier() == ["", *pieces(980_000, 870_000)]
    night.types("past-span", "24")
    time.sleep(1.5)
    with subtests.test("a day begins after the same midnight"):
        assert len(earlier()) == 13 and night.text("past-said") == ""
    screen.asked.clear()
    night.types("past-span", "168")
    with subtests.test("it is said that there will be more"):
        assert night.text("past-said") == "earlier entries are on their way"
    took = browser.waits_for("isWhole", 120)
    with subtests.test("seven days"):
        assert took is not None and earlier() == pieces(860_000, 270_000)
    redraw = browser.run("{ const begun = performance.now(); drawPast(); performance.now() - begun; }")
    heap = browser.run("performance.memory ? Math.round(performance.memory.usedJSHeapSize / 1048576) : -1")
    print("seven days of 725,000 entries after %.1f s, drawn in %d ms, %d MiB" % (took or -1, redraw, heap))
    with subtests.test("drawing again"):
        assert redraw < SOON


@pytest.mark.alone
def test_many(night, subtests):
    """Of very many entries the newest are seen soon, and the others come after them."""
    step = 24 * 60 * MINUTE // MANY
    states = ["READY", "RUNNING", "ERROR"]
    names = night.names
    night.screen.past = [(NOW - (MANY - it) * step, "board %s 1.%d %s" % (
        names[it % len(names)], it, states[it // len(names) % len(states)])) for it in range(MANY)]
    first = night.browser.run("""(async () => {
      const begun = performance.now();
      document.getElementById("past-open").click();
      while (!document.querySelectorAll("#past-list li").length) await new Promise((go) => setTimeout(go, 2));
      return performance.now() - begun; })()""")
    with subtests.test("the newest"):
        assert first < SOON
    whole = night.browser.waits_for("isWhole && pastBook.list.length === %d" % MANY, 30)
    print("first view after %d ms, all after %.1f s" % (first, whole or -1))
    with subtests.test("all"):
        assert whole is not None
    with subtests.test("at most 500 are listed"):
        assert night.browser.waits_for("document.querySelectorAll('#past-list li').length === 500", 5) is not None
        assert night.text("past-more") == "%d more" % (MANY // 3 - 500)
    redraw = night.browser.run("{ const begun = performance.now(); drawPast(); performance.now() - begun; }")
    print("all is drawn again in %d ms" % redraw)
    with subtests.test("drawing again"):
        assert redraw < SOON
