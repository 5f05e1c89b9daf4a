"""The past of the page: the time line, the entries in plain words, the page as of an earlier time, and the summary.

The page runs in headless Chromium over a made-up history (tests/nights.py). What is expected is written by hand.
"""

import json
import os
import shutil

import pytest

import browsers
import page
import running
from browser import LEADER, TOP, Hand
from nights import BANDS, DAY, LISTED, MINUTE, NOW, UP, WORDS, at
from running import at_last

pytestmark = pytest.mark.skipif(not browsers.program(), reason="there is no browser (Debian's chromium)")
NODE = shutil.which("node")


def midnight(names):
    """Returns what a screen notes at the first look of a day: each state and record, and a station that is silent."""
    begun = {"TRK": ("23:30", "1.2 RUNNING"), "PIXEL_HV7": ("20:15", "1.9 ERROR")}
    told = ["since %d board %s %s" % (at(since), name, state) for name, (since, state) in (
        (name, begun.get(name, ("21:00", "1.1 READY"))) for name in names)]
    told += ["since %d record TRK operator TRK_EXPERT 2 7 settled 6" % at("20:30"),
             "since %d record MUO operator SHIFT_LEADER 1 3 settled 0" % at("20:40"), "silent MUO"]
    return [(at("00:00"), text) for text in told]


SUMMARY = """tree 2026, all, 2026-11-29 22:00:00 to 2026-11-30 06:00:00, local time

Who held what
EXPERIMENT
  the start to the end  SHIFT_LEADER
TRK
  the start to 02:00:00  domain EXPERIMENT
  02:05:00 to the end  TRK_EXPERT
held once, by the domain above: 1

Orders of this screen
SHIFT_LEADER
  2026-11-29 23:10:00  do TRK START: ended with 6: a child on the way is not held or is manual
  04:00:00  do MUO START: withdrawn
TRK_EXPERT
  02:59:00  do TRK START: ended with 0: done

Commands that ended with a code other than 0
  2026-11-29 23:11:00  command 4 of TRK ended with 6

Alarms
  PIXEL_HV7 ERROR: 2 times, 0:06:30 in all

Silent stations
  MUON  00:26:00 to 00:46:00  0:20:00
"""


def test_entries(night, subtests):
    """The entries are listed in plain words, newest first, and a search leaves those that have its words."""
    night.open()
    listed = night.browser.run(LISTED)
    with subtests.test("words"):
        assert listed[:len(WORDS)] == WORDS
    with subtests.test("those of eight hours alone"):
        assert len(listed) == len(night.screen.past) - len(night.names) - 3
    with subtests.test("times"):
        assert night.browser.run("document.querySelector('#past-list time').dateTime") == "2026-11-30T05:00:30.000Z"
    night.types("past-search", "ended TRK")
    with subtests.test("a search"):
        assert night.browser.run(LISTED) == [it for it in WORDS if "ended" in it and "TRK" in it]
    night.types("past-search", "no such word")
    with subtests.test("nothing is found"):
        assert [night.browser.run(LISTED), night.text("past-more")] == [[], "no entries"]
    night.types("past-search", "")
    night.types("past-span", "1")
    with subtests.test("the last hour"):
        assert night.browser.run(LISTED) == WORDS[:2]
    night.types("past-span", "168")
    with subtests.test("seven days"):
        assert len(night.browser.run(LISTED)) == min(500, len(night.screen.past))
    with subtests.test("no faults"):
        assert night.browser.errors == []


def test_line(night, subtests):
    """A row has bands of states, silences and marks, and its name leads a level down."""
    night.open()
    names = "[...document.querySelectorAll('#time-line .row-name')].map((b) => b.textContent)"
    children = [it["name"] for it in night.screen.tree["domains"] if it["parent"] == TOP]
    with subtests.test("the root, and what is below it"):
        assert night.browser.run(names)[:len(children) + 1] == [TOP, *children]
    with subtests.test("bands and marks"):
        assert night.browser.run(BANDS % "TRK") == [
            ["band", "READY", "0%", "6.25%", "READY from 2026-11-29 22:00:00 to 2026-11-29 22:30:00"],
            ["band", "ERROR", "6.25%", "1.25%", "ERROR from 2026-11-29 22:30:00 to 2026-11-29 22:36:00"],
            ["band", "READY", "7.5%", "55%", "READY from 2026-11-29 22:36:00 to 03:00:00"],
            ["band", "RUNNING", "62.5%", "37.5%", "RUNNING from 03:00:00 to 06:00:00"],
            ["run", "", "62.5%", "", "03:00:00 command 1 of TRK ended with 0"],
            ["fault", "", "14.792%", "", "23:11:00 command 4 of TRK ended with 6"],
            ["grant", "", "50%", "", "02:00:00 TRK is free"],
            ["grant", "", "51.042%", "", "02:05:00 TRK held by TRK_EXPERT"],
            ["trip", "", "6.25%", "", "22:30:00 TRK is ERROR"],
            ["order", "", "14.583%", "", "23:10:00 SHIFT_LEADER ordered do TRK START"],
            ["order", "", "62.292%", "", "02:59:00 TRK_EXPERT ordered do TRK START"]]
    with subtests.test("a silence"):
        assert night.browser.run(BANDS % "MUO")[1] == [
            "hush", "", "30.417%", "4.167%", "station MUON silent from 00:26:00 to 00:46:00"]
    with subtests.test("the colour of a state"):
        assert night.browser.run("getComputedStyle(document.querySelector('.band[data-state=ERROR]')).backgroundColor"
                                 ) == "rgb(187, 28, 28)"
    with subtests.test("it is read out"):
        assert night.browser.run("document.querySelector(\"[data-key='track MUO']\").getAttribute('aria-label')") == (
            "MUO: READY from 2026-11-29 22:00:00 to 06:00:00")
    night.browser.run("document.querySelector(\"[data-key='row TRK']\").click()")
    below = [it["name"] for it in night.screen.tree["domains"] if it["parent"] == "TRK"]
    with subtests.test("a level down"):
        assert night.browser.run(names) == ["up to " + TOP, "TRK", *below]
    with subtests.test("the list is of what is chosen"):
        listed = night.browser.run(LISTED)
        assert [it for it in listed if "MUO" in it] == [] and WORDS[0] in listed and WORDS[6] in listed
    night.types("past-of", "trk_expert")
    with subtests.test("an operator"):
        assert [night.browser.run(names), night.browser.run(LISTED)] == [
            ["up to all", "TRK"], [WORDS[6], WORDS[7], WORDS[9], WORDS[10]]]


def test_runs(night, subtests):
    """A command that ended with 0 has a mark of its own shape, which hides no other one."""
    night.screen.past = [(at("22:00"), "board TRK 1.1 READY"),
                         (at("22:00"), "record TRK operator TRK_EXPERT 2 1 settled 0"),
                         *((at("23:00") + 10 * it, "record TRK operator TRK_EXPERT 2 %d %s" % (2 + it // 2, how))
                           for it, how in enumerate(["busy 0", "settled 0"] * 40)),
                         (at("23:00:01"), "record TRK operator TRK_EXPERT 2 42 busy 0"),
                         (at("23:00:02"), "record TRK operator TRK_EXPERT 2 42 settled 6"),
                         (at("04:00"), "record TRK operator TRK_EXPERT 2 43 busy 0"),
                         (at("04:30"), "record TRK operator TRK_EXPERT 2 43 settled 0")]
    night.open()
    marks = [it for it in night.browser.run(BANDS % "TRK") if it[0] not in ("band", "hush")]
    with subtests.test("forty runs of a second are one mark, before the fault; what is at work has none"):
        assert marks == [["run", "", "12.5%", "", "23:00:00 command 2 of TRK ended with 0"],
                         ["run", "", "81.25%", "", "04:30:00 command 43 of TRK ended with 0"],
                         ["fault", "", "12.507%", "", "23:00:02 command 42 of TRK ended with 6"]]
    shapes = """[...document.querySelectorAll("#past-signs .mark")].map((e) => [e.className.split(" ").pop(),
      getComputedStyle(e, "::before").content, e.nextSibling.textContent.replace(/\\s+/g, " ").trim()])"""
    legend = [["grant", '"\u25c6"', "another holder"], ["run", '"\u2713"', "a command that ended with 0"],
              ["fault", '"\u2715"', "one that did not"], ["trip", '"!"', "an alarm begins"],
              ["order", '"\u25b8"', "an order of this screen. Hatched: the station is silent. A name: what is below it."]]
    with subtests.test("five shapes, each named"):
        assert night.browser.run(shapes) == legend
    weights = """["run", "fault"].map((kind) => {
      const is = getComputedStyle(document.querySelector(".track .mark." + kind));
      return [is.fontWeight, is.fontSize]; })"""
    with subtests.test("a run is lighter than a fault"):
        assert night.browser.run(weights) == [["400", "11.2px"], ["900", "12.8px"]]
    night.browser.forced_colors(True)
    inks = night.browser.run("""[...document.querySelectorAll(".track .mark")].map((e) => {
      const is = getComputedStyle(e); return [is.color, is.textShadow === "none"]; })""")
    night.browser.forced_colors(False)
    with subtests.test("on the colour of a state they keep their edge if the system chooses colours"):
        assert inks == [["rgb(0, 0, 0)", False]] * 3


def test_as_of(night, subtests):
    """The whole page shows an earlier time until somebody goes back, and nothing of that is an event."""
    browser, screen = night.browser, night.screen
    before = browser.run("log.map((it) => it.text)")
    night.open()
    night.look("2026-11-29 22:30:00 EXPERIMENT is ERROR")
    with subtests.test("boxes"):
        assert [night.state(it) for it in (*UP, "MUO")] == ["ERROR"] * 4 + ["READY"]
    with subtests.test("who commands"):
        assert browser.run("[commander(domains.get('TRK')), commander(domains.get('CAL'))]") == [LEADER, None]
    with subtests.test("alarms"):
        assert browser.run("[...document.querySelectorAll('#alarms [data-key=\"device PIXEL_HV7\"] > *')]"
                           ".map((e) => e.textContent)")[:2] == ["22:30:00", "PIXEL_HV7 ERROR"]
    with subtests.test("nothing of it can be shelved"):
        assert browser.run("document.querySelectorAll('#alarms .small, #shelf-time').length") == 0
    with subtests.test("the banner"):
        assert night.text("as-of-words") == "AS OF 2026-11-29 22:30:00, not now"
    with subtests.test("the title"):
        assert at_last(lambda: browser.run("document.title"), "as of 22:30:00") == "as of 22:30:00"
    with subtests.test("the slider"):
        assert browser.run("[by('past-slider').value, by('past-slider').getAttribute('aria-valuetext')]") == [
            "63", "as of 2026-11-29 22:30:00"]
    night.look("2026-11-29 22:31:00 SHIFT_LEADER acknowledged device PIXEL_HV7")
    with subtests.test("who had acknowledged"):
        assert browser.run("document.querySelector('#alarms [data-key=\"device PIXEL_HV7\"] i').textContent") == (
            "acknowledged by " + LEADER)
    screen.show({"EM_HV1": "ERROR"})
    with subtests.test("what is in alarm now is told"):
        assert at_last(lambda: night.text("as-of-now"), "now in alarm: EM_HV1") == "now in alarm: EM_HV1"
    with subtests.test("and is not shown, nor has a tone"):
        assert browser.run("[stateOf(devices.get('EM_HV1')), window.tones]") == ["READY", 0]
    night.look("00:26:00 station of MUO is silent")
    with subtests.test("a silent station"):
        assert browser.run("[domains.get('MUO').silence > 0, domains.get('TRK').silence]") == [True, None]
    night.click("back-to-now")
    with subtests.test("back"):
        assert [night.state("TRK"), browser.run("stateOf(devices.get('EM_HV1'))"), night.text("as-of-words")] == [
            "READY", "ERROR", ""]
    with subtests.test("the new alarm has its tone now"):
        assert browser.waits_for("window.tones === 1", 5) is not None
    with subtests.test("the title is as before"):
        assert at_last(lambda: browser.run("document.title"), "(1) tree 2026") == "(1) tree 2026"
    with subtests.test("the log has what came, and nothing of the past"):
        after = browser.run("log.map((it) => it.text)")
        assert [it for it in after if it not in before] == ["EM_HV1 ERROR"]
    with subtests.test("no faults"):
        assert browser.errors == []


def test_since(night, subtests):
    """What the screen notes at midnight says what was so then, and is news nowhere."""
    browser = night.browser
    night.screen.past = [(at("22:00"), "board CAL 1.1 READY"), (at("23:30"), "board TRK 1.2 RUNNING"),
                         (at("23:50"), "silent MUO"), *midnight(night.names), (at("00:20"), "heard MUO"),
                         (at("01:00"), "board TRK 1.3 READY")]
    night.open()
    listed = ["01:00:00 TRK is READY", "00:20:00 station of MUO is heard again",
              "2026-11-29 23:50:00 station of MUO is silent", "2026-11-29 23:30:00 TRK is RUNNING",
              "2026-11-29 22:00:00 CAL is READY"]
    with subtests.test("not in the list"):
        assert [browser.run(LISTED), night.text("past-more")] == [listed, ""]
    night.types("past-search", "is")
    with subtests.test("not found"):
        assert browser.run(LISTED) == listed
    night.types("past-search", "")
    with subtests.test("no mark, and the states go on"):
        assert browser.run(BANDS % "TRK") == [
            ["unseen", "", "0%", "18.75%", "not seen from 2026-11-29 22:00:00 to 2026-11-29 23:30:00"],
            ["band", "RUNNING", "18.75%", "18.75%", "RUNNING from 2026-11-29 23:30:00 to 01:00:00"],
            ["band", "READY", "37.5%", "62.5%", "READY from 01:00:00 to 06:00:00"]]
    with subtests.test("one silence, and a state that begins with what was noted"):
        assert browser.run(BANDS % "MUO") == [
            ["unseen", "", "0%", "25%", "not seen from 2026-11-29 22:00:00 to 00:00:00"],
            ["band", "READY", "25%", "75%", "READY from 00:00:00 to 06:00:00"],
            ["hush", "", "22.917%", "6.25%", "station MUON silent from 2026-11-29 23:50:00 to 00:20:00"]]
    browser.run("by('summary').open = true")
    lines = ["MUON  2026-11-29 23:50:00 to 00:20:00  0:30:00"]
    with subtests.test("no command that failed, and one silence"):
        text = at_last(lambda: night.text("summary-text"), "")
        assert text.split("code other than 0\n")[1].split("\n")[0] == "  none"
        assert [it.strip() for it in text.split("Silent stations\n")[1].splitlines()] == lines
    seen = []
    for button in ("past-before",) * 5 + ("past-after",) * 3:
        night.click(button)
        seen.append(night.text("past-shown"))
    before = ["as of 01:00:00", "as of 00:20:00", "as of 2026-11-29 23:50:00", "as of 2026-11-29 23:30:00",
              "as of 2026-11-29 22:00:00"]
    with subtests.test("no step"):
        assert seen == before + before[3:0:-1]
    browser.run("lookAt(placeOf(%d))" % (at("00:00") + 1000))
    with subtests.test("a second after midnight"):
        assert [night.state(it) for it in ("TRK", "MUO", "CAL")] == ["RUNNING", "READY", "READY"]
    with subtests.test("the entry before it is marked in the list"):
        assert browser.run("[...document.querySelectorAll('#past-list .here')].map((e) => e.textContent)") == [listed[2]]
    with subtests.test("an alarm since before midnight"):
        assert browser.run("[...document.querySelectorAll('#alarms [data-key=\"device PIXEL_HV7\"] > *')]"
                           ".map((e) => e.textContent)")[:2] == ["20:15:00", "PIXEL_HV7 ERROR"]
    with subtests.test("silent for a quarter of an hour, not for a second"):
        # the first notice came once the station had been silent for as long as it may be
        assert browser.run("domains.get('MUO').silence - MOST_SILENCE") == 10 * MINUTE + 1001
    browser.run("document.querySelector('#main [data-domain=TRK]').click()")
    with subtests.test("seen for as long as it was so"):
        details = browser.run("document.getElementById('more').textContent")
        assert "RUNNING (1.2, seen for 30 min)" in details and "TRK_EXPERT" in details
    with subtests.test("the record is as old as it was"):
        assert browser.run("domains.get('TRK').told.since") == at("20:30")
    browser.run("document.getElementById('more').close()")
    night.screen.past = midnight(night.names)
    night.load()
    night.open()
    with subtests.test("a book that begins so has a silence that nobody knew of, and nothing else"):
        assert browser.run(LISTED) == ["00:00:00 station of MUO is silent"]
    with subtests.test("all of it was so"):
        assert browser.run(BANDS % "TRK") == [["band", "RUNNING", "0%", "100%", "RUNNING from 00:00:00 to 06:00:00"]]
    night.types("past-of", "PIXEL_HV")
    with subtests.test("an alarm that is known already does not begin"):
        assert browser.run(BANDS % "PIXEL_HV7") == [
            ["band", "ERROR", "0%", "100%", "ERROR from 00:00:00 to 06:00:00"]]
    with subtests.test("no faults"):
        assert browser.errors == []


def test_steps(night, subtests):
    """Buttons go from entry to entry, and after the last one is now."""
    night.open()
    seen = []
    for button in ("past-before", "past-before", "past-before", "past-after", "past-after", "past-after"):
        night.click(button)
        seen.append(night.text("past-shown"))
    with subtests.test("there and back"):
        assert seen == ["as of 05:00:30", "as of 05:00:00", "as of 04:01:00", "as of 05:00:00", "as of 05:00:30", "now"]
    night.types("past-span", "168")
    night.types("past-slider", "0")
    with subtests.test("an object without an entry was not seen"):
        night.browser.run("lookAt({ number: 1, at: pastBook.list[0].at })")
        assert [night.state(night.names[0]), night.state(night.names[1])] == ["READY", "NOT SEEN"]


def test_orders(night, subtests):
    """Nothing can be ordered of an earlier time."""
    hand = Hand(night.browser)
    assert night.browser.waits_for("hasConsole", 10) is not None
    night.open()
    hand.choose(LEADER)
    night.look("2026-11-29 22:30:00 PIXEL_HV7 is ERROR")
    assert hand.open(TOP)
    grey = ["true", "the page shows an earlier time: go back to now"]
    with subtests.test("grey, with the reason"):
        assert [hand.button(it) for it in ("START", "STOP", "drop")] == [grey] * 3
    night.browser.run("document.querySelector('[data-deed=STOP]').click()")
    with subtests.test("no question"):
        assert not night.browser.run("document.getElementById('question').open")
    hand.shut()
    night.click("back-to-now")
    assert hand.open(TOP)
    with subtests.test("and again now"):
        assert at_last(lambda: hand.button("STOP"), [None, ""], 1) != grey
        assert hand.button("STOP")[0] == "false"
    night.browser.run("document.getElementById('its-past').click()")
    with subtests.test("the details lead to the past of their domain"):
        assert at_last(lambda: night.browser.run("by('past-of').value"), TOP) == TOP


def test_summary(night, subtests):
    """The summary of a shift is a text, which is saved under the time of its end, and printed alone."""
    night.open()
    night.browser.run("by('summary').open = true")
    with subtests.test("the text"):
        assert at_last(lambda: night.text("summary-text"), SUMMARY) == SUMMARY
    night.browser.run("by('past').querySelectorAll('a').length; HTMLAnchorElement.prototype.click = function () {"
                      " window.savedAs = [this.download, this.href.slice(0, 5)]; }; by('summary-save').click()")
    with subtests.test("saved"):
        assert night.browser.run("window.savedAs") == ["shift-20261130-0600.txt", "blob:"]
    night.browser.call("Emulation.setEmulatedMedia", media="print")
    seen = night.browser.run("""[...document.querySelectorAll("body *")].filter((e) => e.getClientRects().length &&
      [...e.childNodes].some((it) => it.nodeType === 3 && it.textContent.trim())).map((e) => e.id || e.className)""")
    night.browser.call("Emulation.setEmulatedMedia", media="")
    with subtests.test("printed"):
        assert seen == ["summary-text"]


def test_again(night, subtests):
    """Nothing is lost when the page is loaded again, and a screen that begins again has another history."""
    night.open()
    listed = night.browser.run(LISTED)
    night.load()
    night.open()
    with subtests.test("loaded again"):
        assert night.browser.run(LISTED) == listed
    night.screen.past.append((at("05:30"), "board TRK 1.7 READY"))
    with subtests.test("what comes is added"):
        assert at_last(lambda: night.browser.run(LISTED)[0], "05:30:00 TRK is READY", 5) == "05:30:00 TRK is READY"
    night.screen.past = [(at("05:40"), "board TRK 2.1 OFF")]
    with subtests.test("begun again"):
        assert at_last(lambda: night.browser.run(LISTED), ["05:40:00 TRK is OFF"], 5) == ["05:40:00 TRK is OFF"]


def test_saved(night):
    """Somebody is told if the file of the history is not written any more."""
    night.screen.past = [(at("21:00"), "board TRK 1.0 OFF"),
                         *((at("05:00") + it, "board TRK 1.%d READY" % it) for it in range(1500))]
    night.screen.saved = 2
    night.open()
    assert night.browser.waits_for("unsavedSince > 0", 5) is not None and night.text("past-said") == ""
    night.browser.run("unsavedSince = performance.now() - 61000")
    assert at_last(lambda: night.text("past-said"), "not saved since 05:00", 5) == "not saved since 05:00"


def test_old_screen(night):
    """A screen that keeps no history is said to keep none."""
    night.screen.keeps_history = False
    night.click("past-open")
    assert at_last(lambda: night.text("past-said"), "this screen keeps no history", 5) == "this screen keeps no history"
    assert night.state(TOP) == "READY"


def test_keyboard(night, subtests):
    """The keyboard alone opens the past, goes back in time, and returns."""
    browser, here = night.browser, "document.activeElement.id"
    browser.key("h")
    with subtests.test("h opens it"):
        assert [browser.run(here), browser.run("by('past').hidden")] == ["past-name", False]
    assert browser.waits_for("isWhole && pastBook.list.length", 5) is not None
    passed = []
    for _ in range(20):
        browser.key("Tab")
        passed.append(browser.run(here))
        if passed[-1] == "past-slider":
            break
    with subtests.test("Tab leads to the slider, through the parts of a date"):
        assert [it for place, it in enumerate(passed) if it not in passed[:place]] == [
            "past-span", "past-until", "past-until-now", "past-of", "past-close", "past-before", "past-slider"]
    browser.key("ArrowLeft")
    with subtests.test("an arrow goes back"):
        # a thousandth of eight hours
        assert night.text("as-of-words") == "AS OF 05:59:31, not now"
        assert at_last(lambda: browser.run("document.title"), "as of 05:59:31") == "as of 05:59:31"
    browser.key("ArrowRight")
    with subtests.test("and to now"):
        assert browser.run("isPast") is False
    browser.key("ArrowLeft")
    browser.key("Escape")
    with subtests.test("Esc leads to now"):
        assert [browser.run("isPast"), browser.run("by('past').hidden")] == [False, False]
    browser.key("Escape")
    with subtests.test("and then closes it"):
        assert [browser.run(here), browser.run("by('past').hidden")] == ["past-open", True]


def test_telephone(night, subtests):
    """On a telephone all that is clicked is 44 pixels high, and nothing is wider than the display."""
    night.browser.size(390, 844, True)
    night.open()
    small = night.browser.run("""["button", "select", "summary", "input"].flatMap((it) =>
      [...document.querySelectorAll("#past " + it)]).filter((e) => e.getClientRects().length &&
      e.getBoundingClientRect().height < 44).map((e) => e.id || e.className)""")
    width = night.browser.run("document.documentElement.scrollWidth")
    night.browser.size(1920, 1080)
    with subtests.test("targets"):
        assert small == []
    with subtests.test("width"):
        assert width == 390


@pytest.mark.skipif(not NODE, reason="there is no node (Debian's nodejs)")
def test_functions(subtests):
    """What is worked out of entries without a page: short stretches as one, times of an axis, and faulty orders."""
    folder = "file://%s/past/" % page.PARTS_FOLDER

    def told(module, expression, **more):
        script = "import * as it from '%s%s'; console.log(JSON.stringify(%s));" % (folder, module, expression)
        done = running.run([NODE, "--input-type=module", "-e", script], env={**os.environ, **more})
        return json.loads(done[0]) if done[2] == 0 else done[1].decode()

    with subtests.test("short stretches are one, in alarm if any of them was"):
        made = told("stretches.mjs", """it.thinned(["READY", "ERROR", "READY", "READY2", "OFF"].map((value, at) =>
          ({ value, from: at, to: at < 4 ? at + 1 : 100, count: 1 })), 5)""")
        assert made == [{"value": "ERROR", "from": 0, "to": 4, "count": 4},
                        {"value": "OFF", "from": 4, "to": 100, "count": 1}]
    with subtests.test("a flapping object has a band for each part at most, twice"):
        assert told("stretches.mjs", """it.thinned(Array.from({ length: 100000 }, (_, at) =>
          ({ value: String(at % 2), from: at, to: at + 1, count: 1 })), 250).length""") <= 800
    with subtests.test("a station that was silent when the screen began again is heard by its records"):
        rows = [(5, "record A free 0 0 settled 0"), (10, "silent A"), (11, "silent B"),
                (50, "record B free 0 0 settled 0"), (51, "record A free 0 0 settled 0"), (70, "silent A"),
                (80, "heard A"), (81, "record A free 0 1 busy 0")]
        lines = ["{}"] + [json.dumps({"number": number, "at": when, "text": text})
                          for number, (when, text) in enumerate(rows, 1)]
        answer = json.dumps("\n".join([*lines, ""]))
        assert told("stretches.mjs", """await (async () => {
          const { readAnswer, bookOf } = await import("%sentries.mjs");
          (await import("%s../model.mjs")).plant({ devices: [], domains: ["A", "B"].map((name) =>
            ({ name, station: "S", parent: null })) });
          return it.silentTimes(bookOf(readAnswer(%s).list), "S", { from: 0, to: 100 })
            .map(({ from, to }) => [from, to]); })()""" % (folder, folder, answer)) == [[10, 50], [70, 80]]
    axis = "it.axisOf({ from: %d, to: %d }).map((one) => one.text)"
    with subtests.test("whole hours of local time"):
        assert told("times.mjs", axis % (NOW - 8 * 60 * MINUTE, NOW), TZ="Asia/Kolkata") == [
            "04:00", "05:00", "06:00", "07:00", "08:00", "09:00", "10:00", "11:00"]
    with subtests.test("days"):
        assert told("times.mjs", axis % (NOW - 3 * DAY, NOW), TZ="UTC") == [
            "12:00", "2026-11-28", "12:00", "2026-11-29", "12:00", "2026-11-30"]
    with subtests.test("an order of which it is not known how it was given, and words that nobody knows"):
        texts = ["ended 7 told ANN do TRK START 2", "ended 8 fault 5: no such name", "given 9 withdraw 7", "new words"]
        lines = ["{}"] + [json.dumps({"number": number, "at": 0, "text": text}) for number, text in enumerate(texts, 1)]
        answer = json.dumps("\n".join([*lines, ""]))
        assert told("saying.mjs", """await (async () => { const { readAnswer, bookOf } = await import("%sentries.mjs");
          const { list } = readAnswer(%s), book = bookOf(list);
          return list.map((one) => it.sayEntry(book, one)); })()""" % (folder, answer)) == [
              "order 7 ended with 2: the target is not below the domain", "order 8: fault 5: no such name",
              "withdrawal of order 7 was asked for", "new words"]
