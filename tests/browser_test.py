"""The page of the screen in a real browser: what it shows of a played shift, and how soon.

The stations of the example detector run as processes, with the screen, and headless Chromium looks at it (Debian's
package `chromium`). The crew's shift is played (tools/demo.py). What the page shows at a place is read from its
elements and compared with the trace of examples/shift.schedule up to there.
"""

import json
import os
import random
import re
import socket
import time

import pytest

import browsers
import demo
import nodes
import page_server
import screens
from browser import CONTRASTS, DOTS, GIVEN, LEADER, QUESTION, SHOWN, TOP, Hand, labels, shows, traced
from running import is_so

PLACE = "configured"
# Within how many seconds a trip has to be on top, a silent station to be shown so, and a lost server to be told; and
# how many more are given on a machine that others use.
TRIP, SILENT, LOST, SLACK = 1, 3, 2, 2
# How many milliseconds a picture may take on the page, of the largest tree.
FRAME = 100
# The most domains and devices that a tree has.
DOMAINS, DEVICES = 128, 512
# That a station is silent and nothing of it is under way any more: on a busy machine one that lives may be silent too.
DEAD = "domains.get('%s').silence > 5000"
CONNECTED = "document.getElementById('console').textContent === 'orders: connected'"


def check_shift(program, detector, browser, subtests):
    """A shift: what is shown is what the schedule's trace says."""
    names = detector.names
    with subtests.test("shift: the page joins"):
        assert browser.waits_for("document.getElementById('live').textContent === 'live'") is not None
    everywhere = "[...document.querySelectorAll('#main section')].every((box) => !box.classList.contains('silent'))"
    with subtests.test("shift: all stations are heard"):
        assert browser.waits_for(everywhere) is not None
    demo.play(detector, until=PLACE, tell=lambda text: None)
    states, holders = traced(program, PLACE)
    wanted = labels(names, states, holders)
    browser.waits_for("[...document.querySelectorAll('#main .root .state')][0].textContent === '%s'"
                      % states["EXPERIMENT"], 10)
    time.sleep(1.5)
    shown = browser.run(SHOWN)
    with subtests.test("shift: states"):
        assert {it["name"]: it["state"] for it in shown} == {name: states[name] for name in names.domains}
    differ = {it["name"]: it["label"] for it in shown if it["label"] != wanted[it["name"]]}
    with subtests.test("shift: who commands %s" % (differ or "")):
        assert not differ
    dots = sorted(browser.run(DOTS))
    with subtests.test("shift: devices"):
        assert dots == sorted("%s %s" % (name, states[name]) for name in names.devices)
    legend = browser.run("[...document.querySelectorAll('#states b')].map((b) => b.textContent)")
    with subtests.test("shift: the legend is the tree's"):
        assert legend[:-1] == names.states


def check_key(detector, browser, subtests):
    """The keyboard alone reaches all."""
    browser.run("document.activeElement.blur()")
    here, reached = "document.activeElement.dataset.domain || ''", []
    for _ in range(30):
        browser.key("Tab")
        reached.append(browser.run(here))
    with subtests.test("keys: Tab leads into the tree and out of it"):
        assert set(reached) == {"", TOP}
    browser.run("domains.get('%s').at.top.focus()" % TOP)
    reached = [TOP]
    for _ in detector.names.domains:
        browser.key("ArrowDown")
        reached.append(browser.run(here))
    with subtests.test("keys: arrows reach every domain, and the first one again"):
        assert sorted(reached[:-1]) == sorted(detector.names.domains) and reached[-1] == TOP
    browser.run("document.querySelector('[data-domain=TRK]').focus()")
    browser.key("ArrowDown")
    with subtests.test("keys: an arrow leads on"):
        assert browser.run("document.activeElement.dataset.domain") == "PIXEL"
    browser.key("Enter")
    with subtests.test("keys: Enter opens a domain"):
        assert browser.waits_for("document.getElementById('more').open", 5) is not None
    told = browser.run("document.getElementById('more').textContent")
    with subtests.test("keys: what it says"):
        assert all(text in told for text in ["PIXEL", "READY", "SHIFT_LEADER", "mode unknown", "TRACKER"])
    browser.key("Escape")
    back = "!document.getElementById('more').open && document.activeElement.dataset.domain === 'PIXEL'"
    with subtests.test("keys: Escape leads back"):
        assert browser.waits_for(back, 5) is not None
    before = browser.run("getComputedStyle(document.body).color")
    browser.key("t")
    with subtests.test("keys: t turns light and dark"):
        assert browser.run("getComputedStyle(document.body).color") != before
    browser.key("t")
    nameless = "[...document.querySelectorAll('button')].filter((b) => !(b.getAttribute('aria-label') || b.textContent)).length"
    with subtests.test("keys: each button has a name"):
        assert browser.run(nameless) == 0


def check_look(browser, subtests):
    """Dark and light, the contrast of all words, and a telephone."""
    browser.run("delete document.documentElement.dataset.theme")
    backs = []
    for scheme in ("dark", "light"):
        browser.scheme(scheme)
        time.sleep(0.7)
        backs.append(browser.run("getComputedStyle(document.documentElement).backgroundColor"))
        faint = browser.run(CONTRASTS)
        with subtests.test("looks: contrast in %s %s" % (scheme, faint or "")):
            assert faint == []
    with subtests.test("looks: the machine's own choice of dark and light"):
        assert backs[0] != backs[1]
    browser.size(390, 844, True)
    time.sleep(0.7)
    wide = browser.run("document.documentElement.scrollWidth")
    with subtests.test("looks: a telephone (%d wide)" % wide):
        assert wide <= 390
    browser.size(1920, 1080)


def check_order(detector, browser, subtests):
    """Orders from the page: greyed with a reason, one click and one confirmation, and then the node has it."""
    hand = Hand(browser)
    with subtests.test("orders: the console is there"):
        assert browser.waits_for(CONNECTED, 20) is not None
    with subtests.test("orders: a domain opens"):
        assert hand.open(TOP)
    with subtests.test("orders: nobody is chosen"):
        assert hand.button("START") == ["true", "choose who orders, at the top of the page"]
    with subtests.test("orders: nothing is asked for nobody"):
        assert hand.click("START") is None
    hand.choose(LEADER)
    with subtests.test("orders: greyed: held already"):
        assert hand.button("take") == ["true", "%s holds %s already" % (LEADER, TOP)]
    with subtests.test("orders: no mode of a root"):
        assert browser.run("document.querySelectorAll('[data-deed=exclude]').length") == 0
    with subtests.test("orders: a greyed one asks nothing"):
        assert hand.click("take") is None
    hand.open("TRK")
    with subtests.test("orders: greyed: held by what stands above"):
        assert hand.button("STOP") == ["true", "%s does not hold TRK: order at %s" % (LEADER, TOP)]
    with subtests.test("orders: not greyed"):
        assert hand.button("exclude") == ["false", "exclude TRK from %s?" % TOP]
    hand.open("INFRA")
    with subtests.test("orders: not greyed: what is free"):
        assert hand.button("take")[0] == "false"
    hand.open(TOP)
    asked = hand.click("START")
    with subtests.test("orders: it is asked"):
        assert asked == ["START at %s?" % TOP, ["yes, START", "cancel"]]
    hand.answer(1)
    time.sleep(1)
    with subtests.test("orders: cancelled, nothing is given"):
        assert browser.run(GIVEN) == []
    hand.click("START")
    hand.answer(0)
    with subtests.test("orders: one is given and ends"):
        assert hand.sees("%s do %s START" % (LEADER, TOP), "0: done")
    detector_runs = [detector.report(device, "RUNNING") for device in detector.names.devices]
    with subtests.test("orders: the node has obeyed"):
        assert all(detector_runs) and shows(browser, TOP, "RUNNING")
    check_order_key(browser, hand, subtests)
    check_silent(detector, browser, hand, subtests)
    hand.shut()


def check_order_key(browser, hand, subtests):
    """The keyboard gives orders too, and leads back."""
    hand.open(TOP)
    browser.run("document.querySelector('[data-deed=STOP]').focus()")
    browser.key("Enter")
    with subtests.test("orders: Enter asks"):
        assert browser.waits_for(QUESTION + ".open", 5) is not None
    browser.key("Escape")
    with subtests.test("orders: Escape says no"):
        assert browser.waits_for("!%s.open && document.getElementById('more').open" % QUESTION, 5) is not None
    with subtests.test("orders: and leads back"):
        assert browser.run("document.activeElement.dataset.deed") == "STOP"
    nameless = "[...document.querySelectorAll('#more button, select')].filter((b) => !(b.labels && b.labels.length)" \
        " && !b.textContent).length"
    with subtests.test("orders: each button has a name"):
        assert browser.run(nameless) == 0


def check_silent(detector, browser, hand, subtests):
    """Before a command a silent station is asked about, and can be left out."""
    detector.stop("MUON")
    silent = "document.querySelector('#main [data-domain=MUO]').closest('section').classList.contains('silent')"
    with subtests.test("silent: it is"):
        assert browser.waits_for(silent + " && " + DEAD % "MUO", 20) is not None
    hand.open(TOP)
    words, choices = hand.click("STOP")
    with subtests.test("silent: the question (%s)" % words):
        assert re.fullmatch(r"MUON has been silent for [0-9]+ s\. STOP will hold EXPERIMENT, and nobody will command "
                            r"TRK, CAL, TRG, DAQ until it is back\.", words)
    with subtests.test("silent: what can be answered"):
        assert choices == ["make MUO manual, then STOP", "STOP anyway", "cancel"]
    hand.answer(2)
    time.sleep(1)
    with subtests.test("silent: cancelled, nothing is given"):
        assert "STOP" not in "".join(browser.run(GIVEN))
    hand.click("STOP")
    hand.answer(0)
    with subtests.test("silent: made manual"):
        assert hand.sees("%s manual %s MUO" % (LEADER, TOP), "0: done")
    with subtests.test("silent: and then stopped"):
        assert hand.sees("%s do %s STOP" % (LEADER, TOP), "0: done")
    with subtests.test("silent: nothing waits"):
        assert browser.run(GIVEN + ".filter((text) => text.includes('waits')).length") == 0
    with subtests.test("silent: asked no more"):
        assert hand.click("START") == ["START at %s?" % TOP, ["yes, START", "cancel"]]
    hand.shut()
    check_elsewhere(detector, browser, hand, subtests)
    hand.open("MUO")
    words, choices = hand.click("include")
    with subtests.test("silent: including it would hold too"):
        assert [words.endswith("until it is back."), choices] == [True, ["include anyway", "cancel"]]
    hand.answer(1)
    detector.start("MUON")
    with subtests.test("silent: it comes back"):
        assert browser.waits_for("!" + silent, 20) is not None
    hand.open("MUO")
    asked = hand.click("include")
    with subtests.test("silent: included again"):
        assert asked == ["include MUO in %s?" % TOP, ["yes, include", "cancel"]]
    hand.answer(0)
    with subtests.test("silent: it is"):
        assert hand.sees("%s include %s MUO" % (LEADER, TOP), "0: done")


def check_elsewhere(detector, browser, hand, subtests):
    """A silent child that was made manual here, and then included again at a console, is asked about."""
    orders = ["%s %s %s" % (LEADER, deed, TOP) for deed in ("manual", "include", "do")]
    manual, include, start, stop = orders[0] + " MUO", orders[1] + " MUO", orders[2] + " START", orders[2] + " STOP"
    # a machine that others use may have other stations silent for a moment
    waits = "[domains.get('%s')].some((d) => !isSilent(d) && silentBelow(d).some((c) => c.name === 'MUO'))" % TOP
    hand.open(TOP)
    with subtests.test("elsewhere: not asked before, however long"):
        assert browser.waits_for(waits, 4) is None
    with subtests.test("elsewhere: included at a console"):
        assert detector.order(include) == "told %s 0" % include
    took = browser.waits_for(waits, 20)
    with subtests.test("elsewhere: it is known in %s s" % took):
        assert took is not None and took < SILENT + SLACK
    before = [hand.times(order) for order in (manual, start, stop)]
    words, choices = hand.click("START")
    is_asked = words.endswith("until it is back.") and choices[0] == "make MUO manual, then START"
    with subtests.test("elsewhere: it is asked"):
        assert is_asked
    if not is_asked:
        # given all the same, a command would hang, and all that follows
        hand.shut()
        return
    hand.answer(0)
    with subtests.test("elsewhere: made manual again"):
        assert hand.is_done_again(manual, before[0])
    with subtests.test("elsewhere: and then started"):
        assert hand.is_done_again(start, before[1])
    with subtests.test("elsewhere: asked no more"):
        assert hand.click("STOP") == ["STOP at %s?" % TOP, ["yes, STOP", "cancel"]]
    hand.answer(0)
    with subtests.test("elsewhere: stopped"):
        assert hand.is_done_again(stop, before[2])
    with subtests.test("elsewhere: a command from elsewhere is no doubt, because the console tells the mode"):
        assert [detector.order(stop), browser.waits_for(waits, 4)] == ["told %s 0" % stop, None]
    with subtests.test("elsewhere: the box says it"):
        assert browser.run("domains.get('MUO').at.mode.textContent") == "manual"
    hand.shut()


def check_waiting(detector, browser, subtests):
    """An order that waits is shown with its seconds and the station that it waits for."""
    hand = Hand(browser)
    hand.choose(LEADER)
    detector.stop("SERVICES")
    with subtests.test("waiting: the station is silent"):
        assert browser.waits_for(DEAD % "INFRA", 20) is not None
    hand.open("INFRA")
    asked = hand.click("take", "SERVICES")
    with subtests.test("waiting: it is asked %s" % asked):
        assert re.fullmatch(r"SERVICES, which keeps INFRA, has been silent for [0-9]+ s\. take will wait until it is back, "
                            r"and so will what SHIFT_LEADER orders of INFRA after it\.", asked[0])
        assert asked[1] == ["take anyway", "cancel"]
    hand.answer(0)
    waits = "%s.some((text) => /^%s take INFRAwaits [2-9] s for station SERVICES$/.test(text))" % (GIVEN, LEADER)
    with subtests.test("waiting: with its seconds and its station"):
        assert browser.waits_for(waits, 10) is not None
    detector.start("SERVICES")
    with subtests.test("waiting: and ends"):
        assert hand.sees("%s take INFRA" % LEADER, "0: done")
    hand.open("INFRA")
    browser.waits_for("document.querySelector('[data-deed=drop]').getAttribute('aria-disabled') === 'false'", 20)
    asked = hand.click("drop")
    with subtests.test("waiting: it may be given back (%s)" % hand.button("drop")[1]):
        assert asked == ["drop INFRA?", ["yes, drop", "cancel"]]
    hand.answer(0)
    with subtests.test("waiting: and is %s" % browser.run(GIVEN)):
        assert hand.sees("%s drop INFRA" % LEADER, "0: done")
    hand.shut()


def check_trip(detector, browser, subtests):
    """A trip is on top, a silent station is told, and it comes back."""
    begun = time.monotonic()
    detector.report("PIXEL_HV7", "ERROR")
    seen = browser.waits_for("/PIXEL_HV7 ERROR/.test(document.getElementById('alarms').textContent)", 20)
    took = time.monotonic() - begun
    with subtests.test("trips: one is on top in %.1f s" % took):
        assert seen is not None and took < TRIP + SLACK
    with subtests.test("trips: it is one alarm, with what follows from it above"):
        assert browser.waits_for("[...document.querySelectorAll('#alarms .alarm:not(.warn) [data-alarm]')]"
                                 ".map((b) => b.textContent.slice(9)).join()"
                                 " === 'PIXEL_HV7 ERROR so PIXEL_HV PIXEL TRK EXPERIMENT'", 10) is not None
    detector.report("PIXEL_HV7", "READY")
    detector.stop("MUON")
    begun = time.monotonic()
    silent = "document.querySelector('[data-domain=MUO]').closest('section').classList.contains('silent')"
    seen = browser.waits_for(silent, 20)
    took = time.monotonic() - begun
    with subtests.test("trips: a killed station is silent in %.1f s" % took):
        assert seen is not None and took < SILENT + SLACK
    others = [it["name"] for it in browser.run(SHOWN) if it["silent"]]
    of = [name for name in detector.names.domains if detector.names.station_of(name) == "MUON"]
    with subtests.test("trips: and no other"):
        assert sorted(others) == sorted(of)
    told = browser.waits_for("/MUON silent [0-9]+ s/.test(document.getElementById('alarms').textContent)", 5)
    with subtests.test("trips: it is told on top"):
        assert told is not None
    detector.start("MUON")
    with subtests.test("trips: it comes back"):
        assert browser.waits_for("!" + silent, 20) is not None
    browser.run("document.getElementById('hour').open = true")
    logged = browser.waits_for("/station MUON, which keeps MUO: silent/.test(document.getElementById('log').textContent)"
                               " && /PIXEL_HV7 ERROR/.test(document.getElementById('log').textContent)", 5)
    with subtests.test("trips: the log has both"):
        assert logged is not None


def check_lost(detector, browser, subtests):
    """A page that has lost its server says so, and a server that comes back is shown again."""
    with subtests.test("lost: no error until then %s" % (browser.errors or "")):
        assert not browser.errors
    detector.screen.kill()
    detector.screen.wait()
    begun = time.monotonic()
    seen = browser.waits_for("document.body.classList.contains('lost')", 20)
    took = time.monotonic() - begun
    with subtests.test("lost: it is told in %.1f s" % took):
        assert seen is not None and took < LOST + SLACK
    large = browser.run("parseFloat(getComputedStyle(document.getElementById('lost')).fontSize)")
    with subtests.test("lost: in large letters"):
        assert large > 80
    detector.screen = detector.looking()
    # The page is loaded again, with the key of the screen that has begun again.
    back = "!!document.body && !document.body.classList.contains('lost') && !!tree && !!picture"
    with subtests.test("lost: it comes back"):
        assert browser.waits_for(back, 30) is not None
    with subtests.test("lost: and orders go on"):
        assert browser.waits_for(CONNECTED, 20) is not None


# A tree of three levels, each at a station of its own, of which that in the middle is silent.
LEVELS = """
  tree = { tree: 1, states: ["OFF"], actions: ["GO"], stations: [], devices: [],
    operators: [{ name: "ANN", station: "A" }], domains: [["TOP", "A", null], ["MID", "B", "TOP"], ["LOW", "C", "MID"]]
      .map(([name, station, parent]) => ({ name, station, parent, accepts: [true] })) };
  build();
  const told = (holder, heard) => ({ holder, epoch: 1, last: 0, busy: false, outcome: 0, since: 0, heard });
  take({ frame: 1, now: 60000, devices: [], domains: [
    { name: "TOP", shown: null, told: told({ operator: "ANN" }, 60000) },
    { name: "MID", shown: null, told: told({ domain: "TOP" }, 1000) },
    { name: "LOW", shown: null, told: told({ domain: "MID" }, 60000) }] });
  who = "ANN";"""
# What the page would ask about before each order about the lowest domain.
DEEP = """(() => {""" + LEVELS + """
  return deedsOf(domains.get("LOW")).filter((deed) => deed.isOfMode)
    .map((deed) => [deed.line(), deed.at.name, deed.waitsFor().map((d) => d.name)]); })()"""
# Which boxes have no colour if the middle one is free, and what is on top if the lowest was never heard.
UNHELD = """(() => {""" + LEVELS + """
  take({ frame: 2, now: 60100, devices: [], domains: [
    { name: "TOP", shown: null, told: told({ operator: "ANN" }, 60100) },
    { name: "MID", shown: null, told: told(null, 60100) }, { name: "LOW", shown: null, told: null }] });
  const probe = document.createElement("i");
  probe.style.color = "var(--line)";
  document.body.append(probe);
  const none = getComputedStyle(probe).color;
  probe.remove();
  return [...[...domains.values()].map((d) => getComputedStyle(d.at.box).borderLeftColor === none),
    ...[...document.querySelectorAll("#alarms [data-alarm] b")].map((b) => b.textContent)]; })()"""
# Whether the page takes the silent domain for manual after each of these steps: an order of its own, with the code with
# which it ends, or `waits`, or `lost` if it is not known; or a record of the domain above, its epoch and last command.
COUNTED = """(async () => {""" + LEVELS + """
  const asked = window.fetch, seen = [];
  const settle = async () => { for (let n = 0; n < 30; n += 1) await null; };
  let number = Math.max(1000, ...found);
  given = [];
  for (const [text, how, last] of %s) {
    if (text === "record") domains.get("TOP").told = { ...domains.get("TOP").told, epoch: how, last };
    else {
      window.fetch = async () => { if (how === "lost") throw Error(how); return { ok: true, status: 202, text: async () => "" }; };
      give(text);
      await settle();
      number += 1;
      given = [{ number, line: "order ANN " + text, waits: how === "waits", code: how === "waits" ? null : how }];
      tellEnds();
      await settle();
    }
    seen.push(isManual(domains.get("MID")));
  }
  window.fetch = asked;
  return seen; })()"""
MANUAL, ACTION = "manual TOP MID", "do TOP GO"
COUNTS = [
    ("made manual", [(MANUAL, 0, True), ("record", 1, 1, True)]),
    ("it was so already", [(MANUAL, 3, True), ("record", 1, 1, True)]),
    ("refused", [(MANUAL, 4, False), ("record", 1, 1, False)]),
    ("then a command from elsewhere", [(MANUAL, 0, True), ("record", 1, 2, False), ("record", 1, 3, False)]),
    ("before it a command from elsewhere", [("record", 1, 7, False), (MANUAL, 0, True), ("record", 1, 9, False)]),
    ("then another grant", [(MANUAL, 0, True), ("record", 3, 0, False), ("record", 3, 1, False)]),
    ("then a command of its own", [(MANUAL, 0, True), (ACTION, 0, True), ("record", 1, 2, True),
                                   ("record", 1, 3, False)]),
    ("then one that ends with another code", [(MANUAL, 0, True), (ACTION, 5, True), ("record", 1, 2, True)]),
    ("then one that waits", [(MANUAL, 0, True), (ACTION, "waits", False), ("record", 1, 2, False)]),
    ("then one that was never run", [(MANUAL, 0, True), (ACTION, 21, False), ("record", 1, 2, False)]),
    ("then one of which nobody knows", [(MANUAL, 0, True), (ACTION, "lost", False), ("record", 1, 1, False)]),
    ("then included again", [(MANUAL, 0, True), ("include TOP MID", 0, False), ("record", 1, 2, False)]),
    ("then another mode that was refused", [(MANUAL, 0, True), ("ignore TOP MID", 7, False)]),
    ("another one made manual", [("manual TOP LOW", 0, False), ("record", 1, 1, False)])]


def check_deep(browser, subtests):
    """An order about a mode goes through each domain on its way: it waits for one that is silent."""
    asked = browser.run(DEEP)
    with subtests.test("deep: what waits on the way %s" % asked):
        assert asked == [["%s TOP LOW" % verb, "TOP", ["MID"]] for verb in ("include", "exclude", "manual", "ignore")]


def check_unheld(browser, subtests):
    """A free box has no colour, also within one that is commanded. A station that was never heard is told."""
    told = browser.run(UNHELD)
    with subtests.test("unheld: whose boxes have no colour, and what is on top: %s" % told):
        assert told == [False, True, True, "C not heard"]


def check_counted(browser, subtests):
    """A child counts as manual only as long as no other operator can have changed that."""
    for name, steps in COUNTS:
        seen = browser.run(COUNTED % json.dumps([step[:-1] for step in steps]))
        with subtests.test("counted: %s" % name):
            assert seen == [step[-1] for step in steps]


LARGE = """(() => {
  const domains = [], devices = [], states = ["OFF", "READY", "RUNNING", "ERROR"];
  for (let d = 0; d < %d; d += 1) domains.push({ name: "D" + d, station: "S" + d,
    parent: d ? "D" + Math.floor((d - 1) / 4) : null });
  for (let d = 0; d < %d; d += 1) devices.push({ name: "V" + d, domain: "D" + d %% %d });
  tree = { tree: 1, states, stations: [], operators: [{ name: "ANN", station: "S0" }], domains, devices };
  build();
  let seed = %d, frame = 0;
  const any = () => { seed = (seed * 1103515245 + 12345) %% 2147483648; return seed; };
  const shown = () => ({ state: states[any() %% 4], boot: 1, sequence: any(), at: 1 });
  const times = [];
  for (let n = 0; n < 20; n += 1) {
    frame += 1;
    const begun = performance.now();
    // (a picture of frame 0 is never newer than one of the screen, so the page does not take it for begun again)
    take({ frame: 0, now: 1000 * frame, domains: domains.map((d) => ({ name: d.name, shown: shown(), told: {
      holder: any() %% 2 ? { operator: "ANN" } : null, epoch: frame, last: frame, busy: any() %% 2 === 0, outcome: 0,
      since: 1000 * frame, heard: 1000 * frame } })),
      devices: devices.map((d) => ({ name: d.name, shown: shown() })) });
    document.body.getBoundingClientRect();
    times.push(performance.now() - begun);
  }
  return times.sort((a, b) => a - b); })()"""


def check_large(browser, subtests):
    """The largest tree, all of which changes at each picture."""
    times = browser.run(LARGE % (DOMAINS, DEVICES, DOMAINS, random.randrange(1 << 30)))
    middle = times[len(times) // 2]
    with subtests.test("large: %d domains and %d devices in %.0f ms" % (DOMAINS, DEVICES, middle)):
        assert middle < FRAME * (1 + SLACK)


# The domains that are not left out, after a text was typed into the search, a link was followed, or the name of a
# person was clicked; and then all is shown again.
KEPT = "[...domains.values()].filter((d) => !d.at.box.classList.contains('left-out')).map((d) => d.name)"
FIND = """(() => { const f = by("find"); f.value = "%s"; f.dispatchEvent(new Event("input")); const kept = """ + KEPT + """;
  f.value = ""; f.dispatchEvent(new Event("input")); return kept; })()"""
ALONE = """(async () => { location.hash = "%s"; await new Promise((next) => setTimeout(next, 50)); const kept = """ + KEPT + """;
  location.hash = ""; await new Promise((next) => setTimeout(next, 50)); return kept; })()"""
PERSON = """(() => { const b = document.querySelector("#people [data-person=%s]"); b.click(); const kept = """ + KEPT + """;
  const pressed = b.getAttribute("aria-pressed"); b.click(); return [kept, pressed]; })()"""
COMMANDED = "[...domains.values()].filter((d) => commander(d) === 'ANN').map((d) => d.name)"
TYPED = """(() => { const was = document.documentElement.dataset.theme;
  by("find").dispatchEvent(new KeyboardEvent("keydown", { key: "t", bubbles: true }));
  return was === document.documentElement.dataset.theme; })()"""
SIZES = """["+", "+", "-", "-"].map((key) => { document.dispatchEvent(new KeyboardEvent("keydown", { key }));
  return parseFloat(getComputedStyle(document.documentElement).fontSize); })"""


def above(number):
    """Returns the numbers of the large tree's domains from one up to the root."""
    return [number] + (above((number - 1) // 4) if number else [])


def parts_of(wanted):
    """Returns the names of domains of the large tree that are wanted or below one that is, and of all above these."""
    kept = [it for it in range(DOMAINS) if any(map(wanted, above(it)))]
    return {"D%d" % up for it in kept for up in above(it)}


def check_parts(browser, subtests):
    """Of a large tree: what is found by name, a part alone, what one person commands; its form and its size."""
    holds = {"V300": lambda it: it == 300 % DOMAINS, "D12": lambda it: "D12" in "D%d" % it, "no such": lambda it: False}
    for text, wanted in holds.items():
        with subtests.test("parts: what is found by %s" % text):
            assert set(browser.run(FIND % text)) == parts_of(wanted)
    for part in (2, 0):
        with subtests.test("parts: D%d alone" % part):
            assert set(browser.run(ALONE % ("D%d" % part))) == parts_of(lambda it, part=part: it == part)
    kept, pressed = browser.run(PERSON % "ANN")
    wanted = {up for it in browser.run(COMMANDED) for up in map("D%d".__mod__, above(int(it[1:])))}
    with subtests.test("parts: what ANN commands"):
        assert set(kept) == wanted and pressed == "true" and len(browser.run(KEPT)) == DOMAINS
    with subtests.test("parts: the form of a large tree is dense"):
        assert browser.run("document.body.classList.contains('dense')")
    with subtests.test("parts: what is typed into the search is no order to the page"):
        assert browser.run(TYPED)
    sizes = browser.run(SIZES)
    with subtests.test("parts: the letters grow and shrink: %s" % sizes):
        assert sizes[0] < sizes[1] > sizes[2] > sizes[3] and sizes[0] > sizes[3]


@pytest.mark.alone
@pytest.mark.skipif(not browsers.program(), reason="there is no browser (Debian's chromium)")
def test_page(program, folder, request, subtests):
    """The page during a shift, from its first picture on: each check goes on after the one before it."""
    detector = demo.Detector(program, folder, "127.0.0.1:%d" % screens.tcp_port())
    browser = browsers.Browser(browsers.program())
    before = page_server.PageServer(page_server.Before(detector.http)) if request.config.getoption("page_files") else None
    try:
        assert is_so(lambda: is_there(detector.http))
        browser.open(before.url if before else "http://%s/" % detector.http)
        check_shift(program, detector, browser, subtests)
        check_key(detector, browser, subtests)
        check_look(browser, subtests)
        for check in (check_order, check_waiting, check_trip, check_lost):
            check(detector, browser, subtests)
        for check in (check_deep, check_unheld, check_counted, check_large, check_parts):
            check(browser, subtests)
    finally:
        browser.end()
        detector.end()
        if before:
            before.end()
    is_safe, said = nodes.audit(program, detector.tree, os.path.join(folder, "night"))
    with subtests.test("night: what an audit of the shift says: %s" % said):
        assert is_safe


def is_there(address):
    """Returns true if a program listens at an address."""
    host, _, port = address.partition(":")
    try:
        socket.create_connection((host, int(port)), timeout=1).close()
        return True
    except OSError:
        return False
