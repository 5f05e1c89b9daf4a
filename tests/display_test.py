"""The page of a whole experiment on one display: its form, its alarms, its keyboard and its colours.

The page runs in headless Chromium over made-up answers (tests/page_server.py): 128 domains, 512 devices, 20 trips and
three silent stations. What is expected is worked out here of the tree alone, as docs/HANDBOOK.md says.
"""

import glob
import math
import re

import pytest

import browsers
import page
import page_server
from running import at_last, is_so, text_of

pytestmark = pytest.mark.skipif(not browsers.program(), reason="there is no browser (Debian's chromium)")
DOMAINS, DEVICES, TRIPS, LISTED = 128, 512, 20, 40
TOP, LEADER = "EXPERIMENT", "SHIFT_LEADER"
PARTS = ["TRK", "CAL", "MUO", "TRG", "DAQ", "RICH", "TOF", "ZDC"]
STATES = ["UNKNOWN", "OFF", "STANDBY", "RAMPING", "READY", "RUNNING", "ERROR"]
OPERATORS = [LEADER, "RUN_CONTROL", "TRK_EXPERT", "CAL_EXPERT", "TECHNICIAN", "SAFETY"]
# Counts the tones of a page, none of which anybody hears.
MUTE = """window.tones = 0;
  window.AudioContext = class {
    constructor() { this.currentTime = 0; this.state = "running"; }
    createOscillator() { return { frequency: {}, connect: (to) => to, stop() {}, start() { window.tones += 1; } }; }
    createGain() { return { gain: { setValueAtTime() {}, exponentialRampToValueAtTime() {} }, connect: (to) => to }; }
  };"""


def one_root():
    """Yields the domains of an experiment: its parts, their sectors, and three groups of each, 128 in all."""
    yield TOP, None, "CONTROL"
    for part in PARTS:
        yield part, TOP, "S_" + part
    rows = [row for sector in range(4) for part in PARTS for row in sector_of(part, sector)]
    yield from rows[:DOMAINS - 1 - len(PARTS)]


def sector_of(part, number):
    name = "%s_SECTOR_%d" % (part, number)
    groups = ["%s_SEC%d_%s" % (part, number, it) for it in ("LV", "HV", "DAQ")]
    return [(name, part, "S_" + part), *[(group, name, "S_" + part) for group in groups]]


def many_roots():
    """Yields eight roots with fifteen domains each, every one at a station of its own."""
    for number in range(8):
        yield "ROOT_%d" % number, None, "S%d" % (16 * number)
        for place in range(1, 16):
            yield "R%d_CHILD_%d" % (number, place), "ROOT_%d" % number, "S%d" % (16 * number + place)


def tree_of(domains):
    """Returns the tree of these domains as a screen tells it, with all devices in those that have nothing below."""
    rows = [{"name": name, "parent": parent, "station": station, "accepts": [True]}
            for name, parent, station in domains]
    leaves = [it["name"] for it in rows if not any(other["parent"] == it["name"] for other in rows)]
    devices = [{"name": "%s_%d" % (leaves[it % len(leaves)], it // len(leaves)), "domain": leaves[it % len(leaves)]}
               for it in range(DEVICES)]
    return {"tree": 640, "states": STATES, "actions": ["START"], "stations": sorted({it["station"] for it in rows}),
            "operators": [{"name": it, "station": "CONTROL"} for it in OPERATORS], "domains": rows, "devices": devices}


class Display:
    """A browser at the page of a tree in a run, of which trips and silent stations are made up."""

    def __init__(self, tree):
        self.screen = page_server.MadeUp(tree, None)
        self.parents = {it["name"]: it["parent"] for it in tree["domains"]}
        self.domain_of = {it["name"]: it["domain"] for it in tree["devices"]}
        self.station_of = {it["name"]: it["station"] for it in tree["domains"]}
        self.silent = set()
        self.screen.is_heard = lambda station: station not in self.silent
        self.screen.show(dict.fromkeys([*self.parents, *self.domain_of], "RUNNING"), 600)
        self.screen.tell({name: parent or LEADER for name, parent in self.parents.items()})
        self.server = page_server.PageServer(self.screen)
        self.browser = browsers.Browser(browsers.program())
        self.browser.before_each_page(MUTE)
        self.browser.open(self.server.url)
        assert self.browser.waits_for("domains.size && !!picture") is not None

    def above(self, domain):
        """Returns a domain and those above it."""
        return [domain, *self.above(self.parents[domain])] if domain else []

    def part_of(self, domain):
        """Returns the sub-detector of a domain: the one below the root, or the root itself."""
        return ([*self.above(domain)[::-1], domain])[1]

    def trip(self, devices, seconds=0):
        """Trips devices, each this many seconds before the one before it, and what is above them."""
        for place, device in enumerate(devices):
            self.screen.show({device: "ERROR"}, seconds * place)
        up = {name for device in devices for name in self.above(self.domain_of[device])}
        self.screen.show(dict.fromkeys(up, "ERROR"))

    def calm(self):
        """Has nothing be in alarm or silent."""
        self.silent.clear()
        self.screen.tell({name: parent or LEADER for name, parent in self.parents.items()})
        self.screen.show(dict.fromkeys([*self.parents, *self.domain_of], "RUNNING"))
        newest = self.screen.frame
        assert self.browser.waits_for("!!picture && picture.frame > %d" % newest) is not None and self.sees("no alarms")

    def heading(self):
        return self.browser.run("(document.querySelector('#alarms h2') || {}).textContent")

    def sees(self, heading):
        return at_last(self.heading, heading) == heading

    def listed(self):
        """Returns the alarms as they are listed, by their groups: of each what it says, and what follows from it."""
        return self.browser.run("""[...document.querySelectorAll("#alarms > ul > li")].map((group) => [
          group.querySelector("h3").firstChild.textContent, [...group.querySelectorAll("[data-alarm]")].map((b) => [
            b.querySelector("b").textContent, (b.querySelector("small") || { textContent: "" }).textContent])])""")

    def click(self, selector):
        self.browser.run("document.querySelector(%r).click()" % selector)

    def end(self):
        self.browser.end()
        self.server.end()


@pytest.fixture(scope="module", params=[one_root, many_roots], ids=["one root", "many roots"])
def full(request):
    """A full tree with twenty trips and three silent stations."""
    made = Display(tree_of(request.param()))
    devices = list(made.domain_of)
    made.trip(devices[::DEVICES // TRIPS][:TRIPS], 30)
    made.silent.update(made.screen.tree["stations"][-3:])
    assert made.sees("20 in alarm, 3 silent")
    yield made
    made.end()


@pytest.fixture(scope="module")
def shared():
    made = Display(tree_of(one_root()))
    yield made
    made.end()


@pytest.fixture
def display(shared):
    """A full tree of one root, calm at the beginning of each test."""
    shared.browser.size(1920, 1080)
    shared.browser.run("localStorage.clear(); shelf.clear(); folded.clear(); isAll = false")
    shared.calm()
    yield shared
    assert shared.browser.errors == []


# Whether nothing has to be scrolled, and the domains whose row is not wholly in the part of the window for the tree.
SEEN = """(() => {
  const root = document.documentElement, main = by("main").parentElement, room = main.getBoundingClientRect();
  const hidden = [...domains.values()].filter((d) => {
    const r = d.at.top.getBoundingClientRect(), isBeside = r.left < room.left || r.right > room.right + 1;
    return !r.height || isBeside || r.top < room.top || r.bottom > room.bottom + 1;
  });
  return [root.scrollHeight <= innerHeight && root.scrollWidth <= innerWidth, main.scrollHeight <= main.clientHeight,
    main.scrollWidth <= main.clientWidth, hidden.map((d) => d.name),
    document.querySelectorAll("#main .devices i").length]; })()"""


@pytest.mark.parametrize("width, height", [(1920, 1080), (1366, 768)])
def test_fits(full, width, height):
    """The whole tree is on one display without scrolling, in the dense form by itself."""
    full.browser.size(width, height)
    assert full.browser.waits_for("document.body.classList.contains('dense')", 5) is not None
    assert full.browser.run(SEEN) == [True, True, True, [], DEVICES]


@pytest.mark.parametrize("width, height", [(1920, 1080), (1366, 768), (3840, 2160)])
def test_fit(full, width, height):
    """The largest letters with which all is seen: a tenth more would be too large."""
    full.browser.size(width, height)
    full.browser.run("fit()")
    seen, letters = full.browser.run(SEEN), full.browser.run("size")
    full.browser.run("resize(1.1)")
    too_large = full.browser.run(SEEN)
    full.browser.run("size = 1; resize(1)")
    assert seen == [True, True, True, [], DEVICES] and letters >= 1 and not all(too_large[:3])


LETTERS = """["#main .root > .top > .name", "#main .card > .top > .name", ".alarm b", ".legend b", "header h1"]
  .map((one) => parseFloat(getComputedStyle(document.querySelector(one)).fontSize) * devicePixelRatio)"""


@pytest.mark.parametrize("width, height", [(1920, 1080), (1366, 768)])
def test_zoom(full, width, height):
    """At 200 % letters are twice as large on the display, and nothing is wider than the window (WCAG 1.4.4)."""
    full.browser.zoom(width, height, 1)
    before = full.browser.run(LETTERS)
    full.browser.zoom(width, height, 2)
    after, wide = full.browser.run(LETTERS), full.browser.run("document.documentElement.scrollWidth <= innerWidth")
    full.browser.size(1920, 1080)
    assert after == [2 * it for it in before] and wide


def test_no_width_of_the_window():
    """No size follows the width of the window, because zoom would not change it then."""
    for path in glob.glob(page.PARTS_FOLDER + "/**/*.css", recursive=True):
        assert not re.search(r"\d(?:vw|vmin|vmax)\b", text_of(path)), path


def test_full_list(full, subtests):
    """Each trip is one alarm and each silent station one, by sub-detectors, the newest first."""
    devices = list(full.domain_of)[::DEVICES // TRIPS][:TRIPS]
    listed = full.listed()
    with subtests.test("each once"):
        told = [text for _, rows in listed for text, _ in rows]
        silent = [re.sub(r" silent \d+ s$| silent \d+ min$", "", it) for it in told if " silent " in it]
        assert sorted(it for it in told if " silent " not in it) == sorted(it + " ERROR" for it in devices)
        assert sorted(silent) == sorted(full.silent)
    with subtests.test("in the groups of their sub-detectors"):
        for group, rows in listed:
            for text, _ in rows:
                name = text.split()[0]
                of = full.domain_of.get(name) or next(it for it in full.parents if full.station_of[it] == name)
                assert full.part_of(of) == group
    with subtests.test("newest first"):
        for _, rows in listed:
            places = [devices.index(text.split()[0]) for text, _ in rows if text.endswith("ERROR")]
            assert places == sorted(places)
    with subtests.test("what follows"):
        for _, rows in listed:
            for text, follows in rows:
                if text.endswith("ERROR"):
                    assert follows == "so " + " ".join(full.above(full.domain_of[text.split()[0]]))
    with subtests.test("how many, in the title and the icon"):
        assert full.browser.run("document.title") == "(23) tree 640"
        assert ">23</text>" in full.browser.run("decodeURIComponent(by('icon').href)")


def test_cap(display, subtests):
    """Of very many alarms the newest are listed, and all are counted."""
    display.trip(list(display.domain_of), 1)
    with subtests.test("all are counted"):
        assert display.sees("512 in alarm, 0 silent") and display.browser.run("document.title") == "(512) tree 640"
    count = "document.querySelectorAll('#alarms [data-alarm]').length"
    with subtests.test("the newest are listed"):
        assert display.browser.run(count) == LISTED
    with subtests.test("all, if somebody wants"):
        display.browser.run("[...document.querySelectorAll('#alarms .tool')]"
                            ".find((b) => b.textContent === 'and 472 more').click()")
        assert is_so(lambda: display.browser.run(count) == DEVICES, 5)


def test_consequence(display, subtests):
    """What is above a trip is its consequence only as far as the trip counts there."""
    display.trip(["TRK_SEC0_HV_0"])
    assert display.sees("1 in alarm, 0 silent")
    with subtests.test("through all levels"):
        assert display.listed() == [["TRK", [["TRK_SEC0_HV_0 ERROR", "so TRK_SEC0_HV TRK_SECTOR_0 TRK EXPERIMENT"]]]]
    display.screen.tell({"TRK": None})
    with subtests.test("a part that is excluded says nothing of what is above"):
        assert display.sees("2 in alarm, 0 silent") and sorted(display.listed()) == [
            ["EXPERIMENT", [["EXPERIMENT ERROR", ""]]],
            ["TRK", [["TRK_SEC0_HV_0 ERROR", "so TRK_SEC0_HV TRK_SECTOR_0 TRK"]]]]


def test_silent_station(display):
    """A silent station is one alarm, with all that it keeps."""
    display.silent.add("S_MUO")
    assert display.sees("0 in alarm, 1 silent")
    (group, rows), = display.listed()
    of = [name for name in display.parents if display.station_of[name] == "S_MUO"]
    assert [group, len(rows), rows[0][1]] == ["MUO", 1, "keeps " + " ".join(of)]
    assert re.fullmatch(r"S_MUO silent \d+ s", rows[0][0])


def test_shelf(display, subtests):
    """An alarm that is shelved is neither listed nor counted, until it is listed again or the time is over."""
    display.trip(["TRK_SEC0_HV_0", "CAL_SEC0_HV_0"])
    assert display.sees("2 in alarm, 0 silent")
    shelve = "[aria-label='shelve TRK_SEC0_HV_0']"
    shelved = "(document.querySelector('#shelved summary') || {}).textContent"
    display.click(shelve)
    with subtests.test("not counted"):
        assert display.sees("1 in alarm, 0 silent") and display.browser.run("document.title") == "(1) tree 640"
    with subtests.test("not listed"):
        assert [group for group, _ in display.listed()] == ["CAL"] and display.browser.run(shelved) == "1 shelved"
    with subtests.test("for ten minutes"):
        left = display.browser.run("(shelf.get('device TRK_SEC0_HV_0') - Date.now()) / 60000")
        assert 9 < left <= 10
    display.click("#shelved [aria-label='list TRK_SEC0_HV_0 again']")
    with subtests.test("listed again"):
        assert display.sees("2 in alarm, 0 silent") and display.browser.run(shelved) is None
    display.click(shelve)
    assert display.sees("1 in alarm, 0 silent")
    display.browser.run("shelf.set('device TRK_SEC0_HV_0', Date.now() - 1)")
    with subtests.test("the time is over"):
        assert display.sees("2 in alarm, 0 silent")
    for name in ("TRK_SEC0_HV_0", "CAL_SEC0_HV_0"):
        display.click("[aria-label='shelve %s']" % name)
        assert display.browser.waits_for("!document.querySelector('[aria-label=\"shelve %s\"]')" % name, 5) is not None
    with subtests.test("nobody is told to be calm about what is shelved"):
        assert display.sees("no alarms but shelved ones")


def test_tone(display, subtests):
    """A new alarm has a tone if somebody wants it, and is read out; an old one and one that is shelved have none."""
    def rings(tones):
        return at_last(lambda: display.browser.run("window.tones"), tones, 5)

    display.trip(["TRK_SEC0_HV_0"])
    with subtests.test("none unless it is turned on"):
        assert display.sees("1 in alarm, 0 silent") and display.browser.run("window.tones") == 0
    with subtests.test("it is read out"):
        assert display.browser.run("by('said').textContent") == "TRK_SEC0_HV_0 ERROR"
    display.click("#sound")
    with subtests.test("a sample"):
        assert rings(2) == 2
    display.trip(["TRK_SEC0_HV_0", "CAL_SEC0_HV_0"])
    with subtests.test("a new one"):
        assert display.sees("2 in alarm, 0 silent") and rings(4) == 4
    with subtests.test("it alone is read out"):
        assert display.browser.run("by('said').textContent") == "CAL_SEC0_HV_0 ERROR"
    display.browser.run("shelve('device MUO_SEC0_HV_0', 10)")
    display.trip(["TRK_SEC0_HV_0", "CAL_SEC0_HV_0", "MUO_SEC0_HV_0"])
    with subtests.test("none that is shelved"):
        assert display.browser.waits_for("isAlarm(devices.get('MUO_SEC0_HV_0'))", 5) is not None
        assert display.browser.run("window.tones") == 4
    display.click("#sound")


def test_log(display, subtests):
    """What the page has seen is there after it was loaded again, each once."""
    display.trip(["TRK_SEC0_HV_0"])
    assert display.sees("1 in alarm, 0 silent")
    display.silent.add("S_MUO")
    assert display.sees("1 in alarm, 1 silent")
    told = "log.map((it) => it.text)"
    with subtests.test("it has both"):
        assert display.browser.waits_for(told + ".includes('station S_MUO, which keeps MUO: silent')", 5) is not None
    before = display.browser.run(told)
    display.browser.open(display.server.url)
    assert display.sees("1 in alarm, 1 silent")
    after = display.browser.run(told)
    with subtests.test("and has them after it was loaded again"):
        assert [it for it in before if it not in after] == []
    with subtests.test("no more of each"):
        assert [it for it in ("TRK_SEC0_HV_0 ERROR", "EXPERIMENT ERROR") if before.count(it) != after.count(it)] == []


def test_unknown(display, subtests):
    """Nobody is told to be calm about what is unknown."""
    of = [name for name in display.domain_of if display.domain_of[name] == "TRK_SEC0_HV"]
    display.screen.show(dict.fromkeys([*of, *display.above("TRK_SEC0_HV")], "UNKNOWN"))
    with subtests.test("the heading"):
        assert display.sees("no alarm is known")
    words = "UNKNOWN or not seen: 4 of 128 domains, %d of 512 devices (EXPERIMENT, TRK)" % len(of)
    with subtests.test("how many, and in which parts"):
        assert display.browser.run("document.querySelector('#alarms .unknown').textContent") == words


def test_tree_role(display, subtests):
    """A reader who does not see it hears a tree: each domain once, with its level and its place."""
    told = display.browser.run("""[...document.querySelectorAll("#main [role=treeitem]")].map((b) => [b.dataset.domain,
      ...["aria-level", "aria-posinset", "aria-setsize", "aria-expanded"].map((key) => b.getAttribute(key))])""")
    names = list(display.parents)
    wanted = []
    for name in names:
        beside = [it for it in names if display.parents[it] == display.parents[name]]
        has_more = "true" if name in display.parents.values() else None
        wanted.append([name, str(len(display.above(name))), str(beside.index(name) + 1), str(len(beside)), has_more])
    with subtests.test("each domain"):
        assert sorted(told) == sorted(wanted)
    with subtests.test("nothing else is in the tree"):
        assert display.browser.run("document.querySelectorAll('#main[role=tree] section:not([role=none])').length") == 0
    with subtests.test("one stop of Tab"):
        assert display.browser.run("document.querySelectorAll('#main [tabindex=\"0\"]').length") == 1


def test_keys(display, subtests):
    """Arrows go round in the tree, fold and unfold it; keys in the search do nothing else."""
    browser, here = display.browser, "document.activeElement.dataset.domain"
    browser.run("domains.get('EXPERIMENT').at.top.focus()")

    def after(*keys):
        for key in keys:
            browser.key(key)
        return browser.run(here)

    for name, keys, wanted in [
            ("down", ["ArrowDown"], "TRK"), ("right leads in", ["ArrowRight"], "TRK_SECTOR_0"),
            ("left folds", ["ArrowLeft"], "TRK_SECTOR_0"), ("what is folded is passed", ["ArrowDown"], "TRK_SECTOR_1"),
            ("up", ["ArrowUp"], "TRK_SECTOR_0"), ("right unfolds", ["ArrowRight"], "TRK_SECTOR_0"),
            ("and then leads in", ["ArrowRight"], "TRK_SEC0_LV"), ("left leads out", ["ArrowLeft"], "TRK_SECTOR_0"),
            ("to the first", ["Home"], TOP), ("round", ["ArrowUp"], "ZDC_SEC2_DAQ"), ("and back", ["ArrowDown"], TOP)]:
        with subtests.test(name):
            assert after(*keys) == wanted
    browser.run("fold(domains.get('TRK'), true)")
    with subtests.test("a folded part says that it is"):
        assert browser.run("domains.get('TRK').at.top.getAttribute('aria-expanded')") == "false"
        assert browser.run("domains.get('TRK_SECTOR_0').at.top.getClientRects().length") == 0
    browser.run("by('find').value = 'TRK_SEC1_LV'; leaveOut()")
    with subtests.test("what is found is seen, though it is folded"):
        assert browser.run("domains.get('TRK_SEC1_LV').at.top.getClientRects().length") == 1
    browser.run("by('find').value = ''; leaveOut()")
    display.trip(["TRK_SEC0_HV_0"])
    with subtests.test("and that somebody has to look there"):
        assert browser.waits_for("domains.get('TRK').at.fold.classList.contains('hot')", 5) is not None
    with subtests.test("it is folded when the page is opened again"):
        browser.open(display.server.url)
        assert browser.waits_for("domains.size && domains.get('TRK').at.box.classList.contains('folded')") is not None


KEPT = "[...domains.values()].filter((d) => !d.at.box.classList.contains('left-out')).map((d) => d.name)"


@pytest.mark.parametrize("text, wanted", [
    pytest.param("zdc_sec0", ["ZDC_SEC0_LV", "ZDC_SEC0_HV", "ZDC_SEC0_DAQ"], id="a domain"),
    pytest.param("TOF_SEC1_HV_2", ["TOF_SEC1_HV"], id="a device"),
    pytest.param("RAMPING", ["CAL_SEC2_HV"], id="a state"),
    pytest.param("TECHNICIAN", ["DAQ_SEC0_LV"], id="an operator")])
def test_find(display, text, wanted):
    """What is found by the name of a domain, a device, a state or an operator, with all that is above and below."""
    display.screen.show({"CAL_SEC2_HV": "RAMPING"})
    display.screen.tell({"DAQ_SEC0_LV": "TECHNICIAN"})
    assert display.browser.waits_for("domains.get('CAL_SEC2_HV').shown.state === 'RAMPING'", 5) is not None
    assert display.browser.waits_for("commander(domains.get('DAQ_SEC0_LV')) === 'TECHNICIAN'", 5) is not None
    display.browser.run("by('find').value = '%s'; leaveOut()" % text)
    kept = display.browser.run(KEPT)
    display.browser.run("by('find').value = ''; leaveOut()")
    assert set(kept) == {up for name in wanted for up in display.above(name)}


def test_telephone(display, subtests):
    """On a telephone all that is clicked is 44 pixels high, and nothing is wider than the display."""
    display.trip(["TRK_SEC0_HV_0"])
    display.browser.size(390, 844, True)
    assert display.sees("1 in alarm, 0 silent")
    small = display.browser.run("""[...document.querySelectorAll("button, select, summary, input, h1 a")].filter((e) =>
      e.getClientRects().length && e.getBoundingClientRect().height < 44).map((e) => e.textContent)""")
    with subtests.test("targets"):
        assert small == []
    with subtests.test("width"):
        assert display.browser.run("document.documentElement.scrollWidth") == 390


def test_forced_colors(display, subtests):
    """With the system's colours the dots keep theirs, and what is clicked has an edge."""
    display.trip(["TRK_SEC0_HV_0"])
    assert display.sees("1 in alarm, 0 silent")
    dot = "getComputedStyle(devices.get('TRK_SEC0_HV_%d').dot).backgroundColor"
    display.browser.forced_colors(True)
    colours = [display.browser.run(dot % it) for it in (0, 1)]
    edge = display.browser.run("getComputedStyle(document.querySelector('.alarm > [data-alarm]')).borderTopStyle")
    display.browser.forced_colors(False)
    with subtests.test("dots"):
        assert colours == ["rgb(187, 28, 28)", "rgb(11, 168, 96)"]
    with subtests.test("alarms"):
        assert edge == "solid"


def linear(colour):
    """Returns red, green and blue of a colour as amounts of light."""
    parts = [int(colour[it:it + 2], 16) / 255 for it in (1, 3, 5)]
    return [it / 12.92 if it <= 0.04045 else ((it + 0.055) / 1.055) ** 2.4 for it in parts]


def contrast(one, other):
    """Returns the contrast of two colours (WCAG 2)."""
    low, high = sorted(sum(share * it for share, it in zip((0.2126, 0.7152, 0.0722), linear(colour)))
                       for colour in (one, other))
    return (high + 0.05) / (low + 0.05)


def oklab(light):
    """Returns an amount of light in Ottosson's space OKLab, in which equal distances look alike."""
    r, g, b = light
    l, m, s = (max(0, it) ** (1 / 3) for it in (
        0.4122214708 * r + 0.5363325363 * g + 0.0514459929 * b, 0.2119034982 * r + 0.6806995451 * g + 0.1073969566 * b,
        0.0883024619 * r + 0.2817188376 * g + 0.6299787005 * b))
    return (0.2104542553 * l + 0.793617785 * m - 0.0040720468 * s,
            1.9779984951 * l - 2.428592205 * m + 0.4505937099 * s,
            0.0259040371 * l + 0.7827717662 * m - 0.808675766 * s)


def without_green(light):
    """Returns how somebody without green cones sees an amount of light (Machado and others, 2009)."""
    r, g, b = light
    return (0.367322 * r + 0.860646 * g - 0.227968 * b, 0.280085 * r + 0.672501 * g + 0.047413 * b,
            -0.01182 * r + 0.04294 * g + 0.968881 * b)


def test_people(display, subtests):
    """People's colours are none of a state, are seen on both backgrounds, and initials tell people apart."""
    people, states = (display.browser.run("%s.map(%s)" % (names, colour)) for names, colour in [
        ("PEOPLE", "(it) => it"), ("tree.states", "stateColour")])
    near = [(one, other) for one in people for other in states
            if math.dist(oklab(linear(one)), oklab(linear(other))) < 0.09
            or math.dist(oklab(without_green(linear(one))), oklab(without_green(linear(other)))) < 0.035]
    with subtests.test("apart from states, also without green cones"):
        assert near == []
    with subtests.test("seen on white and on the dark background"):
        assert [it for it in people if min(contrast(it, "#ffffff"), contrast(it, "#171c24")) < 2.6] == []
    with subtests.test("initials"):
        assert display.browser.run("[...initialsOf(tree.operators.map((o) => o.name)).values()]") == [
            "SL", "RC", "TE", "CE", "TC", "SA"]
    many = display.browser.run("[...initialsOf(Array.from({ length: 32 }, (_, n) => 'OP' + n)).values()]")
    with subtests.test("initials of 32 like names"):
        assert len(set(many)) == 32
    with subtests.test("the legend has those alone who command"):
        shown = "[...document.querySelectorAll('#people button')].filter((b) => b.getClientRects().length)" \
            ".map((b) => b.textContent)"
        assert at_last(lambda: display.browser.run(shown), ["SL" + LEADER], 5) == ["SL" + LEADER]


@pytest.mark.parametrize("name, like", [("TRIPPED", "ERROR"), ("HV_FAULT", "ERROR"), ("DATATAKING", "RUNNING"),
                                        ("RAMPING_UP", "RAMPING"), ("SWITCHED_OFF", "OFF"), ("NOT_READY", "OFF")])
def test_other_names(display, name, like):
    """A state of another name has the colour of what its name says: a trip is red, and a run is green."""
    assert display.browser.run("stateColour('%s') === stateColour('%s')" % (name, like))
