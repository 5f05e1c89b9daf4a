"""A browser at the page of a detector after a shift, with a made-up history (tests/page_server.py).

The clock of the page stays: it is six o'clock in the morning of a shift that began at ten.
"""

import calendar
import time

import browsers
import page_server
from browser import LEADER, TOP, shows

NOW = 1000 * calendar.timegm(time.strptime("2026-11-30 06:00:00", "%Y-%m-%d %H:%M:%S"))
# The clock of the page, which stays, and a count of its tones, which nobody hears.
CLOCK = """Date.now = () => %d; window.tones = 0;
  addEventListener("DOMContentLoaded", () => { ring = () => { window.tones += 1; }; });""" % NOW
MINUTE, DAY = 60_000, 86_400_000
UP = ["PIXEL_HV", "PIXEL", "TRK", TOP]


def at(clock):
    """Returns a time of the shift: an hour after noon is one of the evening before."""
    hour, minute, second = (int(it) for it in (clock + ":00").split(":")[:3])
    begun = NOW - 6 * 60 * MINUTE - (DAY if hour >= 12 else 0)
    return begun + hour * 60 * MINUTE + minute * MINUTE + second * 1000


def shift(names):
    """Returns the history of a shift: two trips, a silence, a change of hands, and four orders."""
    told = [(at("21:00"), "board %s 1.1 READY" % name) for name in names]
    for clock, text in [
            ("21:00", "record EXPERIMENT operator SHIFT_LEADER 1 0 settled 0"),
            ("21:00", "record TRK domain EXPERIMENT 1 3 settled 0"),
            ("21:00", "record MUO domain EXPERIMENT 1 0 settled 0"),
            ("22:30", "board PIXEL_HV7 1.2 ERROR"), *(("22:30", "board %s 1.2 ERROR" % it) for it in UP),
            ("22:31", "acknowledged device PIXEL_HV7 SHIFT_LEADER"),
            ("22:36", "board PIXEL_HV7 1.3 READY"), *(("22:36", "board %s 1.3 READY" % it) for it in UP),
            ("23:10", "given 1 order SHIFT_LEADER do TRK START"), ("23:10", "record TRK domain EXPERIMENT 1 4 busy 0"),
            ("23:11", "record TRK domain EXPERIMENT 1 4 settled 6"),
            ("23:11", "ended 1 told SHIFT_LEADER do TRK START 6"),
            ("00:26", "silent MUO"), ("00:46", "heard MUO"),
            ("02:00", "record TRK free 1 4 settled 6"), ("02:05", "record TRK operator TRK_EXPERT 2 0 settled 0"),
            ("02:59", "given 2 order TRK_EXPERT do TRK START"), ("03:00", "board TRK 1.4 RUNNING"),
            ("03:00", "record TRK operator TRK_EXPERT 2 1 settled 0"),
            ("03:00", "ended 2 told TRK_EXPERT do TRK START 0"),
            ("04:00", "given 3 order SHIFT_LEADER do MUO START"), ("04:01", "given 4 withdraw 3"),
            ("04:01", "ended 3 withdrawn"), ("04:01", "ended 4 withdrawn 3"),
            ("05:00", "board PIXEL_HV7 1.4 ERROR"), ("05:00:30", "board PIXEL_HV7 1.5 READY")]:
        told.append((at(clock), text))
    return told


WORDS = """05:00:30 PIXEL_HV7 is READY
05:00:00 PIXEL_HV7 is ERROR
04:01:00 withdrawal of do MUO START of SHIFT_LEADER: done
04:01:00 do MUO START of SHIFT_LEADER: withdrawn
04:01:00 withdrawal of do MUO START of SHIFT_LEADER was asked for
04:00:00 SHIFT_LEADER ordered do MUO START
03:00:00 do TRK START of TRK_EXPERT ended with 0: done
03:00:00 command 1 of TRK ended with 0
03:00:00 TRK is RUNNING
02:59:00 TRK_EXPERT ordered do TRK START
02:05:00 TRK held by TRK_EXPERT
02:00:00 TRK is free
00:46:00 station of MUO is heard again
00:26:00 station of MUO is silent
2026-11-29 23:11:00 do TRK START of SHIFT_LEADER ended with 6: a child on the way is not held or is manual
2026-11-29 23:11:00 command 4 of TRK ended with 6
2026-11-29 23:10:00 command 4 of TRK is at work
2026-11-29 23:10:00 SHIFT_LEADER ordered do TRK START
2026-11-29 22:36:00 EXPERIMENT is READY""".split("\n")
LISTED = "[...document.querySelectorAll('#past-list li')].map((li) => li.textContent)"
BANDS = """[...document.querySelectorAll("#time-line [data-key='track %s'] > *")].map((e) => [
  e.className.split(" ").pop(), e.dataset.state || "", e.style.left, e.style.width, e.title])"""


class Night:
    """A browser at the page of a detector after a shift."""

    def __init__(self, **how):
        self.screen = page_server.MadeUp(page_server.tree_of(page_server.DETECTOR), **how)
        self.names = [it["name"] for it in self.screen.tree["domains"] + self.screen.tree["devices"]]
        self.screen.show(dict.fromkeys(self.names, "READY"), 60)
        holders = {it["name"]: it["parent"] for it in self.screen.tree["domains"]}
        self.screen.tell({**holders, TOP: LEADER, "INFRA": None})
        self.screen.past = shift(self.names)
        self.server = page_server.PageServer(self.screen)
        self.browser = browsers.Browser(browsers.program())
        self.browser.call("Emulation.setTimezoneOverride", timezoneId="UTC")
        self.browser.before_each_page(CLOCK)
        self.load()

    def begin(self):
        """Has all be as after the shift, and nothing chosen."""
        self.screen.past, self.screen.saved, self.screen.keeps_history = shift(self.names), 0, True
        self.screen.is_old, self.screen.wait = False, lambda query: None
        self.screen.show(dict.fromkeys(self.names, "READY"), 60)
        self.browser.run("localStorage.clear()")
        self.browser.errors.clear()
        self.load()
        self.browser.run("log = []")

    def load(self):
        self.browser.open(self.server.url)
        assert self.browser.waits_for("domains.size && !!picture") is not None and shows(self.browser, TOP, "READY")

    def click(self, name):
        self.browser.run("document.getElementById('%s').click()" % name)

    def open(self):
        self.click("past-open")
        assert self.browser.waits_for("isWhole && document.querySelectorAll('#past-list li').length", 10) is not None

    def until(self, end):
        """Chooses an end, and waits until what was then is there."""
        self.screen.asked.clear()
        self.types("past-until", end)
        said = "until %s, not until now" % end.replace("T", " ")
        assert self.browser.waits_for("isWhole && by('past-old').textContent.includes('%s')" % said, 10) is not None

    def text(self, name):
        return self.browser.run("document.getElementById('%s').textContent" % name)

    def look(self, words):
        """Clicks the entry of these words."""
        self.browser.run("[...document.querySelectorAll('#past-list button')]"
                         ".find((b) => b.textContent === '%s').click()" % words)

    def types(self, name, text):
        self.browser.run("{ const e = document.getElementById('%s'); e.value = '%s';"
                         " for (const it of ['input', 'change']) e.dispatchEvent(new Event(it)); }" % (name, text))

    def state(self, domain):
        return self.browser.run("document.querySelector('#main [data-domain=%s] .state').textContent" % domain)

    def end(self):
        self.browser.end()
        self.server.end()


def day(text):
    """Returns a time of a day, as 2026-11-20 06:00."""
    return 1000 * calendar.timegm(time.strptime(text, "%Y-%m-%d %H:%M"))


def ten_days(names):
    """Returns the history of some days before the shift, and of the shift."""
    return [(day("2026-11-18 12:00"), "board TRK 1.1 OFF"),
            (day("2026-11-19 00:00"), "since %d board TRK 1.1 OFF" % day("2026-11-18 12:00")),
            (day("2026-11-19 00:00"), "since %d board CAL 1.1 READY" % day("2026-11-18 11:00")),
            (day("2026-11-19 23:00"), "board TRK 1.2 READY"),
            (day("2026-11-20 00:00"), "since %d board TRK 1.2 READY" % day("2026-11-19 23:00")),
            (day("2026-11-20 05:00"), "board TRK 1.3 ERROR"),
            # in the second of the end, but after it, and later
            (day("2026-11-20 06:00") + 500, "board TRK 1.4 READY"), (day("2026-11-20 06:01"), "board TRK 1.5 OFF"),
            (day("2026-11-25 05:30"), "board TRK 1.6 STANDBY"), *shift(names)]
