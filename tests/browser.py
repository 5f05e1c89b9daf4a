"""The page of the screen as its tests see it: what it shows, and a hand that orders from it."""

import os
import subprocess
import tempfile

import demo
from running import text_of

SCHEDULE = os.path.join(demo.EXAMPLES, "shift.schedule")

# What the page shows, by name: states, who commands, and which domains it shows as silent.
SHOWN = """[...document.querySelectorAll("#main section")].map((box) => ({
  name: box.querySelector(".name").textContent, state: box.querySelector(".top .state").textContent,
  label: box.querySelector(".top").getAttribute("aria-label"), silent: box.classList.contains("silent") }))"""
DOTS = """[...document.querySelectorAll(".devices i")].map((dot) => dot.title)"""
CONTRASTS = """(() => {
  const light = (c) => { const [r, g, b] = c.match(/[\\d.]+/g).slice(0, 3).map((x) => x / 255)
    .map((x) => x <= 0.03928 ? x / 12.92 : ((x + 0.055) / 1.055) ** 2.4);
    return 0.2126 * r + 0.7152 * g + 0.0722 * b; };
  const back = (e) => { for (let at = e; at; at = at.parentElement) { const c = getComputedStyle(at).backgroundColor;
    if (!/, 0\\)$/.test(c)) return c; } return "rgb(255, 255, 255)"; };
  const out = [];
  document.querySelectorAll("header *, #alarms *, #main span, .devices i, footer *").forEach((e) => {
    if (!e.textContent.trim() || e.children.length || !e.getClientRects().length) return;
    const [a, b] = [light(getComputedStyle(e).color), light(back(e))].sort((x, y) => y - x);
    const ratio = (a + 0.05) / (b + 0.05);
    if (ratio < 4.5) out.push(e.className + " " + e.textContent + " " + ratio.toFixed(2));
  });
  return out; })()"""
LEADER, TOP = "SHIFT_LEADER", "EXPERIMENT"
QUESTION = "document.getElementById('question')"
# The orders that are listed with what became of them, without their buttons.
GIVEN = "[...document.querySelectorAll('#given li')].map((li) => [...li.querySelectorAll('b, span')]" \
    ".map((e) => e.textContent).join(''))"


def traced(program, place):
    """Returns the states and the holders after the schedule up to a place, by the trace that it leaves."""
    text = text_of(SCHEDULE).partition("# place %s\n" % place)[0]
    with tempfile.NamedTemporaryFile("w", suffix=".schedule") as part:
        part.write(text)
        part.flush()
        words = [program, "sim", demo.TREE, part.name]
        trace = subprocess.run(words, stdout=subprocess.PIPE, text=True, check=True).stdout
    states, holders = {}, {}
    for word, *more in map(str.split, trace.splitlines()):
        if word == "passed":
            states[more[0]] = more[2]
        elif word == "granted":
            holders[more[0]] = more[2]
        elif word == "freed":
            holders[more[0]] = "free"
    return states, holders


def commander(holders, domain, names):
    """Returns who commands a domain, through all levels."""
    while holders.get(domain, "free") in names.domains:
        domain = holders[domain]
    return holders.get(domain, "free")


def labels(names, states, holders):
    """Returns what the page says of each domain to a reader who does not see it."""
    found = {}
    for domain in names.domains:
        boss = commander(holders, domain, names)
        found[domain] = "%s, %s, %s" % (domain, states[domain], "free" if boss == "free" else "commanded by " + boss)
    return found


class Hand:
    """A hand that orders from the page: it chooses, clicks, and reads what is asked."""

    def __init__(self, browser):
        self.browser = browser

    def choose(self, operator):
        self.browser.run("(() => { const s = document.getElementById('operator'); s.value = '%s';"
                         " s.dispatchEvent(new Event('change')); })()" % operator)

    def open(self, domain):
        self.shut()
        self.browser.run("document.querySelector('#main [data-domain=%s]').click()" % domain)
        return self.browser.waits_for("document.getElementById('more').open", 5) is not None

    def shut(self):
        self.browser.run("%s.close(); document.getElementById('more').close()" % QUESTION)

    def button(self, deed):
        """Returns whether a button is greyed, and its title."""
        return self.browser.run("(() => { const b = document.querySelector('[data-deed=%s]');"
                                " return [b.getAttribute('aria-disabled'), b.title]; })()" % deed)

    def click(self, deed, silent="MUON"):
        """Clicks a button, and returns what is asked and what can be answered, or None if nothing is asked.

        It clicks once all stations are heard but one that may be silent, because any other is asked about too.
        """
        self.browser.waits_for("[...domains.values()].every((d) => !isSilent(d) || d.station === '%s')" % silent, 20)
        self.browser.run("document.querySelector('[data-deed=%s]').click()" % deed)
        if not self.browser.run(QUESTION + ".open"):
            return None
        return self.browser.run("[document.getElementById('question-words').textContent,"
                                " [...document.querySelectorAll('#choices button')].map((b) => b.textContent)]")

    def answer(self, place):
        self.browser.run("document.querySelectorAll('#choices button')[%d].click()" % place)

    def sees(self, order, fate, patience=20):
        """Returns true once the page says this of an order, or false if it does not in time."""
        return self.browser.waits_for("%s.includes('%s%s')" % (GIVEN, order, fate), patience) is not None

    def times(self, order):
        """Returns how often an order was done, of those that the page still knows."""
        return self.browser.run("given.filter((it) => it.line === 'order %s' && it.code === 0).length" % order)

    def is_done_again(self, order, times, patience=20):
        """Returns true once an order was done this many times and once more."""
        return self.browser.waits_for("given.filter((it) => it.line === 'order %s' && it.code === 0).length === %d"
                                      % (order, times + 1), patience) is not None


def shows(browser, domain, state, patience=20):
    """Returns true once the page shows a domain so, or false if it does not in time."""
    return browser.waits_for("document.querySelector('#main [data-domain=%s] .state').textContent === '%s'"
                             % (domain, state), patience) is not None
