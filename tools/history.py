"""Tells what the journals of a night say: who held which domain when, what ran there and how it ended, who typed what,
which stations started, and which objects stood in alarm.

usage: history.py [--domain D] [--operator O] [--object X] [--from TIME] [--to TIME] [--states] [--alarm PATTERN]
                  [--json] FILE ..

The files are journals that `smi node .. --journal FOLDER` wrote, in any order. Their lines stand in docs/FORMATS.md,
"Journals". Events are told by their times, so the clocks of the machines decide the order of what happened at two of
them; `smi audit` needs no clock. TIME is a time as in the journals, or the first part of one: 2026-11-27T22:05.

--states tells every state of every object, and not only those in alarm: ERROR, FAULT, ALARM or TRIP in the name, or
what the PATTERN finds. --json prints a list with a dictionary for each event.
"""

import argparse
import collections
import datetime
import json
import re
import sys

import lunskaf

ALARM = "ERROR|FAULT|ALARM|TRIP"
TIME = "%Y-%m-%dT%H:%M:%S.%fZ"
LINE = re.compile(r"(\d{4}-\d\d-\d\dT\d\d:\d\d:\d\d\.\d{3}Z) (\S+) (\d+) (.+)")
# A line that was typed: maybe after a tag, an order of an operator, or a remark that says who types; and a remark that
# says who has given the order of a tag.
ORDER = re.compile(r"(?:(@\S+) )?order +(\S+) +(.+)")
NAME = re.compile(r"(?:@\S+ )?# *name +(.+)")
GIVER = re.compile(r"# *(@\S+) +name +(.+)")

# A line of a journal: when and at which station it was written, in which boot, and its words.
Line = collections.namedtuple("Line", "time station boot words")
# What happened: when, at which station, its kind, what it is about, who did it, and the sentence that is printed.
Event = collections.namedtuple("Event", "time station kind about who text")


def lines_of(paths):
    """Returns the whole lines of journals, by their times. A last line without its line feed is torn, and left out."""
    found = []
    for path in paths:
        with open(path, encoding="ascii", errors="replace") as file:
            parts = [LINE.fullmatch(line[:-1]) for line in file if line.endswith("\n")]
        found += [Line(it[1], it[2], int(it[3]), it[4].split()) for it in parts if it]
    return sorted(found, key=lambda it: it.time)


def seconds_between(before, after):
    """Returns the seconds from one time of a journal to another."""
    times = [datetime.datetime.strptime(it, TIME) for it in (before, after)]
    return (times[1] - times[0]).total_seconds()


def length(seconds):
    """Returns a time in the words of people."""
    if seconds < 60:
        return "%.1f s" % seconds
    minutes = int(seconds) // 60
    return "%d min" % minutes if minutes < 60 else "%d h %02d min" % divmod(minutes, 60)


def ending(code):
    """Returns what a code says."""
    return lunskaf.CODES.get(int(code), "code " + code)


class History:
    """What journals tell, line by line."""

    def __init__(self, alarm, tells_states):
        self.alarm, self.tells_states, self.events = re.compile(alarm), tells_states, []
        # domain: (since when, the grant's epoch, its holder); (domain, epoch, number): (when, command, who)
        self.held, self.running = {}, {}
        # (station, boot, session): the name that it gave; the same and a tag: who gives the next order with that tag;
        # (station, operator, order): when, in which session and by whom it was typed, the oldest first
        self.names, self.givers, self.typed = {}, {}, collections.defaultdict(collections.deque)

    def tell(self, line, kind, about, who, text):
        self.events.append(Event(line.time, line.station, kind, about, who, text))

    def people_behind(self, domain):
        """Returns who holds a domain, and behind a domain who holds that, up to a person."""
        chain, at = [], domain
        while at in self.held and len(chain) < 9:
            at = self.held[at][2]
            chain.append(at)
        return chain

    def by(self, domain):
        """Returns in words who holds a domain."""
        return " for ".join(self.people_behind(domain)) or "nobody"

    def read(self, line):
        """Takes a line: a method for each first word that tells something."""
        told = getattr(self, "line_" + line.words[0], None)
        if told:
            told(line, *line.words[1:])

    def line_booted(self, line, station, boot):
        self.tell(line, "start", station, "", "station %s started, boot %s" % (station, boot))

    def line_ends(self, line):
        self.tell(line, "end", line.station, "", "station %s ended" % line.station)

    def line_stands(self, _line, domain, epoch, holder, *_):
        """Takes from a block who holds a domain, if no line before said so. Since when is not known."""
        if holder != "free":
            self.held.setdefault(domain, (None, epoch, holder))

    def line_granted(self, line, domain, epoch, holder):
        self.held[domain] = line.time, epoch, holder
        self.tell(line, "held", domain, holder, "%s held by %s" % (domain, holder))

    def line_freed(self, line, domain, _epoch):
        since, _, holder = self.held.pop(domain, (None, None, "somebody"))
        for_long = " for " + length(seconds_between(since, line.time)) if since else ""
        self.tell(line, "free", domain, holder, "%s free: %s held it%s" % (domain, holder, for_long))

    def line_ran(self, line, domain, epoch, number, *command):
        self.running[domain, epoch, number] = line.time, " ".join(command), self.people_behind(domain), self.by(domain)

    def line_settled(self, line, domain, epoch, number, outcome):
        begun = self.running.pop((domain, epoch, number), None)
        if begun:
            time, command, people, by = begun
            text = "%s ran %s, by %s: %s, after %s" % (
                domain, command, by, ending(outcome), length(seconds_between(time, line.time)))
            self.tell(line, "ran", domain, people[-1] if people else "", text)

    def line_mode(self, line, child, mode):
        people = self.people_behind(child)
        self.tell(line, "mode", child, people[-1] if people else "", "%s is %s" % (child, mode))

    def line_passed(self, line, what, _version, state):
        if self.tells_states or self.alarm.search(state):
            self.tell(line, "state", what, "", "%s is %s" % (what, state))

    def line_typed(self, line, session, *_):
        said, where = " ".join(line.words[2:]), (line.station, line.boot, session)
        name, giver, order = NAME.fullmatch(said), GIVER.fullmatch(said), ORDER.fullmatch(said)
        if name:
            self.names[where] = name[1]
        elif giver:
            self.givers[(*where, giver[1])] = giver[2]
        elif order:
            by = self.givers.pop((*where, order[1]), self.names.get(where, ""))
            self.typed[line.station, order[2], order[3]].append((line.time, session, by))

    def line_told(self, line, operator, *words):
        if words[0] == "ask":
            order, how = "ask " + words[1], "answered"
        else:
            order, how = " ".join(words[:-1]), ending(words[-1])
        where, waiting = "", self.typed[line.station, operator, order]
        if waiting:
            time, session, name = waiting.popleft()
            where = ", typed at %s%s %s before" % (
                "the standard input" if session == "0" else "connection " + session, name and " by " + name,
                length(seconds_between(time, line.time)))
        self.tell(line, "order", words[1], operator, "%s: %s: %s%s" % (operator, order, how, where))

    def end(self):
        """Tells what has not ended by the last line."""
        for (domain, _, _), (time, command, people, by) in self.running.items():
            text = "%s began %s, by %s: its end is not told" % (domain, command, by)
            self.events.append(Event(time, "", "ran", domain, people[-1] if people else "", text))
        self.events.sort(key=lambda it: it.time)


def is_asked_for(event, given):
    """Returns whether an event is one of those that the command line asks for."""
    about = given.domain + given.object
    return (not about or event.about in about) and (not given.operator or event.who in given.operator) and (
        not given.begin or event.time >= given.begin) and (
        not given.end or event.time[:len(given.end)] <= given.end)


def words_of(arguments):
    """Returns what the command line asks for."""
    parser = argparse.ArgumentParser(description=__doc__.split("\n\n", maxsplit=1)[0])
    parser.add_argument("--domain", action="append", default=[], help="tell of this domain")
    parser.add_argument("--object", action="append", default=[], help="tell of this object")
    parser.add_argument("--operator", action="append", default=[], help="tell what this operator did")
    parser.add_argument("--from", dest="begin", metavar="TIME", help="tell what happened from then on")
    parser.add_argument("--to", dest="end", metavar="TIME", help="tell what happened until then")
    parser.add_argument("--states", action="store_true", help="tell every state")
    parser.add_argument("--alarm", metavar="PATTERN", default=ALARM, help="what an alarm has in its name")
    parser.add_argument("--json", action="store_true", help="print a list of dictionaries")
    parser.add_argument("files", nargs="+", metavar="FILE")
    return parser.parse_args(arguments)


def main(arguments):
    given = words_of(arguments)
    history = History(given.alarm, given.states)
    for line in lines_of(given.files):
        history.read(line)
    history.end()
    events = [it for it in history.events if is_asked_for(it, given)]
    if given.json:
        print(json.dumps([it._asdict() for it in events], indent=1))
    else:
        for event in events:
            print("%s  %s" % (event.time, event.text))


if __name__ == "__main__":
    main(sys.argv[1:])
