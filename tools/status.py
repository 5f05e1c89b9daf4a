"""How the detector stands, in a table, by the JSON of a screen (docs/FORMATS.md, "The screen"); for terminals and monitors.

usage: status.py A.B.C.D:PORT [--alarm PATTERN] [--style FILE] [--silent SECONDS] [--brief] [--patience SECONDS]

Prints a summary, and below it a line for each domain in the shape of the tree: its state, who commands it through all
levels, whether it is at work and with what its last command ended, and when its station was last heard; then each
device that is in alarm. --brief prints the summary alone.

An object is in alarm whose state has the PATTERN, a regular expression: ERROR, FAULT, ALARM or TRIP where none is
named. With --style that holds for the states alone that the screen's style file says nothing of (docs/FORMATS.md, "The
style of a screen"). A station is silent if it was not heard for SECONDS, which are two if none are given.

The exit status is that of a monitor's plugin: 0 where all is well, 1 where a station is silent or was never heard, 2
where something is in alarm, 3 where the screen does not answer, its answer can't be read, or the words are wrong.
"""

import argparse
import http.client
import json
import re
import sys

WELL, WARNING, CRITICAL, UNKNOWN = range(4)
WORDS = {WELL: "OK", WARNING: "WARNING", CRITICAL: "CRITICAL", UNKNOWN: "UNKNOWN"}
ALARM = "ERROR|FAULT|ALARM|TRIP"
# After how many seconds a station is silent; what the page takes for silence is the same.
SILENT = 2.0
# How many names are told in the summary.
FEW = 5


class Unread(Exception):
    """The screen does not answer, or not with what a screen answers."""


def fetched(where, place, patience):
    """What the screen answers for a place, as JSON."""
    host, _, port = where.rpartition(":")
    try:
        asked = http.client.HTTPConnection(host, int(port), timeout=patience)
        asked.request("GET", place)
        answer = asked.getresponse()
        if answer.status != 200:
            raise Unread("%s answered %d for %s" % (where, answer.status, place))
        return json.loads(answer.read())
    except (OSError, ValueError, http.client.HTTPException) as error:
        raise Unread("no screen at %s: %s" % (where, error)) from error


class Detector:
    """A tree and a picture of it, and what follows from them."""

    def __init__(self, tree, picture, silent=SILENT):
        self.now = picture["now"]
        self.tree = {it["name"]: it for it in tree["domains"]}
        self.domain_of = {it["name"]: it["domain"] for it in tree["devices"]}
        self.domains = {it["name"]: it for it in picture["domains"]}
        self.devices = {it["name"]: it for it in picture["devices"]}
        self.limit = silent
        self.heard = {}
        for name, domain in self.domains.items():
            if domain["told"] is not None:
                station = self.tree[name]["station"]
                self.heard[station] = max(self.heard.get(station, 0), domain["told"]["heard"])

    def commander(self, name):
        """The operator who commands a domain through all levels, `free`, or `?` where that was not told."""
        told = self.domains[name]["told"]
        if told is None:
            return "?"
        holder = told["holder"] or {}
        if "domain" in holder:
            return self.commander(holder["domain"])
        return holder.get("operator", "free")

    def age(self, station):
        """For how many seconds a station was not heard; none where it never was."""
        return (self.now - self.heard[station]) / 1000 if station in self.heard else None

    def silent_stations(self):
        stations = dict.fromkeys(it["station"] for it in self.tree.values())
        return [it for it in stations if self.age(it) is None or self.age(it) > self.limit]

    def in_alarm(self, objects, is_alarm):
        return [name for name, it in objects.items() if it["shown"] and is_alarm(it["shown"]["state"])]

    def depth(self, name):
        above = self.tree[name]["parent"]
        return 0 if above is None else 1 + self.depth(above)

    def in_shape(self):
        """The domains, each before those below it."""
        below = {name: [it for it, of in self.tree.items() if of["parent"] == name] for name in self.tree}
        left = [name for name, it in self.tree.items() if it["parent"] is None]
        while left:
            name = left.pop(0)
            left = below[name] + left
            yield name


def last_command(told):
    """What a domain does, or with what its last command ended."""
    if told is None:
        return "-"
    if told["busy"]:
        return "at work"
    return "-" if told["last"] == 0 else "done" if told["outcome"] == 0 else "ended with %d" % told["outcome"]


def row_of(detector, name):
    domain, station = detector.domains[name], detector.tree[name]["station"]
    age = detector.age(station)
    heard = "never" if age is None else "%.1f s" % age
    mark = " silent" if station in detector.silent_stations() else ""
    state = "not seen" if domain["shown"] is None else domain["shown"]["state"]
    return ["  " * detector.depth(name) + name, state, detector.commander(name), last_command(domain["told"]),
            "%s %s%s" % (station, heard, mark)]


def table(rows):
    """The rows, each column as wide as its widest word."""
    widths = [max(len(row[place]) for row in rows) for place in range(len(rows[0]))]
    return ["  ".join(word.ljust(width) for word, width in zip(row, widths)).rstrip() for row in rows]


def few(names):
    return " ".join(names[:FEW]) + (" and %d more" % (len(names) - FEW) if len(names) > FEW else "")


def judged(detector, is_alarm):
    """The status, and the summary."""
    alarms = detector.in_alarm({**detector.domains, **detector.devices}, is_alarm)
    silent = detector.silent_stations()
    told = ["in alarm: " + few(alarms)] * bool(alarms) + ["silent: " + few(silent)] * bool(silent)
    status = CRITICAL if alarms else WARNING if silent else WELL
    counted = "%d domains, %d devices" % (len(detector.domains), len(detector.devices))
    return status, "%s: %s" % (WORDS[status], "; ".join(told + [counted]))


def pattern_of(text):
    """A pattern as it stands among the words."""
    try:
        return re.compile(text)
    except re.error as error:
        raise argparse.ArgumentTypeError("%s is no pattern: %s" % (text, error)) from error


def kinds_of(path):
    """What a style file says of states: the kind of each."""
    try:
        with open(path, encoding="ascii", errors="replace") as file:
            lines = [line.split() for line in file]
    except OSError as error:
        raise argparse.ArgumentTypeError(str(error)) from error
    return {words[1]: words[2] for words in lines if len(words) > 2 and words[0] == "state"}


def place_of(where):
    """An address and a port, also as the page's address has them: http://127.0.0.1:8080/."""
    return where.removeprefix("http://").rstrip("/")


class Words(argparse.ArgumentParser):
    """The words of this tool: wrong ones end with the status that tells nothing of the detector."""

    def error(self, message):
        self.print_usage(sys.stderr)
        self.exit(UNKNOWN, "%s: %s\n" % (self.prog, message))


def main():
    words = Words(usage=__doc__.split("usage: ")[1].split("\n")[0])
    words.add_argument("where")
    words.add_argument("--alarm", type=pattern_of, default=re.compile(ALARM))
    words.add_argument("--style", type=kinds_of, default={})
    words.add_argument("--silent", type=float, default=SILENT)
    words.add_argument("--brief", action="store_true")
    words.add_argument("--patience", type=float, default=5.0)
    said = words.parse_args()

    def is_alarm(state):
        return said.style[state] == "alarm" if state in said.style else bool(said.alarm.search(state))

    try:
        tree, picture = (fetched(place_of(said.where), it, said.patience) for it in ("/api/tree", "/api/picture"))
        detector = Detector(tree, picture, said.silent)
        status, summary = judged(detector, is_alarm)
        lines = [] if said.brief else table([["DOMAIN", "STATE", "COMMANDED BY", "LAST COMMAND", "STATION, HEARD"],
                                             *(row_of(detector, name) for name in detector.in_shape())])
        devices = detector.in_alarm(detector.devices, is_alarm)
    except (Unread, KeyError, TypeError) as error:
        print("%s: %s" % (WORDS[UNKNOWN], error))
        sys.exit(UNKNOWN)
    print("\n".join([summary, *lines]))
    for name in [] if said.brief else devices:
        print("%s of %s is %s" % (name, detector.domain_of[name], detector.devices[name]["shown"]["state"]))
    sys.exit(status)


if __name__ == "__main__":
    main()
