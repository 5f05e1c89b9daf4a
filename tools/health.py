"""Tells whether nodes are well, in a line for each, by their consoles; for terminals, monitors and the units' watchdog.

usage: health.py [--late SECONDS] [--patience SECONDS] [--tries N] [--metrics FILE] WHERE ..

WHERE is what a node was started with as --console: a path, or A.B.C.D:PORT. A node is well if its console answers, its
station turns, and no order has waited for more than SECONDS (60). The line tells how often the station turned in a
second, how long the oldest order has waited, and those counts that are not to rise (docs/FORMATS.md, "A node's lines").
With --tries a node that is not well is asked again, a second later each time, and only the last answer counts.

The exit status is that of a monitor's plugin, and of several nodes the worst: 0 if all is well, 1 if an order waits for
longer than that, 2 if a node's console does not answer within its patience (5 seconds) or its station does not turn,
and 3 if the words are wrong.

With --metrics all counts are written into FILE in Prometheus' text format, for the textfile collector of its node
exporter, or to standard output if FILE is `-`. FILE is replaced at once and never half written.
"""

import argparse
import os
import sys
import tempfile
import time

sys.path.insert(0, os.path.dirname(os.path.abspath(__file__)))

import lunskaf

WELL, WARNING, CRITICAL, UNKNOWN = range(4)
WORDS = {WELL: "OK", WARNING: "WARNING", CRITICAL: "CRITICAL"}
# What is counted in each turn, of which there is one: a datagram came, nothing came, or the link failed.
TURNS = ("received", "ticks", "faults")
# What a line tells of a node if it is not 0.
TOLD = ("faults", "unsaved", "unmade", "dropped", "foreign")
# For how many seconds a node is looked at, and how long one that is not well is left alone.
LOOK, PAUSE = 0.3, 1.0
# The figures of a node beside its counts, with what each is.
GAUGES = {"up": "1 if the console answers, else 0.", "turns_per_second": "How often the station turns in a second.",
          "orders_waiting": "How many orders are not answered yet.",
          "oldest_order_seconds": "How long the oldest order that is not answered has waited."}
LOST = (lunskaf.Lost, lunskaf.Full, lunskaf.TimeOut, lunskaf.Fault)


class Health:
    """What a node answers of itself in one look. `counts` is None if it does not answer."""

    def __init__(self, where, patience):
        self.where, self.counts, self.fault = where, None, ""
        try:
            with lunskaf.Node(where, patience) as node:
                self.version, before, begin = node.version(), node.counts(), time.monotonic()
                self.waiting = [it.seconds for it in node.under_way()]
                time.sleep(LOOK)
                counts = node.counts()
        except LOST as error:
            self.fault = str(error) or type(error).__name__
            return
        turns = sum(counts[name] - before[name] for name in TURNS)
        self.rate, self.counts = turns / (time.monotonic() - begin), counts

    def status(self, late):
        if self.counts is None or self.rate == 0:
            return CRITICAL
        return WARNING if any(seconds > late for seconds in self.waiting) else WELL

    def line(self, late):
        """Returns the line that tells how the node is."""
        word = WORDS[self.status(late)]
        if self.counts is None:
            return "%s: %s: %s" % (word, self.where, self.fault)
        told = ["%.0f turns a second" % self.rate if self.rate else "its station does not turn",
                "the oldest of %d orders waits for %d s" % (len(self.waiting), max(self.waiting))
                if self.waiting else "no order waits"]
        told += ["%s %d" % (name, self.counts[name]) for name in TOLD if self.counts.get(name)]
        return "%s: %s, version %s: %s" % (word, self.where, self.version, ", ".join(told))

    def gauges(self):
        """Returns the figures of the node beside its counts."""
        if self.counts is None:
            return {"up": 0}
        return {"up": 1, "turns_per_second": round(self.rate, 1), "orders_waiting": len(self.waiting),
                "oldest_order_seconds": max(self.waiting, default=0)}


def looked(where, said):
    """Returns how a node is, by as many looks as it may take until it is well."""
    health = Health(where, said.patience)
    for _ in range(said.tries - 1):
        if health.status(said.late) == WELL:
            break
        time.sleep(PAUSE)
        health = Health(where, said.patience)
    return health


def figures(name, kind, text, samples):
    """Returns the lines of a figure: what it is, and its value for each node."""
    escaped = [(where.replace("\\", "\\\\").replace('"', '\\"'), value) for where, value in samples]
    return ["# HELP smi_node_%s %s" % (name, text), "# TYPE smi_node_%s %s" % (name, kind),
            *('smi_node_%s{console="%s"} %s' % (name, where, value) for where, value in escaped)]


def metrics(nodes):
    """Returns all figures of nodes in Prometheus' text format."""
    lines = []
    for name, text in GAUGES.items():
        found = [(it.where, it.gauges()[name]) for it in nodes if name in it.gauges()]
        lines += figures(name, "gauge", text, found)
    names = dict.fromkeys(name for it in nodes if it.counts for name in it.counts)
    for name in names:
        found = [(it.where, it.counts[name]) for it in nodes if it.counts and name in it.counts]
        lines += figures(name + "_total", "counter", "The count `%s` of a node." % name, found)
    return "\n".join(lines) + "\n"


def replace(path, text):
    """Puts a file in the place of another, so that nobody reads the half of it."""
    with tempfile.NamedTemporaryFile("w", dir=os.path.dirname(os.path.abspath(path)), delete=False) as file:
        file.write(text)
        # a collector of another user has to read it
        os.fchmod(file.fileno(), 0o644)
    os.replace(file.name, path)


class Words(argparse.ArgumentParser):
    """The words of this tool: wrong ones end with the status that tells nothing of a node."""

    def error(self, message):
        self.print_usage(sys.stderr)
        self.exit(UNKNOWN, "%s: %s\n" % (self.prog, message))


def main():
    words = Words(usage=__doc__.split("usage: ")[1].split("\n")[0])
    words.add_argument("--late", type=float, default=60.0)
    words.add_argument("--patience", type=float, default=5.0)
    words.add_argument("--tries", type=int, default=1)
    words.add_argument("--metrics")
    words.add_argument("where", nargs="+")
    said = words.parse_args()
    nodes = [looked(where, said) for where in said.where]
    if said.metrics == "-":
        print(metrics(nodes), end="")
    else:
        print("\n".join(it.line(said.late) for it in nodes))
    if said.metrics not in (None, "-"):
        replace(said.metrics, metrics(nodes))
    sys.exit(max(it.status(said.late) for it in nodes))


if __name__ == "__main__":
    main()
