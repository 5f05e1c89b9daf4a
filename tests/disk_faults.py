"""What a node does when it is killed, when its disk fails, when its clock jumps, and when its store is damaged.

usage: disk_faults.py [--kills N] [--faults N] [--damages N] [--only PART] [--seed N] PROGRAM

Station A of the worked tree runs alone, and ANN orders about DCS all the time (tests/ledgers.py). The parts:

kills     SIGKILL at any moment, also in a start. Nothing that was told is lost, and each start is counted
faults    from its n-th call on the disk refuses writes, syncs, cuts or reads, or does half a write, once or for good
          (tests/faults.c). What is told as failed may be done. The node goes on, or ends with `stopped` or
          `store fault`, and its next start has all that was told
damages   the file of a store that was closed, or the log of one that was killed, is cut, grown, or has pages of zeros,
          of noise, or in each other's place. A start refuses it by a line that docs/NUMBERS.md has, or has the rows of
          some moment; a damage of the file is always refused
clocks    the clocks jump by a day and by many years, forth and back. Orders are answered all the time
signals   each signal ends the node or does not, and nothing that was told is lost
limits    with little memory a node serves, or says `no memory`
"""

import argparse
import collections
import errno
import os
import random
import resource
import signal
import sqlite3
import struct
import tempfile
import threading
import time

import ledgers
import running
from ledgers import Crew, Place, Saved, has_ended

STOPPED, STORE_FAULT, NO_MEMORY = ["stopped"], ["store fault"], ["no memory"]
# Lines with which a start may refuse a damaged store, and the statuses that go with them.
REFUSALS = {"store fault": 3, "store has a damaged log": 1, "store differs from its sum": 1,
            "store is older than its label": 1, "store is empty beside its label": 1, "store of another tree": 1}
# What faults.c makes fail, and its words.
WRITE, SYNC, CUT, READ, HALF = 1, 2, 4, 8, 16
KINDS = {"writes": WRITE, "syncs": SYNC, "cuts": CUT, "reads": READ, "half writes": HALF,
         "writes and syncs": WRITE | SYNC}
WORDS = ("calls", "first", "many", "error", "what", "done", "made", "monotonic", "real")
# The last call that is the first to fail, how often a kill comes in a start, and after how many answers at most.
LAST_CALL, IN_A_START, MOST = 120, 0.15, 100
DAY, YEARS = 86_400, 50 * 365 * 86_400
JUMPS = [("real", YEARS), ("real", -YEARS), ("real", 0), ("monotonic", DAY), ("monotonic", 2 * YEARS), ("monotonic", 0),
         ("monotonic", -10 ** 9), ("monotonic", 0)]
SIGNALS = ("SIGHUP", "SIGPIPE", "SIGQUIT", "SIGUSR1", "SIGUSR2", "SIGALRM", "SIGWINCH", "SIGCHLD", "SIGURG", "SIGIO",
           "SIGVTALRM", "SIGXCPU", "SIGCONT")
# Signals that end no program unless it wants so.
IGNORED = ("SIGWINCH", "SIGCHLD", "SIGURG", "SIGCONT")
# How much memory a node is given, in KiB.
MEMORY = (8_000, 12_000, 16_000, 24_000, 32_000, 64_000, 100_000)
PAGE = 512
# How long ANN orders at most, in seconds, if she waits for this many answers.
LONGEST = 20


def folder_in(folder, number):
    """Makes a folder with a short name."""
    path = os.path.join(folder, str(number))
    os.mkdir(path)
    return path


def read_at_last(place, before):
    """Returns what a store says, or what was before if none was made yet, and what is wrong with it."""
    try:
        return place.saved(), ""
    except sqlite3.Error as fault:
        return before, "sqlite3 says %s" % fault if before.boot else ""


def killed(place, draw, before):
    """Has a node live until it is killed. Returns what was told, and what is wrong then."""
    if draw.random() < IN_A_START:
        node, crew, strange = place.node(), Crew(None, draw, before), None
        time.sleep(draw.uniform(0, 0.03))
    else:
        node, console = place.start()
        if console is None:
            return None, "it ended with %s" % (node.end(),)
        timer, crew = threading.Timer(draw.uniform(0, 0.03), node.child.kill), Crew(console, draw, before)
        strange = crew.work(LONGEST, draw.randrange(MOST))
        timer.start()
        strange = strange or crew.work(LONGEST)
        timer.join()
        console.close()
    node.kill()
    return crew, "answered %r" % strange if strange else "told %s" % node.err if node.err else ""


def kills(program, folder, draw, count):
    """Kills a node many times on one store."""
    place, before, told, cases = Place(program, folder), Saved(), 0, []
    for kill in range(count):
        crew, fault = killed(place, draw, before)
        now, unread = read_at_last(place, before)
        if crew:
            told += crew.told
            boots = [before.boot + 1] if crew.told else [before.boot, before.boot + 1]
            fault = fault or unread or crew.fault(now) or ("" if now.boot in boots else "boot %d" % now.boot)
        cases.append(("kill %d" % kill, not fault, "%s, before %s, now %s" % (fault, before, now)))
        before = now
    print("kills: %d, %d answers, %s" % (count, told, before), flush=True)
    return [*cases, ("much was told", told > 10 * count, told)]


class Faults:
    """The words that faults.c reads."""

    def __init__(self, folder):
        self.path = running.write(os.path.join(folder, "faults"), bytes(8 * len(WORDS)))
        self.env = {**ledgers.library("faults.c", folder), "FAULTS": self.path}

    def set(self, **words):
        with open(self.path, "r+b", buffering=0) as file:
            for name, value in words.items():
                file.seek(8 * WORDS.index(name))
                file.write(struct.pack("q", value))

    def get(self, name):
        return struct.unpack("%dq" % len(WORDS), running.read(self.path))[WORDS.index(name)]


def live(place, draw, answers, **how):
    """Has a node answer some orders on a new store, and returns what is saved then."""
    node, console = place.start(**how)
    Crew(console, draw, Saved()).work(LONGEST, answers)
    node.kill()
    console.close()
    return place.saved()


def failing(place, faults, draw, before):
    """Has a node live while the disk fails. Returns the crew, how it ended, and what is wrong with that."""
    node, console = place.start(env=faults.env)
    crew, strange = Crew(console, draw, before), None
    if console:
        strange = crew.work(LONGEST, 60)
        console.close()
    if has_ended(node, 0.5):
        _, said, status = node.end()
        is_told = (said, status) in ((STOPPED, 3), (STORE_FAULT, 3))
        return crew, "%s %s" % (said, status), "" if is_told else "it ended with %s %s" % (said, status)
    node.kill()
    return crew, "it went on", "answered %r" % strange if strange else ""


def started(place, crew):
    """Returns what is wrong with a start on what was left."""
    node, console = place.start()
    line = console.ask("order ANN ask DCS") if console else node.end()
    node.kill()
    words = line.split(" ") if isinstance(line, str) else []
    is_well = words[:4] == ["told", "ANN", "ask", "DCS"] and int(words[-4]) >= crew.epoch
    return "" if is_well else "after a start: %s, told epoch %d" % (line, crew.epoch)


def drawn_fault(draw):
    """Returns the name of a fault, and its words."""
    name, of = draw.choice(list(KINDS.items()))
    error, many = draw.choice([errno.EIO, errno.ENOSPC]), draw.choice([1, -1])
    # of a write or a sync it may be that it was done all the same
    done, first = draw.randrange(2) if of & (WRITE | SYNC) else 0, draw.randrange(1, LAST_CALL)
    words = {"calls": 0, "made": 0, "first": first, "many": many, "error": error, "what": of, "done": done}
    return "%s fail with %s from call %d, %s%s" % (
        name, errno.errorcode[error], first, "once" if many == 1 else "for good", ", and are done" * done), words


def faults_of_disk(program, folder, draw, count):
    """Has the disk fail many times, each time on a store of its own."""
    place, faults = Place(program, folder), Faults(folder)
    ends, made, cases = collections.Counter(), 0, []
    for _ in range(count):
        place.put({})
        faults.set(first=0, calls=0)
        before = live(place, draw, 20, env=faults.env) if draw.random() < 0.7 else Saved()
        name, words = drawn_fault(draw)
        faults.set(**words)
        crew, end, fault = failing(place, faults, draw, before)
        made += faults.get("made") > 0
        ends[end] += 1
        faults.set(first=0)
        now, unread = read_at_last(place, before)
        cases.append((name, not fault, fault))
        cases.append((name + ": rows", not (unread or crew.fault(now)), unread or crew.fault(now)))
        wrong = started(place, crew)
        cases.append((name + ": the next start", not wrong, wrong))
    print("faults: %d, %d of them made; %s" % (count, made, ", ".join("%d %s" % (of, it) for it, of in ends.items())))
    return [*cases, ("faults were made", made > 0, made)]


def damaged(draw, data):
    """Returns how bytes are damaged, and what they are then."""
    kind = draw.choice(["cut", "emptied", "grown", "zeros", "noise", "swapped"])
    pages = [draw.randrange(max(1, len(data) // PAGE)) * PAGE for _ in range(2)]
    whole, places = bytearray(data), [slice(it, it + PAGE) for it in pages]
    if kind == "cut":
        return kind, bytes(whole[:draw.randrange(len(whole))])
    if kind in ("emptied", "grown"):
        return kind, b"" if kind == "emptied" else bytes(whole) + draw.randbytes(draw.randrange(1, 3000))
    if kind == "swapped":
        whole[places[0]], whole[places[1]] = data[places[1]], data[places[0]]
    else:
        whole[places[0]] = bytes(len(data[places[0]])) if kind == "zeros" else draw.randbytes(len(data[places[0]]))
    return kind, bytes(whole)


def damages(program, folder, draw, count):
    """Damages the file of a closed store, and the log of one that was killed, and starts the node on them."""
    place, seen, cases = Place(program, folder), collections.Counter(), []
    saved = live(place, draw, 100)
    killed_at, closed = place.files(), place.begun()
    cases.append(("a node that ends by itself", closed == ([], [], 0), closed))
    stores = {"-wal": killed_at, "": place.files()}
    for damage in range(count):
        end = draw.choice(list(stores))
        kind, data = damaged(draw, stores[end][end])
        place.put({**stores[end], end: data})
        came, name = place.begun(), "damage %d: STORE%s %s" % (damage, end, kind)
        if came == ([], [], 0):
            now = place.saved()
            # what a log has lost at its end is not seen, and the file of a closed store is always compared
            is_well = data == stores[end][end] or end == "-wal" and (now.epoch, now.last) <= (saved.epoch, saved.number)
            told = "as before" if (now.epoch, now.last) >= (saved.epoch, saved.last) else "of an earlier moment"
        else:
            told = came[1][0] if came and len(came[1]) == 1 else "%s" % (came,)
            is_well = came is not None and came == ([], [told], REFUSALS.get(told))
        seen["STORE%s %s: %s" % (end, kind, told)] += 1
        cases.append((name, is_well, told))
    for what, of in sorted(seen.items()):
        print("damages: %d %s" % (of, what), flush=True)
    return cases


def share_of_processor(child, seconds):
    """Returns which share of a processor a process takes for some seconds."""
    def used():
        fields = running.text_of("/proc/%d/stat" % child.pid).rsplit(")", 1)[1].split()
        return (int(fields[11]) + int(fields[12])) / os.sysconf("SC_CLK_TCK")

    before, begun = used(), time.monotonic()
    time.sleep(seconds)
    return (used() - before) / (time.monotonic() - begun)


def clocks(program, folder, draw, count):
    """Has the clocks jump under a node. Each jump is tried as often as is said."""
    place, faults, cases = Place(program, folder), Faults(folder), []
    node, console = place.start(env=faults.env)
    for name, seconds in JUMPS * count:
        faults.set(**{name: seconds})
        told = []
        for _ in range(5):
            time.sleep(draw.uniform(0, 0.1))
            told.append(console.ask("order ANN ask DCS"))
            if not told[-1] and node.child.poll() is None:
                # a connection may be let go, as one that takes nothing for too long
                console.close()
                console = ledgers.consoles.Console(place.where)
                told[-1] = console.ask("order ANN ask DCS")
        wanted = ["told ANN ask DCS free 0 0 settled 0"] * 5
        cases.append(("%s clock ahead by %d seconds" % (name, seconds), told == wanted, told))
    node.kill()
    console.close()
    print("clocks: %d jumps" % (len(JUMPS) * count), flush=True)
    return cases


def without_a_dump():
    """Has a process that a signal ends leave no dump of its memory."""
    resource.setrlimit(resource.RLIMIT_CORE, (0, 0))


def signals(program, folder, draw, count):
    """Sends each signal to a node. Each is sent as often as is said."""
    cases, ends = [], collections.Counter()
    for number, name in enumerate(SIGNALS * count):
        place, sent = Place(program, folder_in(folder, number)), getattr(signal, name)
        node, console = place.start(preexec_fn=without_a_dump)
        crew = Crew(console, draw, Saved())
        crew.work(LONGEST, 20)
        node.child.send_signal(sent)
        strange, goes_on = crew.work(LONGEST, 60), crew.told >= 60
        has_ended(node, 0 if goes_on else LONGEST)
        status = node.child.poll()
        ends["went on" if goes_on else "ended by it"] += 1
        node.kill()
        console.close()
        fault = strange or crew.fault(place.saved()) or started(place, crew)
        is_known = status == (None if goes_on else -sent) and (goes_on or name not in IGNORED)
        cases.append((name, is_known and not fault, "status %s %s %s" % (status, node.err, fault)))
    print("signals: %d, %s" % (len(cases), ", ".join("%d %s" % (of, it) for it, of in ends.items())), flush=True)
    return cases


def limits(program, folder, draw, count):
    """Gives a node little memory, in two ways. Each limit is tried as often as is said."""
    cases, ends, number = [], [], 0
    for what, name in ((resource.RLIMIT_AS, "ulimit -v"), (resource.RLIMIT_DATA, "ulimit -d")):
        for kib in MEMORY * count:
            number += 1
            place, crew, most = Place(program, folder_in(folder, number)), None, (kib * 1024, kib * 1024)
            node, console = place.start(preexec_fn=lambda of=what, most=most: resource.setrlimit(of, most))
            if console:
                crew = Crew(console, draw, Saved())
                crew.work(LONGEST, 40)
                console.close()
            ended = node.end() if has_ended(node, 0.2) else None
            node.kill()
            serves = ended is None and crew is not None and crew.told > 0
            is_told = ended is not None and (ended[1], ended[2]) == (NO_MEMORY, 4)
            fault = crew.fault(place.saved()) if crew and crew.told else ""
            cases.append(("%s %d" % (name, kib), (serves or is_told) and not fault, "%s %s" % (ended, fault)))
            ends.append("%s %d: %s" % (name, kib, "serves" if serves else ended and ended[1:]))
    print("limits: " + "; ".join(ends), flush=True)
    return cases


# Each part, and how much of it is done if nothing else is said.
PARTS = {"kills": (kills, 100), "faults": (faults_of_disk, 43), "damages": (damages, 60), "clocks": (clocks, 1),
         "signals": (signals, 1), "limits": (limits, 1)}


def main():
    words = argparse.ArgumentParser(usage=__doc__.split("usage: ")[1].split("\n")[0])
    words.add_argument("program")
    words.add_argument("--kills", type=int, default=PARTS["kills"][1])
    words.add_argument("--faults", type=int, default=PARTS["faults"][1])
    words.add_argument("--damages", type=int, default=PARTS["damages"][1])
    words.add_argument("--only", choices=PARTS)
    words.add_argument("--seed", type=int, default=1)
    given = words.parse_args()
    print("seed %d" % given.seed, flush=True)
    cases = []
    for name, (part, count) in PARTS.items():
        if given.only in (None, name):
            with tempfile.TemporaryDirectory() as folder:
                draw = random.Random("%d %s" % (given.seed, name))
                cases += part(os.path.abspath(given.program), folder, draw, getattr(given, name, count))
    running.end(cases)


if __name__ == "__main__":
    main()
