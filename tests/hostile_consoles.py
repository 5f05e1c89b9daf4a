"""Attacks on the consoles of a node: odd lines, many of them, half lines, deaf readers, floods, few descriptors.

usage: hostile_consoles.py [--lines N] [--comers N] PROGRAM

A node of the worked tree has a console at a path and one at an address. It is sent lines that are none, --lines of one
connection, all connections that there may be, readers that are deaf, --comers connections as fast as one program can
make them, and floods of lines. Meanwhile the crew asks at a connection of its own. Then nodes run that may open few
files. A line is printed for each part with its figures, and at the end how many checks passed and failed.
"""

import argparse
import os
import re
import resource
import select
import shutil
import statistics
import tempfile
import threading
import time

import consoles
import hostile
import nodes
import running
from consoles import Console
from hostile import ASK, FREE, LATEST, Beside, Guests, come_again, say_again

# The most connections at one console, and after how many seconds a deaf one is let go (docs/FORMATS.md).
MOST, STUCK, SLACK = 128, 2, 20
# The most memory that a node takes more, in KiB: after lines of one connection, and after many connections.
MORE, MANY_MORE = 8_000, 16_000
NONE = "board DCS none"
# How many seconds a storm lasts that makes too few connections, and for how many the crew asks beside a flood, at least
# this often.
LONGEST, FLOODED, ASKED = 120, 10, 5
# How many files a node may open that serves, and those with which it ends if they are too few.
FILES, FEW_FILES = 32, (4, 5, 6, 7, 8, 9, 10, 12)
# How a node may end that can't have what it needs (docs/NUMBERS.md).
FAULTS = {"read fault", "store fault", "link fault", "console fault", "no memory"}
# How much of a processor a node at rest may take, with all its files used.
BUSY = 0.5

# Lines of a new connection, what each is answered (docs/FORMATS.md, "Lines with a tag"), and whether it ends then: a
# first word that no line has is fault 1 and ends it, and a name that is not well formed is fault 3.
LINES = [
    (b"order ANN\0 take DCS", "line 1 fault 3", False), (b"order \xff\xfe take DCS", "line 1 fault 3", False),
    (b"order ANN take DCS\0", "line 1 fault 3", False), (b"order ANN take DCS\x0b", "line 1 fault 3", False),
    (b"order ANN take \xc3\x84", "line 1 fault 3", False), (b"show \x1b[2J", "line 1 fault 3", False),
    (b"order ANN \x1b]0;x\x07 DCS", "line 1 fault 1", False), (b"\x1b]0;x\x07 order", "line 1 fault 1", True),
    (b"\xef\xbb\xbforder ANN take DCS", "line 1 fault 1", True), (b"\0", "line 1 fault 1", True),
    (b"order ANN ask DCS" + b" " * 183, FREE, False), (b"order ANN ask DCS" + b" " * 184, "line 1 fault 10", False),
    (b"order ANN ask DCS" + b" " * 183 + b"\r", FREE, False), (b"order ANN ask DCS\r\r", "line 1 fault 3", False),
    (b"@" + b"x" * 16 + b" show DCS", "@" + "x" * 16 + " " + NONE, False),
    (b"@" + b"x" * 17 + b" order ANN ask DCS", "line 1 fault 1", True),
    (b"@\xff order ANN ask DCS", "line 1 fault 1", True), (b"@a\0 order ANN ask DCS", "line 1 fault 1", True),
    (b"@ order ANN ask DCS", "line 1 fault 1", True), (b"@@ show DCS", "@@ " + NONE, False),
    (b"@a @b counts", "@a fault 1", False), (b"@a \xff", "@a fault 1", False)]
PLAIN = re.compile(r"[ -~]+")


def lines(site):
    """Says each odd line on a connection of its own, and a question after it, which is answered unless it has ended."""
    for line, wanted, is_end in LINES:
        console = Console(site.where)
        console.socket.sendall(line + b"\nshow DCS\n")
        answer, after = console.line(), console.line()
        console.close()
        is_told = (answer or "").split(":")[0] == wanted and PLAIN.fullmatch(answer)
        yield repr(line[:40]), is_told and (after or "") == ("" if is_end else NONE), (answer, after)
    console, count = Console(site.where), 200
    console.say("@t %s\n" % ASK * count)
    found = [console.line() for _ in range(count)]
    replaced = "@t replaced ANN ask DCS"
    yield "%d questions with one tag" % count, set(found) <= {"@t " + FREE, replaced} and found[-1] != replaced, found
    console.close()


def many_lines(site, count):
    """Says this many lines on one connection: each is answered, and nothing of them is kept."""
    console, before, line, begun = Console(site.where), site.memory(), "show DCS\n", time.monotonic()
    sender = threading.Thread(target=consoles.said_once, args=(console, line * count))
    sender.start()
    answer, came, is_right = (NONE + "\n").encode(), 0, True
    while came < count * len(answer):
        got = console.socket.recv(len(answer) * 1_000)
        at = came % len(answer)
        is_right = is_right and bool(got) and got == (answer * 1_002)[at:at + len(got)]
        came += len(got)
        if not got:
            break
    took = time.monotonic() - begun
    sender.join()
    console.close()
    yield "each is answered", is_right and came == count * len(answer), "%d in %.1f s, %.0f a second" % (
        came // len(answer), took, came / len(answer) / took)
    yield "memory", site.memory() - before < MORE, "%d KiB more" % (site.memory() - before)


def everybody(site):
    """Takes all places at both consoles, with half lines at one: each has places of its own."""
    held = Guests(site.where, b"half a li", MOST - 1)
    is_free, longest = site.crew_waits()
    yield "the crew beside %d half lines" % (MOST - 1), is_free and longest < LATEST, "%.3f s" % longest
    over_tcp = [Console(site.tcp) for _ in range(MOST)]
    told = [it.ask("show DCS") for it in over_tcp]
    yield "as many over TCP", told == [NONE] * MOST, told
    for name, where in [("a path", site.where), ("an address", site.tcp)]:
        found = Console(where).rest()
        yield "one more at %s is told that it is full" % name, found == ["full"], found
    is_free, longest = site.crew_waits()
    yield "the crew beside all of them", is_free and longest < LATEST, "%.3f s" % longest
    # what is half a line, is a line once the rest of it has come
    held.say(b"\nshow DCS\n")
    yield "half lines are none", running.is_so(lambda: held.ended() == MOST - 1, SLACK), held.ended()
    held.end()
    for console in over_tcp:
        console.close()
    for name, where in [("a path", site.where), ("an address", site.tcp)]:
        yield has_room("there is room again at " + name, where)


def answer_at(where):
    """Returns what a new connection is answered."""
    console = Console(where)
    told = console.ask("show DCS")
    console.close()
    return told


def has_room(name, where):
    """Returns whether a new connection is served at last."""
    return name, running.is_so(lambda: answer_at(where) == NONE, SLACK), None


def deaf(site, count=100):
    """Holds connections that ask much and never read: the crew is answered, and each of them is let go."""
    held, looks = Guests(site.where, b"states\nhelp\n" * 3_000, count, room=2_048), select.poll()
    for one in held.held:
        looks.register(one, select.POLLRDHUP)
    is_free, longest = site.crew_waits(20)
    yield "the crew beside %d deaf readers" % count, is_free and longest < LATEST, "%.3f s" % longest
    begun = time.monotonic()
    is_gone = running.is_so(lambda: len(looks.poll(0)) == count, STUCK + SLACK)
    yield "they are let go", is_gone, "%d within %.1f s" % (len(looks.poll(0)), time.monotonic() - begun)
    held.end()


def settled(site):
    """Returns whether the crew is answered as before, once all lines are skipped of connections that have ended."""
    time.sleep(STUCK)
    return "the crew afterwards", running.is_so(lambda: site.crew.ask(ASK) == FREE, SLACK), None


def storm(site, count):
    """Has connections come as fast as one program can make them, with orders, with half lines and with nothing."""
    before, longest, is_free, until = site.memory(), 0.0, True, time.monotonic() + LONGEST
    comers = Beside(come_again, site.where, [b"@a order ANN ask DCS\n@b follow\nhalf", b"show DCS\n", b""])
    while comers.count.value < count and time.monotonic() < until:
        # the storm asks in ANN's name too, and a newer question replaces an older one
        told, took = consoles.timed(site.crew.ask, ["show DCS"] * 5)
        is_free, longest = is_free and told == [NONE] * 5, max(longest, *took)
        time.sleep(0.01)
    made, rate = comers.end()
    yield "connections", made >= count, "%d, %.0f a second" % (made, rate)
    yield "the crew beside it", is_free and longest < LATEST, "%.3f s at most" % longest
    yield has_room("there is room again", site.where)
    yield settled(site)
    yield "memory", site.memory() - before < MANY_MORE, "%d KiB more" % (site.memory() - before)


# What connections say without end, how many do, and what the crew may be told of its own question then.
REPLACED = "replaced ANN ask DCS"
FLOODS = [("states", "states\n", 20, {FREE}), ("lines that are none", "show\n", 20, {FREE}),
          ("commands of the same operator", "@x order ANN do DCS CONFIGURE\n", 1, {FREE}),
          ("reports of a device elsewhere", "@r report HV READY\n", 5, {FREE}),
          ("questions of the same operator", "@x %s\n" % ASK, 1, {FREE, REPLACED}),
          ("the same questions", "@x %s\n" % ASK, 20, {FREE, REPLACED})]


def fairness(site, seconds=FLOODED):
    """Has connections say lines without end: the crew's question is answered beside them, each time."""
    for name, line, count, wanted in FLOODS:
        flood = Beside(say_again, site.where, line.encode() * 200, count)
        running.is_so(lambda: flood.count.value > len(line) * 200)
        took, told, until = [], set(), time.monotonic() + seconds
        while len(took) < ASKED or time.monotonic() < until:
            begun = time.monotonic()
            told.add(site.crew.ask(ASK))
            took.append(time.monotonic() - begun)
        said, _ = flood.end()
        is_soon = max(took) < LATEST and told <= wanted
        yield "%d that flood %s" % (count, name), is_soon and said > len(line) * 200, "%.0f ms, at most %.0f" % (
            1000 * statistics.median(took), 1000 * max(took)) if told <= wanted else told
    yield settled(site)


def limited(count):
    """Returns a call that lets a process open this many files at most."""
    return lambda: resource.setrlimit(resource.RLIMIT_NOFILE, (count, count))


def processor_seconds(child):
    fields = running.text_of("/proc/%d/stat" % child.pid).rsplit(")", 1)[1].split()
    return (int(fields[11]) + int(fields[12])) / os.sysconf("SC_CLK_TCK")


def all_files(site):
    """Takes all files that a node may open: it serves its crew, saves, and does not spin."""
    held = Guests(site.where, b"", 2 * FILES)
    is_free, longest = site.crew_waits()
    yield "the crew beside as many as have come", is_free and longest < LATEST, "%.3f s" % longest
    told = [site.crew.ask("order ANN " + order) for order in ("take DCS", "drop DCS")]
    yield "orders are saved", told == ["told ANN take DCS 0", "told ANN drop DCS 0"], told
    before, begun = processor_seconds(site.node.child), time.monotonic()
    time.sleep(2)
    share = (processor_seconds(site.node.child) - before) / (time.monotonic() - begun)
    yield "of a processor", share < BUSY, "%.0f %%" % (100 * share)
    held.end()
    yield has_room("there is room again", site.where)
    site.node.kill()
    yield "the node has told no fault", (site.node.out, site.node.err) == ([], []), site.node.err


def few_files(program, folder):
    """Runs nodes that may open few files: each serves, or says why it can't."""
    tree, served = nodes.write_tree(folder, nodes.free_ports(2)), []
    for count in FEW_FILES:
        words = [tree, "A", os.path.join(folder, "few%d" % count), "--turns", nodes.FEW,
                 "--console", os.path.join(folder, "door%d" % count)]
        done = nodes.ran(program, words, preexec_fn=limited(count))
        is_said = done and done[2] == 3 and len(done[1]) == 1 and done[1][0] in FAULTS
        served += [count] if done == ([], [], 0) else []
        yield "a node that may open %d files" % count, done == ([], [], 0) or is_said, done
    yield "nodes serve", served == list(FEW_FILES[-len(served):]) and served, "from %s files on" % min(served or [0])


def files(program, cases):
    """Runs the attacks on nodes that may open few files, and adds their checks."""
    folder = tempfile.mkdtemp()
    site = hostile.Site(program, folder, has_screen=False, preexec_fn=limited(FILES))
    try:
        hostile.told("all of %d files" % FILES, all_files(site), cases)
        hostile.told("few files", few_files(program, folder), cases)
    finally:
        site.end()
        shutil.rmtree(folder, ignore_errors=True)


def main():
    words = argparse.ArgumentParser(usage=__doc__.split("usage: ")[1].split("\n")[0])
    words.add_argument("--lines", type=int, default=100_000)
    words.add_argument("--comers", type=int, default=45_000)
    words.add_argument("program")
    given, cases = words.parse_args(), []
    program = os.path.abspath(given.program)
    hostile.run_parts(program, [
        ("lines", lines), ("%d lines" % given.lines, lambda site: many_lines(site, given.lines)),
        ("everybody", everybody), ("deaf", deaf), ("storm", lambda site: storm(site, given.comers)),
        ("fairness", fairness)], cases, has_screen=False)
    files(program, cases)
    running.end(cases)


if __name__ == "__main__":
    main()
