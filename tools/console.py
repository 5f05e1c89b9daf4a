"""A console for people: what is typed goes to a node, what it answers is printed.

usage: console.py [--tree TREE] [--wait] WHERE [WORD ..]

WHERE is what the node was started with as --console: a path, or A.B.C.D:PORT. Words behind it are one line, which is
given and answered: `console.py stores/A order ANN take DCS`. Without them lines are read, and each waits for the answer
of the one before; `@a LINE` is one that does not. Lines are those of docs/FORMATS.md, "A node's lines"; `help` lists
them. At a terminal, lines can be called back, and with a TREE the Tab key completes words and names. The console ends
with its input, Ctrl-D, once all is answered, or with Ctrl-C at once. With --wait a node that has just been started is
waited for, five seconds at most.

The status is 1 where the one line was not taken, or its order did not end with 0, and after Ctrl-C. It is 3 where no
node listens there (`no console at ..` on standard error), and where the connection ended before all was answered
(`connection lost`): so it always is where it ends under `follow` or `actions`. A node that answers nothing at all for
ten seconds is told on standard error once, and once when it answers again.
"""

import argparse
import os
import signal
import socket
import sys
import threading
import time

sys.path.insert(0, os.path.dirname(os.path.abspath(__file__)))

import lunskaf

WORDS = ["order", "report", "show", "states", "follow", "actions", "under", "way", "modes", "counts", "version",
         "will", "withdraw", "help", "take", "drop", "do", "include", "exclude", "manual", "ignore", "ask", "watch", "unwatch"]
DECLARED = ["operator", "domain", "device", "state", "action"]
# How long a node that is not there is waited for, in seconds.
PATIENCE = 5
# With which word the last line of an answer begins. What follows or tells actions has no last line.
LAST = {"order": ("told", "replaced", "withdrawn"), "withdraw": ("withdrawn", "begun", "unknown"), "report": ("told",),
        "show": ("board",), "counts": ("counts",), "version": ("version",), "states": ("states",),
        "modes": ("modes",), "under": ("under",), "will": ("will",), "help": ("help",)}
# The tag of the question whether the node answers at all, and for how many seconds nothing may come before it is told.
PROBE, SILENCE = "@is_it_there", 10
# The exit status if there is no node, or no longer one.
NOBODY = 3


def names_in(path):
    """The names that a tree file declares."""
    with open(path, encoding="ascii", errors="replace") as file:
        lines = [line.split() for line in file]
    return [words[1] for words in lines if len(words) > 1 and words[0] in DECLARED]


def completer(words):
    def complete(text, place):
        found = [word for word in words if word.startswith(text)] if text else []
        return found[place] + " " if place < len(found) else None
    return complete


def with_history(words):
    """Has lines called back and completed, where somebody types at a terminal."""
    import readline
    readline.set_completer_delims(" ")
    readline.set_completer(completer(words))
    readline.parse_and_bind("tab: complete")


def connected(where, patience):
    """A connection with a node, which may only be on its way."""
    until = time.monotonic() + patience
    while True:
        try:
            return lunskaf.connected(where, lunskaf.PATIENCE)
        except lunskaf.Lost as lost:
            # a node whose connections wait in a row is there
            is_busy = isinstance(lost.__cause__, BlockingIOError) and time.monotonic() < until + PATIENCE
            if time.monotonic() > until and not is_busy:
                print(lost, file=sys.stderr)
                sys.exit(NOBODY)
            time.sleep(0.05)


class Owed:
    """The lines of a connection that are not answered yet, each by its tag, or its number, and its first word."""

    def __init__(self):
        self.count, self.lines = 0, []

    def give(self, line):
        words = line.split()
        self.count += 1
        if words and not words[0].startswith("#"):
            tag = words.pop(0) if words[0].startswith("@") else str(self.count)
            self.lines.append((tag, words[0] if words else ""))

    def hear(self, line):
        """Takes away the line of which this is the last that is told."""
        words = line.split()
        tag = words.pop(0) if words and words[0].startswith("@") else ""
        if words[:1] == ["full"]:
            self.lines.clear()
        elif words[:1] == ["line"] and words[2:3] == ["fault"]:
            self.leave(lambda it: it[0] == words[1])
        elif words[:1] == ["fault"]:
            self.leave(lambda it: it[0] == tag)
        elif words and (words[0] != "help" or words[1:] and words[1].isdigit()):
            self.leave(lambda it: (it[0] == tag if tag else not it[0].startswith("@"))
                       and words[0] in LAST.get(it[1], ()))

    def leave(self, fits):
        """Takes away the first line that fits."""
        found = next((it for it in self.lines if fits(it)), None)
        if found:
            self.lines.remove(found)


class Pulse:
    """Tells on standard error if a node answers nothing for some seconds while lines wait, and when it answers again.

    An order may wait for another station. So the node is asked for its version, which it answers at once.
    """

    def __init__(self, made, owed):
        self.made, self.owed, self.turn = made, owed, threading.Lock()
        self.heard, self.asked, self.is_told, self.may_ask = time.monotonic(), None, False, True
        threading.Thread(target=self.run, daemon=True).start()

    def send(self, text):
        """Sends a line. If the connection has ended, the thread that reads there finds it out."""
        try:
            with self.turn:
                self.made.sendall((text + "\n").encode("ascii", "replace"))
        except OSError:
            pass

    def give(self, line):
        """Sends a line that is to be answered."""
        self.owed.give(line)
        self.send(line)

    def ask(self):
        self.asked = time.monotonic()
        self.send(PROBE + " version")

    def end(self):
        """Ends the lines: the last question is asked now, because none can be asked later."""
        self.ask()
        self.may_ask = False
        try:
            self.made.shutdown(socket.SHUT_WR)
        except OSError:
            pass

    def hear(self, line):
        """Notes that a line has come, and returns false if it answers the question of the pulse alone."""
        self.heard, self.asked = time.monotonic(), None
        if self.is_told:
            self.is_told = False
            print("the node answers again", file=sys.stderr, flush=True)
        return not line.startswith(PROBE + " ")

    def run(self):
        while True:
            time.sleep(SILENCE / 20)
            time_now, asked = time.monotonic(), self.asked
            if not self.owed.lines or self.is_told:
                continue
            if asked is None and self.may_ask and time_now - self.heard > SILENCE / 2:
                self.ask()
            elif asked is not None and time_now - asked > SILENCE / 2:
                self.is_told = True
                print("the node answers nothing: it may hang", file=sys.stderr, flush=True)


def lines_of(made):
    """What comes, line by line, until the connection ends."""
    with made.makefile("r", encoding="ascii", errors="replace", newline="\n") as lines:
        while True:
            try:
                line = lines.readline()
            except ConnectionError:
                return
            if not line:
                return
            yield line


def printed(pulse):
    """Prints what comes, until the connection ends; the last line."""
    last = ""
    for line in lines_of(pulse.made):
        if pulse.hear(line):
            last = line
            pulse.owed.hear(line)
            print(line.rstrip("\n"), flush=True)
    return last.split()


def is_well(words):
    """Whether a line that ends so was taken, and its order ended with 0."""
    words = words[1:] if words[:1] and words[0].startswith("@") else words
    if words[:1] == ["told"]:
        return words[2] == "ask" and len(words) > 5 or words[-1] == "0"
    return (bool(words) and words[0] not in ("fault", "replaced", "begun", "unknown") and words[2:3] != ["fault"]
            and words != ["full"])


def tell_loss():
    """Tells that the connection has ended too early; the status."""
    print("connection lost", file=sys.stderr, flush=True)
    return NOBODY


def give(made, line):
    """Gives one line; the status."""
    pulse = Pulse(made, Owed())
    pulse.give(line)
    pulse.end()
    last = printed(pulse)
    if pulse.owed.lines:
        return tell_loss()
    return 0 if is_well(last) else 1


class Gone(Exception):
    """The connection has ended while there may be more to give."""


def gone(_signal, _frame):
    raise Gone


class Talk:
    """Each line of the input is given as it comes."""

    def __init__(self, made):
        self.made, self.pulse, self.has_more, self.is_read = made, Pulse(made, Owed()), True, True

    def read(self):
        try:
            printed(self.pulse)
        except BrokenPipeError:
            self.is_read = False
        if self.has_more:
            # who types is told now, and not at the next line
            signal.pthread_kill(threading.main_thread().ident, signal.SIGUSR1)

    def run(self):
        """Gives what is typed; the status."""
        signal.signal(signal.SIGUSR1, gone)
        reader = threading.Thread(target=self.read, daemon=True)
        try:
            reader.start()
            try:
                while True:
                    self.pulse.give(input())
            except EOFError:
                self.has_more = False
                self.pulse.end()
                reader.join()
        except Gone:
            return self.status(is_whole=False)
        return self.status(is_whole=not self.pulse.owed.lines)

    def status(self, is_whole):
        if not self.is_read:
            raise BrokenPipeError
        return 0 if is_whole else tell_loss()


def main():
    words = argparse.ArgumentParser(usage=__doc__.split("\n\n")[1].removeprefix("usage: "))
    words.add_argument("--tree")
    words.add_argument("--wait", action="store_true")
    words.add_argument("where")
    words.add_argument("line", nargs=argparse.REMAINDER)
    given = words.parse_args()
    if sys.stdin.isatty() and not given.line:
        with_history(WORDS + (names_in(given.tree) if given.tree else []))
    try:
        made = connected(given.where, PATIENCE if given.wait else 0)
        sys.exit(give(made, " ".join(given.line)) if given.line else Talk(made).run())
    except KeyboardInterrupt:
        sys.exit(1)
    except BrokenPipeError:
        # nobody reads what is printed: what is left of it goes nowhere
        os.dup2(os.open(os.devnull, os.O_WRONLY), sys.stdout.fileno())
        sys.exit(1)


if __name__ == "__main__":
    main()
