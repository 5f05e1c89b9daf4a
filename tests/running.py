"""What all tests need: where the repository and its tools are, running a command to its end, waiting for what comes."""

import contextlib
import io
import os
import re
import subprocess
import sys
import time

HERE = os.path.dirname(os.path.abspath(__file__))
ROOT = os.path.dirname(HERE)
EXAMPLES = os.path.join(ROOT, "examples")
# How many seconds a test waits for what has to come.
DEADLINE = 30

# tests import tools by their names
sys.path.insert(0, os.path.join(ROOT, "tools"))


def example(name):
    return os.path.join(EXAMPLES, name)


def text_of(path):
    """Returns the text of a file. The path is one from the root of the repository, or an absolute one."""
    with open(os.path.join(ROOT, path), encoding="utf-8") as file:
        return file.read()


def read(path):
    """Returns the bytes of a file, or None if there is no file."""
    if not os.path.exists(path):
        return None
    with open(path, "rb") as file:
        return file.read()


def write(path, data):
    """Writes a file of these bytes or this text, and returns its path."""
    with open(path, "wb") as file:
        file.write(data if isinstance(data, bytes) else data.encode())
    return path


def memory_of(child):
    """Returns how much memory a process holds, in KiB, or 0 if it has ended."""
    return sum(map(int, re.findall(r"VmRSS:\s+(\d+)", text_of("/proc/%d/status" % child.pid))))


def run(words, given=b"", timeout=DEADLINE, **how):
    """Runs a command, and returns its standard output, standard error and status. Returns None if it does not end."""
    how = {"stdout": subprocess.PIPE, "stderr": subprocess.PIPE, **({} if "stdin" in how else {"input": given}), **how}
    try:
        done = subprocess.run(words, timeout=timeout, check=False, **how)
    except subprocess.TimeoutExpired:
        return None
    return done.stdout, done.stderr, done.returncode


def printed(call, *given):
    """Returns what a call prints, and its result, or the status if it ends the program."""
    said = io.StringIO()
    with contextlib.redirect_stdout(said):
        try:
            came = call(*given)
        except SystemExit as end:
            came = end.code
    return said.getvalue(), came


def at_last(look, wanted, seconds=DEADLINE, pause=0.05):
    """Looks until the wanted value comes, and returns it. Returns the last value if the wanted one is late."""
    until = time.monotonic() + seconds
    came = look()
    while came != wanted and time.monotonic() < until:
        time.sleep(pause)
        came = look()
    return came


def is_so(holds, seconds=DEADLINE, pause=0.05):
    """Returns true once a condition holds, or false if it does not hold in time."""
    return at_last(lambda: bool(holds()), True, seconds, pause)


def end(cases):
    """Prints each case that does not hold, and how many do and do not, and ends the program with the status.

    A case is its name, whether it holds, and what came.
    """
    wrong = [it for it in cases if not it[1]]
    for name, _, came in wrong:
        print("FAILED %s: %s" % (name, came))
    print("%d passed, %d failed" % (len(cases) - len(wrong), len(wrong)))
    sys.exit(1 if wrong or not cases else 0)
