"""Runs all that a change has to pass: every proof and test from nothing, the program as crews use it, and the mutants.

usage: gate.py [--all | --recorded]

If a crate's own files have changed since its mutants were recorded (tools/refusals.py), the gate ends at once and
prints the command that records them. Mutants of crates over changed ones are tried here, those with the oldest lines
first, for at most BUDGET processor seconds, and fewer if the gate would else go on after END; the rest is counted as
not tried again. --all reads no record, tries the mutants of every crate, and writes the record. --recorded only looks
whether the gate would end at once.

Tests that fail are run once more, and their line says so. The last line is 'N passed, M failed'.
"""

import os
import re
import shutil
import subprocess
import sys
import time

import edits
import kit
import refusals

# How long mutants of crates over changed ones are tried at most, and at least, in processor seconds.
BUDGET, LEAST = 50 * 60, 5 * 60
# How long after its begin a gate begins no more mutants than fit, in seconds. Those that have begun were seen to take a
# third more than was reckoned, so a gate may last some minutes longer.
END = 130 * 60
PROGRAM = os.path.join("bin", "smi")
# Debian's python3 is the one that has pytest.
PYTHON = "/usr/bin/python3"
# The tests side by side, those that measure time one after the other, and scripts. Nothing is known of the machine, so
# the crowd's limits of time are twenty times as wide as in `make crowd`, and it waits 30 seconds for an answer.
PYTEST = ["-m", "pytest", "tests", "-m"]
SCRIPTS = {"tests": [*PYTEST, "not alone", "-n", "auto", "--dist", "loadfile"], "tests alone": [*PYTEST, "alone"],
           "tools/page.py": ["tools/page.py"],
           "tests/crowd.py": ["tests/crowd.py", PROGRAM, "--slack", "20", "--patience", "30"],
           "tests/soak.py": ["tests/soak.py", PROGRAM, "--seconds", "40"]}


def run(words):
    """Runs a command whose last line is 'N passed, M failed', and returns both numbers. A run that ended badly has
    failed, whatever it printed."""
    child = subprocess.Popen(words, cwd=kit.ROOT, stdout=subprocess.PIPE, text=True, errors="replace")
    last = ""
    for line in child.stdout:
        print(line, end="", flush=True)
        last = line
    child.wait()
    found = re.fullmatch(r"(\d+) passed, (\d+) failed\n?", last)
    passed, failed = map(int, found.groups()) if found else (0, 1)
    return passed, failed or (1 if child.returncode else 0)


def script(name):
    """Runs the tests or a script, and once more if it fails: of the tests those that failed, which count only then."""
    passed, failed = run([PYTHON, *SCRIPTS[name]])
    if not failed:
        return passed, 0
    print("%s failed, and is run once more" % name, flush=True)
    others, again = (passed, ["--last-failed"]) if "pytest" in SCRIPTS[name] else (0, [])
    passed, failed = run([PYTHON, *SCRIPTS[name], *again])
    return others + passed, failed, ", at the second try"


def take_program(since):
    """Copies the program that this gate has built to where the scripts look for it, or builds it."""
    made = os.path.join(kit.ROOT, "crates", "smi", "out", "smi")
    if os.path.isfile(made) and os.path.getmtime(made) >= since:
        os.makedirs(os.path.join(kit.ROOT, "bin"), exist_ok=True)
        shutil.copy(made, os.path.join(kit.ROOT, PROGRAM))
    else:
        subprocess.run(["make", "--no-print-directory", PROGRAM], cwd=kit.ROOT, check=True)


def unfit(crates):
    """Returns the mutants of these crates that no longer fit their files, as after a change of a comment."""
    found = [edits.Mutant(crate, path) for crate in crates for path in edits.paths_of(crate)]
    return [it.name for it in found if it.how == edits.BAD]


def budget(since):
    """Returns for how many processor seconds a gate that began then may try mutants."""
    left = (END - (time.time() - since)) * os.cpu_count()
    return min(BUDGET, max(LEAST, left))


def try_mutants(is_whole, since):
    """Tries the mutants of all crates, or of those over changed ones as far as the budget goes."""
    trying = refusals.with_mutants() if is_whole else refusals.over_changed()
    rest = [it for it in refusals.with_mutants() if it.name not in {of.name for of in trying}]
    passed, failed = run([PYTHON, "tests/edits_test.py", str(since)]) if trying else (0, 0)
    tried = edits.try_all(trying, since=since, seconds=None if is_whole else budget(since))
    refused, others, untried = edits.summary(tried)
    lines = refusals.lines_of(tried)
    for name, of in lines.items():
        print("edits.ok: %s %s %s %s" % (name, *of))
    if is_whole and not failed:
        refusals.write(lines)
    for name in unfit(rest):
        print("%s does not fit its file" % name)
    recorded = sum(len(edits.paths_of(it)) for it in rest)
    return passed + refused, failed + others + len(unfit(rest)), "; %d not tried again, %d in edits.ok" % (
        untried, recorded)


class Gate:
    """What the parts of the gate that have run came to."""

    def __init__(self):
        self.lines, self.passed, self.failed = [], 0, 0

    def part(self, name, call, *given):
        """Runs a part, and notes how much of it passed and failed."""
        begun, before = time.time(), sum(os.times()[2:4])
        passed, failed, more = (*call(*given), "")[:3]
        self.passed, self.failed = self.passed + passed, self.failed + failed
        self.lines.append("%s: %d passed, %d failed%s (%.1f minutes, %.1f of processor time)" % (
            name, passed, failed, more, (time.time() - begun) / 60, (sum(os.times()[2:4]) - before) / 60))

    def end(self):
        """Prints what came of all, and ends with the status."""
        print("\n".join([*self.lines, "%d passed, %d failed" % (self.passed, self.failed)]))
        sys.exit(1 if self.failed else 0)


def main():
    is_whole = sys.argv[1:] == ["--all"]
    if sys.argv[1:] not in ([], ["--all"], ["--recorded"]):
        sys.exit(__doc__.split("\n\n")[1])
    os.chdir(kit.ROOT)
    names = [] if is_whole else [crate.name for crate in refusals.changed()]
    if names:
        print("mutants to record before this can be merged: make record CRATE='%s'\n0 passed, %d failed"
              % (" ".join(names), len(names)))
    if names or sys.argv[1:] == ["--recorded"]:
        sys.exit(1 if names else 0)
    since, gate = time.time(), Gate()
    with open("/proc/meminfo", encoding="ascii") as file:
        print("%.1f GB free on the disk, %s, load %.1f" % (
            shutil.disk_usage(kit.ROOT).free / 1e9, file.read().split("\n")[2], os.getloadavg()[0]), flush=True)
    gate.part("proofs and tests", run, ["rt", "ci"])
    if not gate.failed:
        take_program(since)
        for name in SCRIPTS:
            gate.part(name, script, name)
        gate.part("mutants", try_mutants, is_whole, since)
    gate.end()


if __name__ == "__main__":
    main()
