"""Tries the mutants of crates: wrong bodies, each of which the prover has to refuse.

usage: edits.py [--jobs N] [--only TEXT] [CRATE..]

A mutant is a file NAME.edit in crates/CRATE/edits/, in the toolchain's form (a line `file:`, and lines `old:` and
`new:`), with a line `function:` that names the function whose contract it breaks. --only takes the mutants whose names
have that text.

Mutants of different functions are written into one copy of the crate, and the prover is asked for these functions
alone, from nothing. A mutant counts as refused only if a goal of its own function is not proved: a function is proved
from the contracts of what it calls, whatever becomes of their bodies, and a copy in which a goal of an unchanged
function fails tells nothing. What is not refused so is tried again without those that were, and at last alone. A copy
that does not compile is halved. A mutant of more than the body of one function, as of a definition or a constant, is
tried alone, and counts as refused too if its function is a law that rests on a lemma which is not proved any more. With
a line `crate:` it is of a definition in that crate, below the law: the crates between are then read as source.

The last line is 'N refused, M not'. The status is 0 if each was refused.
"""

import argparse
import hashlib
import json
import os
import re
import shutil
import signal
import subprocess
import sys
import tempfile
import threading

import kit

# How many mutants are tried in one copy, and how many in one part of a crate: parts are tried side by side.
MOST, MOST_OF_A_PART = 60, 40
# The memory that a check of a mutant takes, in bytes.
MEMORY = 2_500_000_000
# How a mutant fared; AGAIN: nothing is known yet; UNTRIED: no time was left for it.
REFUSED, PASSED, BAD, AGAIN, UNTRIED = "refused", "NOT REFUSED", "BAD EDIT", "again", "not tried"
FUNCTION = re.compile(r"( *)(?:pub(?:\([a-z]+\))? )?(const )?(?:unsafe )?fn (\w+)")
# An error in a proof file which says no more than that the mutant took a name away.
LOST_NAME = re.compile(r"has no field|is not in scope|has no `|was not admitted")
# An error in any proof file.
LEMMA = re.compile(r"(?m)^(?:\./)?proofs/\S+\.antt:\d+:\d+: error: (.*)$")


def say(text):
    print(text + "\n", end="", flush=True)


def body_of(lines, head):
    """Returns the lines of the body of the function whose head is there, or None: the layout puts its ends below the head."""
    indent = FUNCTION.match(lines[head])[1]
    begins = None
    for at in range(head, len(lines)):
        line = lines[at]
        # the line in which a head ends that has no clauses: its only one, or that of its last parameter
        is_last = at == head or line.startswith((indent + ")", indent + ">"))
        if begins is None and (line.endswith(" {") and is_last or line == indent + "{"):
            begins = at
        elif line.startswith(indent + "}") or line == indent + "{}" or line.endswith("{}") and is_last:
            return range(at if begins is None else begins, at + 1)
        elif at > head and begins is None and line and not (is_last
                                                            or line.startswith((indent + " ", indent + "where"))):
            return None
    return None


def enclosing(text, start, end):
    """Returns the place and name of the function whose body has these bytes, or None if they are in no body."""
    lines = text.split("\n")
    first, last = text.count("\n", 0, start), text.count("\n", 0, end)
    macros = [at for at in range(first) if lines[at].startswith("macro_rules!")]
    if macros and "}" not in lines[macros[-1]:first]:
        return None
    for head in range(first, -1, -1):
        found = FUNCTION.match(lines[head])
        body = body_of(lines, head) if found else None
        if body and first in body and last in body:
            return head, found[3], bool(found[2])
    return None


class Mutant:
    """A mutant as its file has it, and what was found of it."""

    def __init__(self, crate, path):
        self.name, self.path = os.path.basename(path)[:-len(".edit")], path
        self.how, self.why = AGAIN, ""
        with open(path, encoding="utf-8") as file:
            text = file.read()
        self.function, owner = (re.findall(r"(?m)^%s: *(\S+)$" % word, text) for word in ("function", "crate"))
        self.owner = kit.crates(owner)[0] if owner else crate
        texts, why = kit.rt.edited(text, self.owner.folder)
        if why or len(self.function) != 1:
            self.how, self.why = BAD, why or "it names no function, or several"
            return
        self.function, self.texts = self.function[0], {at: new.replace("⏎", "\n") for at, new in texts.items()}
        self.cuts = [] if owner else [(at, *cut_of(crate, at, new)) for at, new in texts.items()]
        places = [place_of(crate, *cut) for cut in self.cuts]
        self.is_wide = bool(owner) or any(not it or it[2] != self.function.split("::")[-1] for it in places)
        self.touched = {self.function, *places}

    def clashes(self, other):
        """Returns true if the two can't be tried in one copy."""
        return self.is_wide or other.is_wide or not self.touched.isdisjoint(other.touched)


def cut_of(crate, path, new):
    """Returns the bytes of the file that the new text replaces, and what with."""
    with open(os.path.join(crate.folder, path), encoding="utf-8") as file:
        old = file.read()
    start = len(os.path.commonprefix([old, new]))
    same = len(os.path.commonprefix([old[start:][::-1], new[start:][::-1]]))
    return start, len(old) - same, new[start:len(new) - same]


def place_of(crate, path, start, end, _new):
    """Returns the place of the one function whose body the cut is in, or None if others may read it, as a constant."""
    if not path.startswith("src/"):
        return None
    with open(os.path.join(crate.folder, path), encoding="utf-8") as file:
        found = enclosing(file.read(), start, end)
    return (path, *found) if found and not found[2] else None


def write_copy(crate, edits, room):
    """Writes the crate into the folder, with these mutants."""
    for part in kit.PROVED:
        if os.path.isdir(os.path.join(crate.folder, part)):
            shutil.copytree(os.path.join(crate.folder, part), os.path.join(room, part))
    # from the last cut on, so that each is still at its place
    for path, start, end, new in sorted((cut for edit in edits for cut in edit.cuts), key=lambda it: (it[0], -it[1])):
        with open(os.path.join(room, path), encoding="utf-8") as file:
            text = file.read()
        with open(os.path.join(room, path), "w", encoding="utf-8") as file:
            file.write(text[:start] + new + text[end:])


def words_over(crate, owner, texts, room):
    """Returns the prover's words for the crate. If the owner is another one, below it, that crate with these texts and
    all between the two are read as source, because what a law rests on is their definitions."""
    words = crate.words(["--jobs", "1"], keeps=False)
    if owner is crate:
        return words
    sources = [it for it in crate.below() if owner.name in {it.name, *(dep.name for dep in it.below())}]
    for it in sources:
        for part in kit.PROVED:
            if os.path.isdir(os.path.join(it.folder, part)):
                shutil.copytree(os.path.join(it.folder, part), os.path.join(room, "below", it.name, part))
    for path, text in texts.items():
        with open(os.path.join(room, "below", owner.name, path), "w", encoding="utf-8") as file:
            file.write(text)
    given, words = words, []
    while given:
        is_one = given[0] in ("--extern", "-L") and any("/crates/%s/" % it.name in given[1] for it in sources)
        words, given = words + ([] if is_one else given[:1]), given[2 if is_one else 1:]
    rlibs = next(it.split("=")[1][:-len("/std.rlib")] for it in words if it.startswith("std="))
    for name in sorted({name for it in sources for name in it.of_kit} - set(crate.of_kit)):
        words += ["--extern", "%s=%s/%s.rlib" % (name, rlibs, name)]
    return words + [it for of in sources for it in ("--lib", "%s=below/%s/src/lib.rt" % (of.name, of.name))]


def check(crate, edits, kept, is_plain=False):
    """Returns what the prover says of the functions in a copy with these mutants, and the processor seconds used. A
    plain copy is without what the first one changes in a crate below."""
    owner, texts = edits[0].owner, {} if is_plain else edits[0].texts
    with tempfile.TemporaryDirectory(prefix="copy-", dir=os.path.dirname(kept)) as room:
        write_copy(crate, edits, room)
        words = [kit.rtlib.RATTLE, "check", *words_over(crate, owner, texts, room), "--incremental", kept]
        words += [it for name in {edit.function for edit in edits} for it in ("--only", name)]
        said = os.path.join(room, "said")
        with open(said, "wb") as out:
            child = subprocess.Popen([*kit.rtlib.guarded(), *words], cwd=room, stdin=subprocess.DEVNULL, stdout=out,
                                     stderr=subprocess.STDOUT)
            _, status, use = os.wait4(child.pid, 0)
            child.returncode = os.waitstatus_to_exitcode(status)
        with open(said, encoding="utf-8", errors="replace") as file:
            return file.read(), use.ru_utime + use.ru_stime


def lines_of(function, said):
    """Returns the lines about the function and its closures, by their names."""
    module, _, name = function.rpartition("::")
    owner, _, kind = module.rpartition("::")
    # a closure of a method is named below its module, before the type
    inner = "%s::fn::%s::%s::" % (owner, kind, name) if kind[:1].isupper() else "%s::fn::%s::" % (module, name)
    return {it: line for it, line in re.findall(r"(?m)^(?:fn|impl) (\S+): (.*)$", said) if it == function
            or it.startswith(inner)}


def goals_of(functions, said):
    """Returns the goals of these functions themselves that are not proved, as the prover names them."""
    own = []
    for function, line in functions.items():
        own += re.findall(r"`search` did not prove ((?:`[^`]*`(?:, )?)+)", line)
        folder = re.escape("/".join(function.split("::")[1:]))
        errors = re.findall(r"(?m)^(?:\./)?proofs/%s/\w+\.antt:\d+:\d+: error: (.*)$" % folder, said)
        own += [it for it in errors if not LOST_NAME.search(it)]
        # the notes on a function's goals are right above its line
        above = re.split(r"(?m)^(?:fn|impl) .*\n", said[:said.index(" %s: %s\n" % (function, line))])[-1]
        own += re.findall(r"(?m)^note: src/\S+: ((?:it is not proved|`search` found no proof).*)$", above)
    return own


def strays(said, edits):
    """Returns the functions with unproved goals of their own that no mutant is of: none, because a function is proved
    from the contracts of what it calls."""
    functions = dict(re.findall(r"(?m)^(?:fn|impl) (\S+): (.*)$", said))
    edited = {it for edit in edits for it in lines_of(edit.function, said)}
    return [it for it, line in functions.items() if it not in edited and goals_of({it: line}, said)]


def verdict(edit, said, is_alone, is_clear):
    """Returns how the mutant fared, and why. In a copy that is not clear another one may be to blame for what failed."""
    lines = lines_of(edit.function, said)
    line = lines.get(edit.function)
    if not line or not re.search(r"(?m)^only=\d+ proved=\d+$", said):
        first = [it for it in said.split("\n") if it.startswith(("error", "rattle"))] or [said.strip()[:200]]
        return (BAD if is_alone else AGAIN), "it was not checked: %s" % first[0][:300]
    of_owner = said.replace("below/%s/" % edit.owner.name, "")
    unread = [it for it in of_owner.split("\n") if kit.rt.unread(it, set(edit.texts))]
    if unread:
        return (BAD if is_alone else AGAIN), "the prover cannot read it: %s" % unread[0][:300]
    goals = goals_of(lines, said)
    if goals and (is_alone or is_clear):
        return REFUSED, goals[0][:160]
    if is_alone and edit.is_wide and not line.startswith("proved"):
        # what its law rests on: a lemma that no longer holds of the definition
        lemmas = [it for it in LEMMA.findall(said) if not LOST_NAME.search(it)]
        if lemmas:
            return REFUSED, lemmas[0][:160]
    if not is_alone:
        return AGAIN, line[:300]
    return PASSED, "%s: %s" % (edit.function, line[:300])


def pick(left, most):
    """Returns some of the mutants that can be tried in one copy; a wide one is alone."""
    batch = []
    for edit in left:
        if len(batch) < most and not any(edit.clashes(it) for it in batch):
            batch.append(edit)
    return batch


class Seen:
    """The mutants of a crate that were seen refused over it as it is, kept in its out folder by the sums of their texts:
    what a run that was broken off has found, and one in which a mutant was not refused."""

    def __init__(self, crate):
        self.path, self.lock = os.path.join(crate.folder, "out", "refused.json"), threading.Lock()
        self.rests_on = "%s %s" % (kit.own_sum(crate, kit.PROVED), kit.below_sum(crate))
        self.sums = set()
        if os.path.isfile(self.path):
            with open(self.path, encoding="ascii") as file:
                kept = json.load(file)
            self.sums = set(kept["sums"]) if kept["rests_on"] == self.rests_on else set()

    def sum_of(self, edit):
        with open(edit.path, "rb") as file:
            return hashlib.sha256(file.read()).hexdigest()

    def has(self, edit):
        return self.sum_of(edit) in self.sums

    def add(self, edits):
        """Keeps these, and writes all of them at once."""
        with self.lock:
            self.sums |= {self.sum_of(it) for it in edits}
            with open(self.path + ".new", "w", encoding="ascii") as file:
                json.dump({"rests_on": self.rests_on, "sums": sorted(self.sums)}, file)
            os.replace(self.path + ".new", self.path)


class Budget:
    """The processor seconds that are left for trying mutants, shared by all parts; None: no limit."""

    def __init__(self, seconds=None):
        self.seconds, self.lock = seconds, threading.Lock()

    def is_spent(self):
        return self.seconds is not None and self.seconds <= 0

    def spend(self, seconds):
        with self.lock:
            self.seconds = None if self.seconds is None else self.seconds - seconds


def try_together(crate, edits, kept, budget, seen=None):
    """Tries the mutants, many at a time, and then what is left in smaller parts, at last each alone. Keeps those that
    are refused, if they are to be."""
    left, most = list(edits), MOST
    while left and not budget.is_spent():
        batch = pick(left, most)
        said, seconds = check(crate, batch, kept)
        if batch[0].owner is not crate and "fn %s: proved" % batch[0].function not in check(crate, batch, kept, True)[0]:
            said = "error: %s is not proved over these sources as they are" % batch[0].function
        budget.spend(seconds)
        is_alone, stray = len(batch) == 1, strays(said, batch)
        if stray:
            say("%s: %s has an unproved goal, and no mutant, so this copy tells nothing" % (crate.name, stray[0]))
        for edit in batch:
            edit.how, edit.why = verdict(edit, said, is_alone, not stray)
        again = [edit for edit in batch if edit.how == AGAIN]
        if seen:
            # (what one of a crate below does also rests on that crate's bodies)
            seen.add([edit for edit in batch if edit.how == REFUSED and edit.owner is crate])
        say("%s: %d tried together, %d refused, %d once more: %.1f processor seconds"
            % (crate.name, len(batch), sum(edit.how == REFUSED for edit in batch), len(again), seconds))
        # if nothing was found the copy may not compile, or each may call another: smaller parts
        most = MOST if len(again) < len(batch) else max(1, len(batch) // 2)
        left = again + [edit for edit in left if edit not in batch]
    for edit in left:
        edit.how, edit.why = UNTRIED, "no time was left"


def paths_of(crate, only="", folder=None):
    """Returns the paths of the crate's mutants whose names have the text, or of those in the folder, by name."""
    folder = folder or os.path.join(crate.folder, kit.MUTANTS)
    names = sorted(os.listdir(folder)) if os.path.isdir(folder) else []
    return [os.path.join(folder, name) for name in names if name.endswith(".edit") and only in name]


def parts_of(edits):
    """Returns the mutants in as many parts as their number asks for, those of one function in different parts, because
    in one part they are tried one after the other."""
    count = -(-len(edits) // MOST_OF_A_PART)
    found = sorted(edits, key=lambda it: (str(it.function), it.path))
    return [found[at::count] for at in range(count)]


def try_part(crate, edits, room, budget, seen=None):
    """Tries the mutants of one part."""
    with tempfile.TemporaryDirectory(prefix="kept-", dir=room) as kept:
        try_together(crate, [edit for edit in edits if edit.how == AGAIN], kept, budget, seen)
    for edit in edits:
        say("%s/%s: %s: %s" % (crate.name, edit.name, edit.how, edit.why))


def room_of_run():
    """Makes a folder for all that this run keeps, which is removed even if a signal ends the run."""
    room = tempfile.mkdtemp(prefix="edits-")

    def end(number, _frame):
        # what the prover still writes ends with this process, and then the folder goes
        subprocess.Popen(["sh", "-c", 'sleep 2; rm -rf "$0"', room], start_new_session=True)
        os._exit(128 + number)

    for number in (signal.SIGINT, signal.SIGTERM, signal.SIGHUP):
        signal.signal(number, end)
    return room


def is_new(crate, since):
    """Returns true if the crate's library was built after that moment, by a gate that proved it from nothing."""
    return since is not None and os.path.isdir(crate.rlib) and os.path.getmtime(crate.rlib) >= since


def build_below(crate, since=None):
    """Builds the libraries below the crate, but for those that a gate has built since that moment."""
    for dep in crate.below():
        if not is_new(dep, since) and dep.build_rlib(["--jobs", "1"], anew=False):
            sys.exit("%s is not built, so nothing above it can be tried" % dep.name)


def ready(crates, since):
    """Builds what is below the crates, and returns those that are proved as they are: a mutant of another says
    nothing."""
    proved = []
    for crate in crates:
        build_below(crate, since)
        if since is None and subprocess.run(["rt", "check", "--jobs", "2"], cwd=crate.folder, capture_output=True,
                                            check=False).returncode:
            say("%s is not proved as it is, so none of its mutants is tried" % crate.name)
        else:
            proved.append(crate)
    return proved


def before(crate, edits):
    """Marks the mutants that an earlier run has seen refused over the crate as it is, and returns what it has seen."""
    seen = Seen(crate)
    for edit in edits:
        if edit.how == AGAIN and seen.has(edit):
            edit.how, edit.why = REFUSED, "as was seen before"
    return seen


def try_all(crates, only="", folder=None, since=None, seconds=None, remembers=False):
    """Tries the mutants of the crates side by side, those of the first crates first, for at most so many processor
    seconds, and returns them by the crate's name; None for a crate that is not proved.

    A moment in `since` says that a gate has proved all crates from nothing since then. If it remembers, what an earlier
    run has seen refused over the same files is not tried again.
    """
    found = {it.name: [Mutant(it, path) for path in paths_of(it, only, folder)] for it in crates}
    crates = [crate for crate in crates if found[crate.name]]
    # (both set signals' handlers, which only the main thread may)
    kit.rtlib.guarded()
    room, tasks, budget = room_of_run(), {}, Budget(seconds)
    proved = ready(crates, since)
    for rank, crate in enumerate(proved):
        seen = before(crate, found[crate.name]) if remembers else None
        for number, part in enumerate(parts_of(found[crate.name])):
            call = lambda _given, _jobs, it=crate, of=part, kept=seen: try_part(it, of, room, budget, kept)
            tasks[crate.name, "edits", number] = ([], len(proved) - rank, MEMORY, call)
    kit.rt.in_lanes(tasks)
    shutil.rmtree(room)
    return {crate.name: found[crate.name] if crate in proved else None for crate in crates}


def summary(tried):
    """Returns how many mutants were refused, how many were not, and how many were not tried; a crate that is not proved
    counts as one that was not refused."""
    edits = [edit for of in tried.values() for edit in of or ()]
    refused, untried = (sum(edit.how == how for edit in edits) for how in (REFUSED, UNTRIED))
    return refused, len(edits) - refused - untried + sum(of is None for of in tried.values()), untried


def main():
    words = argparse.ArgumentParser(usage=__doc__.split("usage: ")[1].split("\n")[0])
    words.add_argument("--jobs", type=int, default=1, help="how many parts of crates are tried side by side")
    words.add_argument("--only", default="")
    words.add_argument("crates", nargs="*")
    said = words.parse_args()
    os.environ["RT_JOBS"] = str(said.jobs)
    os.chdir(kit.ROOT)
    refused, others, _ = summary(try_all(kit.crates(said.crates), said.only))
    print("%d refused, %d not" % (refused, others))
    sys.exit(1 if others or not refused else 0)


if __name__ == "__main__":
    main()
