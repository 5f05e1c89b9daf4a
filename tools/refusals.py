"""Keeps the record edits.ok: which crates' mutants were all seen refused, and what that rests on.

usage: refusals.py [CRATE..] | refusals.py --adopt FILE

A line has the crate, a sum of its own files, a sum of what the crates below it state, and the day. A crate that is
named is tried; with no name, each one that has no valid line. What an earlier run here has seen refused over the same
files is not tried again, so a run that was broken off goes on. If only what is below has changed, a crate keeps its
line if the prover, over what it kept when the line was valid, checks nothing again, and no mutant brings in a name that
changed below: then no verdict can be another. --adopt takes the lines that a gate printed of crates whose files are the
same.

The last line is 'N refused, M not'. The status is 0 if each named crate has a valid line then.
"""

import json
import os
import re
import shutil
import subprocess
import sys
import tempfile
import time

import edits
import kit

RECORD = os.path.join(kit.ROOT, "edits.ok")
HEAD = "# The crates whose mutants were all refused: sums of their own files and of what is below, and the day.\n"
# A line that begins an item of a built library, and its name.
DECLARED = re.compile(r"(?:# \[.*?\] )*(?:(?:pub|abbrev|unfoldable|opaque|const|unsafe|static|fn|trait|type|record|data|struct"
                      r"|enum|impl) (?:\( \w+ \) )?)*([^\W\d][\w'-]*)")
TYPE = re.compile(r"(?:# \[.*?\] )*(?:pub )?(?:\( \w+ \) )?(?:enum|struct|record|data)\b")
PRINTED = re.compile(r"edits\.ok: (smi\w*) (\w{64}) (\w{64}) ([\d-]{10})")


def read():
    """Returns the lines of the record, by crate: its own sum, that of what is below, and the day."""
    if not os.path.isfile(RECORD):
        return {}
    with open(RECORD, encoding="ascii") as file:
        return {line.split()[0]: line.split()[1:] for line in file if line.strip() and not line.startswith("#")}


def write(lines):
    """Writes these lines as the record, but for those of crates that are gone."""
    names = {crate.name for crate in kit.crates()}
    with open(RECORD, "w", encoding="ascii") as file:
        file.write(HEAD + "".join("%s %s %s %s\n" % (name, *of) for name, of in sorted(lines.items()) if name in names))


def line_of(crate):
    """Returns the line of a crate whose mutants are all refused today."""
    return [kit.own_sum(crate), kit.below_sum(crate), time.strftime("%Y-%m-%d", time.gmtime())]


def lines_of(tried):
    """Returns the lines of the crates whose mutants were all tried and refused."""
    return {crate.name: line_of(crate) for crate in kit.crates() if tried.get(crate.name)
            and all(it.how == edits.REFUSED for it in tried[crate.name])}


def with_mutants():
    """Returns the crates that have mutants."""
    return [crate for crate in kit.crates() if edits.paths_of(crate)]


def changed():
    """Returns the crates whose own files have changed since their mutants were tried; no library is needed."""
    known = read()
    return [it for it in with_mutants() if known.get(it.name, [""])[0] != kit.own_sum(it)]


def over_changed():
    """Returns the crates over others whose statements have changed since, those with the oldest lines first."""
    known, own = read(), {it.name for it in changed()}
    found = [it for it in with_mutants() if it.name not in own and known[it.name][1] != kit.below_sum(it)]
    return sorted(found, key=lambda it: known[it.name][2])


def link(one, other):
    """Gives a proved file a second name, because a check replaces such files and changes none; copies any other."""
    (os.link if one.endswith(".oantt") else shutil.copy2)(one, other)


def keep(crate, line):
    """Keeps beside the crate what its proof rests on, if the line is valid and the crate is built so."""
    kept, made = (os.path.join(crate.folder, "out", name) for name in ("recorded", "incremental"))
    if not crate.is_built() or not os.path.isdir(made) or line[:2] != line_of(crate)[:2]:
        return
    shutil.rmtree(kept, ignore_errors=True)
    shutil.copytree(made, os.path.join(kept, "incremental"), copy_function=link)
    with open(os.path.join(kept, "below.json"), "w", encoding="utf-8") as file:
        json.dump({"line": line, "stated": [told for it in crate.below() for told in kit.stated(it)]}, file)


def declared(told):
    """Yields the lines of statements, but for imports, each with the name of the item that it is of."""
    for crate, path, text in told:
        name = ""
        for line in text.split("\n"):
            found = DECLARED.match(line)
            name = found[1] if found else name
            if line and not line.lstrip().startswith(("use ", "ghost use ", "pub use ")):
                yield crate, path, name, line


def names_changed(before, after):
    """Returns the names of the items that are other ones in one of two lists of statements; of a type also all words,
    among them its variants."""
    found = set(declared(before)) ^ set(declared(after))
    types = (re.findall(r"\w+", line) for *_, line in found if TYPE.match(line))
    return {name for _, _, name, _ in found} | {word for of in types for word in of}


def words_brought(crate):
    """Returns the words that the crate's mutants bring in."""
    found = set()
    for path in edits.paths_of(crate):
        with open(path, encoding="utf-8") as file:
            text = file.read()
        old, new = (set(re.findall(r"\w+", " ".join(re.findall("(?m)^%s: (.*)$" % word, text))))
                    for word in ("old", "new"))
        found |= new - old
    return found


def is_untouched(crate, line):
    """Returns true if nothing that the crate's proofs and mutants rest on has changed since it was kept with the line."""
    kept = os.path.join(crate.folder, "out", "recorded")
    if not os.path.isfile(os.path.join(kept, "below.json")):
        return False
    with open(os.path.join(kept, "below.json"), encoding="utf-8") as file:
        was = json.load(file)
    now = [told for it in crate.below() for told in kit.stated(it)]
    if was["line"] != line or names_changed(was["stated"], now) & words_brought(crate):
        return False
    with tempfile.TemporaryDirectory(prefix="kept-", dir=os.path.dirname(kept)) as room:
        copy = os.path.join(room, "incremental")
        shutil.copytree(os.path.join(kept, "incremental"), copy, copy_function=link)
        words = [kit.rtlib.RATTLE, "check", *crate.words(["--jobs", "1"], keeps=False), "--incremental", copy]
        ran = subprocess.run([*kit.rtlib.guarded(), *words], cwd=crate.folder, stdout=subprocess.PIPE,
                             stderr=subprocess.STDOUT, text=True, check=False)
    return ran.returncode == 0 and bool(re.search(r"(?m)^crate %s: .* checked=0$" % crate.name, ran.stdout))


def adopt(path):
    """Takes the lines that a gate has printed, for crates whose own files are the same."""
    with open(path, encoding="utf-8", errors="replace") as file:
        printed = {name: of for name, *of in PRINTED.findall(file.read())}
    own, lines = {it.name: kit.own_sum(it) for it in with_mutants()}, read()
    taken = {name: of for name, of in printed.items() if own.get(name) == of[0]}
    write({**lines, **taken})
    print("%d lines taken, %d not" % (len(taken), len(printed) - len(taken)))


def record(names):
    """Tries the mutants of these crates, or of all that have no valid line, and writes what came of it."""
    for crate in kit.crates(names) if names else with_mutants():
        edits.build_below(crate)
    wanted, new = kit.crates(names) if names else changed(), {}
    for crate in [] if names else over_changed():
        line = read()[crate.name]
        if is_untouched(crate, line):
            new[crate.name] = [*line_of(crate)[:2], line[2]]
            print("%s: nothing is checked again, so its line holds" % crate.name, flush=True)
        else:
            wanted.append(crate)
    before = {crate.name: kit.own_sum(crate) for crate in wanted}
    tried = edits.try_all(sorted(wanted, key=lambda it: -len(edits.paths_of(it)) * it.count(rb"\n")), remembers=True)
    new |= {name: line for name, line in lines_of(tried).items() if line[0] == before[name]}
    # (another run may have written lines meanwhile)
    write({**read(), **new})
    for crate in kit.crates(names):
        keep(crate, read().get(crate.name, []))
    refused, others, _ = edits.summary(tried)
    print("%d refused, %d not" % (refused, others))
    return others == 0 and {it.name for it in wanted} <= set(new)


def main():
    os.chdir(kit.ROOT)
    sys.exit(adopt(sys.argv[2]) if sys.argv[1:2] == ["--adopt"] else 0 if record(sys.argv[1:]) else 1)


if __name__ == "__main__":
    main()
