"""What the tools take from the toolchain and from this repository: its crates, its command, and sums of what is there."""

import functools
import hashlib
import importlib.machinery
import importlib.util
import os
import re
import shutil
import subprocess
import sys

ROOT = os.path.dirname(os.path.dirname(os.path.abspath(__file__)))
# The folders of a crate that the prover reads, and the one of its mutants.
PROVED, MUTANTS = ("src", "specs", "proofs"), "edits"
# Raised by hand when less counts as a refusal than before (tools/edits.py): no older line of the record holds then.
RULES = "1"
# In a library as it is built: a trait or an implementation of one, or else a function that no other crate can call.
TRAIT_OR_PRIVATE = re.compile(
    r"^((?:# \[.*\] )*(?:(?:pub (?:\( \w+ \) )?)?trait|(?:unsafe )?impl .* for) .*\n(?:[^}].*\n)*\}\n)"
    r"|^(?:# \[.*\] )*(?:pub \( (?:crate|super) \) )?(?:const )?(?:unsafe )?fn .*\n(?: .*\n)*", re.MULTILINE)
# In a library as it is built: a proof of a function, which no crate above can cite.
OF_A_FUNCTION = re.compile("antt/proofs/.*/")
# How a line of comment begins, by the kind of file.
COMMENTS = {".rt": b"//", ".antt": b"--"}


def sum_each_once(kind):
    """Makes the crates of this class compute each sum once in a call. Some toolchains do so once for each way that
    leads down to a crate, of which there are thousands from the top."""
    within, known, plain = [], {}, kind.stamp

    def stamp(crate):
        if not within:
            known.clear()
        within.append(crate)
        try:
            if crate.name not in known:
                known[crate.name] = plain(crate)
            return known[crate.name]
        finally:
            within.pop()

    kind.stamp = stamp


def load():
    """Loads the toolchain's own command as a module, so that how it reads a mutant and calls its prover is not written
    twice."""
    loader = importlib.machinery.SourceFileLoader("rt", os.path.realpath(shutil.which("rt")))
    made = importlib.util.module_from_spec(importlib.util.spec_from_loader("rt", loader))
    loader.exec_module(made)
    sum_each_once(made.rtlib.Crate)
    return made


rt = load()
rtlib = rt.rtlib


def crates(names=()):
    """Returns the crates of crates.txt, or those of them with these names, lowest first."""
    found = rtlib.crates_below(ROOT)
    unknown = set(names) - {crate.name for crate in found}
    if unknown:
        sys.exit("no crate of crates.txt: %s" % ", ".join(sorted(unknown)))
    return [crate for crate in found if not names or crate.name in names]


def logic():
    """Returns the sum of the toolchain's logic, which all its builds of the same logic print."""
    said = subprocess.run(["rt", "version"], capture_output=True, text=True, check=True).stdout
    return said.strip().rpartition(" logic ")[2]


def paths_below(folder):
    """Returns the paths of all files below the folder, in order."""
    return sorted(os.path.join(at, name) for at, _, names in os.walk(folder) for name in names)


@functools.cache
def judges():
    """Returns a sum of what judges a mutant: the toolchain's logic, and what its own libraries state. Toolchains that
    have both refuse the same mutants, whatever they are called."""
    whole, at = hashlib.sha256(logic().encode()), os.path.join(rtlib.KIT, "rlibs")
    for library in sorted(os.listdir(at)):
        for part in ("src", os.path.join("antt", "specs")):
            for path in paths_below(os.path.join(at, library, "lang", part)):
                with open(path, "rb") as file:
                    whole.update(repr((os.path.relpath(path, at), hashlib.sha256(file.read()).digest())).encode())
    return whole.hexdigest()


def without_comments(path, data):
    """Returns the file without the lines that are comments alone: no verdict rests on these."""
    mark = COMMENTS.get(os.path.splitext(path)[1])
    return b"\n".join(line for line in data.split(b"\n") if not mark or not line.lstrip().startswith(mark))


def public(text):
    """Returns a file of a built library without the functions that no other crate can call."""
    return TRAIT_OR_PRIVATE.sub(lambda found: found[1] or "", text)


def stated(crate):
    """Yields what a crate above this one is proved from, file by file, from the library as it was built: its items with
    the clauses of functions and without their bodies, its definitions, and the lemmas that belong to no function."""
    lang = os.path.join(crate.rlib, "lang")
    found = [path for part in ("src", "antt") for path in paths_below(os.path.join(lang, part))
             if path.endswith(tuple(COMMENTS)) and not OF_A_FUNCTION.match(os.path.relpath(path, lang))]
    if not found:
        sys.exit("%s is not built" % crate.name)
    for path in found:
        with open(path, "rb") as file:
            text = without_comments(path, file.read()).decode()
        inside = os.path.relpath(path, lang)
        yield crate.name, inside, public(text) if inside.startswith("src") else text


def own_sum(crate, parts=(*PROVED, MUTANTS)):
    """Returns a sum of the crate's own side of its mutants' verdicts: what judges them, the crate's line, sources,
    specifications and proofs without comments, and the mutants. It needs no library."""
    line = (crate.name, sorted(crate.of_kit), sorted(dep.name for dep in crate.deps))
    whole = hashlib.sha256(repr((judges(), RULES, line)).encode())
    for path in (path for part in parts for path in paths_below(os.path.join(crate.folder, part))):
        with open(path, "rb") as file:
            told = os.path.relpath(path, crate.folder), without_comments(path, file.read())
            whole.update(repr(told).encode())
    return whole.hexdigest()


def below_sum(crate):
    """Returns a sum of what the crates below state, once their libraries are built. Bodies are no part of it, because a
    function is proved from the contracts of what it calls."""
    whole = hashlib.sha256()
    for it in sorted(crate.below(), key=lambda it: it.name):
        for told in [(it.name, sorted(it.of_kit), sorted(dep.name for dep in it.deps)), *stated(it)]:
            whole.update(repr(told).encode())
    return whole.hexdigest()
