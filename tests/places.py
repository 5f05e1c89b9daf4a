"""Where things stand in the repository: which files have a text, as docs/CHANGING.md lists them, and where a proof is.

tests/documents_test.py compares both. --write makes the lists that have a pattern again.
"""

import glob
import itertools
import os
import re
import sys

from running import ROOT, text_of

# Code that tests alone run.
OF_TESTS = re.compile(r"^crates/\w+_tests/|/src/tests(\.rt|/)")
# The page that has the lists has the patterns too.
LISTS = "docs/CHANGING.md"
# What is searched for a pattern, by the first word of its row.
SEARCHED = {
    "sources": ["crates/*/src/**/*.rt"], "tests": ["crates/*/src/**/*.rt", "tests/**/*.py", "tests/*.txt"],
    "definitions": ["crates/*/specs/**/*.antt"], "proofs": ["crates/*/proofs/**/*.antt"], "tools": ["tools/*.py"],
    "documents": ["*.md", "docs/*.md", "package/*", "examples/*"]}
# The file of a proof that is not the lemmas of a subject.
ANSWERS = ("Answers.antt", "Invariants.antt", "Proof.antt", "Send.antt")


def found_by(pattern):
    return glob.glob(pattern, root_dir=ROOT, recursive=True)


def searched(where):
    """Returns the files in which the pattern of such a row is looked for."""
    paths = {path for pattern in SEARCHED[where] for path in found_by(pattern)}
    if where in ("sources", "tests"):
        paths = {it for it in paths if not it.startswith("crates/") or bool(OF_TESTS.search(it)) == (where == "tests")}
    return sorted(paths - {LISTS, "tests/places.py"})


def having(where, pattern):
    """Returns those of them that have the pattern."""
    return [path for path in searched(where) if re.search(pattern, text_of(path))]


def spelled_out(path):
    """Returns the paths that one with braces stands for, as in a shell."""
    begun = re.match(r"([^{]*)\{([^}]*)\}(.*)", path)
    return [begun[1] + it + begun[3] for it in begun[2].split(",")] if begun else [path]


def files_in(cell):
    """Returns the paths that a cell names."""
    found = re.findall(r"(?<![\w/.-])((?:crates|docs|examples|package|tests|tools)/[\w./{},@-]*[\w}])", cell)
    found += re.findall(r"(?<![\w/.-])([A-Z]+\.md)", cell)
    return [path for it in found for path in spelled_out(it)]


def lists_in(text):
    """Yields each row of the tables below: what it searches, its pattern or nothing, and the files that it lists."""
    for where, pattern, files in re.findall(r"^\| (\w+) \| (?:`([^`]+)`)? ?\|(.*)\|$", text, flags=re.M):
        yield where, pattern, files_in(files)


def gathered(paths):
    """Returns the paths as a list names them: those of one folder and one kind together, in braces."""
    found = []
    for (folder, kind), group in itertools.groupby(sorted(paths), lambda it: (os.path.dirname(it), it.rsplit(".", 1)[1])):
        names = [os.path.basename(it)[:-len(kind) - 1] for it in group]
        found.append("`%s/%s.%s`" % (folder, names[0] if len(names) == 1 else "{%s}" % ",".join(names), kind))
    return ", ".join(found)


def renewed(text):
    """Returns the text of the lists, where each row with a pattern lists what has it."""
    def row(found):
        where, pattern, files = found[1], found[2], files_in(found[3])
        if where == "proofs" or "(" in found[3] or sorted(files) == sorted(having(where, pattern)):
            return found[0]
        return "| %s | `%s` | %s |" % (where, pattern, gathered(having(where, pattern)))
    return re.sub(r"^\| (\w+) \| `([^`]+)` \|(.*)\|$", row, text, flags=re.M)


def faults_of(where, pattern, files):
    """Returns the faults of such a row: files that are not there, left out, or listed though they lack the pattern."""
    gone = ["no such file: " + it for it in files if not os.path.isfile(os.path.join(ROOT, it))]
    if not pattern:
        return gone or ([] if files else ["nothing is listed"])
    has = having(where, pattern)
    if where == "proofs":
        return gone or ([] if has else ["no proof has it"])
    return (gone + ["left out: " + it for it in has if it not in files]
            + ["lacks it: " + it for it in files if it not in has and it not in gone])


# Proofs

def is_declared(crate, module, name):
    """Returns true if a module declares a type of this name, or one that has the trait that follows its name."""
    path = "crates/%s/src/%s.rt" % (crate, module)
    text = text_of(path) if os.path.isfile(os.path.join(ROOT, path)) else ""
    whole = "".join(text_of(it) for it in found_by("crates/%s/src/**/*.rt" % crate))
    for it in re.findall(r"^(?:pub(?:\(\w+\))? )?(?:struct|enum|trait) (\w+)", text, flags=re.M):
        of_trait = name[len(it):] if name.startswith(it) else None
        if of_trait == "" or of_trait and re.search(r"\bimpl\b[^{;]*\b%s\b[^{;]* for %s\b" % (of_trait, it), whole):
            return True
    return False


def is_derived(crate, module, name, method):
    """Returns true if a method is one that the declaration of its type asks for, as `eq` of `PartialEq`."""
    made = re.findall(r"#\[derive\(([^)]*)\)\]\n(?:pub )?(?:struct|enum) (\w+)", text_of("crates/%s/src/%s.rt" % (crate, module)))
    return method == "eq" and any(name == it + "PartialEq" and "PartialEq" in traits for traits, it in made)


def has_function(crate, module, name):
    """Returns true if the file of a module has a function of this name, or any file of the crate if none is asked."""
    paths = found_by("crates/%s/src/%s.rt" % (crate, module or "**/*"))
    return any(re.search(r"\bfn %s\b" % name, text_of(path)) for path in paths)


def stands_right(path):
    """Returns true if a proof is where docs/CHANGING.md says.

    Lemmas are in `proofs/` itself, the proof of a free function in the folder of its file and its name, and that of a
    method in the folder of the file that declares its type, of the type and of the method. A `Proof` or a `Send` may be
    of a law of the type.
    """
    _, crate, _, *folders, name = path.split("/")
    if not folders:
        return True
    if name not in ANSWERS:
        return False
    free = has_function(crate, "/".join(folders[:-1]) or "lib", folders[-1])
    module, of_type, method = "/".join(folders[:-2]), folders[-2] if len(folders) > 2 else "", folders[-1]
    if free or not of_type or not os.path.isfile(os.path.join(ROOT, "crates", crate, "src", module + ".rt")):
        return free
    declared = is_declared(crate, module, of_type) and (has_function(crate, "", method) or method.startswith("The"))
    return declared or is_derived(crate, module, of_type, method)


def main():
    if sys.argv[1:] == ["--write"]:
        text = text_of(LISTS)
        with open(os.path.join(ROOT, LISTS), "w", encoding="utf-8") as file:
            file.write(renewed(text))


if __name__ == "__main__":
    main()
