"""What the tests of the documents read: pages with their headings and tables, and names in the crates."""

import glob
import os
import re

import places
from running import ROOT, text_of

# Under what lib.rt says how its crate is proved.
STORY = "How it is proved"
# A part of a document, as others name it.
QUOTED = re.compile(r"(docs/[\w-]+\.md|README\.md), \"([^\"]+)\"")
# How the names of crates end that are no part of the program: tests, and trials.
OF_TESTS = ("_tests", "_testkit")


def documents():
    """Returns the paths of all documents, from the root."""
    return sorted(glob.glob("*.md", root_dir=ROOT) + glob.glob("docs/*.md", root_dir=ROOT))


def prose(text):
    """Returns a document without its fenced blocks."""
    return re.sub(r"^```.*?^```$", "", text, flags=re.M | re.S)


def headings(text):
    return [line.lstrip("#").strip() for line in prose(text).splitlines() if re.match(r"#+ ", line)]


def tables(text):
    """Returns the rows of all tables, each as its cells, without heads and rules."""
    found, above = [], False
    for line in text.splitlines():
        if line.startswith("|"):
            cells = [cell.strip() for cell in line.strip().strip("|").split("|")]
            if above and not all(re.fullmatch(r":?-+:?", cell) for cell in cells):
                found.append(cells)
            above = True
        else:
            above = False
    return found


def section(text, heading):
    """Returns the text below a heading, up to the next one of its level."""
    begun = re.search(r"^(#+) %s$" % re.escape(heading), text, flags=re.M)
    if not begun:
        return ""
    rest = text[begun.end():]
    ended = re.search(r"^#{1,%d} " % len(begun[1]), rest, flags=re.M)
    return rest[:ended.start()] if ended else rest


def is_defined(crate, file, name):
    """Returns true if a file of definitions has one of that name."""
    path = os.path.join("crates", crate, "specs", file + ".antt")
    begun = r"^(?:(?:pub|abbrev|data|record|unfoldable|opaque) )+%s\b" % re.escape(name)
    return os.path.isfile(os.path.join(ROOT, path)) and re.search(begun, text_of(path), flags=re.M) is not None


def sources(crate, kinds=("src",)):
    """Returns all text of a crate in these folders."""
    places = ["crates/%s/%s/**/*.%s" % (crate, kind, end) for kind in kinds for end in ("rt", "antt")]
    paths = [path for place in places for path in glob.glob(place, root_dir=ROOT, recursive=True)]
    return "\n".join(text_of(path) for path in sorted(paths))


def is_function(crate, name):
    return re.search(r"\bfn %s\b" % re.escape(name), sources(crate)) is not None


def is_edit(crate, name):
    return os.path.isfile(os.path.join(ROOT, "crates", crate, "edits", name + ".edit"))


def named(cell):
    """Returns the names of a cell, each with its crate and, of a definition, its file."""
    return re.findall(r"`(\w+)` \(`(\w+)`(?:, specs/(\w+))?\)", cell)


def crate_lines():
    """Returns the crates of crates.txt, each with those below it."""
    lines = [line.split("#")[0] for line in text_of("crates.txt").splitlines()]
    return {name.strip(): below.split() for name, mark, below in (line.partition(":") for line in lines) if mark}


def long_names(text):
    """Returns the names between backquotes that can be of a file, a type, a definition or a lemma, without paths."""
    quoted = [it for it in re.findall(r"`([^`]+)`", text) if "/" not in it]
    found = {it for name in quoted for it in re.findall(r"\w+", name)}
    return sorted(it for it in found if "_" in it or it[0].isupper())


def names_there(folders):
    """Returns the words of all code and proofs of these crates, without comments, and the names of their files."""
    paths = [it for folder in folders for kind in ("src/**/*.rt", "specs/**/*.antt", "proofs/**/*.antt")
             for it in places.found_by(os.path.join(folder, kind))]
    text = re.sub(r"^\s*(//|--).*$", "", "\n".join(map(text_of, paths)), flags=re.M)
    files = {os.path.splitext(os.path.basename(it))[0] for it in paths}
    return set(re.findall(r"\w+", text)) | files | set(map(os.path.basename, folders))


def story_of(crate):
    """Returns what the head of a crate's lib.rt says below "How it is proved", if anything."""
    head = re.findall(r"^//!(?: (.*)|$)", text_of("crates/%s/src/lib.rt" % crate), flags=re.M)
    return section("\n".join(head), STORY)


def sentences(text):
    """Yields the sentences of a page, those of each cell and item apart. A colon ends one too."""
    units = re.split(r"\n\n|\n(?=[|#]|[-*] |\d+\. )", prose(text))
    for unit in units:
        for cell in unit.strip("|").split("|") if unit.startswith("|") else [unit]:
            yield from re.split(r"(?<=[.?!:])(?:\*\*)?\s+", cell)


def numbers_in(rows, place=0):
    return [int(it) for row in rows for it in re.findall(r"\d+", row[place])]


def declared_in(path):
    """Returns the types that a source file declares, and the other names of types."""
    return re.findall(r"^(?:pub(?:\(\w+\))? )?(?:struct|enum|trait|type) (\w+)", text_of(path), flags=re.M)


def declared_twice():
    """Returns the names that several types have, each with the files that declare one."""
    found = {}
    for path in places.found_by("crates/*/src/**/*.rt"):
        for name in declared_in(path):
            found.setdefault(name, []).append(path)
    return {name: sorted(paths) for name, paths in found.items() if len(paths) > 1}


def in_code(name, crate, file):
    """Returns true if a crate, or a file of its definitions, has this name outside comments."""
    text = text_of("crates/%s/specs/%s.antt" % (crate, file)) if file else sources(crate, ("src", "specs"))
    return re.search(r"\b%s\b" % name, re.sub(r"^\s*(//|--).*$", "", text, flags=re.M)) is not None


def slug(heading):
    return re.sub(r"[^\w\- ]", "", heading.lower()).replace(" ", "-")
