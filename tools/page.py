"""The page of the screen, and what it has more where orders may be given, as constants of the program.

usage: page.py [--write | --print]

crates/smi_program/page/ has the page in parts: page.html, and orders.html for what follows it where orders may be
given. A line `@include FILE` in them is replaced by that file: a style, or a module with all that it imports, each
module once and after those that it needs. So the modules are one script, whose names are those of all its modules.
Comments are left out. crates/smi_program/src/page.rt and orders.rt have each as one constant. With --write the
constants are made again, with --print the page is printed, and else the constants are compared. The last line is then
'N passed, M failed'.
"""

import os
import re
import sys

import kit

FOLDER = os.path.join(kit.ROOT, "crates", "smi_program")
PARTS_FOLDER = os.path.join(FOLDER, "page")
HEAD = """//! %s It is made of the files of page/ by tools/page.py.

/// %s
pub const %s: &str = \""""
# What each constant is, by its name, and the constants whose modules are there before it.
PARTS = {"page": "The page.", "orders": "What follows the page if it may give orders (`with_orders`)."}
BEFORE = {"page": [], "orders": ["page"]}
INCLUDE = re.compile(r"^@include (\S+)\n", re.MULTILINE)
IMPORT = re.compile(r"^import (?:\{([^}]*)\} from )?\"([^\"]+)\";\n", re.MULTILINE)
EXPORT = re.compile(r"^export (?=(?:async )?function\b|const\b|let\b)", re.MULTILINE)
# What is left out of a style and of a module: comments, and the lines that they alone are on.
COMMENT = re.compile(r"^[ \t]*//[^\n]*\n|^[ \t]*/\*.*?\*/[ \t]*\n|/\*.*?\*/ ?", re.MULTILINE | re.DOTALL)


def read(path):
    with open(path, encoding="ascii") as file:
        return file.read()


def source(path):
    """The text of a file of the page's folder."""
    return read(os.path.join(PARTS_FOLDER, path))


def imports_of(path):
    """The modules that a module imports, by their paths in the page's folder, each with the names that it takes."""
    found = []
    for names, place in IMPORT.findall(source(path)):
        whole = os.path.normpath(os.path.join(os.path.dirname(path), place))
        found.append((whole, [it.strip() for it in names.split(",") if it.strip()]))
    return found


def modules(path, seen):
    """A module and those that it needs and that were not seen yet, each after those that it needs."""
    if path in seen:
        return []
    seen.add(path)
    return [it for needed, _ in imports_of(path) for it in modules(needed, seen)] + [path]


def plain(text):
    """A text without its comments, and without empty lines."""
    return re.sub(r"\n{2,}", "\n", COMMENT.sub("", text)).lstrip("\n")


def script(path, seen):
    """A module and those that it needs as one script."""
    return "\"use strict\";\n" + "".join(plain(EXPORT.sub("", IMPORT.sub("", source(it)))) for it in modules(path, seen))


def included(name):
    """The files that a part includes, by their paths in the page's folder."""
    return INCLUDE.findall(source(name + ".html"))


def modules_of(name):
    """The modules of a part, in their order, without those that are there before it."""
    seen = {it for before in BEFORE[name] for it in modules_of(before)}
    return [it for path in included(name) if path.endswith(".mjs") for it in modules(path, seen)]


def text_of(name):
    """The text of a part, as it is served."""
    seen = {it for before in BEFORE[name] for it in modules_of(before)}

    def included_text(found):
        path = found[1]
        return script(path, seen) if path.endswith(".mjs") else plain(source(path))

    return INCLUDE.sub(included_text, source(name + ".html"))


def constant(name, text):
    """The source that has this text as its constant."""
    head = HEAD % (PARTS[name].replace("The page.", "The page of the screen."), PARTS[name], name.upper())
    return head + text.replace("\\", "\\\\").replace("\"", "\\\"") + "\";\n"


def is_as_written(name, is_to_be_made):
    """Whether a constant is what the parts say."""
    path = os.path.join(FOLDER, "src", name + ".rt")
    made = constant(name, text_of(name))
    if is_to_be_made:
        with open(path, "w", encoding="ascii") as file:
            file.write(made)
    same = made == read(path)
    if not same:
        print("crates/smi_program/src/%s.rt is not what page/ says: python3 tools/page.py --write makes it so" % name)
    return same


def main(words):
    if words == ["--print"]:
        print(text_of("page"), end="")
        return
    if words not in ([], ["--write"]):
        sys.exit(__doc__)
    same = [is_as_written(name, bool(words)) for name in PARTS]
    print("%d passed, %d failed" % (sum(same), len(same) - sum(same)))
    sys.exit(0 if all(same) else 1)


if __name__ == "__main__":
    main(sys.argv[1:])
