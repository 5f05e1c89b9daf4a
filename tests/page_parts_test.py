"""The parts of the page: that they are what the program serves, that one can read them, and that they fit together."""

import glob
import os
import re
import shutil

import pytest

import page
import running
from running import ROOT, text_of

FOLDER = "crates/smi_program/page"
FILES = sorted(it for it in glob.glob(FOLDER + "/**/*", root_dir=ROOT, recursive=True)
               if os.path.isfile(os.path.join(ROOT, it)))
MODULES = [os.path.relpath(it, FOLDER) for it in FILES if it.endswith(".mjs")]
NODE = shutil.which("node")
# How many lines and columns somebody reads at once.
LINES, COLUMNS = 300, 120
EXPORTED = re.compile(r"^export (?:async )?(?:function|const|let) (\w+)", re.MULTILINE)
DECLARED = re.compile(r"^(?:export )?(?:async )?(?:function|const|let) (\w+)", re.MULTILINE)
# What is no code of a module: comments, and texts in quotes.
NO_CODE = re.compile(r"//[^\n]*|/\*.*?\*/|\"(?:[^\"\\\n]|\\.)*\"|`[^`]*`", re.DOTALL)


def code_of(module):
    """Returns the code of a module without its imports."""
    return NO_CODE.sub(" ", page.IMPORT.sub("", page.source(module)))


def uses(code, name, more=""):
    """Returns true if code uses a name that is no field of something."""
    return re.search(r"(?:(?<![\w$.])|(?<=\.\.\.))%s\b%s" % (re.escape(name), more), code) is not None


def needs(code, name):
    """Returns true if code uses a name that is no key either."""
    return uses(code, name, r"(?!\s*:)")


@pytest.mark.parametrize("name", page.PARTS)
def test_constant(name):
    """The program has the parts as they are today."""
    path = os.path.join(page.FOLDER, "src", name + ".rt")
    assert page.read(path) == page.constant(name, page.text_of(name))


@pytest.mark.parametrize("path", FILES)
def test_size(path):
    """A part can be read at once."""
    lines = text_of(path).split("\n")
    assert len(lines) <= LINES + 1 and max(map(len, lines)) <= COLUMNS


def test_all_are_served():
    """Each file is a part of the page, and each module once."""
    served = [it for name in page.PARTS for it in [name + ".html", *page.modules_of(name)]]
    served += [it for name in page.PARTS for it in page.included(name) if it.endswith(".css")]
    assert sorted(served) == sorted(os.path.relpath(it, FOLDER) for it in FILES)


@pytest.mark.parametrize("module", MODULES)
def test_names(module, subtests):
    """What a module uses of others it imports, and what it imports is there and used."""
    imported, code = page.imports_of(module), code_of(module)
    for other, names in imported:
        with subtests.test("what it takes of " + other):
            assert set(names) <= set(EXPORTED.findall(page.source(other)))
        with subtests.test("what it uses of " + other):
            assert [it for it in names if not uses(code, it)] == []
    known = {it for _, names in imported for it in names} | set(DECLARED.findall(page.source(module)))
    for other in MODULES:
        with subtests.test("what it uses of %s without a word" % other):
            assert [it for it in EXPORTED.findall(page.source(other)) if it not in known and needs(code, it)] == []


def test_one_scope():
    """No two modules declare one name, because they are one script in the end."""
    names = [it for module in MODULES for it in DECLARED.findall(page.source(module))]
    assert sorted(names) == sorted(set(names))


@pytest.mark.skipif(not NODE, reason="there is no node (Debian's nodejs)")
@pytest.mark.parametrize("module", MODULES)
def test_syntax(module):
    assert running.run([NODE, "--check", os.path.join(page.PARTS_FOLDER, module)]) == (b"", b"", 0)


@pytest.mark.skipif(not NODE, reason="there is no node (Debian's nodejs)")
def test_scripts(folder):
    """The scripts of both parts, one after the other as a browser reads them, are one without faults."""
    texts = [re.search(r"<script>\n(.*)</script>", page.text_of(name), re.DOTALL)[1] for name in page.PARTS]
    path = running.write(os.path.join(folder, "both.js"), "".join(texts))
    assert running.run([NODE, "--check", path]) == (b"", b"", 0)


@pytest.mark.parametrize("text, wanted", [
    ("// a word\nlet a = 1;\n\n\nlet b = 2; // kept\n", "let a = 1;\nlet b = 2; // kept\n"),
    ("/** Says\n * what. */\nconst f = (/** @type {any} */ x) => x;\n", "const f = (x) => x;\n"),
    ("/* A style. */\nhtml { color: red }\n", "html { color: red }\n")])
def test_plain(text, wanted):
    """Comments and empty lines are left out, and nothing else is."""
    assert page.plain(text) == wanted


def test_order():
    """A module comes after those that it needs, and only once."""
    for name in page.PARTS:
        order = [it for before in page.BEFORE[name] for it in page.modules_of(before)] + page.modules_of(name)
        for module in page.modules_of(name):
            assert all(order.index(it) < order.index(module) for it, _ in page.imports_of(module)), module
