"""Lines of over 120 columns, and plain English in the comments of sources and in the documents.

Sources are read line by line; a line that is long for a text in quotes alone may be. Some words may not stand at all,
others are counted (docs/GLOSSARY.md, "Plain words"). tests/english.py prints the figures and the worst files.
"""

import os
import re

import pytest

import english
from english import COMMENTS, DOCUMENTS, GLOSSARY, SOURCES
from running import ROOT, text_of

WIDTH = 120
# The least share of functions whose doc begins with a verb, and how many calques there may be in all.
LEAST_VERBS, MOST_CALQUES = 0.9, 102
# The ordinary word for each: allocation, out of memory, unchanged, after, k-th.
UNUSUAL = re.compile(r"\b(growths?|want of memory|(?:stays?|is|are|stayed) as (?:it was|they were)(?! found)|so-manieth"
                     r"|behind the (?:save|others|first|next|last|opening))\b", re.IGNORECASE)
# What is between backquotes is a name.
NAME = re.compile(r"`[^`]*`")


def unusual(line):
    """Returns the first such word of a line, if it has any."""
    return UNUSUAL.search(NAME.sub("", line))


def faults_of_source(path):
    """Yields the number of each faulty line, and what is wrong with it."""
    comment = COMMENTS[os.path.splitext(path)[1]]
    for number, line in enumerate(text_of(path).split("\n"), 1):
        if len(line) > WIDTH and '"' not in line:
            yield number, "%d columns" % len(line)
        if comment.match(line) and unusual(line):
            yield number, unusual(line)[0]


def faults_of_document(path):
    for number, line in enumerate(text_of(path).split("\n"), 1):
        if unusual(line) and path != GLOSSARY:
            yield number, unusual(line)[0]


@pytest.mark.parametrize("path", english.files(SOURCES))
def test_source(path):
    assert list(faults_of_source(path)) == []


@pytest.mark.parametrize("path", english.files(DOCUMENTS))
def test_document(path):
    assert list(faults_of_document(path)) == []


def test_docs_begin_with_verbs(subtests):
    assert english.share_of_verbs() >= LEAST_VERBS
    for doc, is_right in [("Saves a row.", True), ("A row is saved.", False), ("Rows of a store.", False)]:
        with subtests.test(doc):
            assert (doc.split()[0] in english.VERBS) == is_right
    with subtests.test("a doc comment is read"):
        found = english.FUNCTION.search("/// Saves a row.\n///\n/// Fails if\n#[inline]\npub fn save() {}\n")
        assert found[2] == "pub fn save" and found[1].split()[1] == "Saves"


def test_calques(subtests):
    assert sum(english.counted_calques().values()) <= MOST_CALQUES
    for line, wanted in [
            ("a row stands where it has room", ["stand", "where it"]), ("so many rows, behind it, anew", ["so many",
            "behind", "anew"]), ("it comes to whoever asks", ["comes to", "whoever"]), ("that is dear", ["dear"]),
            ("`stands D E`, told as \"anew\"", []), ("H stands for a holder, where the tree is", [])]:
        with subtests.test("calques of: " + line):
            assert sorted(english.calques(line)) == sorted(wanted)
