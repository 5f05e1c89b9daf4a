"""How plain the English of comments and documents is: docs of functions that begin with a verb, and calques.

`python3 tests/english.py` prints both figures, by crate and by word, and the worst files. With --all it prints each
place. tests/words_test.py asks for the figures of docs/GLOSSARY.md, "Plain words".
"""

import collections
import os
import re
import sys

import places
from running import text_of

SOURCES = ["crates/*/src/**/*.rt", "crates/*/specs/**/*.antt", "crates/*/proofs/**/*.antt", "tests/**/*.py", "tools/*.py"]
DOCUMENTS = ["README.md", "CONTRIBUTING.md", "CHANGELOG.md", "SECURITY.md", "docs/*.md"]
# What begins the text of a comment, by the kind of file.
COMMENTS = {".rt": re.compile(r"\s*//[/!]?(.*)"), ".antt": re.compile(r"\s*--(.*)"), ".py": re.compile(r"\s*#(.*)")}
# The glossary and the rules name calques to say which word replaces them.
GLOSSARY, RULES = "docs/GLOSSARY.md", "CONTRIBUTING.md"
# Pages of the program as constants: what looks like a comment there is a part of the program.
CONSTANTS = ("crates/smi_program/src/page.rt", "crates/smi_program/src/orders.rt")
# What is between backquotes or in quotes is a name, or a text that a format fixes.
NAME = re.compile(r"`[^`]*`|\"[^\"]*\"")
CALQUES = {
    "stand": r"\bstands?\b(?! for\b)",
    "where it": r"\bwhere (?:it|they|there|nothing|nobody|none|no)\b",
    "so many": r"\bso many\b",
    "behind": r"\bbehind\b(?! its label\b)",
    "anew": r"\banew\b",
    "comes to": r"\b(?:comes?|came) to\b(?! rest\b)",
    "whoever": r"\bwhoever\b",
    "dear": r"\bdear(?:er)?\b"}
# A doc comment, the attributes below it, and the function that it is of.
FUNCTION = re.compile(r"((?:^ *///.*\n)+)(?: *#\[.*\n)* *((?:pub(?:\([^)]*\))? )?(?:ghost )?(?:unsafe )?(?:const )?fn \w+)",
                      re.M)
VERBS = frozenset("""
Accepts Adds Aims Allocates Answers Appends Applies Asks Assumes Audits Begins Binds Borrows Builds Calls Carries Checks
Clears Closes Collects Compares Computes Connects Consumes Converts Copies Counts Creates Cuts Decides Declares Decodes
Delivers Describes Discards Divides Does Draws Drops Encodes Ends Ensures Enters Evaluates Expects Fails Fetches Fills
Finds Finishes Flushes Follows Forgets Forwards Frees Gathers Gets Gives Goes Grants Groups Guards Guesses Handles Hands
Has Hears Ignores Includes Inserts Installs Is Issues Joins Keeps Leads Learns Leaves Lends Lets Lists Loads Locks Logs
Looks Makes Maps Marks Matches Merges Migrates Moves Names Narrows Needs Notes Notifies Obeys Offers Opens Panics Parses
Passes Plans Plays Polls Prepares Prints Promises Proves Provides Publishes Pushes Puts Raises Ranks Reads Receives
Reclaims Records Refuses Registers Reimplements Rejects Releases Removes Renders Renews Repeats Replaces Replays Reports
Requests Reserves Resets Resolves Resends Restarts Restores Resumes Returns Runs Saves Says Searches Sees Selects Sends
Serves Sets Settles Shows Shuts Simulates Skips Sorts Splits Spells Starts States Steps Stops Stores Streams Strips
Submits Subscribes Sums Syncs Takes Tells Tests Tracks Tries Trims Turns Undoes Unlinks Updates Uses Validates Visits
Waits Wakes Walks Watches Wraps Writes Yields
""".split())


def calques(line):
    """Returns the calques of a line, by name."""
    plain = NAME.sub("", line)
    return [name for name, pattern in CALQUES.items() for _ in re.findall(pattern, plain, re.IGNORECASE)]


def texts(path):
    """Yields each line that people read of a file, with its number: of a source its comments, of a document all."""
    comment = COMMENTS.get(os.path.splitext(path)[1])
    for number, line in enumerate(text_of(path).split("\n"), 1):
        found = comment.match(line) if comment else None
        if found or not comment:
            yield number, found[1] if found else line


def calques_of(path):
    """Yields each calque of a file: its line, its name, and the text."""
    if path not in (GLOSSARY, RULES, *CONSTANTS):
        for number, line in texts(path):
            for name in calques(line):
                yield number, name, line.strip()


def docs_of(path):
    """Yields each doc comment of a function in a source: its line, its first word, and the function."""
    text = text_of(path)
    for found in FUNCTION.finditer(text):
        words = re.sub(r"^ *///", "", found[1], flags=re.M).split()
        yield text.count("\n", 0, found.start()) + 1, words[0].rstrip(".,:") if words else "", found[2]


def files(patterns):
    found = (path for pattern in patterns for path in places.found_by(pattern))
    return sorted(path for path in found if "/out/" not in path)


def counted_docs():
    """Returns for each crate how many functions have a doc comment, and how many of these begin with a verb."""
    found = collections.defaultdict(lambda: [0, 0])
    for path in files(SOURCES[:1]):
        for _, word, _ in docs_of(path):
            of_crate = found[path.split("/")[1]]
            of_crate[0] += 1
            of_crate[1] += word in VERBS
    return found


def share_of_verbs():
    """Returns the share of functions with a doc comment whose comment begins with a verb."""
    found = counted_docs().values()
    return sum(verbs for _, verbs in found) / sum(docs for docs, _ in found)


def counted_calques():
    """Returns how many calques each file has."""
    return collections.Counter({path: len(list(calques_of(path))) for path in files(SOURCES + DOCUMENTS)})


def main():
    if sys.argv[1:] == ["--all"]:
        for path in files(SOURCES + DOCUMENTS):
            for number, name, line in calques_of(path):
                print("%s:%d: %s: %s" % (path, number, name, line))
        for path in files(SOURCES[:1]):
            for number, word, function in docs_of(path):
                if word not in VERBS:
                    print("%s:%d: %s ..: %s" % (path, number, word, function))
        return
    print("docs of functions that begin with a verb: %.0f %%" % (100 * share_of_verbs()))
    docs = counted_docs()
    for crate in sorted(docs, key=lambda it: docs[it][1] - docs[it][0])[:10]:
        print("    %s: %d of %d" % (crate, docs[crate][1], docs[crate][0]))
    by_file = counted_calques()
    print("calques: %d" % sum(by_file.values()))
    names = collections.Counter(name for path in by_file for _, name, _ in calques_of(path))
    print("    " + ", ".join("%s %d" % it for it in names.most_common()))
    for path, count in by_file.most_common(10):
        print("    %s: %d" % (path, count))


if __name__ == "__main__":
    main()
