"""The documents: whether what they name is there, and what they have to list is listed."""

import glob
import os
import re

import places
import screens
from documents import (
    OF_TESTS, QUOTED, crate_lines, documents, headings, is_defined, is_edit, is_function, long_names, named,
    names_there, prose, section, sentences, slug, sources, story_of, tables)
from running import ROOT, text_of

# The table of docs/PROTOCOL.md that says where each rule is.
RULES = "Where each rule is"
# What a reader of a first page can be asked to read.
README_LINES = 121
# How many lines docs/PROOF.md may have, and how many words a sentence.
PROOF_LINES, MOST_WORDS = 160, 40


def test_rule(subtests):
    """Each rule that the last table of docs/PROTOCOL.md lists: its section, definition, function, mutants and example.

    Each section that has rules is a part of the page, and each of these is there.
    """
    page = text_of("docs/EXAMPLES.md")
    examples = headings(page) + [row[0] for row in tables(page)]
    text = text_of("docs/PROTOCOL.md")
    parts = headings(text)
    rows = tables(section(text, RULES))
    for part, rule, definitions, functions, edits, example in rows:
        name = "%s: %s" % (part, rule)
        with subtests.test(name + ", its section"):
            assert part in parts and part != RULES
        with subtests.test(name + ", its definition"):
            assert named(definitions) and all(is_defined(crate, file, it) for it, crate, file in named(definitions))
        with subtests.test(name + ", its function"):
            assert named(functions) and all(is_function(crate, it) for it, crate, _ in named(functions))
        with subtests.test(name + ", its edits"):
            assert all(is_edit(crate, it) for it, crate, _ in named(edits))
        with subtests.test(name + ", its example"):
            assert not example or example in examples
        # a cell of which nothing is read would say anything
        cells = (definitions, functions, edits)
        with subtests.test(name + ", all names are read"):
            assert all(cell.count("(") == len(named(cell)) for cell in cells)
    with subtests.test("rules of the protocol are told"):
        assert len(rows) >= 70
    with subtests.test("every section of the protocol has its rules, but for the words and what no code does alone"):
        assert {it for it in parts if text.count("\n## %s\n" % it)} - {row[0] for row in rows} <= {
            RULES, "Audits", "Trees of trees"}


def test_local(subtests):
    """The detector on one machine is the detector, but for its addresses, and for a screen's station and operator."""
    here, there = (re.sub(r"^#.*\n|(?<=[A-Z] )[\d.]+:\d+$", "", text_of("examples/" + name), flags=re.M)
                   for name in ("detector-local.tree", "detector.tree"))
    more = screens.with_screen(there.splitlines(), 0)
    wanted = [re.sub(r"^(station SCREEN ).*", r"\1", line) for line in more]
    with subtests.test("examples/detector-local.tree is examples/detector.tree with a screen"):
        assert here.splitlines() == wanted and "station CONTROL \n" in here and len(more) == len(there.splitlines()) + 2
    addresses = re.findall(r"^station \w+ (.*)$", text_of("examples/detector-local.tree"), flags=re.M)
    with subtests.test("examples/detector-local.tree has its stations on one machine"):
        assert len(set(addresses)) == len(addresses) == 7 and all(it.startswith("127.0.0.1:") for it in addresses)


def test_worked(subtests):
    """The lines of examples/worked.tree are those that a law of smi_protocol reads, and those that tests share."""
    lines = text_of("examples/worked.tree").splitlines()
    told = section_of_lines(text_of("crates/smi_protocol/specs/examples/WorkedTree.antt"))
    with subtests.test("the worked tree of the laws is examples/worked.tree"):
        assert told == lines
    shared = re.search(r'WORKED: &\[u8\] =\s*b"([^"]*)"', text_of("crates/smi_testkit/src/trees.rt"))
    with subtests.test("the worked tree of the tests is examples/worked.tree"):
        assert shared and shared[1].split("\\n") == [*lines, ""]


def section_of_lines(text):
    """Returns the texts of the definition `worked_lines`."""
    body = re.search(r"^worked_lines =\n(.*?)^$", text, flags=re.M | re.S)
    return re.findall(r'codes "([^"]*)"', body[1]) if body else []


def test_crate(subtests):
    """The crates have their lines, stand on what is drawn, and have what is claimed of them."""
    crates = crate_lines()
    architecture, proof = text_of("docs/ARCHITECTURE.md"), text_of("docs/PROOF.md")
    rows = tables(section(architecture, "The crates"))
    with subtests.test("ARCHITECTURE.md has the crates, in the order of crates.txt"):
        assert [it[0].strip("`") for it in rows] == list(crates)
    layers = "".join(re.findall(r"^```\n(the program .*?)^```$", architecture, flags=re.M | re.S))
    heights = {name: -place for place, line in enumerate(layers.splitlines())
               for name in re.findall(r"\bsmi\w*", line[18:])}
    beside = {name for name in crates if name.endswith(OF_TESTS)}
    with subtests.test("ARCHITECTURE.md draws the crates"):
        assert set(heights) == set(crates) - beside
    with subtests.test("ARCHITECTURE.md: layers stand on lower ones"):
        assert all(heights[name] > heights[it] for name in heights for it in crates.get(name, ()) if it in heights)
    scripts = glob.glob("tools/*.py", root_dir=ROOT) + glob.glob("tests/*.py", root_dir=ROOT)
    outside = tables(section(architecture, "Outside the crates"))
    told = [it for row in outside for it in re.findall(r"`(\S+\.py)`", row[0])]
    with subtests.test("ARCHITECTURE.md has the scripts"):
        assert sorted(told) == sorted(scripts)
    rows = tables(section(proof, "Crate by crate"))
    listed = [name for row in rows for name in re.findall(r"`(\w+)`", row[0])]
    with subtests.test("PROOF.md has the crates"):
        assert sorted(listed) == sorted(crates)
    for row in rows:
        for name in re.findall(r"`(\w+)`", row[0])[:1]:
            text = sources(name, ("src", "specs")) + sources("smi_protocol", ("specs",))
            claimed = [it for whole in re.findall(r"`([\w:]+)`", row[1]) for it in whole.split("::")]
            lost = [it for it in claimed if it not in crates and not re.search(r"\b%s\b" % it, text)]
            with subtests.test("PROOF.md: what is claimed of %s%s" % (name, ", but " + " ".join(lost) if lost else "")):
                assert not lost


def test_weaker(subtests):
    """docs/TESTING.md names mutants of the crates beside them, and functions, clauses and mutants that are there."""
    text = text_of("docs/TESTING.md")
    parts = section(text, "Weaker mutants"), section(text, "What was searched")
    for of, edits in tables(parts[0]):
        for name in re.findall(r"`(\w+)`", edits):
            with subtests.test("TESTING.md: %s has %s" % (of, name)):
                assert any(is_edit(it, name) for it in re.findall(r"`(\w+)`", of))
    there = names_there(places.found_by("crates/*"))
    edits = {os.path.basename(it)[:-len(".edit")] for it in places.found_by("crates/*/edits/*.edit")}
    for name in long_names("".join(parts)):
        with subtests.test("TESTING.md: there is %s" % name):
            assert name in there | edits


def test_story(subtests):
    """What lib.rt says of how its crate is proved names files and lemmas that are there, in short sentences."""
    everywhere = names_there(places.found_by("crates/*"))
    libraries = [it.split("/")[1] for it in places.found_by("crates/*/src/lib.rt")]
    crates = sorted(it for it in libraries if story_of(it))
    for crate in crates:
        text = " ".join(story_of(crate).split())
        for kind, name in sorted(set(re.findall(r"`(specs|proofs)/(\w+)`", text))):
            at = os.path.join(ROOT, "crates", crate, kind, name)
            with subtests.test("%s: there is %s/%s" % (crate, kind, name)):
                assert os.path.isfile(at + ".antt") or os.path.isdir(at)
        for path in sorted(set(re.findall(r"\b(?:tests|docs)/\w+\.\w+", text))):
            with subtests.test("%s: there is %s" % (crate, path)):
                assert os.path.isfile(os.path.join(ROOT, path))
        lost = [it for it in long_names(text) if it not in everywhere]
        with subtests.test("%s: what lib.rt names is there%s" % (crate, ", but " + " ".join(lost) if lost else "")):
            assert not lost
        for sentence in filter(is_long, sentences(story_of(crate))):
            with subtests.test("%s: lib.rt has short sentences, but: %s" % (crate, sentence[:60])):
                assert False
    with subtests.test("crates say how they are proved"):
        assert len(crates) > 20
    with subtests.test("a name that is not there is seen"):
        assert long_names("`no_such_name`") and "no_such_name" not in everywhere


def test_spread(subtests):
    """docs/CHANGING.md lists all files in which a thing is spread, and names none that is not there."""
    text = section(text_of("docs/CHANGING.md"), "Where a thing is spread")
    kinds = [it for it in headings(text)]
    for kind in kinds:
        rows = list(places.lists_in(section(text, kind)))
        for where, pattern, files in rows:
            faults = places.faults_of(where, pattern, files) if where in places.SEARCHED else \
                [it for it in files if not os.path.isfile(os.path.join(ROOT, it))]
            name = "CHANGING.md, %s: %s %s" % (kind, where, pattern)
            with subtests.test(name + "".join("\n    " + it for it in faults)):
                assert not faults
        with subtests.test("CHANGING.md, %s has lists" % kind):
            assert len([it for it in rows if it[1] and it[2]]) >= 2
    with subtests.test("CHANGING.md says where things are spread"):
        assert len(kinds) >= 8


def test_proof(subtests):
    """Each proof is where docs/CHANGING.md says."""
    found = [(path, places.stands_right(path)) for path in sorted(places.found_by("crates/*/proofs/**/*.antt"))]
    for path, is_right in found:
        if not is_right:
            with subtests.test("%s stands where the rule says" % path):
                assert False
    with subtests.test("proofs stand where the rule says"):
        assert len(found) > 100 and all(is_right for _, is_right in found)


def test_planted(subtests):
    """A file that is left out of a list, one that does not belong there and one that is not there are seen; and so is
    a proof in another folder."""
    orders = r"Order\w*::Include"
    whole = places.having("sources", orders)
    for name, files, is_right in [("whole", whole, True), ("one left out", whole[1:], False),
                                  ("one more", whole + ["crates/smi_base/src/lib.rt"], False),
                                  ("one that is not there", whole + ["crates/smi_base/src/none.rt"], False)]:
        with subtests.test("a list of files: " + name):
            assert (not places.faults_of("sources", orders, files)) == is_right
    for path, is_right in [
            ("crates/smi_station_grants/proofs/grant_table/GrantTable/put_child/Answers.antt", True),
            ("crates/smi_station_grants/proofs/commit/GrantTable/put_child/Answers.antt", False),
            ("crates/smi_station_decide/proofs/run/decide_run/Answers.antt", True),
            ("crates/smi_station_decide/proofs/order/decide_run/Answers.antt", False),
            ("crates/smi_station_decide/proofs/run/decide_run/Lemmas.antt", False)]:
        with subtests.test("a proof at %s" % path):
            assert places.stands_right(path) == is_right


def test_walk(subtests):
    """The way of one event through the code names functions that stand in the files beside them."""
    text = section(text_of("docs/ARCHITECTURE.md"), "One event's way")
    named_there = re.findall(r"`(crates/[\w/]+\.rt)`: `(\w+)`", text)
    named_there += [(path, it) for it, path in re.findall(r"`(\w+)` in `(crates/[\w/]+\.rt)`", text)]
    for path, name in named_there:
        with subtests.test("ARCHITECTURE.md: %s has %s" % (path, name)):
            assert re.search(r"\bfn %s\b" % name, text_of(path)) is not None
    with subtests.test("ARCHITECTURE.md walks an event through the code"):
        assert len(named_there) > 15 and all(re.search(r"`\w+`", row[1]) for row in tables(text))


def test_promise(subtests):
    """Each promise of README.md names public functions of the file beside them, and what it is proved of."""
    path = None
    rows = tables(section(text_of("README.md"), "What is promised"))
    for promise, kind, where in rows:
        with subtests.test("README.md: what is proved: %s" % promise[:40]):
            assert kind in ("definitions", "code")
        # clauses are named too, and are no functions
        for word in re.findall(r"`([^`]+)`", re.sub(r"clauses? `\w+`(?: and `\w+`)*", "", where)):
            if word.startswith("crates/"):
                path = word
            elif not word.endswith(".antt") and word != "Safe":
                with subtests.test("README.md: %s has %s" % (path, word)):
                    assert re.search(r"\bpub fn %s\b" % word, text_of(path)) is not None
    with subtests.test("README.md has its promises"):
        assert len(rows) > 10


def is_long(sentence):
    """Returns true if a sentence has too many words."""
    return len(re.findall(r"[^\s|]*\w[^\s|]*", sentence)) > MOST_WORDS


def test_long(subtests):
    """docs/PROOF.md is short, and so are its sentences."""
    text = text_of("docs/PROOF.md")
    with subtests.test("PROOF.md is short"):
        assert len(text.splitlines()) <= PROOF_LINES
    for sentence in filter(is_long, sentences(text)):
        with subtests.test("PROOF.md has short sentences, but: %s" % sentence[:60]):
            assert False
    with subtests.test("a long sentence is seen"):
        assert [is_long("word " * 41), not is_long("word " * 40),
            len(list(sentences("One. Two: three.\n\n| four | five |\n- six\n  and seven")))] == [True, True, 6]


def test_link(subtests):
    """Relative links, paths in the text, and sections that are named."""
    made = ("crates/*/", "crates/NAME", "crates/CRATE")
    for path in documents():
        text = text_of(path)
        for target in re.findall(r"\]\(([^)\s]+)\)", prose(text)):
            if re.match(r"[a-z]+:", target):
                continue
            file, _, part = target.partition("#")
            at = os.path.normpath(os.path.join(os.path.dirname(path), file)) if file else path
            held = os.path.exists(os.path.join(ROOT, at))
            held = held and (not part or part in [slug(it) for it in headings(text_of(at))])
            with subtests.test("%s: the link to %s" % (path, target)):
                assert held
        paths = set(re.findall(r"(?<![\w/.-])((?:crates|docs|examples|tests|tools)/[\w./*@-]*[\w*@/])", text))
        for target in sorted(it for it in paths if not it.startswith(made)):
            with subtests.test("%s: there is %s" % (path, target)):
                assert bool(glob.glob(os.path.join(ROOT, target)))
        for target, quoted in QUOTED.findall(text):
            with subtests.test("%s: %s has \"%s\"" % (path, target, quoted)):
                assert quoted in headings(text_of(target))


def test_comment(subtests):
    """Comments of sources, scripts and examples name parts of documents that are there."""
    count = 0
    for path in sorted({it for patterns in (*places.SEARCHED.values(), ["tests/*.c"]) for pattern in patterns
                        for it in places.found_by(pattern)} - set(documents())):
        # a name may go on in the next line of a comment
        text = re.sub(r"\n\s*(///|//!|//|--|#|\*)?\s*", " ", text_of(path))
        for target, quoted in QUOTED.findall(text):
            count += 1
            with subtests.test("%s: %s has \"%s\"" % (path, target, quoted)):
                assert quoted in headings(text_of(target))
    with subtests.test("comments name parts of documents"):
        assert count > 30


def test_make(subtests):
    """Each target that a document names is one of the Makefile, and README is short."""
    targets = set(re.findall(r"^([\w/-]+):", text_of("Makefile"), flags=re.M))
    for path in documents():
        for target in sorted(set(re.findall(r"(?:`|^    )make ([a-z-]+)", text_of(path), flags=re.M))):
            with subtests.test("%s: make %s" % (path, target)):
                assert target in targets
    with subtests.test("README.md is short"):
        assert len(text_of("README.md").splitlines()) < README_LINES
    with subtests.test("README.md has its two commands"):
        assert all("    make %s " % it in text_of("README.md") for it in ("run", "test"))
