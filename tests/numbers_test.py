"""Numbers and words of the documents: docs/NUMBERS.md has each code once, docs/GLOSSARY.md each word."""

import re

import english
import lunskaf
import words_test
from documents import declared_twice, documents, in_code, named, numbers_in, section, tables
from running import text_of

# The code of a command whose outcome was not seen, which is in no record.
UNSEEN = 8


def test_number(subtests):
    """docs/NUMBERS.md has every number of the other documents, once, and a sentence for each."""
    text, protocol, formats = text_of("docs/NUMBERS.md"), text_of("docs/PROTOCOL.md"), text_of("docs/FORMATS.md")

    def listed(heading):
        return numbers_in(tables(section(text, heading)))

    most, last = map(int, re.search(r"is_outcome x = nat_le x (\d+) \|\| x == (\d+)",
                                    text_of("crates/smi_grant/specs/Record.antt")).groups())
    orders = [*range(most + 1), last, UNSEEN, 31, 32, 33]
    orders += [int(it) for it in set(re.findall(r"\b2\d\b", section(protocol, "Orders")))]
    tests = numbers_in(tables(section(formats, "Datagrams")[section(formats, "Datagrams").index("Code"):]))
    refusals = numbers_in(tables(section(protocol, "Refusals").split("Where it stands")[0])[1:])
    faults = numbers_in(tables(section(formats, "Faults of a tree file")), 1)
    schedule = numbers_in(tables(re.search(r"A line is refused.*?### Drawn", formats, flags=re.S)[0]), 1)
    rows = numbers_in(tables(re.search(r"A row is refused.*?### The table", formats, flags=re.S)[0]))
    statuses = numbers_in(tables(section(text_of("README.md"), "The commands")), 0)
    for heading, wanted in [
            ("How an order ends", orders), ("Refused datagrams", tests + refusals), ("Faults of a tree file", faults),
            ("Faults of a line", schedule), ("Faults of a row", set(rows)), ("Statuses of the program", statuses)]:
        with subtests.test("NUMBERS.md: %s" % heading):
            assert [sorted(listed(heading)), len(wanted) > 3] == [sorted(wanted), True]
    for row in tables(text):
        with subtests.test("NUMBERS.md: %s is explained" % row[0]):
            assert len(row) >= 2 and all(len(cell) > 3 for cell in row[1:])
    told = re.findall(r"`([a-z][a-z ]+)`", section(text_of("README.md"), "The commands"))
    told = [it for it in told if it.endswith(("fault", "line", "spent", "memory", "stopped"))]
    with subtests.test("NUMBERS.md: lines on standard error"):
        assert len(told) > 5 and all("`%s`" % it in text for it in told)


def test_code(subtests):
    """Codes are explained in docs/NUMBERS.md alone."""
    head = re.compile(r"^\| (Code|C|Answer|Fault) \| (What|Meaning|Do\b)", re.M)
    for path in documents():
        if path != "docs/NUMBERS.md":
            with subtests.test("%s leaves codes to docs/NUMBERS.md" % path):
                assert not head.search(text_of(path))
    with subtests.test("a table of codes is seen"):
        assert head.search("| Code | What it means |") is not None


def test_meaning(subtests):
    """What a code means is said with the same words by the screen, its page, tools/lunskaf.py and docs/NUMBERS.md."""
    meanings = dict(re.findall(r'^ +(\d+) => b"(.*)",$', text_of("crates/smi_web/src/outcome.rt"), flags=re.M))
    rows = {row[0]: row[1] for row in tables(section(text_of("docs/NUMBERS.md"), "How an order ends"))}
    with subtests.test("codes: the same three times"):
        assert list(meanings) == list(map(str, lunskaf.CODES)) == list(rows) and len(rows) > 15
    on_page = re.search(r"CODE_WORDS = \{(.*?)\}", text_of("crates/smi_program/page/past/saying.mjs"), flags=re.S)[1]
    with subtests.test("codes: the page's past"):
        assert dict(re.findall(r'(\d+): "(.*?)"', on_page)) == meanings
    for code, said in meanings.items():
        with subtests.test("codes: tools/lunskaf.py says of %s: %s" % (code, said)):
            assert lunskaf.CODES.get(int(code)) == said
        begun = re.escape(said[0].upper() + said[1:]) + r"[.,:]( |$)"
        with subtests.test("codes: NUMBERS.md says of %s: %s" % (code, said)):
            assert re.match(begun, rows.get(code, "")) is not None


def test_word(subtests):
    """docs/GLOSSARY.md has each word once, in the order of letters, and its name in the code is there.

    No two types have one name, and its ordinary and plain words are those that tests/words_test.py looks for.
    """
    text = text_of("docs/GLOSSARY.md")
    rows = tables(section(text, "Words"))
    of_words = [row[0] for row in rows]
    with subtests.test("GLOSSARY.md has each word once"):
        assert len(set(of_words)) == len(of_words) > 30
    with subtests.test("GLOSSARY.md is in order"):
        assert of_words == sorted(of_words, key=str.lower)
    with subtests.test("GLOSSARY.md explains each"):
        assert all(len(row[1]) > 10 for row in rows)
    for word, _, code in rows:
        with subtests.test("GLOSSARY.md: %s stands in the code" % word):
            assert named(code) and len(named(code)) == code.count("(") and all(in_code(name, crate, file) for name,
                crate, file in named(code))
    with subtests.test("GLOSSARY.md: a name that no crate has is seen"):
        assert not in_code("no_such_name", "smi_grant", "")
    with subtests.test("each type has a name of its own"):
        assert declared_twice() == {}
    for _, unwanted in tables(section(text, "Ordinary words")):
        with subtests.test("GLOSSARY.md: %s is looked for" % unwanted):
            assert words_test.unusual("it is %s line" % unwanted) is not None
    rows = tables(section(text, "Plain words"))
    for _, unwanted in rows:
        with subtests.test("GLOSSARY.md: %s is counted" % unwanted):
            assert english.calques("it is %s line" % unwanted)
    with subtests.test("GLOSSARY.md has each word that is counted"):
        assert len(rows) == len(english.CALQUES)
