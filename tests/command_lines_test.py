"""The program on command lines: standard output, standard error and status of each case of command-lines.txt.

A case begins with `case NAME`. `args` are the words of the command line, `in` and `out` bytes in
hexadecimal, in which `N*BB` is N times a byte; several lines of one kind follow one another. `from
directory` reads the standard input from a directory, `to full` writes to a device that has no room.
`err` is a line on standard error, `status` the exit status. The words TREE and NOWHERE in `args` stand
for the path of the worked tree file and for a path without a file.

A take is tried with other values in its fields, at the ends of their ranges and beyond, and in other lengths, against
the layout in layout.py. Each tree file of trees.py is checked, each store of stores.py is listed, and other programs
read a store that a node saved.
"""

import os
import shutil

import pytest
from hypothesis import HealthCheck, assume, given, settings
from hypothesis import strategies as st

import layout
import running
import stores
import trees

PATHS = {"TREE": running.example("worked.tree"), "NOWHERE": os.path.join(running.HERE, "no-such-file")}


def bytes_of(text):
    """Returns the bytes of words such as `53` and `8*00`."""
    data = b""
    for word in text.split():
        count, star, byte = word.partition("*")
        data += bytes.fromhex(byte) * int(count) if star else bytes.fromhex(word)
    return data


def read_cases(path):
    """Returns the cases of the table."""
    cases = []
    with open(path, encoding="ascii") as file:
        for line in file:
            key, _, text = line.strip().partition(" ")
            if key == "case":
                cases.append({"name": text, "args": [], "in": b"", "out": b"", "err": "", "status": 0})
            elif key in ("in", "out"):
                cases[-1][key] += bytes_of(text)
            elif key == "args":
                cases[-1]["args"] = [PATHS.get(word, word) for word in text.split()]
            elif key == "err":
                cases[-1]["err"] += text + "\n"
            elif key == "status":
                cases[-1]["status"] = int(text)
            elif key in ("from", "to"):
                cases[-1][key] = text
            elif key and key != "#":
                raise ValueError("command-lines.txt: what is `%s`?" % line.strip())
    return cases


# Of each field of a take that has a range, the values at both ends of what is accepted and beyond, and beyond what a
# byte holds. Of the bytes that it does not use each is tried by itself.
EDGES = [
    ("mark", 0, 1, [0, 0x52, 0x73]), ("mark", 1, 1, [0, 0x4C, 0x6D]),
    ("layout", 2, 1, [0, 2, 3, 255]), ("kind", 3, 1, [0, 1, 3, 4, 5, 6, 7, 8, 9, 255]),
    ("from", 4, 2, [0, 1, 128, 129, 258, 65_535]), ("to", 6, 2, [0, 2, 128, 129, 257]),
    ("domain", 8, 2, [0, 2, 128, 129, 257, 641]), ("holder kind", 10, 1, [0, 2, 3, 255]),
    ("holder", 12, 2, [0, 1, 32, 33, 128, 129, 258]),
    ("holder kind, phase and holder", 10, 4, [0, 0x0200_0001, 0x0200_0080, 0x0200_0081]),
    ("epoch", 16, 8, [1, 2, 255, 256, 2 ** 32, 2 ** 62 - 1, 2 ** 62, 2 ** 62 + 1, 2 ** 63, 2 ** 64 - 1]),
    ("tree", 30, 2, [0, 1, 16, 18, 273, 65_535]),
]
UNUSED = [11, 14, 15, *range(24, 30), *range(32, 44)]
LENGTHS = [1, 2, 3, 4, 11, 22, 30, 43, 45, 60, 87]


def variants(take):
    """Yields a take with other values in its fields, and in other lengths."""
    for name, at, size, values in EDGES:
        for value in values:
            yield "%s %d" % (name, value), take[:at] + value.to_bytes(size, "big") + take[at + size:]
    for at in UNUSED:
        yield "byte %d is 1" % at, take[:at] + b"\x01" + take[at + 1:]
    for length in LENGTHS:
        yield "%d bytes" % length, (take + take)[:length]


def variant_case(name, data):
    """Returns the case of such bytes, by the layout."""
    case = {"name": "a take with " + name, "args": ["answer"], "in": data, "out": b"", "err": "", "status": 1}
    # What follows 44 bytes is the rest of an input whose first datagram is answered.
    first, rest = data[:44], data[44:]
    code = layout.refusal_of_answer(first)
    place = 1
    if code == 0:
        case["out"] = layout.take_answered(first)
        code, place = (1, 2) if rest else (0, 0)
    case["status"] = 1 if code else 0
    case["err"] = "datagram %d refused %d\n" % (place, code) if code else ""
    return case


def tree_cases():
    """Yields what `smi check` says of each tree file, without `--lint` and with it.

    A lawful file is told in its line alone without it.
    """
    for name, data, out, err, status in trees.all_trees():
        for form, words, told in [("tree", [], err if status else ""), ("linted tree", ["--lint"], err)]:
            yield pytest.param(data, words, (out.encode(), told.encode(), status), id="%s: %s" % (form, name))


TABLE = read_cases(os.path.join(running.HERE, "command-lines.txt"))
TAKE, TAKEN = TABLE[0]["in"], TABLE[0]["out"]
VARIANTS = [variant_case(name, data) for name, data in variants(TAKE)]


@pytest.mark.parametrize("case", [pytest.param(it, id=it["name"]) for it in TABLE + VARIANTS])
def test_line(smi, case):
    """A line of the table, or a take with one field changed."""
    how, directory = {"given": case["in"]}, os.open(running.HERE, os.O_RDONLY)
    with open("/dev/full", "wb") as full:
        how.update({"stdout": full} if case.get("to") == "full" else {})
        how.update({"stdin": directory} if case.get("from") == "directory" else {})
        out, err, status = smi(*case["args"], **how)
    os.close(directory)
    assert (out or b"", err.decode(), status) == (case["out"], case["err"], case["status"])


@st.composite
def takes(draw):
    """Draws a take of which up to four fields have a value at an edge of their range, or any other value."""
    take = bytearray(TAKE)
    for _, at, size, values in draw(st.lists(st.sampled_from(EDGES), max_size=4)):
        value = draw(st.sampled_from(values) | st.integers(0, 256 ** size - 1))
        take[at:at + size] = value.to_bytes(size, "big")
    return bytes(take)


@settings(max_examples=200, derandomize=True, deadline=None,
          suppress_health_check=[HealthCheck.function_scoped_fixture])
@given(take=takes())
def test_any_take(smi, take):
    """A take with several fields changed at once is answered or refused as the layout says."""
    case = variant_case("any fields", take)
    # what is answered to another kind the layout does not say
    assume(case["err"] or take[3] == layout.TAKE)
    out, err, status = smi("answer", given=take)
    assert (out, err.decode(), status) == (case["out"], case["err"], case["status"])


@pytest.mark.parametrize("data, words, told", tree_cases())
def test_tree(smi, folder, data, words, told):
    """A tree file as `smi check` sees it."""
    assert smi("check", running.write(os.path.join(folder, "tree"), data), *words) == told


def test_store(smi, folder, subtests):
    """Each store as `smi rows` lists it."""
    for name, path, out, err, status in stores.all_stores(folder):
        with subtests.test(name):
            assert smi("rows", path) == (out.encode(), err.encode(), status)


def test_store_of_a_node(smi, folder, subtests):
    """A store that a node over the worked tree has saved: other programs read the same rows in it."""
    path = os.path.join(folder, "ours")
    out, _, status = smi("node", PATHS["TREE"], "B", path, "--turns", "100", given=b"order BOB take TPC\n")
    with subtests.test("saved"):
        assert (out, status) == (b"told BOB take TPC 0\n", 0)
    with subtests.test("listed"):
        assert smi("rows", path)[0].decode() == stores.listing(stores.OURS)
    with subtests.test("read by Python's sqlite3"):
        assert stores.rows_in(path) == stores.OURS
    with subtests.test("read by the command line of sqlite3"):
        if not shutil.which("sqlite3"):
            pytest.skip("there is no sqlite3")
        query = "SELECT station, domain, operator, lower(hex(bytes)) FROM stable_rows ORDER BY 1, 2, 3"
        read = running.run(["sqlite3", "-separator", " ", path, query])[0].decode()
        assert read == stores.listing(stores.OURS)
