"""What is amiss, in more than one line: at a terminal where help is, what is wrong with a tree file, and what was in the
way of a fault, and the last two in a service too. Elsewhere it is one line alone.
"""

import contextlib
import os
import pty
import socket
import subprocess

import pytest

import nodes
import running
import screens

WRONG, HELP = b"wrong line\n", b"help: man smi\n"
TREE = running.example("worked.tree")
LINES = [[], ["help"], ["--help"], ["check"], ["answer", "more"], ["node", TREE, "NOBODY", "store"],
         ["screen", TREE, "NOBODY", "store", "--http", "127.0.0.1:1"]]
each_line = pytest.mark.parametrize(
    "words", LINES, ids=lambda words: " ".join(map(os.path.basename, words)) or "no words")


@pytest.fixture
def at_terminal(smi):
    """Returns a function that runs the program with a terminal at its standard error.

    It returns what the terminal shows, and the status.
    """
    ours, theirs = pty.openpty()

    def ran(*words):
        _, _, status = smi(*words, stdin=subprocess.DEVNULL, stdout=subprocess.DEVNULL, stderr=theirs)
        os.write(theirs, b"end")
        shown = b""
        while not shown.endswith(b"end"):
            shown += os.read(ours, 4096)
        # a terminal writes these two bytes for a line feed
        return shown.removesuffix(b"end").replace(b"\r\n", b"\n"), status

    yield ran
    os.close(ours)
    os.close(theirs)


@each_line
def test_a_wrong_line_at_a_terminal(at_terminal, words):
    assert at_terminal(*words) == (WRONG + HELP, 2)


@each_line
def test_a_wrong_line_elsewhere(smi, words):
    assert smi(*words)[1:] == (WRONG, 2)


def test_a_terminal_at_the_standard_output_alone(smi):
    ours, theirs = pty.openpty()
    told = smi(stdout=theirs)[1:]
    os.close(ours)
    os.close(theirs)
    assert told == (WRONG, 2)


def told_of(path, words, fault="read fault"):
    """Returns what a terminal is shown of a path that could not be read."""
    return ("%s\n    %s: %s\n" % (fault, path, words)).encode(), 3


NOWHERE = "there is no such file or folder"


@pytest.mark.parametrize("words", [("check",), ("rows",), ("sim", "--seed", "1", "--steps", "1"), ("audit", "journal")],
                         ids=" ".join)
def test_a_file_that_is_not_there_is_named(smi, at_terminal, words):
    path = os.path.join(running.HERE, "no-such-file")
    line = [words[0], path, *words[1:]]
    fault = "store fault" if words == ("rows",) else "read fault"
    assert at_terminal(*line) == told_of(path, NOWHERE, fault)
    assert smi(*line)[1:] == (fault.encode() + b"\n", 3)


def test_the_second_file_that_is_not_there_is_named(at_terminal):
    assert at_terminal("sim", TREE, "no-\x1bsuch") == told_of("no-?such", NOWHERE)


def test_a_folder_is_named(at_terminal):
    assert at_terminal("check", running.HERE) == told_of(running.HERE, "it is a folder")


def test_the_folder_of_a_store_is_named(smi, at_terminal, tmp_path):
    folder = os.path.join(str(tmp_path), "none")
    line = ["node", TREE, "A", os.path.join(folder, "store"), "--turns", "1"]
    assert at_terminal(*line) == told_of(folder, NOWHERE, "store fault")
    assert smi(*line)[1:] == (b"store fault\n", 3)


FOLDER, NO_STORE, TAKEN = "it is a folder", "it is no store", "another process has it"
NO_FILE, NO_USE = "it is no regular file", "it can be opened, but not used as a store"


@pytest.fixture
def both(smi, at_terminal):
    """Returns a function that checks what is told of a fault at a terminal, as a service, and elsewhere."""
    def check(line, fault, place, words, lasts):
        shown, one = told_of(place, words, fault)[0], fault.encode() + b"\n"
        assert at_terminal(*line) == (shown, 3)
        assert smi(*line, "--service")[1:] == (shown, 5 if lasts else 3)
        assert smi(*line)[1:] == (one, 3)
    return check


@contextlib.contextmanager
def taken(kind):
    """Has a free port of this machine taken, for datagrams or for connections."""
    with socket.socket(socket.AF_INET, kind) as held:
        held.bind(("127.0.0.1", 0))
        if kind == socket.SOCK_STREAM:
            held.listen()
        yield held.getsockname()[1]


def test_a_store_that_is_a_folder(both, tmp_path):
    both(["node", TREE, "A", str(tmp_path), "--turns", "1"], "store fault", tmp_path, FOLDER, True)


def test_a_store_whose_folder_is_a_file(both, tmp_path):
    (tmp_path / "file").write_text("")
    store = tmp_path / "file" / "store"
    both(["node", TREE, "A", str(store), "--turns", "1"], "store fault", store,
         "it, or a part of it, is no folder", True)


def test_a_store_that_is_none(both, at_terminal, tmp_path):
    store = tmp_path / "store"
    store.write_text("This is a text of somebody, and no store.\n" * 100)
    both(["node", TREE, "A", str(store), "--turns", "1"], "store fault", store, NO_STORE, True)
    assert at_terminal("rows", str(store)) == told_of(store, NO_STORE, "store fault")


def broken_store(path):
    """Writes a file that begins as a store and goes on otherwise, and returns its path."""
    path.write_bytes(b"SQLite format 3\0" + b"\xff" * 8176)
    return path


def socket_file(path):
    """Makes a socket at which nobody listens, and returns its path."""
    with socket.socket(socket.AF_UNIX) as one:
        one.bind(str(path))
    return path


def test_a_store_that_is_no_regular_file(both, at_terminal, tmp_path):
    store = socket_file(tmp_path / "store")
    both(["node", TREE, "A", str(store), "--turns", "1"], "store fault", store, NO_FILE, True)
    assert at_terminal("rows", str(store)) == told_of(store, NO_FILE, "store fault")
    both(["node", TREE, "A", "/dev/null", "--turns", "1"], "store fault", "/dev/null", NO_FILE, True)


def test_a_store_that_only_begins_as_one(both, at_terminal, tmp_path):
    """Of what is in the way no more is known, so it may be gone at the next start."""
    store = broken_store(tmp_path / "store")
    both(["node", TREE, "A", str(store), "--turns", "1"], "store fault", store, NO_USE, False)
    assert at_terminal("rows", str(store)) == told_of(store, NO_USE, "store fault")


def test_a_store_of_a_screen(both, tmp_path):
    line = ["screen", TREE, "A", str(tmp_path), "--http", "127.0.0.1:%d" % screens.tcp_port(), "--turns", "1"]
    both(line, "store fault", tmp_path, FOLDER, True)


def test_a_store_that_another_process_has(both, start_node, tmp_path):
    tree = nodes.write_tree(str(tmp_path), nodes.free_ports(2))
    line = [tree, "A", str(tmp_path / "store")]
    assert start_node(*line, "--endless").ask("show TPC") == "board TPC none"
    both(["node", *line, "--turns", "1"], "store fault", tmp_path / "store", TAKEN, False)
    # a store of its own whose number is not in the table of locks is not taken
    broken = broken_store(tmp_path / "broken")
    both(["node", tree, "A", str(broken), "--turns", "1"], "store fault", broken, NO_USE, False)


def test_an_address_that_another_process_has(both, tmp_path):
    with taken(socket.SOCK_DGRAM) as port:
        tree = nodes.write_tree(str(tmp_path), [port, *nodes.free_ports(1)])
        both(["node", tree, "A", str(tmp_path / "store"), "--turns", "1"], "link fault", "127.0.0.1:%d" % port, TAKEN,
             False)


def test_an_address_of_another_machine(both, tmp_path):
    lines = [line.replace("127.0.0.1:9001", "192.0.2.1:9001") for line in nodes.tree_lines([9001, 9002])]
    tree = nodes.write_tree(str(tmp_path), None, lines)
    both(["node", tree, "A", str(tmp_path / "store"), "--turns", "1"], "link fault", "192.0.2.1:9001",
         "it is no address of this machine", False)


def node_line(folder, *more):
    """Returns a command line of a node for a turn, with a store and a tree in this folder, and more."""
    tree = nodes.write_tree(str(folder), nodes.free_ports(2))
    return ["node", tree, "A", str(folder / "store"), "--turns", "1", *map(str, more)]


def test_consoles_that_can_not_be(both, tmp_path):
    none = tmp_path / "none"
    both(node_line(tmp_path, "--console", none / "console"), "console fault", none, NOWHERE, True)
    (tmp_path / "file").write_text("")
    first = ["--console", tmp_path / "first"]
    both(node_line(tmp_path, *first, "--console", tmp_path / "file"), "console fault", tmp_path / "file",
         "it is no socket", True)
    with taken(socket.SOCK_STREAM) as port:
        where = "127.0.0.1:%d" % port
        both(node_line(tmp_path, "--console", where), "console fault", where, TAKEN, False)
    held = tmp_path / "held"
    with socket.socket(socket.AF_UNIX) as other:
        other.bind(str(held))
        other.listen()
        both(node_line(tmp_path, "--console", held), "console fault", held, TAKEN, False)


def test_a_journal_that_can_not_be(both, tmp_path):
    (tmp_path / "file").write_text("")
    no_folder = "it, or a part of it, is no folder"
    for folder in [tmp_path / "file", tmp_path / "file" / "below"]:
        both(node_line(tmp_path, "--journal", folder), "journal fault", folder, no_folder, True)


def test_a_screen_that_can_not_answer(both, tmp_path):
    lines = [line.replace("127.0.0.1:9001", "127.0.0.1:%d" % nodes.free_ports(1)[0])
             for line in nodes.tree_lines([9001, 9002])]
    tree = nodes.write_tree(str(tmp_path), None, lines)
    line = ["screen", tree, "A", str(tmp_path / "store"), "--turns", "1", "--http"]
    with taken(socket.SOCK_STREAM) as port:
        where = "127.0.0.1:%d" % port
        both([*line, where], "screen fault", where, TAKEN, False)
    for file, words in [(tmp_path, FOLDER), (socket_file(tmp_path / "socket"), NO_FILE)]:
        both([*line, "127.0.0.1:%d" % screens.tcp_port(), "--history", str(file)], "history fault", file, words, True)


def test_a_journal_that_is_not_there(at_terminal, tmp_path):
    none = tmp_path / "none"
    assert at_terminal("audit", TREE, "--trace", str(none)) == told_of(none, NOWHERE)


def test_a_service_without_its_tree(smi, tmp_path):
    none = tmp_path / "none"
    line = ["node", str(none), "A", str(tmp_path / "store"), "--service"]
    assert smi(*line)[1:] == (told_of(none, NOWHERE)[0], 5)


def test_a_service_whose_tree_is_refused(smi, tmp_path):
    tree = tmp_path / "tree"
    tree.write_text("tree 17\nstat RUNNING\n", encoding="utf-8")
    told = b"tree line 2 fault 1\n    stat RUNNING\n    no line begins with this word\n"
    assert smi("node", str(tree), "A", str(tmp_path / "store"), "--service")[1:] == (told, 1)


def test_a_service_that_ends_well(smi, tmp_path):
    assert smi(*node_line(tmp_path, "--service"))[1:] == (b"", 0)


def test_success_has_no_help(at_terminal):
    assert at_terminal("check", TREE) == (b"", 0)


# What a terminal is shown of a faulty tree file, by the text of the line in the place of the worked file's one.
FAULTS = [
    ("state RUNNING", "state A_NAME_OF_SEVENTEE", "tree line 4 fault 3\n    state A_NAME_OF_SEVENTEE\n"
     "    a name or a number is not well formed: A_NAME_OF_SEVENTEE is longer than 16\n"),
    ("state RUNNING", "state running", "tree line 4 fault 3\n    state running\n"
     "    a name or a number is not well formed\n"),
    ("state RUNNING", "stat RUNNING", "tree line 4 fault 1\n    stat RUNNING\n    no line begins with this word\n"),
    ("state RUNNING", "state \x1b[2J", "tree line 4 fault 3\n    state ?[2J\n"
     "    a name or a number is not well formed\n"),
    ("domain DCS", "domain ANN", "tree line 23 fault 4\n    domain ANN A UNIT -\n    declared twice\n"),
    ("state RUNNING", "state a_name_of_seventee", "tree line 4 fault 3\n    state a_name_of_seventee\n"
     "    a name or a number is not well formed\n"),
    # An address and a number are no names, however long they are.
    ("station A 127.0.0.1:9001", "station a 192.168.100.200:65535", "tree line 9 fault 3\n"
     "    station a 192.168.100.200:65535\n    a name or a number is not well formed\n"),
    ("tree 17\n", "tree 12345678901234567890\n", "tree line 1 fault 3\n    tree 12345678901234567890\n"
     "    a name or a number is not well formed\n"),
]


@pytest.mark.parametrize("words", [("check",), ("check", "--lint"), ("sim", "schedule"), ("audit", "journal")],
                         ids=" ".join)
@pytest.mark.parametrize("old, new, shown", FAULTS, ids=[new.replace("\x1b", "ESC") for _, new, _ in FAULTS])
def test_a_faulty_tree_file_at_a_terminal(smi, at_terminal, tmp_path, words, old, new, shown):
    with open(TREE, encoding="utf-8") as file:
        text = file.read()
    tree = tmp_path / "faulty.tree"
    tree.write_text(text.replace(old, new, 1), encoding="utf-8")
    line = [words[0], str(tree), *words[1:]]
    assert at_terminal(*line) == (shown.encode(), 1)
    assert smi(*line)[1:] == (shown.encode().split(b"\n")[0] + b"\n", 1)


def test_a_tree_file_without_domains_at_a_terminal(at_terminal, tmp_path):
    tree = tmp_path / "faulty.tree"
    tree.write_text("tree 1\n", encoding="utf-8")
    assert at_terminal("check", str(tree)) == (
        b"tree line 0 fault 12\n    a station, an operator, a state, an action or a domain is missing\n", 1)


def test_what_is_refused_for_another_reason_has_no_words(at_terminal, tmp_path):
    schedule = tmp_path / "faulty.schedule"
    schedule.write_text("nonsense\n", encoding="utf-8")
    assert at_terminal("sim", TREE, str(schedule)) == (b"schedule line 1 fault 1\n", 1)
