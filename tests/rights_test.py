"""Who may write to a console's socket by the umask of its node, and what a node leaves alone where its files would be.

A console is made in the place of no other file, a link among them (docs/FORMATS.md, "Connections"). A node whose
store's folder others may write in changes no file that a link there leads to.
"""

import os
import socket
import stat
import sys

import pytest

import consoles
import nodes
import running
from hostile import ASK, FREE
from running import read, write

# An account that has no files, and the Python program by which it asks at a console.
NOBODY = 65_534
ASKS = """
import socket, sys
one = socket.socket(socket.AF_UNIX)
one.settimeout(%d)
try:
    one.connect(sys.argv[1])
    one.sendall(b"%s\\n")
    print(one.makefile().readline().strip())
except PermissionError:
    print("no right")
""" % (running.DEADLINE, ASK)
FAULT = ([], ["console fault"], 3)


@pytest.mark.skipif(os.getuid() != 0, reason="only root can be somebody else")
@pytest.mark.parametrize("mask", [0o022, 0o002, 0o077, 0o007, 0o000], ids="{:03o}".format)
def test_masks(folder, tree, start_node, mask):
    """The socket's file has what the umask leaves, and another account orders only if it may write to it."""
    os.chmod(folder, 0o755)
    where = os.path.join(folder, "console")
    node = start_node(tree, "A", os.path.join(folder, "A"), "--endless", "--console", where,
                      preexec_fn=lambda: os.umask(mask))
    consoles.wait_for(where, node)
    told = running.run([sys.executable, "-c", ASKS, where], user=NOBODY, group=NOBODY, extra_groups=[])
    assert stat.S_IMODE(os.stat(where).st_mode) == 0o777 & ~mask
    assert told[0].decode().strip() == (FREE if not mask & 0o002 else "no right"), told


@pytest.mark.parametrize("name, make", [
    ("a link to a file", lambda path, file: os.symlink(file, path)),
    ("a link to nothing", lambda path, file: os.symlink(file + " that is not there", path)),
    ("a link to a socket that nobody has", lambda path, file: os.symlink(with_socket(file + " socket"), path)),
    ("a pipe", lambda path, file: os.mkfifo(path))], ids=lambda it: it if isinstance(it, str) else "")
def test_in_the_way(folder, tree, run_node, name, make):
    """Where something else is there is no console, and it stays there."""
    place, file = os.path.join(folder, "console"), write(os.path.join(folder, "file"), "precious")
    make(place, file)
    before, names = os.lstat(place), sorted(os.listdir(folder))
    told = run_node(tree, "A", os.path.join(folder, "A"), "--turns", nodes.FEW, "--console", place)
    assert (told, read(file)) == (FAULT, b"precious")
    after = os.lstat(place)
    assert (after.st_ino, after.st_mode) == (before.st_ino, before.st_mode)
    assert set(names) <= set(os.listdir(folder)) and not os.path.exists(file + " that is not there")


def with_socket(path):
    """Makes a socket's file at which nobody listens, and returns its path."""
    with socket.socket(socket.AF_UNIX) as one:
        one.bind(path)
    return path


def test_long(folder, tree, run_node):
    """A path that is too long for a socket is a fault."""
    place = os.path.join(folder, "x" * 120)
    assert run_node(tree, "A", os.path.join(folder, "A"), "--turns", nodes.FEW, "--console", place) == FAULT


ENDS = ["", "-tree", "-wal", "-shm", "-journal", "-sum", "-sum-new"]


@pytest.mark.parametrize("mode", [0o777, 0o1777], ids=oct)
@pytest.mark.parametrize("end", ENDS)
def test_links(folder, tree, run_node, end, mode):
    """What a link leads to that somebody put where a file of the store would be is not written to, and not made."""
    for name, text in [("there", b"precious"), ("gone", None)]:
        place, victim = os.path.join(folder, name), os.path.join(folder, name + " file")
        os.mkdir(place)
        os.chmod(place, mode)
        if text:
            write(victim, text)
        link = os.path.join(place, "store" + end)
        os.symlink(victim, link)
        if os.getuid() == 0:
            os.lchown(link, NOBODY, NOBODY)
        told = run_node(tree, "A", os.path.join(place, "store"), "--turns", nodes.FEW)
        assert read(victim) == text, (name, told)
        assert told[2] in (0, 1, 3), (name, told)
