"""Words that are no text, and stores that are read and never written: what the program does with each."""

import contextlib
import fcntl
import os
import sqlite3
import subprocess
import termios
import threading

import pytest

import running
import stores
import trees

# What no form of a command line has: a word that is not UTF-8, or that ends the options.
ODD = b"\xff\xfe"


@pytest.fixture
def tree(folder):
    return running.write(os.path.join(folder, "worked.tree"), trees.WORKED)


@pytest.mark.parametrize("words", [
    [ODD], [b"answer", ODD], [b"check", "TREE", ODD], [b"check", ODD, "TREE"], [b"check", b"-" + ODD],
    [b"rows", b"--" + ODD], [ODD, b"answer"], [b"--"], [b"--", b"answer"], [b"answer", b"--"],
    [b"check", b"--", "TREE"], [b"check", "TREE", b"--"], [b"rows", b"--", ODD]], ids=str)
def test_words(smi, tree, words):
    """No command has these words."""
    assert smi(*(tree if it == "TREE" else it for it in words)) == (b"", b"wrong line\n", 2)


def test_paths(smi, folder, subtests):
    """Paths that are no text lead to files like any others."""
    path = os.path.join(folder.encode(), b"tree " + ODD)
    with subtests.test("a tree file that is not there, by no text"):
        assert smi("check", path) == (b"", b"read fault\n", 3)
    with open(path, "w", encoding="ascii") as file:
        file.write(trees.WORKED)
    counts = b"tree 17 stations 2 operators 2 domains 2 devices 1\n"
    with subtests.test("a tree file by no text"):
        assert smi("check", path) == (counts, b"", 0)
    # Two paths that read the same, and are not.
    play = os.path.join(folder.encode(), b"tree " + ODD[::-1])
    with open(play, "wb") as file:
        file.write(b"order BOB take TPC\n")
    trace = b"booted A 1\npassed DCS 1.0 OFF\nbooted B 1\npassed TPC 1.0 OFF\npassed HV 1.0 OFF\nsent 1 TAKE B B TPC\n"
    with subtests.test("a tree file and a schedule by no text"):
        assert smi("sim", path, play) == (trace, b"", 0)
    with subtests.test("a schedule that is not there, by no text"):
        assert smi("sim", path, play + ODD) == (b"", b"read fault\n", 3)
    # A name that has the sign for what is no text is another file's.
    other = os.path.join(folder, "tree \ufffd\ufffd")
    with subtests.test("a tree file by another name"):
        assert smi("check", other) == (b"", b"read fault\n", 3)
    path = os.path.join(folder.encode(), b"store " + ODD)
    with subtests.test("a store that is not there, by no text"):
        assert smi("rows", path) == (b"", b"store fault\n", 3)
    os.rename(stores.store(os.path.join(folder, "text"), stores.TABLE, stores.ROWS), path)
    with subtests.test("a store by no text"):
        assert smi("rows", path) == (stores.listing(stores.ROWS).encode(), b"", 0)


def contents(folder):
    """Returns each file of a folder, with its bytes and the time of its last change."""
    found = {}
    for name in sorted(os.listdir(folder)):
        path = os.path.join(folder, name)
        with open(path, "rb") as file:
            found[name] = (file.read(), os.stat(path).st_mtime_ns)
    return found


def listed_alone(smi, subtests, name, path, rows):
    """Checks that a store is listed, and that neither it nor its folder changes. Both may not be written."""
    folder = os.path.dirname(path)
    before = contents(folder)
    for it in before:
        os.chmod(os.path.join(folder, it), 0o444)
    os.chmod(folder, 0o555)
    done = smi("rows", path)
    os.chmod(folder, 0o755)
    with subtests.test(name):
        assert (done, contents(folder)) == ((stores.listing(rows).encode(), b"", 0), before)


def store_in(folder, name):
    os.mkdir(os.path.join(folder, name))
    return os.path.join(folder, name, "store")


def test_reading(smi, folder, subtests):
    """Each store that is only read is listed, and left unchanged."""
    path = stores.store(store_in(folder, "alone"), stores.TABLE, stores.ROWS)
    listed_alone(smi, subtests, "a store that may not be written", path, stores.ROWS)
    link = os.path.join(folder, "link")
    os.symlink(path, link)
    with subtests.test("a store by a link"):
        assert smi("rows", link) == (stores.listing(stores.ROWS).encode(), b"", 0)
    path = store_in(folder, "blank")
    open(path, "wb").close()
    listed_alone(smi, subtests, "a file with nothing in it", path, [])
    # Two rows of three are in the log alone.
    path, there = store_in(folder, "logged"), store_in(folder, "there")
    with sqlite3.connect(there) as file:
        file.execute("PRAGMA journal_mode = WAL")
        file.execute(stores.TABLE)
        for key, text in stores.ROWS:
            file.execute("INSERT INTO stable_rows VALUES (?, ?, ?, ?)", key + (bytes.fromhex(text),))
            file.commit()
        for more in ["", "-wal"]:
            with open(there + more, "rb") as source, open(path + more, "wb") as copy:
                copy.write(source.read())
    file.close()
    with subtests.test("a store with a log: it has one"):
        assert os.path.getsize(path + "-wal") > 0
    listed_alone(smi, subtests, "a store with a log", path, stores.ROWS)
    fifo = os.path.join(folder, "fifo")
    os.mkfifo(fifo)
    with subtests.test("a pipe with a name"):
        assert smi("rows", fifo) == (b"", b"store fault\n", 3)
    path = stores.store(store_in(folder, "journal"), stores.TABLE, stores.ROWS)
    with open(path + "-journal", "wb") as file:
        file.write(b"\xd9\xd5\x05\xf9\x20\xa1\x63\xd7")
    with subtests.test("a store to be played back"):
        assert smi("rows", path) == (b"", b"store fault\n", 3)


def row(place):
    """Returns a row by its place."""
    return (1, place, 0), "%016x" % place


def write_on(path, written, is_over):
    """Saves one row after the other, and counts them."""
    file = sqlite3.connect(path)
    file.execute("PRAGMA journal_mode = WAL")
    while not is_over.is_set() and written[0] < 20_000:
        key, text = row(written[0] + 1)
        file.execute("INSERT INTO stable_rows VALUES (?, ?, ?, ?)", key + (bytes.fromhex(text),))
        file.commit()
        written[0] += 1
        is_over.wait(0.0005)
    file.close()


def test_crowd(program, folder, subtests):
    """Forty listings at once, while the store is written, list what was saved when they began.

    None lists what was not saved when it ended."""
    path = stores.store(store_in(folder, "crowd"), stores.TABLE, [row(1)])
    written, is_over = [1], threading.Event()
    writer = threading.Thread(target=write_on, args=(path, written, is_over))
    writer.start()
    before = written[0]
    listings = [subprocess.Popen([program, "rows", path], stdout=subprocess.PIPE, stderr=subprocess.PIPE)
                for _ in range(40)]
    done = [(listing.communicate(), listing.returncode) for listing in listings]
    # The row that is being saved may be there before it is counted.
    after = written[0] + 1
    is_over.set()
    writer.join()
    with subtests.test("forty listings beside a writer: it wrote meanwhile"):
        assert after > before + 1
    wrong = []
    for (out, err), status in done:
        count = out.count(b"\n")
        wanted = stores.listing([row(place) for place in range(1, count + 1)]).encode()
        is_so = (out, err, status) == (wanted, b"", 0) and before <= count <= after
        wrong += [] if is_so else [(out[-200:], err, status, before, count, after)]
    with subtests.test("forty listings beside a writer"):
        assert wrong == []


# How many bytes the head of a log has, and how many a row that fills most of a page.
LOG_HEAD, LONG_ROW = 32, 3_000


def moments(folder):
    """Returns the bytes of a store's file and of its log at two moments, and the rows at the second.

    In between the log was copied into the file and begun again, so the file of the one lacks a page beside the log of
    the other.
    """
    rows = [((1, place, 0), "%02x" % place * LONG_ROW) for place in (1, 2, 3)]
    path, found = store_in(folder, "moments"), []
    file = sqlite3.connect(stores.store(path, stores.TABLE, rows[:1]))
    file.execute("PRAGMA journal_mode = WAL")
    for key, text in rows[1:]:
        file.execute("PRAGMA wal_checkpoint(RESTART)")
        file.execute("INSERT INTO stable_rows VALUES (?, ?, ?, ?)", key + (bytes.fromhex(text),))
        file.commit()
        found.append((running.read(path), running.read(path + "-wal")))
    file.close()
    return found, rows


def open_files(child, path):
    """Returns how often a process has the file of a path open."""
    found, there = 0, b"/proc/%d/fd" % child.pid
    # (it may end, or close one, meanwhile)
    with contextlib.suppress(OSError):
        for name in os.listdir(there):
            with contextlib.suppress(FileNotFoundError):
                found += os.readlink(os.path.join(there, name)) == path
    return found


def test_descriptors(start_node, folder):
    """A file that was opened by a path that is no text is closed once it is read."""
    path = os.path.join(folder.encode(), b"tree " + ODD)
    with open(path, "w", encoding="ascii") as file:
        file.write(trees.WORKED)
    node = start_node(os.fsdecode(path), "A", os.path.join(folder, "store"))
    assert node.ask("order ANN watch TPC").endswith(" 0")
    assert open_files(node.child, path) == 0


def is_taken(listing, pipe, data):
    """Writes to a pipe, and returns true once a listing has read that, or false if it has ended before."""
    os.write(pipe, data)
    left = bytearray(b"?")
    while any(left) and listing.poll() is None:
        left = bytearray(4)
        fcntl.ioctl(pipe, termios.FIONREAD, left)
    return not any(left)


def give_log(listing, path, log, while_open):
    """Gives a listing its log by a pipe, and does something once the listing has begun to read it.

    Returns once the listing has seen the end of the log, or has ended.
    """
    pipe = None
    while pipe is None and listing.poll() is None:
        with contextlib.suppress(OSError):
            pipe = os.open(path, os.O_WRONLY | os.O_NONBLOCK)
    if pipe is None:
        return
    count = 0
    with contextlib.suppress(BrokenPipeError):
        if is_taken(listing, pipe, log[:LOG_HEAD]):
            while_open()
            count = open_files(listing, path) if is_taken(listing, pipe, log[LOG_HEAD:]) else 0
    os.close(pipe)
    while listing.poll() is None and open_files(listing, path) >= count > 0:
        pass


@pytest.mark.parametrize("readings", [pytest.param(0, id="first"), pytest.param(1, id="second")])
def test_torn(program, folder, readings):
    """A store whose log is begun again while a listing reads it, after some whole readings, is read once more."""
    # The log is a pipe, and the path no text: of such a path a listing opens any kind of file.
    path = os.path.join(os.path.realpath(folder).encode(), b"torn " + ODD)
    (before, after), rows = moments(folder)
    running.write(path, before[0])
    os.mkfifo(path + b"-wal")
    listing = subprocess.Popen([program, "rows", path], stdout=subprocess.PIPE, stderr=subprocess.PIPE)
    for _ in range(readings):
        give_log(listing, path + b"-wal", before[1], lambda: None)
    while listing.poll() is None:
        give_log(listing, path + b"-wal", after[1], lambda: running.write(path, after[0]))
    assert (*listing.communicate(), listing.returncode) == (stores.listing(rows).encode(), b"", 0)
