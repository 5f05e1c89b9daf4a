"""How fast the program works, beside a plain measure of the same data in the same run.

Answers are measured beside a bare pipe and beside the same program in plain Rust, or in C where there is no rustc
(tests/peer): in turn, medians of seven rounds after one that does not count; and in instructions a datagram where
valgrind is installed. Drawn schedules have the median of as many rounds, with nothing beside them. Saves are measured
in fifteen rounds beside the same saves by SQLite's C library, over pages as long, in turn: medians, and the median of
the rounds' ratios. Of steps in memory each figure is the best of five rounds, of trees the best of twenty, of the
program and of the plain measure alike.

usage: bench.py SMI SMI_BENCH
"""

import os
import resource
import shutil
import sqlite3
import statistics
import struct
import subprocess
import sys
import tempfile
import time

import trees as tree_files
from running import HERE

ROUNDS = 5
# How many items are drawn: as many as the program takes.
ITEMS = 1_000_000
# The programs that answer are run in turn so often, after one run that does not count.
TURNS = 7
# A disk disturbs saves more than a processor disturbs answers, so those have more rounds.
SAVE_TURNS = 15
# A tree is read in a millisecond, which other work on the machine disturbs more.
TREE_ROUNDS = 20
GRANTS = 500_000
COMMANDS = 8
SAVES = 10_000
# How many rows the stores have: those of one station's domains, and of all stations'.
KEPT = [128, 128 * 128]


def datagram(kind, code=0, epoch=0, number=0, argument=0):
    return bytes([0x53, 0x4D, 1, kind]) + struct.pack(
        ">HHHBBHHQIHHIII", 2, 1, 1, 1, 0, 2, code, epoch, number, argument, 17, 0, 0, 0)


def write_grants(path, grants=GRANTS):
    """Grants of one domain one after the other: a take, eight commands, a drop."""
    with open(path, "wb") as file:
        for grant in range(grants):
            epoch = 2 * grant
            file.write(datagram(2, epoch=epoch)
                       + b"".join(datagram(4, 1, epoch + 1, n, 1) for n in range(1, COMMANDS + 1))
                       + datagram(3, epoch=epoch + 1))
    return grants * (COMMANDS + 2)


def worked():
    """How long processors have worked for the runs so far, in seconds."""
    usage = resource.getrusage(resource.RUSAGE_CHILDREN)
    return usage.ru_utime + usage.ru_stime


def seconds(command):
    """The time of one run, and how long processors worked for it."""
    start, before = time.perf_counter(), worked()
    subprocess.run(command, shell=True, check=True)
    return time.perf_counter() - start, worked() - before


def medians(commands):
    """Of each command the median time, and that of the processors, of runs in turn."""
    turns = [[seconds(command) for command in commands] for _ in range(1 + TURNS)][1:]
    return [tuple(map(statistics.median, zip(*runs))) for runs in zip(*turns)]


def instructions(program, paths):
    """How many instructions a program takes for each datagram that one file has more than the other."""
    counts = []
    for path in paths:
        with open(path, "rb") as file:
            command = ["valgrind", "--tool=callgrind", "--callgrind-out-file=/dev/null"] + program
            told = subprocess.run(command, stdin=file, stdout=subprocess.DEVNULL, stderr=subprocess.PIPE,
                                  check=True).stderr.decode()
        counts.append(next(int(line.split()[-1]) for line in told.splitlines() if "Collected" in line))
    return abs(counts[0] - counts[1]) * 44 / abs(os.path.getsize(paths[0]) - os.path.getsize(paths[1]))


def plain_program(folder):
    """The language of the plain program, and where it is."""
    path = os.path.join(folder, "plain")
    if shutil.which("rustc"):
        source = os.path.join(HERE, "peer", "answer.rs")
        subprocess.run(["rustc", "--edition", "2021", "-O", "-o", path, source], check=True)
        return "Rust", path
    subprocess.run(["cc", "-O2", "-o", path, os.path.join(HERE, "peer", "answer.c")], check=True)
    return "C", path


def answers(program, folder):
    """Answers beside a bare pipe and beside the plain program, which answers the same."""
    path, short, long = (os.path.join(folder, name) for name in ("grants", "short", "long"))
    count = write_grants(path)
    write_grants(short, 10_000)
    write_grants(long, 20_000)
    language, plain = plain_program(folder)
    subprocess.run("%s answer < %s > %s.told && %s < %s | cmp - %s.told" % (program, long, long, plain, long, long),
                   shell=True, check=True)
    answer, pipe = medians(["cat %s | %s | cat > /dev/null" % (path, middle)
                            for middle in (program + " answer", "cat")])
    print("answer: %d datagrams, %.0f a second; through cat alone %.0f; ratio %.2f; %d KiB at most"
          % (count, count / answer[0], count / pipe[0], pipe[0] / answer[0], peak_kib(program, path)))
    answer, peer = medians(["%s < %s > /dev/null" % (words, path) for words in (program + " answer", plain)])
    print("answer: %.0f a second; plain %s %.0f; ratio %.2f, by processor time %.2f"
          % (count / answer[0], language, count / peer[0], peer[0] / answer[0], peer[1] / answer[1]))
    if shutil.which("valgrind"):
        print("answer: %.1f instructions a datagram; plain %s %.1f"
              % (instructions([program, "answer"], (short, long)), language, instructions([plain], (short, long))))


def peak_kib(program, path):
    """The most memory that one run has had once it has read the whole file, in KiB."""
    with open(os.devnull, "wb") as null, open(path, "rb") as file:
        child = subprocess.Popen([program, "answer"], stdin=subprocess.PIPE, stdout=null)
        shutil.copyfileobj(file, child.stdin)
        child.stdin.flush()
        with open("/proc/%d/status" % child.pid, encoding="ascii") as status:
            peak = next(int(line.split()[1]) for line in status if line.startswith("VmHWM:"))
        child.stdin.close()
        child.wait()
    return peak


def tree_lines():
    """The lines of a tree at its limits, as many moves as one likes at the end."""
    yield "tree 1"
    for count, form in [(64, "state S%d"), (64, "action A%d"), (128, "station W%d 10.0.0.1:9000")]:
        yield from (form % n for n in range(1, count + 1))
    yield from ("operator O%d W%d" % (n, n) for n in range(1, 33))
    yield "unitclass UNIT S1"
    yield from ("devclass D%d S1" % n for n in range(1, 32))
    yield from ("accept UNIT A%d" % n for n in range(1, 65))
    yield from ("domain N%d W%d UNIT -" % (n, n) for n in range(1, 129))
    yield from ("device V%d N%d D%d" % (n, n % 128 + 1, n % 31 + 1) for n in range(1, 513))
    for device in range(1, 32):
        for state in range(1, 65):
            yield from ("move D%d S%d A%d S%d" % (device, state, n, (state + n) % 64 + 1) for n in range(1, 65))


def write_tree(path, size):
    """A tree file of at most that many bytes."""
    text = ""
    for line in tree_lines():
        if len(text) + len(line) >= size:
            break
        text += line + "\n"
    with open(path, "w", encoding="ascii") as file:
        file.write(text)


def trees(measures, folder):
    """How long a long and a short tree file take to read, beside a plain loop over the same bytes."""
    reading = []
    for size, times in [(256 * 1024, 25), (64 * 1024, 100)]:
        path = os.path.join(folder, "tree")
        write_tree(path, size)
        runs = [subprocess.run([measures, "tree", path, str(times)], stdout=subprocess.PIPE,
                               stderr=subprocess.DEVNULL, check=True).stdout.split()
                for _ in range(TREE_ROUNDS)]
        read, plain = min(int(words[3]) for words in runs), min(int(words[7]) for words in runs)
        reading.append(read)
        print("tree: %d bytes, read %d us, plain loop %d us, %.1f times as long"
              % (int(runs[0][0]), read, plain, read / plain))
    print("tree: the longer file takes %.1f times as long" % (reading[0] / reading[1]))


def row_bytes(save):
    """The row of a domain that operator 2 took, its last command numbered by the save."""
    return struct.pack(">BBHQIBBHHH", 2, 1, 2, 1, save, 0, 0, 0, 0, 0)


def check_store(path, kept):
    """The store as Python's own SQLite reads it: whole, and of each domain the row that was saved last."""
    # Each row once, and then the saves.
    last = {place: place for place in range(kept)}
    last.update({save % kept: save for save in range(kept, kept + SAVES)})
    with sqlite3.connect(path) as file:
        rows = file.execute("SELECT * FROM stable_rows ORDER BY station, domain, operator").fetchall()
        whole, page = (file.execute("PRAGMA " + name).fetchall() for name in ("integrity_check", "page_size"))
    file.close()
    assert whole == [("ok",)] and page == [(512,)], (whole, page)
    assert rows == [(place // 128 + 1, place % 128 + 1, 0, row_bytes(save))
                    for place, save in sorted(last.items())], path


def counting(folder):
    """The library that counts how often a file is handed to the device."""
    path = os.path.join(folder, "syncs.so")
    source = os.path.join(HERE, "syncs.c")
    subprocess.run(["cc", "-shared", "-fPIC", "-O1", "-o", path, source], check=True)
    return path


def c_saves(folder):
    """The program that makes the same saves by SQLite's C library; None where that is not installed."""
    path = os.path.join(folder, "c_saves")
    source = os.path.join(HERE, "peer", "saves.c")
    made = subprocess.run(["cc", "-O2", "-o", path, source, "-lsqlite3"], stderr=subprocess.DEVNULL, check=False)
    return path if made.returncode == 0 else None


def saved_by_c(folder, kept):
    """The saves a second that C's SQLite makes; None where it is not installed."""
    by_c = c_saves(folder)
    if not by_c:
        return None
    store = os.path.join(folder, "c_store")
    told = subprocess.run([by_c, store, str(SAVES), str(kept)], stdout=subprocess.PIPE, check=True).stdout.split()
    check_store(store, kept)
    return SAVES * 1e6 / int(told[2])


def saves_over(measures, folder, kept):
    """So many saves to a store with so many rows: saves a second, those by C, plain writes, and syncs a save."""
    store, syncs = os.path.join(folder, "store"), os.path.join(folder, "syncs")
    command = [measures, "saves", store, os.path.join(folder, "plain"), str(SAVES), str(kept)]
    settings = dict(os.environ, LD_PRELOAD=counting(folder), SYNCS=syncs)
    words = subprocess.run(command, stdout=subprocess.PIPE, check=True, env=settings).stdout.split()
    check_store(store, kept)
    with open(syncs, encoding="ascii") as file:
        # Each plain write is handed to the device once.
        count = int(file.read()) - SAVES
    saved, written = (SAVES * 1e6 / int(words[place]) for place in (3, 7))
    return saved, saved_by_c(folder, kept), written, count / (kept + SAVES)


def stored_steps(measures, folder, tree):
    """Steps of a station that take a domain and drop it, each of which saves its row: steps a second, and the saves of
    as many rows by C."""
    store = os.path.join(folder, "store")
    words = subprocess.run([measures, "stored", tree, store, str(SAVES)], stdout=subprocess.PIPE,
                           check=True).stdout.decode().replace(",", "").split()
    assert int(words[0]) == int(words[4]) == SAVES, words
    with sqlite3.connect(store) as file:
        rows = dict(((station, domain, operator), row) for station, domain, operator, row
                    in file.execute("SELECT * FROM stable_rows"))
    file.close()
    # Each step has raised the epoch of the domain by one.
    assert rows[1, 1, 0][4:12] == SAVES.to_bytes(8, "big"), rows
    return SAVES * 1e6 / int(words[2]), saved_by_c(folder, 1)


def on_disk(measures, measure):
    """The figures of each round of a measure, one list for each figure.

    Each round has files of its own, on the disk that the repository is on, as a folder for temporary files may be in
    memory. What is compared is measured in turn, since the disk is now faster and now slower.
    """
    runs = []
    for _ in range(1 + SAVE_TURNS):
        with tempfile.TemporaryDirectory(dir=os.path.dirname(measures)) as folder:
            runs.append(measure(folder))
    return list(zip(*runs[1:]))


def beside_c(what, ours, by_c):
    """Tells a measure's median, C's, and the median of what each round makes of the two."""
    told = "%s: %.0f a second (least %.0f)" % (what, statistics.median(ours), min(ours))
    if by_c[0] is None:
        return told
    ratios = [mine / other for mine, other in zip(ours, by_c)]
    return told + "; C's SQLite, with a log and full syncs too, %.0f (least %.0f); ratio %.2f (%.2f to %.2f)" % (
        statistics.median(by_c), min(by_c), statistics.median(ratios), min(ratios), max(ratios))


def saves(measures, folder):
    """Saves of stable rows and steps over a store in a file, beside the same saves by C; and beside the same bytes
    written one row after the other and handed to the device."""
    full = os.path.join(folder, "full.tree")
    with open(full, "w", encoding="ascii") as file:
        file.write(tree_files.full())
    for name, tree in [("worked", os.path.join(HERE, "..", "examples", "worked.tree")), ("full", full)]:
        ours, by_c = on_disk(measures, lambda place, tree=tree: stored_steps(measures, place, tree))
        print(beside_c("steps: take over the %s tree, each saved in a file" % name, ours, by_c))
    for kept in KEPT:
        ours, by_c, written, syncs = on_disk(measures, lambda place, kept=kept: saves_over(measures, place, kept))
        print(beside_c("stable rows: %d saves to %d rows" % (SAVES, kept), ours, by_c))
        print("stable rows: plain writes %.0f a second; ratio %.2f; %.2f syncs a save"
              % (statistics.median(written), statistics.median(map(lambda a, b: a / b, ours, written)), max(syncs)))


LAYERS = [["board", "1", "2000000"], ["board", "3", "2000000"], ["link", "20000"], ["watchers", "20"]]


def layers(measures):
    """How fast the board, two links over UDP and the watcher lists are: every run."""
    for words in LAYERS:
        lines = [subprocess.run([measures] + words, stdout=subprocess.PIPE, stderr=subprocess.DEVNULL,
                                check=True).stdout.decode().strip()
                 for _ in range(ROUNDS)]
        print("\n".join(lines))


def schedules(program):
    """How many items of a drawn schedule are made and written in a second."""
    trees_of = [os.path.join(HERE, "..", "examples", name) for name in ("worked.tree", "detector.tree")]
    commands = ["%s sim %s --seed 1 --steps %d > /dev/null" % (program, tree, ITEMS) for tree in trees_of]
    for tree, taken in zip(trees_of, medians(commands)):
        print("sim: %d drawn items over %s, %.0f a second" % (ITEMS, os.path.basename(tree), ITEMS / taken[0]))


# Three levels of domains that one station keeps.
LEVELS = """tree 17
state OFF
action GO
station A 127.0.0.1:9001
operator ANN A
unitclass UNIT OFF
accept UNIT GO
domain TOP A UNIT -
domain MID A UNIT TOP
domain LOW A UNIT MID
"""

# What is measured of steps, over which trees, and how many times.
STEPS = [("take", "worked", 400_000), ("take", "full", 400_000), ("do", "levels", 50_000), ("do", "worked", 400_000),
         ("do", "full", 400_000), ("state", "worked", 400_000), ("state", "full", 400_000), ("tick", "worked", 400_000),
         ("tick", "full", 100_000), ("due", "worked", 400_000), ("due", "full", 20_000)]

# What such steps send each, where that is known.
SENT_EACH = {("tick", "worked"): 0, ("tick", "full"): 0, ("due", "full"): 64}


def best_of(command):
    """The words of that run of a measure whose time, its third word, was least."""
    runs = [subprocess.run(command, stdout=subprocess.PIPE, check=True).stdout.decode().replace(",", "").split()
            for _ in range(ROUNDS)]
    return min(runs, key=lambda words: int(words[2]))


def steps(measures, folder):
    """How many steps a station makes in a second, and how many items a world, without text."""
    paths = {name: os.path.join(folder, name + ".tree") for name in ("full", "levels")}
    paths["worked"], paths["detector"] = (os.path.join(HERE, "..", "examples", name + ".tree")
                                          for name in ("worked", "detector"))
    for name, text in [("full", tree_files.full()), ("levels", LEVELS)]:
        with open(paths[name], "w", encoding="ascii") as file:
            file.write(text)
    for kind, name, count in STEPS:
        words = best_of([measures, "steps", paths[name], kind, str(count)])
        made, took, good, sent, changes = (int(words[place]) for place in (0, 2, 4, 6, 8))
        # Nothing was refused, and each told state has changed the unit.
        assert good == made and (kind != "state" or changes == count), words
        assert (kind, name) not in SENT_EACH or sent == SENT_EACH[kind, name] * made, words
        print("steps: %s over the %s tree, %.0f a second, %.2f datagrams each"
              % (kind, name, made * 1e6 / took, sent / made))
    for what, told in [("act", "drawn items"), ("steady", "drawn items that start no station again")]:
        rates = {}
        for name in ("worked", "detector"):
            words = best_of([measures, what, paths[name], str(ITEMS)])
            assert what == "steady" or int(words[0]) == ITEMS, words
            rates[name] = int(words[0]) * 1e6 / int(words[2])
        print("act: %s without text, %.0f a second over the worked tree, %.0f over the detector's; %.2f times as long"
              % (told, rates["worked"], rates["detector"], rates["worked"] / rates["detector"]))


def main():
    program, measures = map(os.path.abspath, sys.argv[1:])
    with tempfile.TemporaryDirectory() as folder:
        answers(program, folder)
        schedules(program)
        steps(measures, folder)
        trees(measures, folder)
        layers(measures)
        saves(measures, folder)


if __name__ == "__main__":
    main()
