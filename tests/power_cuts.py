"""Power that is cut: what a node writes, syncs and says is recorded, and its store put together as a disk may have it.

usage: power_cuts.py [--moments N] [--answers N] [--lives N] [--seed N] [--unsynced N] PROGRAM

A node lives some lives, each ended by SIGKILL, while ANN orders and somebody asks for the record of DCS by datagram
(tests/records.c). Then moments are drawn. At each one the disk has what was synced. Of the rest it has nothing, all,
all up to some write, or any parts of any writes, cut at sectors of 512 bytes or at any byte. A name is on the disk once
its file or the folder was synced, and may be there before. On each such store `smi rows` has to find all that had been
told on a socket by then, and sqlite3 has to find the same. On each twentieth of them a node has to start. With
--unsynced N each N-th sync is left out, which has to be found.
"""

import argparse
import collections
import os
import random
import socket
import sqlite3
import struct
import tempfile
import threading

import layout
import ledgers
import running
from ledgers import Crew, Place, Saved, read_rows, saved_in

# The files of a store by their numbers in the records, and who something is said to.
NAMES = dict(enumerate(["", "-wal", "-tree", "-tree-new", "-sum", "-sum-new", "-journal"], 1))
CONNECTED, ANY = 100, 101
AT_THE_END = (1 << 64) - 1
SECTOR = 512
# What a disk may have of what was not synced.
WAYS = ("none", "all", "a beginning", "any parts", "any parts")
# On which store of how many a node is started, and how many records come before the first moment.
STARTS, FIRST = 20, 20
# How often the record of DCS is asked for, and how long a life may take, in seconds.
ASKS, LONGEST = 0.003, 120


class Record:
    """One thing that was done: what, to which file, at which place, and with which bytes."""

    def __init__(self, done, kind, place, data):
        self.done, self.kind, self.place, self.data = done, kind, place, data


def records_in(path):
    """Returns the records of a file, in their order."""
    data, at, found = running.read(path) or b"", 0, []
    while at + 16 <= len(data):
        done, kind, count, place = struct.unpack("=cBxxIQ", data[at:at + 16])
        at += 16
        found.append(Record(done.decode(), kind, place, data[at:at + count]))
        at += count
    return found


def torn(draw, at, before, data):
    """Returns the bytes of a write at a place that came in part: up to or from a byte, or in some of its sectors."""
    if draw.random() < 0.5:
        cut = draw.randrange(len(data) + 1)
        return data[:cut] + before[cut:] if draw.random() < 0.5 else before[:cut] + data[cut:]
    whole, place = bytearray(before), 0
    while place < len(data):
        end = min(((at + place) // SECTOR + 1) * SECTOR - at, len(data))
        if draw.random() < 0.5:
            whole[place:end] = data[place:end]
        place = end
    return bytes(whole)


def write_to(data, record, draw=None):
    """Does a write or a cut to these bytes, in part if there is something to draw from."""
    end = len(data) if record.place == AT_THE_END else record.place
    if record.done == "T":
        del data[end:]
    data.extend(bytes(max(0, end + len(record.data) - len(data))))
    if record.data:
        there = slice(end, end + len(record.data))
        data[there] = torn(draw, end, bytes(data[there]), record.data) if draw else record.data


class File:
    """A file: what the disk surely has of it, and what was done to it since."""

    def __init__(self, made):
        self.made, self.synced, self.pending = made, bytearray(), []

    def sync(self):
        for record in self.pending:
            write_to(self.synced, record)
        self.pending = []

    def left(self, draw, way):
        """Returns what a disk may have of it."""
        data = bytearray(self.synced)
        count = {"none": 0, "a beginning": draw.randrange(len(self.pending) + 1)}.get(way, len(self.pending))
        for place, record in enumerate(self.pending[:count + 1]):
            chance = draw.random()
            if way == "any parts":
                if chance < 0.7:
                    write_to(data, record, draw if chance > 0.4 else None)
            elif place < count:
                write_to(data, record)
            elif way == "a beginning":
                write_to(data, record, draw)
        return bytes(data)


class Disk:
    """The files of a store by their names: as they are, and as the disk surely has them."""

    def __init__(self):
        self.files, self.surely, self.changes = {}, {}, []

    def file(self, kind):
        """Returns the file of that name, which is made if there is none."""
        if kind not in self.files:
            self.change({kind: File(len(self.changes) + 1)})
        return self.files[kind]

    def change(self, names):
        """Gives names to files, or takes them away, all at once."""
        self.files = changed(self.files, names)
        self.changes.append(names)

    def settle(self, count):
        """Has the first changes of names on the disk."""
        for place, names in enumerate(self.changes[:count]):
            self.surely = changed(self.surely, names)
            self.changes[place] = {}

    def take(self, record):
        """Does what was done."""
        if record.done in "WT":
            self.file(record.kind).pending.append(record)
        elif record.done == "S":
            self.file(record.kind).sync()
            self.settle(self.file(record.kind).made)
        elif record.done == "D":
            self.settle(len(self.changes))
        elif record.done == "U" and record.kind in self.files:
            self.change({record.kind: None})
        elif record.done == "N" and record.kind in self.files and record.place in NAMES:
            self.change({record.place: self.files[record.kind], record.kind: None})

    def left(self, draw, way):
        """Returns what a disk may have: bytes by the ends of the names of their files."""
        names, ahead = self.surely, [it for it in self.changes if it]
        count = {"none": 0, "all": len(ahead)}.get(way, draw.randrange(len(ahead) + 1))
        for more in ahead[:count]:
            names = changed(names, more)
        return {NAMES[kind]: file.left(draw, way) for kind, file in names.items()}


def changed(files, names):
    """Returns files by their names, of which some are given to files or taken away."""
    return {kind: file for kind, file in {**files, **names}.items() if file}


class Told:
    """What was told up to a moment: the least epoch and last command that have to be found."""

    def __init__(self):
        self.epoch, self.last, self.answers, self.record, self.rest = 0, 0, 0, (0, 0), b""

    def take(self, record):
        if record.done == "A" and record.kind == CONNECTED:
            *lines, self.rest = (self.rest + record.data).split(b"\n")
            for line in lines:
                self.hear(line.decode("ascii", "replace").split(" "))
        elif record.done == "A" and layout.refusal(record.data) == 0 and record.data[3] == layout.TELL:
            field = layout.values(record.data)
            self.record = max(self.record, (field["epoch"], field["number"]))

    def hear(self, words):
        words = words[1:] if words[0].startswith("@") else words
        if words[:2] == ["told", "ANN"] and len(words) > 3:
            self.answers += 1
            if words[2] in ("take", "drop") and words[-1] == "0":
                self.epoch, self.last = self.epoch + 1, 0
            self.last += words[2] == "do" and words[-1] in ledgers.RUN

    def is_in(self, saved):
        """Returns true if what was told is in what is saved: of the record, and of what ANN knows of it."""
        told = (self.epoch, self.last)
        return (saved.epoch, saved.last) >= max(told, self.record) and saved.known >= told

    def __str__(self):
        return "%d %d and the record %s" % (self.epoch, self.last, self.record)


class Asker(threading.Thread):
    """Asks A for the record of DCS as station B does, which a node never tells before it is saved."""

    def __init__(self, ports):
        super().__init__(daemon=True)
        self.ports, self.is_over = ports, threading.Event()

    def run(self):
        ask = layout.datagram(layout.ASK, **{"from": 2}, to=1, subject=ledgers.DCS)
        with socket.socket(socket.AF_INET, socket.SOCK_DGRAM) as one:
            one.bind(("127.0.0.1", self.ports[1]))
            while not self.is_over.wait(ASKS):
                one.sendto(ask, ("127.0.0.1", self.ports[0]))


def recorded(program, folder, draw, lives, answers, unsynced=0):
    """Has a node live some lives with this many answers in all, and returns the records, and what is strange of an answer or a start."""
    place, path = Place(program, folder), os.path.join(folder, "records")
    env = {**ledgers.library("records.c", folder), "RECORDS": path, "UNSYNCED": str(unsynced)}
    asker, strange = Asker(place.ports), []
    asker.start()
    for life in range(lives):
        before = place.saved() if life else Saved()
        node, console = place.start(env=env)
        if console is None:
            strange.append("life %d ended with %s" % (life, node.end()))
            break
        strange.append(Crew(console, draw, before).work(LONGEST, answers // lives))
        node.kill()
        console.close()
    asker.is_over.set()
    asker.join()
    return records_in(path), [it for it in strange if it]


class Judge:
    """What is found of stores as disks may have them."""

    def __init__(self, program, folder, draw):
        os.makedirs(folder, exist_ok=True)
        self.place, self.draw = Place(program, folder), draw
        self.moments, self.starts, self.ways = 0, 0, collections.Counter()
        self.wrong = []

    def look(self, moment, disk, told):
        """Looks at a store as a disk may have it at a moment."""
        way = self.draw.choice(WAYS)
        files = disk.left(self.draw, way)
        self.place.put(files)
        self.moments += 1
        self.ways[way] += 1
        where = "moment %d, %s of what was not synced: " % (moment, way)
        self.wrong += [where + it for it in self.faults(files, told)]
        if self.moments % STARTS == 0:
            self.starts += 1
            self.wrong += [where + it for it in self.faults_of_start(told)]

    def faults(self, files, told):
        """Yields what is wrong with the rows of a store."""
        if told.answers == 0:
            return
        found, said = self.place.listed()
        if found is None or not told.is_in(found):
            yield "told %s, found %s %s" % (told, found, said)
        try:
            theirs = saved_in(read_rows(files))
        except (sqlite3.Error, IndexError) as fault:
            theirs = fault
        if theirs != found:
            yield "the program finds %s, and sqlite3 %s" % (found, theirs)

    def faults_of_start(self, told):
        """Yields what is wrong with a start on a store."""
        came = self.place.begun()
        if came != ([], [], 0):
            yield "a start ends with %s" % (came,)
        elif not told.is_in(self.place.saved()):
            yield "after a start: told %s, found %s" % (told, self.place.saved())


def judged(program, folder, draw, records, moments):
    """Returns what is found at this many moments of the records, and all that was told."""
    places = range(min(FIRST, len(records)), len(records))
    drawn = set(draw.sample(places, min(moments, len(places))))
    disk, told, judge = Disk(), Told(), Judge(program, folder, draw)
    for moment, record in enumerate(records):
        told.take(record)
        disk.take(record)
        if moment in drawn:
            judge.look(moment, disk, told)
    return judge, told


def main():
    words = argparse.ArgumentParser(usage=__doc__.split("usage: ")[1].split("\n")[0])
    words.add_argument("program")
    words.add_argument("--moments", type=int, default=1000)
    words.add_argument("--answers", type=int, default=2000)
    words.add_argument("--lives", type=int, default=4)
    words.add_argument("--seed", type=int, default=1)
    words.add_argument("--unsynced", type=int, default=0)
    given = words.parse_args()
    draw, program = random.Random(given.seed), os.path.abspath(given.program)
    print("seed %d" % given.seed, flush=True)
    with tempfile.TemporaryDirectory() as folder:
        records, strange = recorded(program, folder, draw, given.lives, given.answers, given.unsynced)
        counts = collections.Counter(it.done for it in records)
        print("recorded: %d writes, %d cuts, %d syncs, %d syncs of folders, %d names, %d removals, %d sayings" % tuple(
            counts[it] for it in "WTSDNUA"), flush=True)
        judge, told = judged(program, os.path.join(folder, "judged"), draw, records, given.moments)
    ways = ", ".join("%d %s" % (count, way) for way, count in sorted(judge.ways.items()))
    print("cut: %d moments of %d (%s), %d answers, record %s, %d starts, %d wrong" % (
        judge.moments, len(records), ways, told.answers, told.record, judge.starts, len(judge.wrong)))
    wrong = [(it, False, "") for it in judge.wrong]
    running.end([("answers and starts", not strange, strange), ("most answers were recorded",
                 told.answers > given.answers // 2, told.answers), *wrong]
                + [("moment", True, "")] * (judge.moments + judge.starts - len(wrong)))


if __name__ == "__main__":
    main()
