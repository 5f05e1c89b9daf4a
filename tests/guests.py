"""What a screen of a full tree costs with many guests: its memory, its time, and how many pictures it serves.

usage: guests.py [--guests N] [--seconds S] PROGRAM ..

One node keeps 128 domains with 512 devices, of which one changes each 50 ms. Beside it each program runs a screen, all
at once, so that programs are compared in one run. At each screen this many guests ask four times a second for what is
new, as its page does, and each asks once for the oldest 10,000 entries of its history. A line is printed for each
program: the memory of its screen before and after in MiB, its processor time in percent of one processor, how many
pictures were answered, and how many KiB each had in the middle. After that a line says how long it took each screen to
show that a domain was taken, in the middle and at most, of twenty takes and drops.
"""

import argparse
import asyncio
import json
import os
import random
import shutil
import statistics
import subprocess
import tempfile
import time
import urllib.request

import full
import nodes
import running
import screens

EACH = 0.25
# How many takes and drops are looked for in the pictures.
HELD = 20


def tree_lines(ports, count):
    """Returns the lines of the full tree with this many screens at the end."""
    lines = full.tree_lines(ports)
    for word, line in [("operator", "operator WATCHER%d SCREEN%d"), ("station", "station SCREEN%d 127.0.0.1:%d")]:
        last = max(at for at, it in enumerate(lines) if it.split()[:1] == [word])
        for number, port in reversed(list(enumerate(nodes.free_ports(count)))):
            lines.insert(last + 1, line % ((number, number) if word == "operator" else (number, port)))
    return lines


async def asked(reader, writer, host, target):
    """Returns the status and the body of an answer."""
    writer.write(("GET %s HTTP/1.1\r\nHost: %s\r\n\r\n" % (target, host)).encode())
    head = (await reader.readuntil(b"\r\n\r\n")).decode()
    length = [int(it.split(":")[1]) for it in head.split("\r\n") if it.lower().startswith("content-length")]
    return int(head.split()[1]), await reader.readexactly(length[0] if length else 0)


async def visit(host, until, served):
    """Visits a screen until a time, and comes again if it is let go."""
    while time.monotonic() < until:
        try:
            reader, writer = await asyncio.open_connection(*host.split(":"))
            await asked(reader, writer, host, "/api/history?after=0")
            time_asked = ""
            while time.monotonic() < until:
                status, body = await asked(reader, writer, host, "/api/picture" + time_asked)
                if status == 200:
                    time_asked = "?since=" + body.partition(b'"now":')[2].split(b",")[0].decode()
                    served[host].append(len(body))
                await asyncio.sleep(EACH)
            writer.close()
        except (OSError, asyncio.IncompleteReadError):
            await asyncio.sleep(EACH)


async def change(node, until):
    """Has a device change again and again."""
    number = 0
    while time.monotonic() < until:
        number += 1
        node.say("report R%d_%d_D%d %s" % (1 + number % 8, 1 + number % 15, 1 + number % 4,
                                           ("READY", "RUNNING", "OFF")[number % 3]))
        await asyncio.sleep(0.05)


def seconds_of(child):
    """Returns the processor time of a process, in seconds."""
    words = running.read("/proc/%d/stat" % child.pid).decode().rpartition(")")[2].split()
    return (int(words[11]) + int(words[12])) / os.sysconf("SC_CLK_TCK")


async def crowd(hosts, node, count, seconds, served):
    until = time.monotonic() + seconds
    await asyncio.gather(change(node, until), *(visit(host, until, served) for host in hosts for _ in range(count)))


def holders(picture):
    """Returns who holds each domain in a picture, by the text of its holder."""
    return {it["name"]: it["told"] and json.dumps(it["told"]["holder"]) for it in picture["domains"]}


def held(hosts, crew):
    """Returns for each screen after how many milliseconds it showed each of some takes and drops of domains."""
    took, draw = {host: [] for host in hosts}, random.Random(7)
    for number in range(HELD):
        root = full.root(1 + number // 2 % full.ROOTS)
        order, wanted = (("take", '{"operator": "OP1"}'), ("drop", "null"))[number % 2]
        time.sleep(draw.uniform(1, 2))
        crew.ask("order OP1 %s %s" % (order, root))
        begun, waiting = time.monotonic(), set(hosts)
        while waiting and time.monotonic() < begun + running.DEADLINE:
            for host in list(waiting):
                with urllib.request.urlopen("http://%s/api/picture" % host) as answer:
                    if holders(json.load(answer))[root] == wanted:
                        took[host].append(1000 * (time.monotonic() - begun))
                        waiting.discard(host)
            time.sleep(0.02)
    return took


def started(programs, tree, folder):
    """Returns the screens of some programs, and their hosts."""
    hosts = ["127.0.0.1:%d" % screens.tcp_port() for _ in programs]
    return [subprocess.Popen([program, "screen", tree, "SCREEN%d" % number, os.path.join(folder, "screen%d" % number),
                              "--http", host, "--endless"], stdin=subprocess.DEVNULL)
            for number, (program, host) in enumerate(zip(programs, hosts))], hosts


def main():
    words = argparse.ArgumentParser(description=__doc__.split("\n\n")[0])
    words.add_argument("--guests", type=int, default=200, help="how many guests each screen has")
    words.add_argument("--seconds", type=int, default=30, help="how long they stay")
    words.add_argument("programs", nargs="+", metavar="PROGRAM")
    said, folder = words.parse_args(), tempfile.mkdtemp()
    programs = [os.path.abspath(it) for it in said.programs]
    ports = {station: full.free_port(station) for station in range(1, full.STATIONS + 1)}
    tree = nodes.write_tree(folder, None, tree_lines(ports, len(programs)))
    node, crew = (nodes.Node(programs[-1], [tree, "S%d" % it, os.path.join(folder, "S%d" % it), "--endless"])
                  for it in (full.KEEPER, full.CREW))
    children, hosts = started(programs, tree, folder)
    try:
        time.sleep(10)
        before = [(running.memory_of(it), seconds_of(it)) for it in children]
        served = {host: [] for host in hosts}
        asyncio.run(crowd(hosts, node, said.guests, said.seconds, served))
        for program, host, child, (memory, spent) in zip(said.programs, hosts, children, before):
            print("%s: %.1f MiB, with %d guests %.1f MiB; %.0f %% of a processor; %d pictures of %.1f KiB" % (
                program, memory / 1024, said.guests, running.memory_of(child) / 1024,
                100 * (seconds_of(child) - spent) / said.seconds, len(served[host]),
                statistics.median(served[host]) / 1024), flush=True)
        for program, took in zip(said.programs, held(hosts, crew).values()):
            print("%s: who holds a domain is shown after %.0f ms, at most %.0f" % (
                program, statistics.median(took), max(took)))
    finally:
        for child in children:
            child.kill()
        node.kill()
        crew.kill()
        shutil.rmtree(folder)


if __name__ == "__main__":
    main()
