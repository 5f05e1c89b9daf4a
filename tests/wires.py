"""What a test puts beside its nodes, each a process of its own: a sender of datagrams, and a proxy that loses some.

usage: wires.py send PORT RATE SECONDS, wires.py lose SEED

Each reads lines up to an empty one, and then prints `ready`.

`send` reads lines of a port of its own, or 0 for any, and the bytes of a datagram in hexadecimal; lines of one port
share it. It sends these datagrams to PORT one after the other, RATE a second, or as many as it can with RATE 0, until
SECONDS have passed or its input ends. At the end it prints how many it sent, how many datagrams of 44 bytes came to its
own ports, and how many seconds it sent.

`lose` reads lines of two ports: what comes to the first is handed on to the second. Each later line is the share of
datagrams that it loses from then on; it is answered by how many were handed on and how many lost up to then. It ends
with its input.
"""

import os
import random
import select
import socket
import subprocess
import sys
import time

HERE = os.path.abspath(__file__)
HOST = "127.0.0.1"
# How long the end of such a process is waited for, and how long a sender sends that nobody ends, in seconds.
PATIENCE, LONGEST = 30, 600
# How long a sender sleeps between two looks, and how much of what it is late with it makes good, in seconds.
NAP, LATE = 0.0005, 0.1
# How many datagrams the proxy hands on before it looks at the next port.
AT_ONCE = 32


def is_bound(port):
    """Returns true if a program has this port of the machine."""
    with open("/proc/net/udp", encoding="ascii") as file:
        return any(line.split()[1].endswith(":%04X" % port) for line in file.readlines()[1:])


def when_bound(port, patience=PATIENCE):
    """Returns the moment at which a program was seen to have this port."""
    until = time.monotonic() + patience
    while not is_bound(port) and time.monotonic() < until:
        time.sleep(0.0005)
    return time.monotonic()


def socket_at(port):
    """Returns a socket at a port of this machine, which never waits."""
    made = socket.socket(socket.AF_INET, socket.SOCK_DGRAM)
    made.bind((HOST, port))
    made.setblocking(False)
    return made


class Beside:
    """One of these processes, as the test sees it."""

    def __init__(self, words, lines):
        self.child = subprocess.Popen([sys.executable, HERE, *map(str, words)], stdin=subprocess.PIPE,
                                      stdout=subprocess.PIPE, text=True)
        self.say("".join(line + "\n" for line in lines))
        assert self.line() == ["ready"]

    def say(self, line):
        self.child.stdin.write(line + "\n")
        self.child.stdin.flush()

    def line(self):
        return self.child.stdout.readline().split()

    def is_running(self):
        return self.child.poll() is None

    def end(self):
        """Ends its input, and waits for its end; what it printed last."""
        self.child.stdin.close()
        last = self.line()
        self.child.wait(PATIENCE)
        self.child.stdout.close()
        return last


class Sender(Beside):
    """A process that sends datagrams, which begins at once: each a port of its own and bytes."""

    def __init__(self, port, rate, datagrams, seconds=LONGEST):
        super().__init__(["send", port, rate, seconds], ["%d %s" % (own, data.hex()) for own, data in datagrams])

    def end(self):
        """Returns how many datagrams it sent, how many came back to it, and how many it sent a second."""
        sent, answered, seconds = super().end()
        return int(sent), int(answered), int(sent) / float(seconds)


class Proxy(Beside):
    """A process that hands datagrams on, from a port of its own to that of a node, and loses a share of them."""

    def __init__(self, ways, seed=1):
        super().__init__(["lose", seed], ["%d %d" % way for way in ways])

    def lose(self, share):
        """Loses this share from now on; how many it has handed on and lost so far."""
        self.say("%g" % share)
        return tuple(map(int, self.line()))


def is_input_over():
    """Returns true if the input of this process has ended."""
    ready, _, _ = select.select([sys.stdin], [], [], 0)
    return bool(ready) and not sys.stdin.readline()


def answers_at(made):
    """Returns how many datagrams of 44 bytes wait in a socket, of the next two."""
    count = 0
    try:
        for _ in range(2):
            count += len(made.recv(64)) == 44
    except OSError:
        pass
    return count


def send(port, rate, seconds, datagrams):
    """Sends these datagrams in turn, each from its socket: how many were sent, how many answered, and the seconds."""
    sent = answered = 0
    begun = now = time.perf_counter()
    start = begun
    while now - begun < seconds and not is_input_over():
        # what could not be sent in time is made good for a moment's worth alone
        start = max(start, now - LATE - sent / rate) if rate else start
        due = int((now - start) * rate) if rate else sent + AT_ONCE
        for _ in range(due - sent):
            made, data = datagrams[sent % len(datagrams)]
            try:
                made.sendto(data, (HOST, port))
            except OSError:
                pass
            answered += answers_at(made)
            sent += 1
        if rate:
            time.sleep(NAP)
        now = time.perf_counter()
    return sent, answered, now - begun


def lines_before_gap():
    """Returns the lines of the input up to an empty one, each as its words."""
    return list(iter(lambda: sys.stdin.readline().split(), []))


def run_sender(port, rate, seconds):
    lines = lines_before_gap()
    made = {own: socket_at(int(own)) for own in {line[0] for line in lines}}
    datagrams = [(made[own], bytes.fromhex(data)) for own, data in lines]
    print("ready", flush=True)
    print("%d %d %f" % send(int(port), int(rate), float(seconds), datagrams))


def hand_on(made, port, out, draw, share, counts):
    """Hands on what waits in a socket, or loses it."""
    for _ in range(AT_ONCE):
        try:
            data = made.recv(2048)
        except OSError:
            return
        if draw.random() < share:
            counts[1] += 1
            continue
        counts[0] += 1
        try:
            out.sendto(data, (HOST, port))
        except OSError:
            pass


def run_proxy(seed):
    ways = {}
    for own, port in lines_before_gap():
        made = socket_at(int(own))
        ways[made.fileno()] = (made, int(port))
    draw, share, counts, out = random.Random(int(seed)), 0, [0, 0], socket_at(0)
    looks = select.epoll()
    for place in [0, *ways]:
        looks.register(place, select.EPOLLIN)
    print("ready", flush=True)
    while True:
        for place, _ in looks.poll():
            if place in ways:
                hand_on(*ways[place], out, draw, share, counts)
                continue
            line = sys.stdin.readline()
            if not line:
                return
            share = float(line)
            print("%d %d" % tuple(counts), flush=True)


if __name__ == "__main__":
    {"send": run_sender, "lose": run_proxy}[sys.argv[1]](*sys.argv[2:])
