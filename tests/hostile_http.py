"""Attacks on a screen over HTTP: framings, places, strangers, crowds, a storm, and requests that are wrong somewhere.

usage: hostile_http.py [--fuzz N] [--crowd N] [--comers N] [--seed N] PROGRAM

A screen of the worked tree runs beside two nodes, first without orders and then with them. It is sent what
tests/framings.py has, and what a browser sends for pages elsewhere. Then --crowd connections are slow, deaf or silent,
--comers connections come as fast as one program can make them, and --fuzz requests are drawn from --seed and spoiled:
half of these at each of the two screens. Meanwhile another guest asks, and the crew at a console of the node. A line is
printed for each part with its figures, and at the end how many checks passed and failed.
"""

import argparse
import os
import random
import re
import selectors
import socket
import threading
import time

import hostile
import running
from framings import ENDED, FRAMINGS, HIDDEN, PLACES, WHOLE
from hostile import LATEST, SOON, Beside, Guests, come_again, heard, joined, waits_of

ORDER = b"order ANN take DCS"
# What every answer of a screen to a request without the key is (docs/FORMATS.md), and what RFC 9112 has besides.
ANSWERS = {200, 204, 400, 403, 404, 405, 413, 414, 421, 431, 501, 505}
# The most memory that a screen takes more for its 64 guests, with a pending answer each, in KiB; and after a fuzz.
CROWDED, FUZZED = 40_000, 20_000
# How many connections of the fuzz are open at once, and after how many seconds one is given up.
AT_ONCE, GIVEN_UP = 40, 8
# For how many seconds more than one answer is waited for.
STILL = 0.3
# How many orders that wait a screen has at most, and after how many seconds a storm ends though it has made too few.
MOST_ORDERS, LONGEST = 64, 120


def request(screen, line, fields=(), body=b"", host=None):
    """Returns the bytes of a request."""
    lines = [line, "Host: " + (host or screen.host), *fields]
    return ("\r\n".join(lines) + "\r\n\r\n").encode("latin-1") + body


def exchanged(screen, sent, patience=STILL, is_all=False):
    """Returns what comes back for these bytes, and whether the screen ends the connection.

    Once something has come, more is waited for as long as the patience is. If this is all, the screen is told so.
    """
    with socket.create_connection(("127.0.0.1", screen.port), timeout=LATEST) as one:
        came = b""
        try:
            one.sendall(sent)
            if is_all:
                one.shutdown(socket.SHUT_WR)
        except OSError:
            pass
        try:
            while True:
                got = one.recv(65536)
                if not got:
                    return came, True
                came += got
                one.settimeout(patience)
        except socket.timeout:
            return came, False
        except OSError:
            return came, True


def statuses(came):
    return [int(it) for it in re.findall(rb"HTTP/1\.[01] (\d{3}) ", came)]


def hidden(screen, key):
    """Returns what a request hides: a question, and an order with the page's key if it has one."""
    fields = ["Origin: http://" + screen.host, "Authorization: " + key, "Content-Length: %d" % len(ORDER)]
    return request(screen, "GET /api/tree HTTP/1.1") + request(screen, "POST /api/orders HTTP/1.1", fields, ORDER)


def framing(site):
    """Sends what is ambiguous or no HTTP: it is refused, and nothing that it hides is answered."""
    screen = site.screen
    inner = hidden(screen, screen.key() if has_orders(screen) else "")
    for name, fields, body, wanted in FRAMINGS:
        sent = request(screen, "POST /api/orders HTTP/1.1", fields, body.replace(HIDDEN, inner))
        came, is_ended = exchanged(screen, sent, LATEST if name in ENDED else STILL)
        found = statuses(came)
        yield name, len(found) == 1 and found[0] in wanted and (is_ended or name not in ENDED), (found, is_ended)
    for name, text, wanted in WHOLE:
        came, _ = exchanged(screen, text.replace(b"HOST", screen.host.encode()), is_all=True)
        found = statuses(came) or [0]
        yield name, len(found) == 1 and found[0] in wanted, found
    final = [it for it in statuses(exchanged(screen, request(
        screen, "POST / HTTP/1.1", ["Content-Length: 4", "Expect: 100-continue"], b"abcd"))[0]) if it >= 200]
    yield "who expects to be asked is told once that it is no order", final == [405], final
    yield from nothing_ordered(screen)


def has_orders(screen):
    return screen.get("/api/orders")[0] == 200


def nothing_ordered(screen):
    if has_orders(screen):
        yield "no order was given", screen.orders() == [], screen.orders()


def places(site):
    """Asks for files of the machine, and for places that are not there: none is answered, and no header is put in."""
    for place in PLACES:
        came, _ = exchanged(site.screen, request(site.screen, "GET %s HTTP/1.1" % place, ["Connection: close"]))
        found = statuses(came)
        yield place, found in ([400], [404]) and b"root:" not in came and b"Set-Cookie" not in came, found
    came, _ = exchanged(site.screen, request(site.screen, "GET /?x=%0d%0aX-Y:%20z HTTP/1.1", ["Connection: close"]))
    yield "a query puts in no header", statuses(came) == [200] and b"X-Y" not in came, statuses(came)


# What Chromium sends with each request of a page elsewhere.
BROWSER = ["User-Agent: Mozilla/5.0 (X11; Linux x86_64) Chrome/120", "Accept: */*", "Sec-Fetch-Mode: no-cors",
           "Accept-Encoding: gzip, deflate, br", "Sec-Fetch-Site: cross-site", "Sec-Fetch-Dest: empty"]


def strangers(site):
    """Sends what a browser sends for a page elsewhere: it may not read, and its orders are refused."""
    screen = site.screen
    is_open = has_orders(screen)
    key, own = screen.key() if is_open else "Bearer " + "0" * 32, "Origin: http://" + screen.host
    for name, target, fields in [
            *(("a form as " + kind, "", ["Content-Type: " + kind, "Origin: http://evil.example"])
              for kind in ["text/plain", "application/x-www-form-urlencoded", "multipart/form-data; boundary=x"]),
            ("a site of the same machine", "", ["Origin: http://127.0.0.1:1", "Authorization: " + key]),
            ("two Origins, the foreign one first", "", ["Origin: http://evil.example", own, "Authorization: " + key]),
            ("two Origins in one field", "", [own + " http://evil.example", "Authorization: " + key]),
            ("two keys, the wrong one first", "", [own, "Authorization: Bearer x", "Authorization: " + key]),
            ("the key in the query", "?Authorization=" + key.replace(" ", "%20"), [own]),
            ("the key in another field", "", [own, "X-Authorization: " + key, "Proxy-Authorization: " + key])]:
        given = [*BROWSER, *fields, "Content-Length: %d" % len(ORDER), "Connection: close"]
        sent = request(screen, "POST /api/orders%s HTTP/1.1" % target, given, ORDER)
        found = statuses(exchanged(screen, sent)[0])
        # (two fields that have to be one are no HTTP, so 400 is right too)
        yield name, found in ([[403], [400]] if is_open else [[405], [400]]), found
    asked = ["Origin: http://evil.example", "Access-Control-Request-Method: POST", "Connection: close",
             "Access-Control-Request-Headers: authorization", "Access-Control-Request-Private-Network: true"]
    for name, line, wanted in [("a question whether it may order", "OPTIONS /api/orders HTTP/1.1", [405]),
                               *(("a look at " + it, "GET %s HTTP/1.1" % it, [200])
                                 for it in ["/", "/api/tree", "/api/picture", "/api/history"])]:
        came, _ = exchanged(screen, request(screen, line, [*BROWSER, *asked]))
        yield "%s is allowed to no other origin" % name, \
            statuses(came) == wanted and b"access-control" not in came.lower(), statuses(came)
    yield from nothing_ordered(screen)


def piped(site, count=200):
    """Sends orders by a pipeline of one who has the key: each that is told to be on its way is given once."""
    screen = site.screen
    if not has_orders(screen):
        return
    line, before = hostile.ASK.encode(), max([it["number"] for it in screen.orders()], default=0)
    fields = ["Origin: http://" + screen.host, "Authorization: " + screen.key(), "Content-Length: %d" % len(line)]
    sent = request(screen, "POST /api/orders HTTP/1.1", fields, line) * count
    came, _ = exchanged(screen, sent + request(screen, "GET / HTTP/1.1", ["Connection: close"]), LATEST)
    found = statuses(came)
    given = found.count(202)
    last = running.at_last(lambda: screen.orders()[-1]["number"], before + given, 5)
    yield "%d orders in a pipeline are answered in order" % count, \
        found[-1] == 200 and set(found[:-1]) <= {202, 429} and len(found) == count + 1, found
    yield "each that is taken is given once", last == before + given >= before + MOST_ORDERS, \
        "%d taken, and the last has number %d" % (given, last)


def crowd(site, count):
    """Holds this many connections that are slow, deaf or silent: another guest is answered, and memory stays."""
    screen = site.screen
    before, own = screen.memory(), screen.host.encode()
    for name, text in [("say nothing", b""), ("say half a head", b"GET / HTTP/1.1\r\nHost: " + own + b"\r\nX: "),
                       ("never read", request(screen, "GET / HTTP/1.1") * 200),
                       ("say half a body", request(screen, "POST / HTTP/1.1", ["Content-Length: 60"], b"x" * 30)),
                       ("want events", request(screen, "GET /api/picture HTTP/1.1", ["Accept: text/event-stream"]))]:
        guests = Guests(screen.port, text, count)
        longest, lost = waits_of(screen)
        yield "beside %d that %s" % (count, name), lost == 0 and longest < SOON, "%.2f s" % longest
        guests.end()
    yield from slowly(screen, count)
    yield from memory_after(screen, before, CROWDED)


class Slow:
    """Guests of which each says a letter again and again, in a thread of its own, and comes again if it is ended."""

    def __init__(self, screen, count):
        self.screen, self.guests = screen, Guests(screen.port, b"G", count)
        self.letters, self.is_over = count, threading.Event()
        self.thread = threading.Thread(target=self.spell)
        self.thread.start()

    def spell(self):
        """Says letters until it is over."""
        while not self.is_over.wait(0.5):
            for one in list(self.guests.held):
                if not heard(one) or not hostile.said(one, b"E"):
                    one.close()
                    self.guests.held.remove(one)
                    self.guests.add(self.screen.port, b"G")
                self.letters += 1
        self.guests.end()

    def end(self):
        self.is_over.set()
        self.thread.join()


def slowly(screen, count):
    """Holds guests that say a letter each half second, as far as they are let in."""
    guests = Slow(screen, count)
    has_said = running.is_so(lambda: guests.letters > 2 * count)
    longest, lost = waits_of(screen)
    guests.end()
    is_answered = has_said and lost == 0 and longest < SOON
    yield "beside %d that say a letter each half second" % count, is_answered, "%.2f s" % longest


def memory_after(screen, before, most):
    """Yields whether a screen has not much more memory than before, once its guests have had time to go."""
    is_less = running.is_so(lambda: screen.memory() - before < most, 10)
    yield "memory", is_less, "%d KiB more" % (screen.memory() - before)


def storm(site, count):
    """Has connections come as fast as one program can make them: the node is not touched, and then all is as before."""
    screen = site.screen
    before, asked, lost, longest, is_free, crew = screen.memory(), 0, 0, 0.0, True, 0.0
    comers, until = Beside(come_again, screen.port, [b"", b"GET / HTTP"]), time.monotonic() + LONGEST
    while (comers.count.value < count or not asked) and time.monotonic() < until:
        (wait, none), (free, waited) = waits_of(screen, 1), site.crew_waits(1)
        asked, lost, longest = asked + 1, lost + none, max(longest, wait)
        is_free, crew = is_free and free, max(crew, waited)
    made, rate = comers.end()
    yield "connections", made >= count, "%d, %.0f a second" % (made, rate)
    yield "the crew at the node beside it", is_free and crew < LATEST, "%.3f s at most" % crew
    # (by SECURITY.md other guests may starve as long as it floods)
    meanwhile = "answered %d of %d times before, within %.1f s" % (asked - lost, asked, longest)
    longest, lost = waits_of(screen)
    yield "another guest afterwards", lost == 0 and longest < SOON, "%.2f s, and %s" % (longest, meanwhile)
    yield from memory_after(screen, before, CROWDED)


# What requests are made of.
WORDS = [b"GET", b"HEAD", b"POST", b"PUT", b" ", b"/", b"/api/tree", b"/api/picture?after=1", b"/api/orders",
         b"/metrics", b" HTTP/1.1", b" HTTP/1.0", b"\r\n", b"\n", b"\r", b"Host: ", b"Content-Length: ", b"0",
         b"5", b"100", b"101", b"Transfer-Encoding: chunked", b"Transfer-Encoding: ", b"chunked", b"Origin: http://",
         b"0\r\n\r\n", b"Authorization: Bearer ", b"5\r\nhello\r\n", ORDER, b"\0", b"\xff", b":", b",", b";",
         b"%00", b"..", b"\t", b"Connection: close", b"Connection: keep-alive", b"Expect: 100-continue",
         b"X: " + b"y" * 300]


def whole_requests(screen):
    own = "Origin: http://" + screen.host
    return [*(request(screen, it + " HTTP/1.1") for it in ["GET /metrics", "HEAD /", "GET /api/orders"]),
            request(screen, "GET /api/picture?after=1 HTTP/1.1"),
            request(screen, "POST /api/orders HTTP/1.1", ["Content-Length: %d" % len(ORDER), own], ORDER),
            request(screen, "POST /api/orders HTTP/1.1", ["Transfer-Encoding: chunked"], b"5\r\norder\r\n0\r\n\r\n")]


def spoiled(numbers, whole):
    """Returns a request that is spoiled at one to four places, or words in any order."""
    made = bytearray(numbers.choice(whole) if numbers.random() < 0.6
                     else b"".join(numbers.choices(WORDS, k=numbers.randrange(1, 30))))
    for _ in range(numbers.randrange(1, 5)):
        at, how = numbers.randrange(len(made) + 1), numbers.random()
        if how < 0.4:
            made[at:at + 1] = bytes([numbers.choice((0, 10, 13, 32, 58, 44, 59, 255, numbers.randrange(256)))])
        elif how < 0.6:
            del made[at:at + numbers.randrange(1, 9)]
        elif how < 0.8:
            made[at:at] = numbers.choice(WORDS)
        else:
            made[at:at] = made[at:at + numbers.randrange(1, 60)]
    return bytes(made)


class Fuzz:
    """Connections that send drawn requests without waiting for each other."""

    def __init__(self, screen, numbers):
        self.screen, self.numbers, self.whole = screen, numbers, whole_requests(screen)
        self.looks, self.sent, self.came, self.seen = selectors.DefaultSelector(), 0, 0, set()

    def add(self):
        """Begins a connection with some whole requests and one or two that are spoiled."""
        parts = self.numbers.choices(self.whole, k=self.numbers.randrange(24))
        parts += [spoiled(self.numbers, self.whole) for _ in range(self.numbers.choice((1, 1, 2)))]
        one = joined(self.screen.port)
        if one:
            self.looks.register(one, selectors.EVENT_READ | selectors.EVENT_WRITE, [b"".join(parts), time.monotonic()])
            self.sent += len(parts)

    def drop(self, one):
        self.looks.unregister(one)
        one.close()

    def step(self, key, events):
        """Sends and reads as much as there is room for, and drops a connection that has ended."""
        one, data = key.fileobj, key.data
        try:
            if events & selectors.EVENT_WRITE:
                data[0] = data[0][one.send(data[0]):]
                if not data[0]:
                    one.shutdown(socket.SHUT_WR)
                    self.looks.modify(one, selectors.EVENT_READ, data)
            if events & selectors.EVENT_READ:
                got = one.recv(1 << 18)
                self.came += len(got)
                self.seen.update(statuses(got))
                if not got:
                    self.drop(one)
        except BlockingIOError:
            pass
        except OSError:
            self.drop(one)

    def turn(self, count):
        """Keeps many connections open as long as requests are missing, and attends to each."""
        while len(self.looks.get_map()) < AT_ONCE and self.sent < count:
            self.add()
        for key, events in self.looks.select(0.05):
            self.step(key, events)
        now = time.monotonic()
        for key in [it for it in self.looks.get_map().values() if now - it.data[1] > GIVEN_UP]:
            self.drop(key.fileobj)


def fuzz(site, count, seed):
    """Sends this many requests, of which many are wrong somewhere: the screen goes on, and others are answered."""
    screen, before, next_look = site.screen, site.screen.memory(), time.monotonic()
    run, looked, lost, longest, begun = Fuzz(screen, random.Random(seed)), 0, 0, 0.0, time.monotonic()
    while screen.child.poll() is None and (run.sent < count or run.looks.get_map()):
        run.turn(count)
        if time.monotonic() > next_look:
            wait, none = waits_of(screen, 1)
            looked, lost, longest = looked + 1, lost + none, max(longest, wait)
            next_look = time.monotonic() + 2
    yield "seed %d" % seed, run.sent >= count, "%d requests in %.0f s, %.1f MiB back" % (
        run.sent, time.monotonic() - begun, run.came / (1 << 20))
    yield "statuses", {200, 400, 404} <= run.seen <= ANSWERS, " ".join(map(str, sorted(run.seen)))
    yield "another guest", looked > 0 == lost and longest < SOON, "%.2f s, at %d looks" % (longest, looked)
    yield from memory_after(screen, before, FUZZED)


def parts(crowded, comers, fuzzed, seed):
    """Yields each part of the attack, with its name."""
    yield from [("framings", framing), ("places", places), ("strangers", strangers)]
    yield "crowds", lambda site: crowd(site, crowded)
    yield "storm", lambda site: storm(site, comers)
    yield "fuzz", lambda site: fuzz(site, fuzzed, seed)
    yield "no order", lambda site: nothing_ordered(site.screen)
    yield "pipeline", piped


def main():
    words = argparse.ArgumentParser(usage=__doc__.split("usage: ")[1].split("\n")[0])
    for name, count in [("--fuzz", 100_000), ("--crowd", 500), ("--comers", 45_000), ("--seed", 20261130)]:
        words.add_argument(name, type=int, default=count)
    words.add_argument("program")
    given, cases = words.parse_args(), []
    print("seed %d" % given.seed)
    for is_second in (False, True):
        print("with orders" if is_second else "without orders")
        hostile.run_parts(os.path.abspath(given.program), parts(
            given.crowd, given.comers // 2, given.fuzz // 2, given.seed + is_second), cases, has_orders=is_second)
    running.end(cases)


if __name__ == "__main__":
    main()
