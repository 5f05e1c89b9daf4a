"""Serves the page as its files are, for tests in a browser: over made-up answers, or before a real screen.

usage: page_server.py A.B.C.D:PORT: serves the page before the screen at this address, until it is ended.

The program has the page as a constant, so a changed page is served only once the program is built again. A server of
this module serves the files of today. What it answers beside the page is what a test has set (docs/FORMATS.md, "The
screen"), or what the real screen answers.
"""

import http.client
import http.server
import json
import re
import sys
import threading
import time
import urllib.parse

import running

# these are in tools/, which running.py puts on the path
import hierarchy
import page

KEY, DETECTOR = "Bearer " + "0" * 32, running.example("detector.tree")
# How many entries of the history an answer looks at, and how many are kept.
LOOKED_AT, KEPT = 10_000, 1_048_576
# How many milliseconds before a picture its changes begin.
TOLD = 2_000


def whole(key=None, style=""):
    """Returns the page, the script that tells a style, and what follows if orders may be given by this key."""
    more = "" if key is None else "<script>const KEY = \"%s\";</script>\n%s" % (key, page.text_of("orders"))
    return page.text_of("page") + style + more


def tree_of(path):
    """Returns a tree file as a screen tells it."""
    with open(path, encoding="ascii") as file:
        lines = [line.split() for line in file]
    names = hierarchy.read(path)
    accepts = {tuple(words[1:]) for words in lines if words[:1] == ["accept"]}
    domains = [{"name": name, "station": station, "parent": None if above == "-" else above,
                "accepts": [(of, it) in accepts for it in names.actions]}
               for name, (station, of, above) in names.domains.items()]
    return {"tree": names.number, "states": names.states, "actions": names.actions, "stations": list(names.stations),
            "operators": [{"name": name, "station": station} for name, station in names.operators.items()],
            "domains": domains,
            "devices": [{"name": name, "domain": domain} for name, (domain, _) in names.devices.items()]}


def change(it, since):
    """Returns what is told of a domain or a device to one who knows what there was before a time."""
    told = it.get("told") or {"since": -1, "heard": -1}
    if told["since"] >= since or (it["shown"] and it["shown"]["at"] >= since):
        return it
    return told["heard"] if told["heard"] >= since else 0


class MadeUp:
    """What a screen answers that a test makes up: a tree, pictures of it, and the orders that its page gives."""

    def __init__(self, tree, key=KEY, token=None):
        self.tree, self.key, self.style, self.domains, self.devices = tree, key, "", {}, {}
        # what has to be shown: the key of the page, or a token that the page does not have
        self.shown, self.acknowledged = "Bearer " + token if token else key, []
        self.orders, self.has_console, self.frame, self.begun = [], True, 0, time.monotonic()
        self.modes = []
        # the history: a time (UTC, ms) and a text each, up to which number it is saved, whether there is one at all,
        # and whether the screen is so old that it tells no oldest entry and does not begin by a time
        self.past, self.saved, self.keeps_history, self.is_old = [], 0, True, False
        # what the history was asked, and what waits before such a question is answered
        self.asked, self.wait = [], lambda query: None
        self.is_heard = lambda station: True
        # whether it tells what has changed, and what the page asked for pictures; a test that shows what was seen some
        # seconds ago wants whole pictures, because a real screen has no such news
        self.tells_changes, self.pictures_asked = False, []
        self.lock = threading.Lock()

    def now(self):
        return int(1000 * (time.monotonic() - self.begun)) + 3_600_000

    def show(self, states, seconds=0):
        """Shows objects in these states, as if that had been seen this many seconds ago."""
        with self.lock:
            for name, state in states.items():
                rows = self.domains if name in {it["name"] for it in self.tree["domains"]} else self.devices
                old = rows.setdefault(name, {"name": name, "shown": None})["shown"]
                rows[name]["shown"] = {"state": state, "boot": 1, "sequence": old["sequence"] + 1 if old else 1,
                                       "at": self.now() - 1000 * seconds}

    def tell(self, holders, **more):
        """Tells who holds domains: an operator, the domain above, or nobody."""
        operators = {it["name"] for it in self.tree["operators"]}
        with self.lock:
            for name, holder in holders.items():
                held = None if holder is None else {"operator" if holder in operators else "domain": holder}
                record = {"holder": held, "epoch": 0 if held is None else 1, "last": 0, "busy": False, "outcome": 0,
                          "since": self.now(), "heard": self.now(), **more}
                self.domains.setdefault(name, {"name": name, "shown": None})["told"] = record

    def picture(self):
        with self.lock:
            self.frame += 1
            stations = {it["name"]: it["station"] for it in self.tree["domains"]}
            rows = []
            for it in self.tree["domains"]:
                row = {"shown": None, "told": None, **self.domains.get(it["name"], {"name": it["name"]})}
                if row["told"] and self.is_heard(stations[it["name"]]):
                    row["told"]["heard"] = self.now()
                rows.append(row)
            devices = [self.devices.get(it["name"], {"name": it["name"], "shown": None}) for it in self.tree["devices"]]
            return {"frame": self.frame, "now": self.now(), "domains": rows, "devices": devices}

    def told_picture(self, query):
        """Returns the picture, or what has changed in it if that is asked for."""
        self.pictures_asked.append(query)
        picture, time = self.picture(), int(dict(urllib.parse.parse_qsl(query)).get("since", -1))
        since = max(0, picture["now"] - TOLD)
        if not self.tells_changes or not since <= time < picture["now"]:
            return picture
        return {"frame": picture["frame"], "now": picture["now"], "since": since,
                "domains": [change(it, since) for it in picture["domains"]],
                "devices": [change(it, since) for it in picture["devices"]]}

    def take_order(self, text):
        line, _, name = text.partition(" # ")
        with self.lock:
            self.orders.append({"number": len(self.orders) + 1, "line": line, "by": name or None, "seconds": 0,
                                "waits": True, "answer": None, "code": None, "words": None, "at": time.monotonic()})

    def end_order(self, number, code, words="done"):
        """Ends an order with a code."""
        with self.lock:
            it = self.orders[number - 1]
            it.update(waits=False, code=code, words=words, answer="told %s %d" % (it["line"][6:], code))

    def answer_line(self, number, answer):
        """Answers a line with a text that has no code."""
        with self.lock:
            self.orders[number - 1].update(waits=False, answer=answer)

    def told_orders(self):
        with self.lock:
            for it in self.orders:
                if it["waits"]:
                    it["seconds"] = int(time.monotonic() - it["at"])
            rows = [{key: it[key] for key in it if key != "at"} for it in self.orders]
            return {"console": self.has_console, "orders": rows, "modes": self.modes if self.has_console else [],
                    "acknowledged": list(self.acknowledged)}

    def history(self, asked):
        """Returns the head and the entries that were asked for, a line each, or None if the query is faulty."""
        if any(not asked.get(it, "0").isdigit() for it in ("after", "from", "to")):
            return None
        with self.lock:
            entries = list(self.past)
        first = max(0, len(entries) - KEPT)
        begin, end = 1000 * int(asked.get("from", 0)), 1000 * int(asked.get("to", 1 << 40)) + 999
        start = len(entries) - LOOKED_AT
        if "from" in asked and not self.is_old:
            start = next((place for place in range(first, len(entries)) if entries[place][0] >= begin), len(entries))
        after = max(first, int(asked.get("after", start)))
        head = {"count": len(entries), "saved": self.saved, "after": after, "upto": after + LOOKED_AT}
        if not self.is_old:
            head["oldest"] = entries[first][0] if entries else 0
        lines = [json.dumps({"number": after + place, "at": at, "text": text})
                 for place, (at, text) in enumerate(entries[after:after + LOOKED_AT], 1)
                 if begin <= at <= end and asked.get("object", text) in [text, *text.split()]]
        return "\n".join([json.dumps(head), *lines, ""])

    def answer(self, method, target, body, headers):
        """Returns the status and the text of an answer."""
        if method == "POST" and headers.get("Authorization") != self.shown:
            return 403, "orders are given from the page alone"
        if method == "POST" and target == "/api/alarms":
            with self.lock:
                self.acknowledged.append({"alarm": body.decode().partition(" ")[2], "at": self.now()})
            return 200, "acknowledged"
        if method == "POST":
            self.take_order(body.decode())
            return 202, "the order is on its way"
        if target == "/":
            return 200, whole(self.key, self.style)
        if target.startswith("/api/history") and self.keeps_history:
            self.asked.append(target.partition("?")[2])
            self.wait(self.asked[-1])
            text = self.history(dict(urllib.parse.parse_qsl(target.partition("?")[2])))
            return (400, "there is no such query") if text is None else (200, text)
        place, _, query = target.partition("?")
        made = {"/api/tree": lambda: self.tree, "/api/picture": lambda: self.told_picture(query),
                "/api/orders": self.told_orders}
        found = made.get(place)
        return (200, json.dumps(found())) if found else (404, "there is no such page")


class Before:
    """Stands before a real screen: it serves the page of today, and hands all else on."""

    def __init__(self, screen):
        self.screen = screen

    def fetch(self, method, target, body=None, headers=None):
        line = http.client.HTTPConnection(self.screen, timeout=10)
        try:
            line.request(method, target, body, headers or {})
            answer = line.getresponse()
            return answer.status, answer.read().decode()
        finally:
            line.close()

    def answer(self, method, target, body, headers):
        try:
            if target == "/":
                found = re.search(r'const KEY = "([^"]*)"', self.fetch("GET", "/")[1])
                return 200, whole(found[1] if found else None)
            own = {"Origin": "http://" + self.screen} if headers.get("Origin") else {}
            key = {"Authorization": headers["Authorization"]} if headers.get("Authorization") else {}
            return self.fetch(method, target, body, {**own, **key})
        except OSError:
            return None, ""


class PageServer:
    """A server of the page at a port of this machine, over what answers."""

    def __init__(self, answers, port=0):
        class Handler(http.server.BaseHTTPRequestHandler):
            protocol_version = "HTTP/1.1"

            def handle_any(self):
                body = self.rfile.read(int(self.headers.get("Content-Length") or 0))
                status, text = answers.answer(self.command, self.path, body, self.headers)
                if status is None:
                    self.close_connection = True
                    return
                self.send_response(status)
                kind = "text/html" if self.path == "/" else "application/json"
                kind = "application/x-ndjson" if self.path.startswith("/api/history") else kind
                self.send_header("Content-Type", kind + "; charset=utf-8")
                self.send_header("Content-Length", str(len(text.encode())))
                self.send_header("Cache-Control", "no-store")
                self.end_headers()
                self.wfile.write(text.encode())

            do_GET = do_POST = handle_any

            def log_message(self, *words):
                pass

        class Server(http.server.ThreadingHTTPServer):
            daemon_threads = True

            def handle_error(self, request, client_address):
                """Says nothing of a browser that went away."""

        self.server = Server(("127.0.0.1", port), Handler)
        self.host = "127.0.0.1:%d" % self.server.server_address[1]
        self.url = "http://%s/" % self.host
        threading.Thread(target=self.server.serve_forever, daemon=True).start()

    def end(self):
        self.server.shutdown()
        self.server.server_close()


def main():
    if len(sys.argv) != 2:
        sys.exit(__doc__)
    server = PageServer(Before(sys.argv[1]))
    print(server.url, flush=True)
    threading.Event().wait()


if __name__ == "__main__":
    main()
