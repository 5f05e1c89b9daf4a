"""The screen as a process: what it answers over HTTP, whatever comes, and that its picture is that of the nodes.

Requests are sent as bytes. What each is answered is compared with docs/FORMATS.md, "The screen". While hundreds of
connections are slow, never read or send too much, another one has to be answered.
"""

import collections
import json
import os
import re
import shutil
import socket
import time

import pytest

import deb
import nodes
import page as served
import page_server
import running
import screens
import stores

# How soon another client is answered beside hostile connections, in seconds, on a machine that others may use.
SOON = 3.0
# How many answers a pipeline gets, how many connections are slow, and how many never read.
PIPED, SLOW, DEAF = 200, 300, 200
# The most memory that a screen may take more after all of that, in KiB: a read's room and a head for each guest.
MORE = 40 * 1024


World = collections.namedtuple("World", "tree crews screen")


@pytest.fixture
def worked(folder):
    """Returns the path of the worked tree with a screen, and the port of the screen's station."""
    ports = nodes.free_ports(3)
    return nodes.write_tree(folder, None, screens.with_screen(nodes.tree_lines(ports[:2]), ports[2])), ports[2]


@pytest.fixture
def world(folder, worked, start_node, start_screen):
    """Returns the worked tree with a screen: its file, its nodes, and its screen."""
    tree, _ = worked
    crews = {name: start_node(tree, name, screens.store_of(folder, name), "--endless") for name in "AB"}
    return World(tree, crews, start_screen(tree, screens.store_of(folder, "screen")))


def request(head, host=None, body=b""):
    """Returns the bytes of a request."""
    lines = [head] + (["Host: " + host] if host else [])
    return ("\r\n".join(lines) + "\r\n\r\n").encode() + body


def test_lines(smi, folder, worked, subtests):
    """Command lines of a screen: what is wrong with each, and its status."""
    (tree, port), http = worked, "127.0.0.1:%d" % screens.tcp_port()
    text = running.read(tree).decode()
    bare = running.write(os.path.join(folder, "bare"), re.sub(r".*WATCHER.*\n", "", text))

    def ran(*words):
        return smi("screen", *map(str, words))

    store = screens.store_of(folder, "lines")
    wrong = (b"", b"wrong line\n", 2)
    with subtests.test("so many turns"):
        assert ran(tree, "SCREEN", store, "--http", http, "--turns", 3) == (b"", b"", 0)
    for name, where in [("a console that is not there", os.path.join(folder, "none")), ("an address", "127.0.0.1:1")]:
        told = ran(tree, "SCREEN", store, "--http", http, "--orders", where, "--turns", 3)
        with subtests.test(name):
            assert told == (b"", b"", 0)
    for name, words in [
            ("no address", [tree, "SCREEN", store]),
            ("two consoles", [tree, "SCREEN", store, "--http", http, "--orders", "a", "--orders", "b", "--turns", 1]),
            ("orders to nobody", [tree, "SCREEN", store, "--http", http, "--turns", 1, "--orders"]),
            ("a token without orders", [tree, "SCREEN", store, "--http", http, "--token", "token", "--turns", 1]),
            ("a console of its own", [tree, "SCREEN", store, "--http", http, "--console", "console", "--turns", 1]),
            ("no address of this machine", [tree, "SCREEN", store, "--http", "0.0.0.0:80", "--turns", 1]),
            ("open without a name", [tree, "SCREEN", store, "--http", "0.0.0.0:80", "--open", "--turns", 1]),
            ("a name and not open", [tree, "SCREEN", store, "--http", http, "--host", "daq", "--turns", 1]),
            ("an address of IPv6", [tree, "SCREEN", store, "--http", "[::1]:80", "--turns", 1]),
            ("a name for an address", [tree, "SCREEN", store, "--http", "localhost:80", "--turns", 1]),
            *(("the origin %r" % origin, [tree, "SCREEN", store, "--http", http, "--origin", origin, "--turns", 1])
              for origin in ["daq", "https://", "ftp://daq", "https://Daq", "https://daq/", "https://daq?", "//daq"]),
            ("turns and endless", [tree, "SCREEN", store, "--http", http, "--endless", "--turns", 1]),
            ("no turns", [tree, "SCREEN", store, "--http", http, "--turns", 0]),
            ("an unknown station", [tree, "SCREAM", store, "--http", http, "--turns", 1]),
            ("no operator", [bare, "SCREEN", screens.store_of(folder, "bare"), "--http", http, "--turns", 1])]:
        with subtests.test(name):
            assert ran(*words) == wrong
    with subtests.test("no tree"):
        assert ran(tree + "x", "SCREEN", store, "--http", http) == (b"", b"read fault\n", 3)
    with subtests.test("no store"):
        assert ran(tree, "SCREEN", folder, "--http", http) == (b"", b"store fault\n", 3)
    with socket.create_server(("127.0.0.1", 0)) as taken:
        at = "127.0.0.1:%d" % taken.getsockname()[1]
        with subtests.test("an address that is taken"):
            assert ran(tree, "SCREEN", store, "--http", at) == (b"", b"screen fault\n", 3)
    with socket.socket(socket.AF_INET, socket.SOCK_DGRAM) as taken:
        taken.bind(("127.0.0.1", port))
        with subtests.test("a socket that is taken"):
            assert ran(tree, "SCREEN", store, "--http", http) == (b"", b"link fault\n", 3)


def test_a_screen_for_other_machines(program, folder, subtests):
    """It answers to the name that it is given, and not to the names that only this machine has."""
    tree = nodes.write_tree(folder, None, screens.with_screen(nodes.tree_lines(nodes.free_ports(2)),
                                                              nodes.free_ports(1)[0]))
    screen = screens.Screen(program, tree, screens.store_of(folder, "screen"), address="0.0.0.0",
                            more=["--endless", "--open", "--host", "daq"])
    screen.host = "daq:%d" % screen.port
    with subtests.test("by its name"):
        assert screen.is_up() and screen.get("/healthz") == (200, b"ok")
    for host in ("localhost", "127.0.0.1"):
        with subtests.test("to %s, no" % host):
            assert screen.get("/healthz", host="%s:%d" % (host, screen.port)) == (421, b"this is another host")
    screen.end()


def test_answers(world, subtests):
    """Each method, host and place: status and body."""
    screen = world.screen
    with subtests.test("it is up"):
        assert screen.is_up()
    own, local = screen.host, "localhost:%d" % screen.port
    page = served.text_of("page").encode()
    with subtests.test("the page"):
        assert screen.get("/") == (200, page)
    with subtests.test("by the name of this machine"):
        assert screen.get("/", host=local) == (200, page)
    with subtests.test("a head alone"):
        assert screen.get("/", "HEAD")[0] == 200
    with subtests.test("it runs"):
        assert screen.get("/healthz") == (200, b"ok")
    for place in ("/healthz/", "/healthzz", "/health"):
        with subtests.test("%s is no place" % place):
            assert screen.get(place) == (404, b"there is no such page")
    with subtests.test("nothing else is there"):
        assert screen.get("/index.html") == (404, b"there is no such page")
    with subtests.test("a query changes no place"):
        assert screen.get("/?x=1") == (200, page)
    for host in ("evil.example", own + "0", "127.0.0.1", "localhost", "127.0.0.1:80"):
        with subtests.test("to %s, no" % host):
            assert screen.get("/api/picture", host=host) == (421, b"this is another host")
    for method in ("POST", "PUT", "DELETE", "OPTIONS", "PATCH", "TRACE"):
        with subtests.test("%s, no" % method):
            assert screen.get("/", method) == (405, b"this screen only shows")
    with subtests.test("POST to a foreign host"):
        assert screen.get("/", "POST", "evil.example")[0] == 421
    whole = request("GET http://%s/ HTTP/1.1" % own, own)
    with subtests.test("a target with a host, no"):
        assert screens.answers(screen.exchange(whole))[0][0] == 421
    with subtests.test("no host"):
        assert screens.answers(screen.exchange(request("GET / HTTP/1.1")))[0][0] == 400
    with subtests.test("the tree"):
        assert json.loads(screen.get("/api/tree")[1]) == shape_wanted()
    picture = screen.picture()
    status, body = screen.get("/api/picture?after=%d" % (picture["frame"] - 1000))
    with subtests.test("another picture is sent"):
        assert [status, json.loads(body)["frame"] >= picture["frame"]] == [200, True]
    with subtests.test("the same is not sent again"):
        assert any(screen.get("/api/picture?after=%d" % screen.picture()["frame"]) == (204, b"") for _ in range(20))
    head = screen.exchange(request("GET / HTTP/1.0", own)).split(b"\r\n\r\n")[0].lower()
    with subtests.test("what a page may do"):
        assert all(text in head
            for text in [b"cache-control: no-store", b"x-content-type-options: nosniff", b"x-frame-options: deny",
            b"referrer-policy: no-referrer", b"cross-origin-opener-policy: same-origin",
            b"cross-origin-resource-policy: same-origin", b"default-src 'none'", b"connect-src 'self'"])


def changed_by(had, told):
    """Returns what a picture has become by what was told of a domain or a device."""
    if isinstance(told, dict):
        return told
    return had if told == 0 else {**had, "told": {**had["told"], "heard": told}}


def followed(screen, crew, state):
    """Has the device enter a state: returns a picture before it, what has changed since, and the picture with it."""
    before, _ = screen.picture(), crew.ask("report HV " + state)
    while True:
        told, picture = screen.changes(before["now"])[1], screen.picture()
        shown = picture["devices"][0]["shown"]
        if told and told["frame"] == picture["frame"] and shown and shown["state"] == state:
            if "since" in told:
                return before, told, picture
            # the machine was too busy for two seconds
            before = picture


def test_changes(world, subtests):
    """Who has a picture of just now is told what has changed since, and has the newest one by that."""
    _, crews, screen = world
    with subtests.test("it is up, and was told a record of each domain"):
        assert screen.is_up() and screen.waits_for(lambda it: all(domain["told"] for domain in it["domains"]))
    for state in ("OFF", "READY", "RUNNING", "ERROR", "OFF"):
        before, told, picture = followed(screen, crews["B"], state)
        with subtests.test("what has changed, device in " + state):
            assert told == {"frame": picture["frame"], "now": picture["now"], "since": max(0, picture["now"] - 2000),
                            **{kind: [page_server.change(it, told["since"]) for it in picture[kind]]
                               for kind in ("domains", "devices")}}
        with subtests.test("the picture before it and that are the newest, device in " + state):
            assert picture == {"frame": told["frame"], "now": told["now"],
                               **{kind: [changed_by(*both) for both in zip(before[kind], told[kind])]
                                  for kind in ("domains", "devices")}}
    check_rest(screen, subtests)


def check_rest(screen, subtests):
    """What is told if nothing but answers comes, and to those who have the newest picture or none of just now."""
    def rests():
        picture = screen.picture()
        told = screen.changes(picture["now"] - 1)[1]
        return told is not None and told["devices"] == [0] and all(isinstance(it, int) for it in told["domains"])
    with subtests.test("once nothing is new for two seconds, the times of answers alone"):
        assert running.is_so(rests)
    with subtests.test("nothing to whom has the newest"):
        assert any(screen.changes(screen.picture()["now"]) == (204, None) for _ in range(20))
    now = screen.picture()["now"]
    for query in ("since=%d" % (now - 2001), "since=%d" % (now + 60_000), "since=", "since=-1", "since=%dx" % now,
                  "since=%d&x" % now, "Since=%d" % now, "x&since=%d" % now, "since=1234567890123"):
        with subtests.test("the whole picture for " + query.replace(str(now), "NOW")):
            status, body = screen.get("/api/picture?" + query)
            assert (status, "since" in json.loads(body)) == (200, False)


# Which of its actions the class of the worked tree accepts.
ACCEPTED = [True, True, False]


def shape_wanted():
    """Returns the worked tree with a screen, as the screen tells it."""
    return {
        "version": deb.version(), "tree": 17, "states": ["OFF", "READY", "RUNNING", "ERROR"], "actions": ["CONFIGURE", "START", "STOP"],
        "stations": ["A", "B", "SCREEN"],
        "operators": [{"name": "ANN", "station": "A"}, {"name": "BOB", "station": "B"},
                      {"name": "WATCHER", "station": "SCREEN"}],
        "domains": [{"name": "DCS", "station": "A", "parent": None, "accepts": ACCEPTED},
                    {"name": "TPC", "station": "B", "parent": "DCS", "accepts": ACCEPTED}],
        "devices": [{"name": "HV", "domain": "TPC"}]}


@pytest.mark.alone
def test_picture(folder, world, start_node, start_screen, subtests):
    """The picture follows the nodes. A node that is gone is heard no more, and a screen that begins again sees all."""
    tree, crews, screen = world
    with subtests.test("it is up"):
        assert screen.is_up()
    told = [crews["B"].ask("report HV OFF"), crews["A"].ask("order ANN take DCS"),
            crews["A"].ask("order ANN include DCS TPC"), crews["A"].ask("order ANN do DCS CONFIGURE")]
    with subtests.test("the crew is told"):
        assert [line and line.rsplit(" ", 1)[1] for line in told] == ["0"] * 4
    wanted = {"DCS": "READY", "TPC": "READY", "HV": "READY"}
    with subtests.test("states"):
        assert screen.comes(screens.states_of, wanted) == wanted
    held = {"DCS": "ANN", "TPC": "DCS"}
    with subtests.test("holders"):
        assert screen.comes(screens.holders_of, held) == held
    record = screens.by_name(screen.picture()["domains"])["DCS"]["told"]
    with subtests.test("the record"):
        assert [record[key] for key in ("holder", "epoch", "last", "busy", "outcome")] == [
            {"operator": "ANN"}, 1, 2, False, 0]
    check_freshness(screen, ("DCS", "TPC"), subtests)
    check_figures(screen, subtests)
    screen.end()
    with subtests.test("its station has saved nothing but its start"):
        assert stores.rows_in(screens.store_of(folder, "screen")) == [((3, 0, 0), "0200000000000001")]
    screen = start_screen(tree, screens.store_of(folder, "screen"))
    with subtests.test("a screen that begins again is up"):
        assert screen.is_up()
    with subtests.test("what it then shows"):
        assert screen.comes(screens.states_of, wanted) == wanted
        assert screen.comes(screens.holders_of, held) == held
    crews["B"].kill()
    before = screens.by_name(screen.picture()["domains"])["TPC"]["told"]["heard"]
    time.sleep(2.5)
    picture = screen.picture()
    rows = screens.by_name(picture["domains"])
    with subtests.test("one that is gone is not heard"):
        assert rows["TPC"]["told"]["heard"] <= before + 300
    with subtests.test("others are"):
        assert picture["now"] - rows["DCS"]["told"]["heard"] < 2000
    crews["B"] = start_node(tree, "B", screens.store_of(folder, "B"), "--endless")
    with subtests.test("one that comes back is heard"):
        assert screen.waits_for(
            lambda picture: picture["now"] - screens.by_name(picture["domains"])["TPC"]["told"]["heard"] < 1000)
    # Its device was not reported since its start: it begins again, and so does what is shown of it.
    with subtests.test("and is seen"):
        assert screen.waits_for(lambda picture: screens.by_name(picture["devices"])["HV"]["shown"]["boot"] == 2)


def check_freshness(screen, names, subtests):
    """Nothing that is shown of a station that is heard is old."""
    oldest = 0
    for _ in range(20):
        picture = screen.picture()
        rows = screens.by_name(picture["domains"])
        oldest = max([oldest] + [picture["now"] - rows[name]["told"]["heard"] for name in names])
        time.sleep(0.05)
    with subtests.test("nothing is older than two seconds (%d ms)" % oldest):
        assert oldest < 2000


def check_figures(screen, subtests):
    """The figures are those of the picture, in the format of Prometheus."""
    status, body = screen.get("/metrics")
    lines = body.decode().splitlines()
    samples = dict(line.rsplit(" ", 1) for line in lines if not line.startswith("#"))
    wanted = {'smi_object_state{object="DCS",kind="domain",state="READY"}': "1",
              'smi_object_state{object="TPC",kind="domain",state="READY"}': "1",
              'smi_object_state{object="HV",kind="device",state="READY"}': "1",
              'smi_domain_held{domain="DCS",station="A"}': "1", 'smi_domain_busy{domain="TPC",station="B"}': "0",
              'smi_domain_epoch{domain="DCS",station="A"}': "1",
              'smi_domain_outcome{domain="TPC",station="B"}': "0", "smi_screen_domains": "2"}
    with subtests.test("what they say"):
        assert [status, wanted.items() <= samples.items()] == [200, True]
    ages = [float(value) for name, value in samples.items() if name.startswith("smi_domain_heard_age_seconds")]
    with subtests.test("ages in seconds"):
        assert [len(ages), all(0 <= value < 5 for value in ages)] == [2, True]
    names = {name.split("{")[0] for name in samples}
    told = {line.split()[2] for line in lines if line.startswith("# HELP")}
    with subtests.test("each is told what it is"):
        assert names == told
    with subtests.test("promtool finds nothing"):
        if not shutil.which("promtool"):
            pytest.skip("there is no promtool (Debian's prometheus)")
        assert running.run(["promtool", "check", "metrics"], body) == (b"", b"", 0)


def others_are_answered(screen):
    """Returns how long another client waits for the picture, the longest of five times, in seconds."""
    worst = 0
    for _ in range(5):
        begun = time.monotonic()
        status, _ = screen.get("/api/picture")
        worst = max(worst, time.monotonic() - begun) if status == 200 else float("inf")
    return worst


def connections(screen, count, sent):
    """Opens this many connections that send this, as far as each is let in, and returns them."""
    found = []
    for _ in range(count):
        one = socket.create_connection(("127.0.0.1", screen.port), timeout=10)
        one.setblocking(False)
        try:
            one.send(sent)
        except OSError:
            pass
        found.append(one)
    return found


@pytest.mark.alone
def test_hostile(world, subtests):
    """What no client should send. Meanwhile another client is answered."""
    _, crews, screen = world
    with subtests.test("it is up"):
        assert screen.is_up()
    own, before = screen.host, screen.memory()
    long = "x" * 100_000
    for name, sent, wanted in [
            ("a head of 100 KB", request("GET / HTTP/1.1\r\nX: " + long, own), {431, 400}),
            ("a hundred fields", request("GET / HTTP/1.1" + "\r\nX: y" * 100, own), {431}),
            ("a target of 20 KB", request("GET /" + long[:20_000] + " HTTP/1.1", own), {414, 431}),
            ("a long body", request("GET / HTTP/1.1\r\nContent-Length: 101", own, b"x" * 101), {413}),
            ("a long chunk", request("GET / HTTP/1.1\r\nTransfer-Encoding: chunked", own, b"fff\r\n" + b"x" * 199),
             {413, 400}),
            ("two hosts", request("GET / HTTP/1.1\r\nHost: " + own, own), {400}),
            ("bytes of TLS", bytes.fromhex("16030100a5010000a10303") + b"\0" * 200, {400}),
            ("two lengths", request("POST / HTTP/1.1\r\nContent-Length: 1\r\nContent-Length: 2", own), {400}),
            ("CONNECT", request("CONNECT evil.example:443 HTTP/1.1", own), {400, 405, 421})]:
        status = screens.answers(screen.exchange(sent))[0][0]
        with subtests.test("%s (%d)" % (name, status)):
            assert status in wanted
        with subtests.test("after %s others are answered" % name):
            assert screen.get("/api/tree")[0] == 200
    piped = request("GET /api/tree HTTP/1.1", own) * PIPED + request("GET / HTTP/1.1\r\nConnection: close", own)
    found = screens.answers(screen.exchange(piped, 60))
    with subtests.test("a pipeline is answered in order (%d)" % len(found)):
        assert [status for status, _ in found] == [200] * (PIPED + 1)
    for name, count, sent in [("slow", SLOW, b"GET / HTTP/1.1\r\nHost: "), ("that say nothing", SLOW, b""),
                              ("that never read", DEAF, request("GET / HTTP/1.1", own) * 50)]:
        held = connections(screen, count, sent)
        worst = others_are_answered(screen)
        with subtests.test("%d connections %s: another waits %.2f s" % (count, name, worst)):
            assert worst < SOON
        for one in held:
            one.close()
    time.sleep(1)
    more = screen.memory() - before
    with subtests.test("memory: %d KiB more" % more):
        assert more < MORE
    with subtests.test("it still runs"):
        assert [screen.child.poll() is None, screen.get("/")[0]] == [True, 200]
    with subtests.test("and a node's order is obeyed"):
        assert crews["A"].ask("order ANN take DCS") == "told ANN take DCS 0"
