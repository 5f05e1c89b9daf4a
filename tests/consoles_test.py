"""Many consoles at one node: each is answered on its own, whatever the others do.

Times are said with slack, because other programs may run beside.
"""

import ctypes
import errno
import os
import socket
import statistics
import sys
import threading
import time

import pytest

import lunskaf
import nodes
import running
import screens
from consoles import LATEST, SOON, TREE, Console, Flood, Place, is_soon, other_asked, said_once, timed
from running import DEADLINE

# The most connections at once, how many orders each gives, and how many connections come one after the other.
GUESTS, ORDERS, COMERS = 128, 50, 10_000
# How long a client may take nothing, in seconds, by docs/FORMATS.md; and how much more a test waits for its end.
STUCK, SLACK = 2, 20
# The options that say when a silent client ends, and the number of the call that Python does not have.
ASKING = [socket.TCP_KEEPIDLE, socket.TCP_KEEPINTVL, socket.TCP_KEEPCNT, socket.TCP_USER_TIMEOUT]
PIDFD_GETFD = 438
# After how many seconds of silence a connection makes room for a new one, and by how many an answer is late.
SILENCE, LATE = 30, 0.5


@pytest.fixture
def place(folder, start_node):
    """Returns a node with a console."""
    return Place(folder, start_node)


@pytest.mark.alone
def test_waiting(place, subtests):
    """One connection waits for a station that is away; another gives orders and reports; a third asks."""
    ann, bob, eve = (Console(place.where) for _ in range(3))
    with subtests.test("a take is told"):
        assert ann.ask("order ANN take TOP") == "told ANN take TOP 0"
    ann.say("order ANN include TOP FAR\nshow L\n")
    lines = ["order BOB take LEFT", "report L READY", "order BOB do LEFT FALL", "report R OFF", "order BOB drop LEFT"]
    wanted = ["told BOB take LEFT 0", "told report L READY 0", "told BOB do LEFT FALL 0", "told report R OFF 0",
              "told BOB drop LEFT 0"]
    told, took = timed(bob.ask, lines * 10)
    with subtests.test("beside an order that waits all others are answered"):
        assert told == wanted * 10
    with subtests.test("and soon"):
        assert statistics.median(took) < SOON and max(took) < LATEST
    eve.say("under way\n")
    way = [eve.line(), eve.line()]
    with subtests.test("what is under way is told to others"):
        assert (way[0].rsplit(" ", 1)[0], way[1]) == ("way ANN include TOP FAR", "under way 1")
    place.start_away()
    with subtests.test("once the station is there, the order that waited is told first, and then the line behind it"):
        assert [ann.line(), ann.line()] == ["told ANN include TOP FAR 0", "board L none"]
    for console in (ann, bob, eve):
        console.close()


def test_partitions(place, subtests):
    """Two operators of one node are in command of two sub-detectors, while an order of a third waits."""
    with lunskaf.Node(place.where) as ann, lunskaf.Node(place.where) as bob, lunskaf.Node(place.where) as eve:
        third = threading.Thread(target=lambda: eve.take("EVE", "FAR"), daemon=True)
        third.start()
        time.sleep(0.2)
        for node, operator, domain in [(ann, "ANN", "LEFT"), (bob, "BOB", "RIGHT")]:
            node.take(operator, domain)
        for _ in range(20):
            ann.do("ANN", "LEFT", "GO")
            bob.do("BOB", "RIGHT", "GO")
            ann.do("ANN", "LEFT", "FALL")
            bob.do("BOB", "RIGHT", "FALL")
        held = [(ann.ask("ANN", domain).holder, ann.ask("ANN", domain).last) for domain in ("LEFT", "RIGHT")]
        with subtests.test("two operators command two sub-detectors from one node"):
            assert held == [("ANN", 40), ("BOB", 40)]
        with subtests.test("while the order of a third waits"):
            assert [third.is_alive(), [(it.operator, it.order) for it in bob.under_way()]] == [
                True, [("EVE", "take FAR")]]
        try:
            bob.take("BOB", "LEFT")
            code = 0
        except lunskaf.Refused as refused:
            code = refused.code
        with subtests.test("and neither can take the other's"):
            assert code == 5
        away = place.start_away()
        third.join(DEADLINE)
        with subtests.test("until its station is there"):
            assert not third.is_alive()
        away.kill()


def judged(place, number, failures):
    """Gives one connection's hundred orders, half of them with tags. Each is answered once."""
    console = Console(place.where)
    # (a question of one operator would take the place of an earlier one, whatever connection that came from)
    plain = ["show L", "order ANN watch R", "report R OFF", "order BOB watch R"]
    answers = ["board L none", "told ANN watch R 0", "told report R OFF 0", "told BOB watch R 0"]
    lines, wanted, tagged = [], [], {}
    for order in range(ORDERS):
        which = (order + number) % len(plain)
        if order % 2:
            tag = "@%d.%d" % (number, order)
            lines.append("%s %s" % (tag, plain[which]))
            tagged[tag] = answers[which]
        else:
            lines.append(plain[which])
            wanted.append(answers[which])
    threading.Thread(target=console.say, args=["".join(line + "\n" for line in lines)], daemon=True).start()
    told = [console.line() for _ in lines]
    found = [line for line in told if line is not None and not line.startswith("@")]
    by_tag = dict(line.split(" ", 1) for line in told if line is not None and line.startswith("@"))
    if found != wanted or by_tag != tagged:
        failures.append((number, told))
    console.close()


def test_many(place, subtests):
    """As many connections as there may be, with fifty orders each, and one more."""
    failures = []
    threads = [threading.Thread(target=judged, args=[place, number, failures]) for number in range(GUESTS)]
    for thread in threads:
        thread.start()
    for thread in threads:
        thread.join(DEADLINE * 4)
    if failures:
        print("connection %d was told %s" % failures[0], file=sys.stderr)
    with subtests.test("%d connections with %d orders each: all are answered once, and to the right one"
        % (GUESTS, ORDERS)):
        assert not failures and not any(thread.is_alive() for thread in threads)
    full = [Console(place.where) for _ in range(GUESTS)]
    with subtests.test("so many are there at once"):
        assert [it.ask("show L") for it in full] == ["board L none"] * GUESTS
    more = Console(place.where)
    with subtests.test("and one more is told that it is full"):
        assert more.rest() == ["full"]
    full.pop().close()
    until, told = time.monotonic() + DEADLINE, None
    while time.monotonic() < until and told != "board L none":
        again = Console(place.where)
        told = again.ask("show L")
        again.close()
    with subtests.test("where one has left there is room again"):
        assert told == "board L none"


def test_silent(place, subtests):
    """Connections that nobody uses make room for new ones, the one that was silent for longest first."""
    follower, willing, waiting = kept = [Console(place.where) for _ in range(3)]
    follower.say("follow\n")
    willing.ask("will L READY")
    waiting.say("order ANN take FAR\n")
    idle = [Console(place.where) for _ in range(GUESTS - len(kept))]
    with subtests.test("so many are there at once"):
        assert [it.ask("show L") for it in idle] == ["board L none"] * len(idle)
    busy = idle[1:]
    with subtests.test("at first one more is told that it is full"):
        assert Console(place.where).rest() == ["full"]
    time.sleep(SILENCE + 1)
    with subtests.test("those that ask again are used"):
        assert [it.ask("show L") for it in busy] == ["board L none"] * len(busy)
    new = Console(place.where)
    with subtests.test("the one that is not used makes room"):
        assert (new.ask("show L"), idle[0].rest()) == ("board L none", ["full"])
    with subtests.test("and then there is none that makes room"):
        assert Console(place.where).rest() == ["full"]
    with subtests.test("one that follows stays, one with a will, and one that waits"):
        assert new.ask("order BOB take LEFT") == "told BOB take LEFT 0"
        assert willing.ask("show L") == "board L none"
        place.start_away()
        assert waiting.line() == "told ANN take FAR 0"
        assert new.ask("report L READY") == "told report L READY 0"
        assert follower.line().startswith("board ")


@pytest.mark.alone
def test_rude(place, subtests):
    """Clients that leave in the middle, that never read, and that send no line."""
    steady, asked = Console(place.where), ["order ANN ask LEFT"] * 50
    answers = ["told ANN ask LEFT free 0 0 settled 0"] * len(asked)
    usual = timed(steady.ask, asked)[1]
    for text in ["order ANN ta", "order EVE ask LEFT\nord", "states\n" * 300, "@x follow\n", "x" * 100_000,
                 "\0\n" * 50]:
        rude = Console(place.where)
        rude.say(text)
        rude.close()
    told, took = timed(steady.ask, asked)
    with subtests.test("clients that leave in the middle of a line or of an answer hold up nobody"):
        assert [told, is_soon(took, usual)] == [answers, True]
    polite = Flood(place.where, True)
    usual = timed(steady.ask, asked)[1]
    polite.end()
    deaf = Flood(place.where, False)
    told, took = timed(steady.ask, asked)
    with subtests.test("nor does one that never reads"):
        assert [told, is_soon(took, usual)] == [answers, True]
    with subtests.test("which is let go"):
        assert deaf.is_let_go(STUCK + SLACK)
    slow = Console(place.where)
    for letter in "order ANN ask LEFT\n":
        slow.say(letter)
        time.sleep(0.01)
    with subtests.test("a line that comes byte by byte is a line"):
        assert slow.line() == "told ANN ask LEFT free 0 0 settled 0"
    slow.say("y" * 1_000_000 + "\nshow L\n")
    with subtests.test("one of a million bytes is too long, and the next is heard"):
        assert [slow.line(), slow.line()] == ["line 2 fault 10: more than 200 bytes", "board L none"]
    gone = [Console(place.where) for _ in range(GUESTS - 3)]
    for rude in gone:
        said_once(rude, "order EVE take FAR\nshow L\n")
        rude.close()
    time.sleep(STUCK)
    until, told = time.monotonic() + SLACK, None
    while time.monotonic() < until and told != "board L none":
        many = [Console(place.where) for _ in range(GUESTS // 2)]
        told = many[-1].ask("show L")
        for console in many:
            console.close()
    with subtests.test("clients that leave while their orders wait make room"):
        assert told == "board L none"
    with subtests.test("the node is there after all that"):
        assert [place.is_running(), steady.ask("show L")] == [True, "board L none"]


# The head of what a browser sends for a page elsewhere that posts these bytes, as Chromium writes it.
POSTED = "POST / HTTP/1.1\r\nHost: %s\r\nConnection: keep-alive\r\nContent-Length: %d\r\nContent-Type: text/plain\r\n" \
    "Origin: http://elsewhere.example\r\nAccept: */*\r\n\r\n%s"
# And what it is told: the fault of its first line, and nothing of any other.
TURNED_AWAY = ["line 1 fault 1: a word that no line has there"]


def posted(where, body):
    return POSTED % (where, len(body), body)


def told_by_parts(where, parts):
    """What a connection is told that says its text in parts, up to its end; the node may end it before all is said."""
    console, told = Console(where), []
    if console.socket.family == socket.AF_INET:
        console.socket.setsockopt(socket.IPPROTO_TCP, socket.TCP_NODELAY, 1)
    for part in parts:
        said_once(console, part)
    line = console.line()
    while line:
        told.append(line)
        line = console.line()
    console.close()
    return told


@pytest.fixture
def tcp():
    """Returns the address of a console that is reached by TCP."""
    return "127.0.0.1:%d" % screens.tcp_port()


@pytest.fixture
def both(folder, start_node, tcp):
    """Returns a node with a console at a path, and one at an address."""
    return Place(folder, start_node, [os.path.join(folder, "console"), tcp])


def test_pages(both, tcp, subtests):
    """A page elsewhere has a browser send orders after the head of a request: none of its lines is attended to."""
    steady = Console(both.where)
    state = "told ANN ask LEFT free 0 0 settled 0"
    body = "\norder ANN take LEFT\n@1 order BOB take RIGHT\n"
    request = posted(tcp, body)
    with subtests.test("a request that posts orders is told its first fault, and ends"):
        assert told_by_parts(tcp, [request]) == TURNED_AWAY
    with subtests.test("and so are two in one connection"):
        assert told_by_parts(tcp, [request * 2]) == TURNED_AWAY
    well = True
    for cut in range(1, len(request)):
        well = well and told_by_parts(tcp, [request[:cut], request[cut:]]) == TURNED_AWAY
    with subtests.test("wherever it is cut in two"):
        assert well
    with subtests.test("or cut into bytes"):
        assert told_by_parts(tcp, list(request)) == TURNED_AWAY
    for method in ["GET", "OPTIONS", "PUT", "HEAD"]:
        with subtests.test("nor does a request by " + method):
            assert told_by_parts(tcp, [method + request[4:]]) == TURNED_AWAY
    # A page whose own host was given this address may choose its method, which may be a word that a line begins with.
    for method, fault in [("help", 2), ("order", 1), ("show", 2), ("follow", 5), ("report", 3), ("actions", 5)]:
        told = told_by_parts(tcp, [method + request[4:]])
        with subtests.test("nor one whose method is " + method):
            assert [line.split(":")[0] for line in told] == ["line 1 fault %d" % fault, "line 2 fault 1"]
    with subtests.test("nor at a path of the machine"):
        assert told_by_parts(both.where, [request]) == TURNED_AWAY
    with subtests.test("and nobody has ordered anything"):
        assert [steady.ask("order ANN ask LEFT"), steady.ask("order BOB ask RIGHT"), steady.ask("under way")] == [
            state, state.replace("ANN", "BOB").replace("LEFT", "RIGHT"), "under way 0"]


def test_first_lines(folder, run_node, both, tcp, subtests):
    """The first line of a connection may have a fault, but for a word that no line begins with."""
    typed = Console(tcp)
    told = [typed.ask(line) for line in ["show L", "shwo L", "GET / HTTP/1.1", "show L"]]
    fault = "line %d fault 1: a word that no line has there"
    with subtests.test("who has asked something may mistype a word"):
        assert told == ["board L none", fault % 2, fault % 3, "board L none"]
    for first, answer in [("order ANN take", "line 1 fault 2"), ("show NOTHING", "line 1 fault 5"),
                          ("@1 POST / HTTP/1.1", "@1 fault 1"), ("# a comment\n\nshow L", "board L none")]:
        begun = Console(tcp)
        told = [begun.ask(first).split(":")[0], begun.ask("show L")]
        with subtests.test("a first line may be " + first.split("\n")[0]):
            assert told == [answer, "board L none"]
        begun.close()
    input_told = run_node(both.tree, "AWAY", os.path.join(folder, "away"), "--turns", 60,
                          given="POST / HTTP/1.1\nshow F\n")
    with subtests.test("standard input is no connection"):
        assert input_told == (["board F none"], ["line 1 fault 1"], 0)


def test_comers(place, subtests):
    """Ten thousand connections one after the other take no more memory than the first."""
    before = None
    well = True
    for number in range(COMERS):
        console = Console(place.where)
        well = well and console.ask("show L") == "board L none"
        console.close()
        if number == COMERS // 10:
            before = place.memory()
    with subtests.test("%d connections one after the other are answered" % COMERS):
        assert well
    with subtests.test("and leave no memory behind"):
        assert place.memory() - before < 512


def first_two(tag, *names):
    return ["%s board %s 1.0 OFF" % (tag, name) for name in names]


def test_faults(place, subtests):
    """On a connection a fault is told in words."""
    console = Console(place.where)
    for line, wanted in [("order ANN grab LEFT", "line 1 fault 1: a word that no line has there"),
                         ("@7 order ANN take NOBODY", "@7 fault 5: NOBODY is no domain of the tree"),
                         ("@7 order NOBODY take LEFT", "@7 fault 5: NOBODY is no operator of this station"),
                         ("@7 order ANN do LEFT JUMP", "@7 fault 5: JUMP is no action of the tree"),
                         ("@7 order ANN include TOP L", "@7 fault 5: L is no domain of the tree"),
                         ("@7 order ANN watch NOBODY", "@7 fault 5: NOBODY is no domain or device of the tree"),
                         ("@7 report LX READY", "@7 fault 5: LX is no device of the tree"),
                         ("@7 report L GONE", "@7 fault 5: GONE is no state of the tree"),
                         ("@7 actions L LEFT", "@7 fault 5: LEFT is no device of the tree"),
                         ("@7", "@7 fault 2: too few words, or too many"),
                         ("states now", "line 11 fault 2: too few words, or too many"),
                         ("follow L NOBODY", "line 12 fault 5: NOBODY is no domain or device of the tree"),
                         ("@c order ANN ask LEFT\r", "@c told ANN ask LEFT free 0 0 settled 0")]:
        with subtests.test(line):
            assert console.ask(line) == wanted


def helped_by(console):
    """Returns the lines of `help`, which ends with how many there are."""
    found = [console.line()]
    while found[-1] and found[-1].split()[1:] != [str(len(found) - 1)]:
        found.append(console.line())
    return found


def test_lines(place, subtests):
    """What only connections have: questions of the whole node without a tag."""
    console = Console(place.where)
    console.say("\n# nothing\nhelp\n")
    helped = helped_by(console)
    with subtests.test("help"):
        assert [helped[-1], all(line.startswith("help ") for line in helped)] == ["help %d" % (len(helped) - 1), True]
    console.say("counts\n")
    with subtests.test("counts"):
        assert console.line().startswith("counts received ")
    console.say("@s states\n")
    first = ["@s board %s 1.0 OFF" % name for name in ("TOP", "LEFT", "RIGHT", "L", "R")] + ["@s states 5"]
    with subtests.test("states of what the station keeps"):
        assert [console.line() for _ in first] == first
    console.say("@f follow L LEFT\n")
    with subtests.test("follow begins with the newest"):
        assert [console.line(), console.line()] == first_two("@f", "LEFT", "L")
    told = [console.ask("@r report L READY"), console.line(), console.line()]
    with subtests.test("a report is followed"):
        assert sorted(told) == ["@f board L 1.1 READY", "@f board LEFT 1.1 READY", "@r told report L READY 0"]
    with subtests.test("and other objects are not"):
        assert console.ask("@r report R READY") == "@r told report R READY 0"
    console.socket.shutdown(socket.SHUT_WR)
    other = Console(place.where)
    other.ask("report L OFF")
    with subtests.test("one that types no more still follows"):
        assert console.line() == "@f board L 1.2 OFF"
    other.say("show L\norder ANN ask LEFT")
    other.socket.shutdown(socket.SHUT_WR)
    with subtests.test("a last line without its end is a line, and then the node ends the connection"):
        assert other.rest() == ["board L none", "told ANN ask LEFT free 0 0 settled 0"]
    with subtests.test("standard input keeps its grammar"):
        assert place.node.ask("states") == "line 1 fault 1"
    with subtests.test("and has the questions behind a tag"):
        assert place.node.ask("@x under way") == "@x under way 0"
    place.node.child.stdin.close()
    with subtests.test("connections go on where standard input has ended"):
        assert other_asked(place) == "board L none"


def test_no_more_lines(place, subtests):
    """One that sends no more is told all that it waits for, however late that comes, and ends then."""
    console = Console(place.where)
    console.say("@1 order ANN take FAR\n@2 order BOB take LEFT\n")
    console.socket.shutdown(socket.SHUT_WR)
    with subtests.test("what comes soon"):
        assert console.line() == "@2 told BOB take LEFT 0"
    time.sleep(LATE)
    away = place.start_away()
    with subtests.test("what comes late, and the end"):
        assert console.rest() == ["@1 told ANN take FAR 0"]
    away.kill()


def current_mask():
    mask = os.umask(0)
    os.umask(mask)
    return mask


def connections(port, other):
    """Returns the rows of proc(5) of the connections of a port of this machine with another one."""
    rows = [line.split() for line in running.text_of("/proc/net/tcp").splitlines()[1:]]
    return [row for row in rows if [int(it.split(":")[1], 16) for it in row[1:3]] == [port, other]]


def timers(port, other):
    """Returns which timer the system runs for each connection of a port of this machine with another one."""
    return [row[5][:2] for row in connections(port, other)]


def copy_of(process, socket_number):
    """Returns a copy of a socket of a process, by its number in the system: pidfd_getfd(2), which Python does not have."""
    folder = "/proc/%d/fd" % process
    name = "socket:[%s]" % socket_number
    held, = [int(number) for number in os.listdir(folder) if os.readlink(os.path.join(folder, number)) == name]
    opened = os.pidfd_open(process)
    copy = ctypes.CDLL(None, use_errno=True).syscall(PIDFD_GETFD, opened, held, 0)
    os.close(opened)
    if copy < 0 and ctypes.get_errno() in (errno.EPERM, errno.ENOSYS):
        pytest.skip("this system gives nobody a copy of a socket")
    assert copy >= 0, os.strerror(ctypes.get_errno())
    return socket.socket(fileno=copy)


def test_keeps_alive(folder, start_node, subtests):
    """The system asks after a client over TCP from which nothing comes: its machine may have lost its power."""
    port = screens.tcp_port()
    place = Place(folder, start_node, [os.path.join(folder, "console"), "127.0.0.1:%d" % port])
    tcp = Console("127.0.0.1:%d" % port)
    with subtests.test("it is answered"):
        assert tcp.ask("show L") == "board L none"
    other = tcp.socket.getsockname()[1]
    with subtests.test("a timer asks after it"):
        assert running.at_last(lambda: timers(port, other), ["02"]) == ["02"]
    with subtests.test("none asks after the node in its turn"):
        assert running.at_last(lambda: timers(other, port), ["00"]) == ["00"]
    (row,) = connections(port, other)
    with copy_of(place.node.child.pid, row[9]) as copy:
        options = [copy.getsockopt(socket.IPPROTO_TCP, option) for option in ASKING]
    with subtests.test("whether or not bytes are on their way to it, a minute after it was heard last it ends"):
        assert options == [30, 10, 3, 60_000]
    tcp.close()


def test_doors(folder, run_node, start_node, subtests):
    """Where a node listens: both kinds at once, a file that was left over, and what is in the way."""
    port = screens.tcp_port()
    where = os.path.join(folder, "console")
    place = Place(folder, start_node, [where, "127.0.0.1:%d" % port])
    tcp = Console("127.0.0.1:%d" % port)
    with subtests.test("TCP"):
        assert tcp.ask("order ANN take LEFT") == "told ANN take LEFT 0"
    with subtests.test("and a path at once"):
        assert other_asked(place) == "board L none"
    mode = os.stat(where).st_mode & 0o777
    with subtests.test("the file's rights are those that the process gives"):
        assert mode == 0o777 & ~current_mask()
    place.node.kill()
    with subtests.test("a killed node leaves its socket behind"):
        assert os.path.exists(where)
    again = Place(folder, start_node, [where])
    with subtests.test("which the next one replaces"):
        assert other_asked(again) == "board L none"
    words = [again.tree, "AWAY", os.path.join(folder, "away"), "--turns", 20]
    taken = run_node(*words, "--console", where)
    faulty = ([], ["console fault"], 3)
    with subtests.test("a socket that somebody listens at stays"):
        assert (taken, other_asked(again)) == (faulty, "board L none")
    again.node.kill()
    other = running.write(os.path.join(folder, "file"), "kept")
    taken = run_node(*words, "--console", other)
    with subtests.test("and so does any other file"):
        assert (taken, running.read(other)) == (faulty, b"kept")
    for bad in ["/nonexistent/console", "300.0.0.1:80/", folder]:
        with subtests.test("no console at " + bad):
            assert run_node(*words, "--console", bad) == faulty
    three = [word for name in "abc" for word in ("--console", os.path.join(folder, name))]
    with subtests.test("three consoles are no form"):
        assert run_node(*words, *three) == ([], ["wrong line"], 2)


def test_open(smi, folder, run_node, subtests):
    """A console that other machines reach wants --open, and what reads as a host and a port is no path."""
    port = screens.tcp_port()
    tree = nodes.write_tree(folder, None, (TREE % tuple(nodes.free_ports(2))).splitlines())
    words = [tree, "HERE", os.path.join(folder, "here"), "--turns", nodes.FEW]
    wrong = ([], ["wrong line"], 2)
    for host in ["0.0.0.0", "192.0.2.1"]:
        told = run_node(*words, "--console", "%s:%d" % (host, port))
        with subtests.test("no console at %s without --open" % host):
            assert told == wrong
    path = os.path.join(folder, "console")
    told = run_node(*words, "--console", path, "--console", "0.0.0.0:%d" % port)
    with subtests.test("nor beside one of this machine"):
        assert told == wrong
    with subtests.test("where nothing is made"):
        assert not os.path.exists(words[2]) and not os.path.exists(path)
    for more in [["--console", "0.0.0.0:%d" % port, "--open"], ["--open", "--console", "127.0.0.1:%d" % port],
                 ["--console", "127.1.2.3:%d" % port]]:
        told = run_node(*words, *more)
        with subtests.test("a console by " + " ".join(more).replace(str(port), "PORT")):
            assert told == ([], [], 0)
    for word in ["localhost:7001", "[::1]:7001", "127.0.0.1:99999", "127.0.0.1.5:7001", ":7001", "detector.example:1"]:
        told = run_node(*words, "--console", word, cwd=folder)
        is_there = os.path.exists(os.path.join(folder, word))
        with subtests.test("no file of a console by the name " + word):
            assert [told, is_there] == [wrong, False]
    for word in ["./localhost:7001", "localhost:", "console:7a"]:
        told = run_node(*words, "--console", word, cwd=folder)
        with subtests.test("but by " + word):
            assert [told, os.path.exists(os.path.join(folder, word))] == [([], [], 0), True]
    told = smi("screen", *map(str, words), "--http", "127.0.0.1:%d" % port, "--orders", "localhost:7001")
    with subtests.test("nor are a screen's orders sent there"):
        assert told == (b"", b"wrong line\n", 2)
