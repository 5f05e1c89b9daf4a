"""Orders by the screen: what comes from its page goes to the console, once, and nothing else does."""

import os
import socket
import time

import pytest

import nodes
import running
import screens
from running import DEADLINE, at_last, is_so


# The question that a screen asks every two seconds, which is no order.
QUESTION = b"@modes modes\n"
# How many orders are given at once, and how often a screen is started whose keys are compared.
AT_ONCE, STARTS = 16, 3


class FakeConsole:
    """A console that the test plays: it says what the test says, and its lines are read one by one.

    Questions for the modes are counted, and are not among its lines.
    """

    def __init__(self):
        self.door = socket.create_server(("127.0.0.1", 0))
        self.door.settimeout(DEADLINE)
        self.place, self.line, self.rest = "127.0.0.1:%d" % self.door.getsockname()[1], None, b""
        self.questions = 0

    def meet(self):
        if self.door is None:
            name, _, port = self.place.partition(":")
            self.door = socket.create_server((name, int(port)))
            self.door.settimeout(DEADLINE)
        self.line, self.rest = self.door.accept()[0], b""
        self.line.settimeout(DEADLINE)

    def read(self):
        """Reads what has come, without questions for the modes, and returns false if the connection has ended."""
        got = self.line.recv(4096)
        self.rest += got
        self.questions += self.rest.count(QUESTION)
        self.rest = self.rest.replace(QUESTION, b"")
        return bool(got)

    def hear(self):
        """Returns the next line, or what has come of it if the connection ends."""
        while b"\n" not in self.rest:
            if not self.read():
                return self.rest.decode()
        line, _, self.rest = self.rest.partition(b"\n")
        return line.decode()

    def hears_nothing(self, seconds=1.0):
        """Returns true if nothing comes for this many seconds."""
        end = time.monotonic() + seconds
        try:
            while not self.rest and time.monotonic() < end:
                self.line.settimeout(max(0.01, end - time.monotonic()))
                if not self.read():
                    break
        except socket.timeout:
            pass
        self.line.settimeout(DEADLINE)
        return not self.rest

    def say(self, text):
        self.line.sendall((text + "\n").encode())

    def leave(self):
        """Closes the door too, because at an open one the system takes a connection that the test has not met."""
        self.door.close()
        self.door = None
        self.line.close()

    def end(self):
        for it in (self.line, self.door):
            if it:
                it.close()


@pytest.fixture
def tree(folder):
    """Returns the path of the worked tree with a screen."""
    *ports, port = nodes.free_ports(3)
    return nodes.write_tree(folder, None, screens.with_screen(nodes.tree_lines(ports), port))


@pytest.fixture
def console():
    made = FakeConsole()
    yield made
    made.end()


GIVEN = (202, b"the order is on its way")
STRANGER = (403, b"orders are given from the page alone")
NO_ORDER = (400, b"this is no order of an operator of the tree")
AWAY = (503, b"there is no connection with the console")
SHOWN = (405, b"this screen only shows")
# Lines that are no order of an operator of the worked tree, and are one line too little or too much.
NO_ORDERS = [
    b"", b"take DCS", b"order", b"order ANN", b"order EVE take DCS", b"order ANN take ABC", b"order ANN do DCS HOP",
    b"report HV READY", b"show HV", b"under way", b"counts", b"@1 order ANN take DCS", b"# order ANN take DCS",
    b"order ANN take DCS\n", b"order ANN take DCS\norder BOB take TPC", b"order ANN take DCS\r",
    b"order ANN take DCS\0", b"order ANN take DCS x", b"\xff\xfe", b'order ANN take "DCS"', b"{\"order\":1}"]


def check_refused(console, screen, key, subtests):
    """What comes from elsewhere, or is no order, gives none."""
    own, local = screen.host, "localhost:%d" % screen.port
    give, good = screen.give, "order ANN take DCS"
    for name, how in [("no Origin", {"origin": None}), ("a foreign Origin", {"origin": "http://evil.example"}),
                      ("an Origin that begins so", {"origin": "http://%s.evil.example" % own}),
                      ("an Origin at another port", {"origin": "http://127.0.0.1:80"}),
                      ("an Origin of https", {"origin": "https://" + own}), ("Origin null", {"origin": "null"}),
                      ("another name of its own", {"origin": "http://" + local}),
                      ("no key", {"key": None}), ("a wrong key", {"key": "Bearer " + "0" * 32}),
                      ("part of the key", {"key": key[:-1]}), ("an empty key", {"key": ""}),
                      ("more than the key", {"key": key + "0"})]:
        with subtests.test("%s, no" % name):
            assert give(good, **how) == STRANGER
    with subtests.test("the key in a cookie, no"):
        assert give(good, key=None, more="Cookie: " + key) == STRANGER
    with subtests.test("a foreign Host, no"):
        assert give(good, host="evil.example", origin="http://evil.example") == (421, b"this is another host")
    for line in NO_ORDERS:
        with subtests.test("%r, no" % line):
            assert give(line) == NO_ORDER
    with subtests.test("a body too long, no"):
        assert give("order ANN take DCS" + " " * 83)[0] == 413
    with subtests.test("GET gives none"):
        assert give(good, method="GET")[0] == 200
    for method in ("PUT", "DELETE", "PATCH", "OPTIONS"):
        with subtests.test("%s, no" % method):
            assert give(good, method=method) == SHOWN
    with subtests.test("nor at another place"):
        assert give(good, target="/api/picture") == SHOWN
    with subtests.test("nothing of all that was sent"):
        assert [console.hears_nothing(), screen.orders()] == [True, []]


def test_orders(folder, tree, console, start_screen, subtests):
    """Who may give an order, which is one, and what goes to the console: that one line, once."""
    screen = start_screen(tree, screens.store_of(folder, "screen"), more=("--endless", "--orders", console.place))
    with subtests.test("it is up"):
        assert screen.is_up()
    console.meet()
    with subtests.test("the console is there"):
        assert screen.has_console()
    key = screen.key()
    page = screen.get("/")[1]
    with subtests.test("the page has the key once"):
        assert [page.count(key.encode()), len(key)] == [1, len("Bearer ") + 32]
    check_refused(console, screen, key, subtests)
    give, good, local = screen.give, "order ANN take DCS", "localhost:%d" % screen.port
    with subtests.test("one that may be given"):
        assert give(good) == GIVEN
    with subtests.test("is sent behind a tag"):
        assert console.hear() == "@1 " + good
    with subtests.test("and once"):
        assert console.hears_nothing()
    with subtests.test("by the other name of the screen"):
        assert [give("order BOB take TPC", host=local, origin="http://" + local), console.hear()] == [
            GIVEN, "@2 order BOB take TPC"]
    check_answered(console, screen, subtests)


def test_many_at_once(folder, tree, console, start_screen, subtests):
    """Orders that are given at once, all of which the screen writes in one piece: each is sent once, and in order."""
    screen = start_screen(tree, screens.store_of(folder, "screen"), more=("--endless", "--orders", console.place))
    assert screen.is_up()
    console.meet()
    assert screen.has_console()
    lines = ["order ANN ask DCS", "order BOB ask TPC"] * (AT_ONCE // 2)
    sent = "".join("POST /api/orders HTTP/1.1\r\nHost: %s\r\nOrigin: http://%s\r\nAuthorization: %s\r\n"
                   "Connection: %s\r\nContent-Length: %d\r\n\r\n%s"
                   % (screen.host, screen.host, screen.key(), "close" if place == AT_ONCE else "keep-alive", len(line),
                      line) for place, line in enumerate(lines, 1))
    told = screens.answers(screen.exchange(sent.encode()))
    with subtests.test("each is on its way"):
        assert told == [GIVEN] * AT_ONCE
    with subtests.test("each is sent, in order"):
        assert [console.hear() for _ in lines] == ["@%d %s" % it for it in enumerate(lines, 1)]
    with subtests.test("and once"):
        assert console.hears_nothing()


def test_keys(folder, tree, console, start_screen):
    """The key of a page is another one at each start of its screen."""
    keys = []
    for _ in range(STARTS):
        screen = start_screen(tree, screens.store_of(folder, "screen"), more=("--endless", "--orders", console.place))
        assert screen.is_up()
        keys.append(screen.key())
        screen.end()
    assert len(set(keys)) == STARTS


PROXY = "https://daq.example"


def test_behind_a_proxy(folder, tree, console, start_screen, subtests):
    """A page that a proxy serves: requests for its host are answered, and orders taken under its origin alone."""
    more = ("--endless", "--orders", console.place, "--origin", PROXY)
    screen = start_screen(tree, screens.store_of(folder, "screen"), more=more)
    with subtests.test("it is up"):
        assert screen.is_up()
    console.meet()
    with subtests.test("the console is there"):
        assert screen.has_console()
    give, good, host = screen.give, "order ANN take DCS", "daq.example"
    with subtests.test("its host is answered"):
        assert screen.get("/healthz", host=host) == (200, b"ok")
    for other in ("daq.example:%d" % screen.port, "example", "xdaq.example", "daq.example.evil", "daq"):
        with subtests.test("%s is not" % other):
            assert screen.get("/healthz", host=other) == (421, b"this is another host")
    for origin in ("https://daq.example:443", "https://daq.example.evil", "https://evil.example", "https://daq", None,
                   "http://evil.example", "null"):
        with subtests.test("no order from %s" % origin):
            assert give(good, host=host, origin=origin) == STRANGER
    with subtests.test("nor without the key"):
        assert give(good, host=host, origin=PROXY, key=None) == STRANGER
    with subtests.test("nothing of all that was sent"):
        assert console.hears_nothing()
    with subtests.test("one from its page"):
        assert [give(good, host=host, origin=PROXY), console.hear()] == [GIVEN, "@1 " + good]
    with subtests.test("one from the screen's own address"):
        assert [give("order BOB take TPC"), console.hear()] == [GIVEN, "@2 order BOB take TPC"]


def fates(screen):
    """Returns of each order its line, whether it waits, its answer, its code and what that means."""
    return [(it["line"], it["waits"], it["answer"], it["code"], it["words"]) for it in screen.orders()]


def check_answered(console, screen, subtests):
    """Answers out of order go to their orders, and what answers none changes nothing."""
    first, second = "order ANN take DCS", "order BOB take TPC"
    waiting = [(first, True, None, None, None), (second, True, None, None, None)]
    with subtests.test("both wait"):
        assert at_last(lambda: fates(screen), waiting) == waiting
    for text in ["@3 told ANN take DCS 0", "@12 told ANN take DCS 0", "@ told", "told ANN take DCS 0", "", "@1",
                 "x" * 500, "@1told", "\xff"]:
        console.say(text)
    time.sleep(1)
    with subtests.test("strange ones change nothing"):
        assert fates(screen) == waiting
    console.say("@2 told BOB take TPC 5")
    ended = (second, False, "told BOB take TPC 5", 5, "another one holds the domain")
    with subtests.test("the second first"):
        assert at_last(lambda: fates(screen), [waiting[0], ended]) == [waiting[0], ended]
    console.say("@2 told BOB take TPC 0")
    console.say("@1 fault 5: \"a\\b\"")
    odd = (first, False, "?", None, None)
    with subtests.test("one with quotes"):
        assert at_last(lambda: fates(screen), [odd, ended]) == [odd, ended]
    check_broken(console, screen, [odd, ended], subtests)


def check_broken(console, screen, before, subtests):
    """A console that goes: what waits is lost, nothing is given meanwhile, and nothing is sent later."""
    third, give = "order ANN do DCS CONFIGURE", screen.give
    with subtests.test("one more is given"):
        assert [give(third), console.hear()] == [GIVEN, "@3 " + third]
    seconds = [it["seconds"] for it in screen.orders() if it["waits"]]
    time.sleep(1.2)
    with subtests.test("its seconds go on"):
        assert [it["seconds"] for it in screen.orders() if it["waits"]] > seconds
    console.leave()
    lost = (third, False, None, None, None)
    with subtests.test("it is told"):
        assert is_so(lambda: not screen.told_orders()["console"])
    with subtests.test("what waited is lost"):
        assert fates(screen) == before + [lost]
    with subtests.test("none is taken"):
        assert give("order ANN drop DCS") == AWAY
    console.meet()
    with subtests.test("it comes back"):
        assert screen.has_console()
    with subtests.test("nothing is sent again"):
        assert console.hears_nothing()
    console.say("@3 told ANN do DCS CONFIGURE 0")
    time.sleep(0.6)
    with subtests.test("an answer of before is nobody's"):
        assert fates(screen) == before + [lost]
    lines = ["order ANN ask DCS", "order BOB ask TPC"] * 32
    given = [give(line) for line in lines]
    with subtests.test("as many as can wait"):
        assert [given, [console.hear() for _ in lines]] == [
            [GIVEN] * len(lines), ["@%d %s" % (number, line) for number, line in enumerate(lines, 4)]]
    with subtests.test("one more, no"):
        assert give("order ANN ask DCS") == (429, b"too many orders wait")
    console.say("@20 told ANN ask DCS free 0 0 settled 0")
    with subtests.test("where one has ended, one more"):
        assert [is_so(lambda: give("order ANN drop DCS") == GIVEN), console.hear()] == [
            True, "@68 order ANN drop DCS"]
    with subtests.test("it still shows"):
        assert screen.get("/api/tree")[0] == 200


def modes_of(screen):
    return screen.told_orders()["modes"]


def test_modes(folder, tree, console, start_screen, subtests):
    """The modes that the console tells are those of its last whole answer, until the connection ends."""
    screen = start_screen(tree, screens.store_of(folder, "screen"), more=("--endless", "--orders", console.place))
    console.meet()
    with subtests.test("nothing is known before"):
        assert screen.has_console() and modes_of(screen) == []
    with subtests.test("it is asked, and again"):
        assert is_so(lambda: console.hears_nothing() and console.questions >= 2)
    told, odd = ["TPC manual", "DCS ignored"], ["mode \"x\" manual", "model", "fault 1", "modes"]
    answer = "\n".join("@modes " + text for text in ["mode " + it for it in told] + odd)
    console.say(answer)
    time.sleep(0.6)
    with subtests.test("nor before an answer is whole"):
        assert modes_of(screen) == []
    # the next question forgets what has come
    console.hears_nothing(2.5)
    console.say(answer + " 4")
    with subtests.test("a whole answer"):
        assert at_last(lambda: modes_of(screen), told) == told
    with subtests.test("no order is answered by it"):
        assert [screen.give("order ANN take DCS"), console.hear()] == [GIVEN, "@1 order ANN take DCS"]
        waits = ("order ANN take DCS", True, None, None, None)
        assert at_last(lambda: fates(screen), [waits]) == [waits]
    console.say("@modes modes 0")
    with subtests.test("a later one"):
        assert at_last(lambda: modes_of(screen), []) == []
    console.say("@modes mode TPC out\n@modes modes 1")
    with subtests.test("and a third"):
        assert at_last(lambda: modes_of(screen), ["TPC out"]) == ["TPC out"]
    console.leave()
    with subtests.test("none is known once the console has gone"):
        assert at_last(lambda: modes_of(screen), []) == []


def test_withdraw(folder, tree, console, start_screen, subtests):
    """A line that withdraws an order is sent as orders are, and its answer is its own."""
    screen = start_screen(tree, screens.store_of(folder, "screen"), more=("--endless", "--orders", console.place))
    console.meet()
    with subtests.test("the console is there"):
        assert screen.has_console()
    for line in ["withdraw", "withdraw ", "withdraw x", "withdraw 1x", "withdraw -1", "withdraw  1", "withdraw 1 ",
                 "withdraw 12345678901234567", "withdraw @1", "Withdraw 1"]:
        with subtests.test("%r, no" % line):
            assert screen.give(line) == NO_ORDER
    order = "order ANN take DCS"
    with subtests.test("an order"):
        assert [screen.give(order), console.hear()] == [GIVEN, "@1 " + order]
    with subtests.test("is withdrawn"):
        assert [screen.give("withdraw 1"), console.hear()] == [GIVEN, "@2 withdraw 1"]
    with subtests.test("as is one of any number"):
        assert [screen.give("withdraw 1234567890123456"), console.hear()] == [GIVEN, "@3 withdraw 1234567890123456"]
    for text in ["@1 withdrawn", "@2 withdrawn 1", "@3 unknown 1234567890123456"]:
        console.say(text)
    wanted = [(order, False, "withdrawn", None, None), ("withdraw 1", False, "withdrawn 1", None, None),
              ("withdraw 1234567890123456", False, "unknown 1234567890123456", None, None)]
    with subtests.test("no answer has a code"):
        assert at_last(lambda: fates(screen), wanted) == wanted


# What follows an order that no name is.
NO_NAMES = [
    b" #", b" # ", b"#", b"# MARIA", b" #MARIA", b"#MARIA", b" ## MARIA", b" # MARIA # PAUL", b" # MARIA#", b" # #",
    b" # " + b"x" * 33, b' # "MARIA"', b" # MARI\\A", b" # MARI\xc3\x84", b" # MARIA\n", b" # MARIA\0", b" # MARI\tA",
    b" MARIA", b" name MARIA"]
# Names, the shortest and the longest and those with every byte that one may have among them.
NAMES = ["MARIA", "x", "x" * 32, "Maria Rossi (day)", "!$%&'()*+,-./0123456789:;<=>?@", "[]^_`{|}~ abcz", " M "]


def givers(screen):
    """Returns of each order its line, and who has given it."""
    return [(it["line"], it["by"]) for it in screen.orders()]


def test_names(folder, tree, console, start_screen, subtests):
    """A remark before an order tells the console who gives it, and all are told. An order without a name is as ever."""
    screen = start_screen(tree, screens.store_of(folder, "screen"), more=("--endless", "--orders", console.place))
    console.meet()
    with subtests.test("the console is there"):
        assert screen.has_console()
    order = "order ANN take DCS"
    for name in NO_NAMES:
        with subtests.test("%r, no" % name):
            assert [screen.give(order.encode() + name), screen.give(b"withdraw 1" + name)] == [NO_ORDER] * 2
    for line in ["# MARIA", " # MARIA", "withdraw # MARIA", "order ANN # MARIA", "order EVE take DCS # MARIA"]:
        with subtests.test("%r, no" % line):
            assert screen.give(line) == NO_ORDER
    for number, name in enumerate(NAMES, 1):
        with subtests.test("%r" % name):
            assert screen.give("%s # %s" % (order, name)) == GIVEN
            assert [console.hear(), console.hear()] == ["# @%d name %s" % (number, name), "@%d %s" % (number, order)]
    number = len(NAMES) + 1
    with subtests.test("nobody: the order alone"):
        assert [screen.give(order), console.hear()] == [GIVEN, "@%d %s" % (number, order)]
    with subtests.test("a line that withdraws has a name too"):
        assert [screen.give("withdraw 1 # PAUL"), console.hear(), console.hear()] == [
            GIVEN, "# @%d name PAUL" % (number + 1), "@%d withdraw 1" % (number + 1)]
    with subtests.test("each is told with its own"):
        wanted = [(order, it) for it in [*NAMES, None]] + [("withdraw 1", "PAUL")]
        assert at_last(lambda: givers(screen), wanted) == wanted
    console.say("@1 told ANN take DCS 0")
    ended = (order, False, "told ANN take DCS 0", 0, "done")
    with subtests.test("it is answered as any"):
        assert at_last(lambda: fates(screen)[0], ended) == ended
    # 100 bytes are the most: here the order has 65 with the blanks after it
    longest = order + " " * 47
    with subtests.test("the longest"):
        assert screen.give("%s # %s" % (longest, "x" * 32)) == GIVEN
        assert [console.hear(), console.hear()] == ["# @%d name %s" % (number + 2, "x" * 32),
                                                    "@%d %s" % (number + 2, longest)]
    with subtests.test("one byte more, no"):
        assert screen.give("%s  # %s" % (longest, "x" * 32))[0] == 413
    with subtests.test("nothing else was sent"):
        assert console.hears_nothing()


NOTED = (200, b"acknowledged")
NO_ALARM = (400, b"this is no alarm of the tree and an operator of it")
# Lines that acknowledge nothing of the worked tree, or not by an operator of it.
NO_ALARMS = [
    b"", b"acknowledge", b"acknowledge ", b"acknowledge device HV", b"acknowledge device HV EVE", b"acknowledge HV ANN",
    b"acknowledge device TPC ANN", b"acknowledge domain HV ANN", b"acknowledge station TPC ANN",
    b"acknowledge device HV ANN BOB", b"acknowledge device HV ANN\n", b"acknowledge device ANN HV",
    b"device HV ANN", b"order ANN take DCS", b"acknowledge device \"HV\" ANN", b"\xff\xfe"]


def test_acknowledge(folder, tree, console, start_screen, subtests):
    """An alarm that is acknowledged is told to everybody, with who and when, and nothing is sent to the console."""
    screen = start_screen(tree, os.path.join(folder, "screen"), more=("--endless", "--orders", console.place))
    assert screen.is_up()
    console.meet()
    assert screen.has_console()

    def give(line, **how):
        return screen.give(line, target="/api/alarms", **how)

    def told():
        return [it["alarm"] for it in screen.told_orders()["acknowledged"]]

    def tells(*wanted):
        return at_last(told, list(wanted)) == list(wanted)

    with subtests.test("at first none is"):
        assert told() == []
    for name, how in [("no key", {"key": None}), ("a wrong key", {"key": "Bearer " + "0" * 32}),
                      ("a foreign Origin", {"origin": "http://evil.example"})]:
        with subtests.test("%s, no" % name):
            assert give("acknowledge device HV ANN", **how) == STRANGER
    for line in NO_ALARMS:
        with subtests.test("%s, no" % line):
            assert give(line) == NO_ALARM
    with subtests.test("at the place of orders, no"):
        assert screen.give("acknowledge device HV ANN") == NO_ORDER
    with subtests.test("by GET, no"):
        assert screen.give("", method="GET", target="/api/alarms")[0] == 404
    with subtests.test("none of them is told"):
        assert told() == []
    before = screen.picture()["now"]
    given = [give("acknowledge " + it) for it in ("device HV ANN", "domain TPC BOB", "station B ANN", "device HV BOB")]
    with subtests.test("what is in alarm"):
        assert given == [NOTED] * 4
    with subtests.test("is told, the oldest first"):
        assert tells("device HV ANN", "domain TPC BOB", "station B ANN", "device HV BOB")
    with subtests.test("with its time by the picture's clock"):
        times = [it["at"] for it in screen.told_orders()["acknowledged"]]
        assert times == sorted(times) and before <= times[0] and times[-1] <= screen.picture()["now"] + 1000
    give("acknowledge device HV ANN")
    with subtests.test("once more is the newest"):
        assert tells("domain TPC BOB", "station B ANN", "device HV BOB", "device HV ANN")
    with subtests.test("nothing was sent to the console"):
        assert console.hears_nothing()
    console.leave()
    with subtests.test("without a console too"):
        assert is_so(lambda: not screen.told_orders()["console"]) and give("acknowledge station A ANN") == NOTED
    with subtests.test("what was acknowledged stays"):
        assert tells("domain TPC BOB", "station B ANN", "device HV BOB", "device HV ANN", "station A ANN")


# What a file of a token may have, and what it may not.
TOKENS = [("0123456789abcdef", True), ("a-B_9" * 20 + "\n", True), ("0123456789abcdef\r\n", True), ("x" * 128, True),
          ("0123456789abcde", False), ("x" * 129, False), ("0123456789abcdef ghi", False), ("", False),
          ("0123456789abcdef\n\n", False), ("0123456789abcdef\nx", False), ("0123456789abc\"ef", False)]


@pytest.mark.parametrize("text, is_good", TOKENS)
def test_tokens(folder, tree, console, start_screen, text, is_good):
    """A screen with a token in a file: its page does not have it, and takes orders from nobody else."""
    path = running.write(os.path.join(folder, "token"), text)
    screen = start_screen(tree, os.path.join(folder, "screen"),
                          more=("--endless", "--orders", console.place, "--token", path))
    if not is_good:
        assert (screen.child.wait(DEADLINE), screen.child.stderr.read()) == (1, "token fault\n")
        return
    assert screen.is_up()
    console.meet()
    assert screen.has_console()
    page, token = screen.get("/")[1], text.strip()
    assert (screen.key(), token.encode() in page) == ("", False)
    given = [screen.give("order ANN take DCS", key=key) for key in ("Bearer ", "Bearer", "Bearer x", None, token,
                                                                  "Bearer " + token + "x", "Bearer " + token[:-1])]
    assert given == [STRANGER] * len(given)
    assert screen.give("order ANN take DCS", key="Bearer " + token) == GIVEN


def test_no_token(folder, tree, console, start_screen):
    """A file that is not there is told as one that can't be read."""
    screen = start_screen(tree, os.path.join(folder, "screen"),
                          more=("--endless", "--orders", console.place, "--token", os.path.join(folder, "none")))
    assert (screen.child.wait(DEADLINE), screen.child.stderr.read()) == (3, "read fault\n")


def test_shut(folder, tree, start_node, start_screen, subtests):
    """Without a console none of this is there."""
    node = start_node(tree, "A", screens.store_of(folder, "A"), "--endless")
    screen = start_screen(tree, screens.store_of(folder, "screen"))
    with subtests.test("it is up"):
        assert screen.is_up()
    own = "http://" + screen.host
    with subtests.test("the page has no key"):
        assert b"Bearer" not in screen.get("/")[1]
    with subtests.test("no orders are told"):
        assert screen.get("/api/orders") == (404, b"there is no such page")
    for key in (None, "", "Bearer "):
        told = screen.give("order ANN take DCS", key=key, origin=own)
        with subtests.test("none is given with the key %r" % key):
            assert told == SHOWN
    with subtests.test("nor done"):
        assert node.ask("order ANN ask DCS").startswith("told ANN ask DCS free")


def typed_in(folder):
    """Returns what is typed by the journals of a folder, without the numbers of the connections."""
    found = []
    for name in sorted(os.listdir(folder)):
        with open(os.path.join(folder, name), encoding="ascii") as file:
            found += [line.split(" ", 5)[5].rstrip("\n") for line in file if line.split(" ")[3:4] == ["typed"]]
    return found


def test_names_at_a_real_console(folder, tree, start_node, start_screen, subtests):
    """A real console says nothing to a name, answers the order, and its node's journal has both."""
    where, night = os.path.join(folder, "console"), os.path.join(folder, "night")
    start_node(tree, "A", screens.store_of(folder, "A"), "--endless", "--console", where, "--journal", night)
    screen = start_screen(tree, screens.store_of(folder, "screen"), more=("--endless", "--orders", where))
    with subtests.test("the console is there"):
        assert screen.is_up() and screen.has_console()
    for order, code in [("ANN take DCS # MARIA", 0), ("ANN take DCS # PAUL", 23), ("ANN drop DCS", 0)]:
        with subtests.test("%s ends with %d" % (order, code)):
            assert screen.order(order) == code
    with subtests.test("who gave them is told"):
        assert givers(screen) == [
            ("order ANN take DCS", "MARIA"), ("order ANN take DCS", "PAUL"), ("order ANN drop DCS", None)]
    wanted = ["# @1 name MARIA", "@1 order ANN take DCS", "# @2 name PAUL", "@2 order ANN take DCS",
              "@3 order ANN drop DCS"]
    with subtests.test("and is in the journal"):
        assert at_last(lambda: typed_in(night), wanted) == wanted


def test_a_real_console(folder, tree, start_node, start_screen, subtests):
    """Orders by a real node's console, at a path: answered, refused, and as the picture shows."""
    where = os.path.join(folder, "console")

    def node(name, *more):
        return start_node(tree, name, screens.store_of(folder, name), "--endless", *more)

    crews = {"A": node("A", "--console", where), "B": node("B")}
    screen = start_screen(tree, screens.store_of(folder, "screen"), more=("--endless", "--orders", where))
    with subtests.test("the console is there"):
        assert screen.is_up() and screen.has_console()
    for order, code in [("ANN take DCS", 0), ("ANN take DCS", 23), ("ANN include DCS TPC", 0),
                        ("ANN drop TPC", 21)]:
        with subtests.test("%s ends with %d" % (order, code)):
            assert screen.order(order) == code
    with subtests.test("the picture has it"):
        assert screen.comes(screens.holders_of, {"DCS": "ANN", "TPC": "DCS"}) == {"DCS": "ANN", "TPC": "DCS"}
    for order, mode in [("ignore DCS TPC", "ignored"), ("manual DCS TPC", "manual"), ("include DCS TPC", "included")]:
        with subtests.test("the mode is told: " + mode):
            assert screen.order("ANN " + order) == 0
            assert at_last(lambda: modes_of(screen), ["TPC " + mode]) == ["TPC " + mode]
    screen.give("order BOB take TPC")
    fault = "fault 5: BOB is no operator of this station"
    with subtests.test("an operator of another"):
        odd = ("order BOB take TPC", False, fault, None, None)
        assert at_last(lambda: fates(screen)[-1], odd) == odd
    crews["A"].kill()
    with subtests.test("it goes"):
        assert is_so(lambda: not screen.told_orders()["console"])
    crews["A"] = node("A", "--console", where)
    with subtests.test("it comes back"):
        assert screen.has_console() and screen.order("ANN do DCS CONFIGURE") == 0
