"""A page elsewhere in a real browser: it can't read a screen, nor order through it, nor through a console over TCP.

The page is served by the test at another port of this machine, so the browser takes it for another origin. It tries all
that a page may try. What it sends to a console is first sent to a listener of the test, which shows that it is sent.
"""

import http.server
import json
import socket
import threading
import time

import pytest

import browsers
import hostile
from consoles import Console
from hostile import ASK, FREE
from running import is_so

pytestmark = [
    pytest.mark.alone,
    pytest.mark.skipif(not browsers.program(), reason="there is no browser (Debian's chromium)")]

PAGE = b"<!doctype html><title>elsewhere</title><body><iframe name=inner></iframe></body>"
ORDER, KEY = "order ANN take DCS", "Bearer " + "0" * 32
# How long a page waits for what may never come, in milliseconds, and a test for what a browser may still send, in s.
LATE, STILL = 3_000, 2
# What a script gives that has read nothing.
REFUSED = "refused"

# What a page tries at a screen, at SCREEN; each gives what it has read, or what it was told.
READS = {
    "a fetch of the picture": "await (await fetch('http://SCREEN/api/picture')).text()",
    "a fetch of the page": "await (await fetch('http://SCREEN/')).text()",
    "a fetch with what the browser knows": "await (await fetch('http://SCREEN/', {credentials: 'include'})).text()",
    "a blind fetch": "(await fetch('http://SCREEN/api/tree', {mode: 'no-cors'})).type",
    "a request": "await came((yes, no) => { const r = new XMLHttpRequest(); r.onload = () => yes(r.responseText);"
                 " r.onerror = no; r.open('GET', 'http://SCREEN/api/orders'); r.send(); })",
    "a script": "await element('script', 'http://SCREEN/api/picture')",
    "an image": "await element('img', 'http://SCREEN/')",
    "a video": "await element('video', 'http://SCREEN/')",
    "a socket": "await came((yes, no) => { const s = new WebSocket('ws://SCREEN/'); s.onopen = yes; s.onerror = no; })",
    "events": "await came((yes, no) => { const s = new EventSource('http://SCREEN/api/picture');"
              " s.onopen = yes; s.onerror = () => { s.close(); no(); }; })"}
# What it sends there to order. None may be obeyed, whatever the browser tells the page of it.
ORDERS = {
    "a blind order": "(await fetch('http://SCREEN/api/orders', {method: 'POST', mode: 'no-cors', body: ORDER})).type",
    "an order with a key": "(await fetch('http://SCREEN/api/orders', {method: 'POST', headers: {Authorization: KEY},"
                           " body: ORDER})).status",
    "an acknowledged alarm": "(await fetch('http://SCREEN/api/alarms', {method: 'POST', mode: 'no-cors',"
                             " body: 'acknowledge device HV ANN'})).type",
    "a beacon": "navigator.sendBeacon('http://SCREEN/api/orders', ORDER)",
    "a form": "form('http://SCREEN/api/orders', ORDER, 'inner')"}
# What it sends to a console, at CONSOLE.
LINES = {
    "a blind fetch": "(await fetch('http://CONSOLE/', {method: 'POST', mode: 'no-cors', body: '\\n' + ORDER + '\\n',"
                     " signal: AbortSignal.timeout(LATE)})).type",
    "a fetch by a method of its own": "(await fetch('http://CONSOLE/', {method: 'help', body: '\\n' + ORDER + '\\n',"
                                      " signal: AbortSignal.timeout(LATE)})).type",
    "a beacon": "navigator.sendBeacon('http://CONSOLE/', '\\n' + ORDER + '\\n')",
    "a socket": "await came((yes, no) => { const s = new WebSocket('ws://CONSOLE/'); s.onopen = yes;"
                " s.onerror = no; })",
    "a form": "form('http://CONSOLE/', '\\n' + ORDER + '\\n', 'inner')"}
# Of these a browser sends a question first, which has no body.
ASKS_FIRST = ("a fetch by a method of its own", "a socket")
# The page itself goes there, which no browser asks anybody about.
VISITS = "a visit"
VISIT = "form('http://CONSOLE/', '\\n' + ORDER + '\\n', '_self')"
TOOLS = """
const ORDER = %s, KEY = %s, LATE = %d;
const came = (call) => new Promise((yes, no) => {
  call(yes, () => no(new Error())); setTimeout(() => no(new Error()), LATE); });
const element = (name, at) => came((yes, no) => { const it = document.createElement(name); it.src = at;
  it.onload = it.onloadeddata = () => yes("loaded"); it.onerror = no; document.body.append(it); });
const form = (at, text, target) => {
  const it = document.createElement("form"), box = document.createElement("textarea");
  it.method = "post"; it.enctype = "text/plain"; it.action = at; it.target = target; box.name = "a"; box.value = text;
  it.append(box); document.body.append(it); it.submit(); return "sent"; };
""" % (json.dumps(ORDER), json.dumps(KEY), LATE)


class Handler(http.server.BaseHTTPRequestHandler):
    """Answers with the page."""

    def do_GET(self):
        self.send_response(200)
        self.send_header("Content-Type", "text/html")
        self.send_header("Content-Length", str(len(PAGE)))
        self.end_headers()
        self.wfile.write(PAGE)

    def log_message(self, *_):
        """Prints nothing."""


@pytest.fixture
def elsewhere():
    """Returns the port of a server that has the page."""
    server = http.server.ThreadingHTTPServer(("127.0.0.1", 0), Handler)
    thread = threading.Thread(target=server.serve_forever, daemon=True)
    thread.start()
    yield server.server_address[1]
    server.shutdown()
    thread.join()
    server.server_close()


@pytest.fixture
def site(program, folder):
    """Returns a screen with orders beside two nodes, of which one has a console over TCP. Nobody orders anything."""
    made = hostile.Site(program, folder, has_orders=True)
    try:
        yield made
        assert (made.crew.ask(ASK), made.screen.orders()) == (FREE, [])
        for name, holds, came in made.after():
            assert holds, (name, came)
    finally:
        made.end()


@pytest.fixture
def browse():
    """Returns a function that starts a browser with more words and opens a page. It ends with its test."""
    begun = []

    def start(url, *more):
        begun.append(browsers.Browser(browsers.program(), more=more))
        begun[-1].open(url)
        return begun[-1]

    yield start
    for browser in begun:
        browser.end()


def tried(browser, script, screen="", console=""):
    """Has the page try something, and returns what it gives, or that it was refused."""
    script = script.replace("SCREEN", screen).replace("CONSOLE", console)
    return browser.run("(async () => { %s try { return String(%s); } catch (e) { return %r; } })()"
                       % (TOOLS, script, REFUSED))


def window_of(browser, url):
    """Returns what a page sees of a window that it opens: whether it is closed, and how many frames it has."""
    script = """(async () => { const it = window.open("%s");
      await new Promise((yes) => setTimeout(yes, 1500)); return `${it.closed} ${it.length}`; })()""" % url
    return browser.call("Runtime.evaluate", expression=script, returnByValue=True, awaitPromise=True,
                        userGesture=True)["result"]["value"]


def test_reads(site, elsewhere, browse, subtests):
    """A page elsewhere reads nothing of a screen, and can't show it in a frame."""
    browser = browse("http://127.0.0.1:%d/" % elsewhere)
    own = "await (await fetch('/')).text()"
    with subtests.test("it reads what is its own"):
        assert tried(browser, own) == PAGE.decode()
    for name, script in READS.items():
        with subtests.test("not by " + name):
            assert tried(browser, script, site.screen.host) == REFUSED
    with subtests.test("it has the window of another page at hand"):
        assert window_of(browser, "http://localhost:%d/" % elsewhere) == "false 1"
    with subtests.test("but not one of the screen"):
        assert window_of(browser, "http://%s/" % site.screen.host) == "true 0"
    browser.errors.clear()
    tried(browser, "(frames.inner.location = 'http://SCREEN/')", site.screen.host)
    with subtests.test("and shows it in no frame"):
        assert is_so(lambda: browser.run("1") and any("X-Frame-Options" in it or "frame-ancestors" in it
                                                      for it in browser.errors), 10), browser.errors


def test_orders(site, elsewhere, browse, subtests):
    """A page elsewhere orders nothing through a screen."""
    browser = browse("http://127.0.0.1:%d/" % elsewhere)
    for name, script in ORDERS.items():
        came = tried(browser, script, site.screen.host)
        time.sleep(0.3)
        with subtests.test("not by %s, of which it is told %s" % (name, came)):
            assert (came.isdigit(), site.screen.orders(), site.crew.ask(ASK)) == (False, [], FREE)
    with subtests.test("and nothing was acknowledged"):
        assert site.screen.told_orders()["acknowledged"] == []


def test_rebound(site, browse, subtests):
    """A page whose own host is given the screen's address reads and orders nothing either."""
    rebound = "evil.test:%d" % site.screen.port
    browser = browse("http://%s/" % rebound, "--host-resolver-rules=MAP evil.test 127.0.0.1")
    with subtests.test("it is told that this is another host"):
        assert browser.run("[location.hostname, document.body.textContent].join()") == "evil.test,this is another host"
    for name, script in [("picture", "await (await fetch('/api/picture')).text()"),
                         ("order", "await (await fetch('/api/orders', {method: 'POST', body: ORDER})).text()")]:
        with subtests.test("and so is what it asks: " + name):
            assert tried(browser, script) == "this is another host"


class Listener:
    """A listener of the test, which notes what comes at a port of this machine and answers nothing."""

    def __init__(self):
        self.door, self.came = socket.create_server(("127.0.0.1", 0)), b""
        self.where = "127.0.0.1:%d" % self.door.getsockname()[1]
        threading.Thread(target=self.take, daemon=True).start()

    def take(self):
        """Reads each connection for a moment, and ends it."""
        try:
            while True:
                one = self.door.accept()[0]
                one.settimeout(0.5)
                try:
                    while got := one.recv(65536):
                        self.came += got
                except OSError:
                    pass
                one.close()
        except OSError:
            pass

    def has(self):
        return ("\n%s\n" % ORDER).encode() in self.came.replace(b"\r", b"")


def sent(listener, name):
    """Returns true once the listener has what the page sends so; some of it has no order, because it asks first."""
    return is_so(lambda: listener.came if name in ASKS_FIRST else listener.has(), 10)


# A browser that takes the page for one of the internet sends nothing of these to this machine, or asks first.
@pytest.mark.parametrize("is_public", [False, True], ids=["here", "on the internet"])
def test_console(site, elsewhere, browse, subtests, is_public):
    """A page elsewhere orders nothing at a console over TCP, whatever it sends there, nor by going there itself."""
    url = "http://127.0.0.1:%d/" % elsewhere
    more = ["--ip-address-space-overrides=127.0.0.1:%d=public" % elsewhere] if is_public else []
    listener, browser = Listener(), browse(url, *more)
    for name, script in [*LINES.items(), (VISITS, VISIT)]:
        listener.came = b""
        tried(browser, script, console=listener.where)
        with subtests.test("the test sees what %s sends" % name):
            assert is_public and name != VISITS or sent(listener, name), listener.came
        if name == VISITS:
            browser.open(url)
        came = tried(browser, script, console=site.tcp)
        time.sleep(STILL if name == VISITS else 0.5)
        with subtests.test("not by %s, of which it is told %s" % (name, came)):
            assert (site.crew.ask(ASK), site.crew.ask("under way")) == (FREE, "under way 0")
    listener.door.close()
    with subtests.test("and the console is there"):
        console = Console(site.tcp)
        assert console.ask(ASK) == FREE
        console.close()
