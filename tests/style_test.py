"""Style files of a screen: what is refused of them, what the page is told, and what it shows then.

The lines and their faults are those of docs/FORMATS.md, "The style of a screen".
"""

import json
import os
import re

import pytest

import browsers
import nodes
import page as served
import page_server
import running
import screens
from running import at_last

KINDS = ["ok", "busy", "off", "alarm", "unknown"]
# Lines that are refused, with their faults; the tree has the states OFF, READY, RUNNING and ERROR.
FAULTY = [("colour READY ok", 1), ("State READY ok", 1), ("#state READY ok\nREADY ok", 1), ("\xff", 1),
          ("state READY", 2), ("state", 2),
          ("state READY ok #112233 #112233", 2), ("state READY fine", 3), ("state READY OK", 3), ("state READY ok red", 3),
          ("state READY ok #11223", 3), ("state READY ok #1122334", 3), ("state READY ok #11223G", 3),
          ("state READY ok #AABBCC", 3), ("state READY ok 112233", 3), ("state GONE ok", 5), ("state ready ok", 5),
          ("state READY\"]}; ok", 5), ("state READY ok\nstate ERROR alarm\nstate READY busy", 4)]


@pytest.fixture
def screen_of(folder, program):
    """Returns the words of a screen of the worked tree, whose style file has this text, and its address."""
    ports = nodes.free_ports(3)
    tree = nodes.write_tree(folder, None, screens.with_screen(nodes.tree_lines(ports[:2]), ports[2]))

    def words(text):
        path = running.write(os.path.join(folder, "style"), text.encode("latin-1"))
        return [program, "screen", tree, screens.STATION, screens.store_of(folder, "screen"), "--style", path,
                "--http", "127.0.0.1:%d" % screens.tcp_port()]
    return words


@pytest.mark.parametrize("text, code", FAULTY)
def test_faults(screen_of, text, code):
    """The first faulty line is told, and no screen runs."""
    line = text.count("\n") + 1
    told = running.run([*screen_of(text), "--turns", "1"])
    assert told == (b"", b"style line %d fault %d\n" % (line, code), 1)


def test_no_file(screen_of):
    words = screen_of("")
    words[words.index("--style") + 1] += " that is not there"
    assert running.run([*words, "--turns", "1"]) == (b"", b"read fault\n", 3)


def test_too_long(screen_of):
    line = "# " + "x" * 98 + "\n"
    whole = line * (262_144 // len(line))
    assert running.run([*screen_of(whole), "--turns", "1"]) == (b"", b"", 0)
    assert running.run([*screen_of(whole + line), "--turns", "1"]) == (b"", b"style line 0 fault 11\n", 1)


@pytest.mark.parametrize("text, wanted", [
    ("", {}), ("# nothing\n\n   \n", {}), ("state READY ok", {"READY": ["ok", ""]}),
    ("".join("state %s %s #0a1b2%d\r\n" % (name, kind, place)
             for place, (name, kind) in enumerate(zip(["OFF", "READY", "RUNNING", "ERROR"], KINDS))),
     {"OFF": ["ok", "#0a1b20"], "READY": ["busy", "#0a1b21"], "RUNNING": ["off", "#0a1b22"],
      "ERROR": ["alarm", "#0a1b23"]}),
    ("  state \t ERROR  unknown  \n", {"ERROR": ["unknown", ""]})])
def test_page(folder, screen_of, start_screen, text, wanted):
    """The page is the one that every screen has, and after it comes what the file says."""
    words = screen_of(text)
    screen = start_screen(words[2], words[4], more=("--endless", "--style", words[6]))
    assert screen.is_up()
    body = screen.get("/")[1].decode()
    page = served.text_of("page")
    assert body.startswith(page)
    found = re.fullmatch(r"<script>setStyle\((.*)\);</script>\n", body[len(page):])
    assert json.loads(found[1]) == wanted


STYLE = {"TRIPPED": ["alarm", ""], "DATATAKING": ["ok", "#123456"], "ERROR": ["off", ""],
         "UNKNOWN": ["alarm", "#654321"], "LOST": ["unknown", ""]}


@pytest.mark.skipif(not browsers.program(), reason="there is no browser (Debian's chromium)")
def test_shown(subtests):
    """What a page shows of states that its style knows, and of others."""
    tree = page_server.tree_of(page_server.DETECTOR)
    tree["states"] += ["TRIPPED", "DATATAKING", "LOST", "FAULTY"]
    made = page_server.MadeUp(tree, None)
    made.style = "<script>setStyle(%s);</script>\n" % json.dumps(STYLE)
    names = [it["name"] for it in tree["devices"]][:6]
    states = ["TRIPPED", "DATATAKING", "ERROR", "UNKNOWN", "LOST", "FAULTY"]
    made.show(dict.fromkeys([it["name"] for it in tree["domains"] + tree["devices"]], "READY"))
    made.show(dict(zip(names, states)))
    made.tell({it["name"]: it["parent"] for it in tree["domains"]})
    server, browser = page_server.PageServer(made), browsers.Browser(browsers.program())
    try:
        browser.open(server.url)
        assert browser.waits_for("domains.size && !!picture") is not None
        listed = ('JSON.stringify([...document.querySelectorAll("#alarms [data-alarm] b")]'
                  '.map((b) => b.textContent).sort())')
        alarms = [names[0], names[3], names[5]]
        with subtests.test("alarms"):
            told = at_last(lambda: json.loads(browser.run(listed)), sorted(alarms))
            assert [any(name in text for text in told) for name in alarms] + [len(told)] == [True] * 3 + [3]
        for name, wanted in zip(names, ["#bb1c1c", "#123456", "#5a5f6d", "#654321", "#ddccdf", "#bb1c1c"]):
            with subtests.test("colour of " + name):
                assert browser.run("devices.get(%r).dot.style.getPropertyValue('--c')" % name) == wanted
        for name, wanted in zip(names, ["!", "", "", "!", "?", "!"]):
            with subtests.test("sign of " + name):
                assert browser.run("devices.get(%r).dot.textContent" % name) == wanted
    finally:
        browser.end()
        server.end()
