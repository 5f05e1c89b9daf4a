"""How the detector is, as tools/status.py tells it by a screen."""

import os
import sys

import nodes
import running
import screens
from running import at_last

TOOL = os.path.join(running.ROOT, "tools", "status.py")


def told(*words):
    """Returns the lines that the tool prints, and its status."""
    out, _, status = running.run([sys.executable, TOOL, *words])
    return out.decode().splitlines(), status


def cells(lines):
    """Returns the table's rows by domain, each as its words."""
    return {line.split()[0]: line.split() for line in lines[2:]}


def test_standing(folder, start_node, start_screen, subtests):
    """Three nodes and a screen: a trip, and a station that dies."""
    with subtests.test("no screen"):
        assert told("127.0.0.1:1")[1] == 3
    *ports, port = nodes.free_ports(4)
    tree = nodes.write_tree(folder, None, screens.with_screen(nodes.tree_lines(ports), port))
    begun = {name: start_node(tree, name, os.path.join(folder, name), "--endless") for name in "ABC"}
    screen = start_screen(tree, os.path.join(folder, "screen"))

    def status():
        return told(screen.host)[1]

    with subtests.test("a screen is up"):
        assert screen.is_up()
    with subtests.test("all is well"):
        assert at_last(status, 0) == 0
    orders = ["take DCS", "include DCS TPC", "do DCS CONFIGURE"]
    with subtests.test("orders"):
        assert [begun["A"].ask("order ANN " + it) for it in orders] == ["told ANN %s 0" % it for it in orders]
    wanted = {"DCS": ["ANN", "done", "A"], "TPC": ["ANN", "done", "B"], "MUON": ["free", "-", "C"]}
    with subtests.test("who commands what"):
        assert at_last(lambda: {name: row[2:5] for name, row in cells(told(screen.host)[0]).items()}, wanted) == wanted
    lines, came = told(screen.host)
    with subtests.test("the summary"):
        assert (lines[0], came) == ("OK: 3 domains, 1 devices", 0)
    with subtests.test("a child stands below its parent"):
        assert lines[3].startswith("  TPC ") and lines[2].startswith("DCS ")
    with subtests.test("the summary alone"):
        assert told(screen.host, "--brief") == (lines[:1], 0)
    with subtests.test("another alarm"):
        assert at_last(lambda: told(screen.host, "--alarm", "^READY$")[1], 2) == 2
    check_faults(folder, begun, screen, status, subtests)


def check_faults(folder, begun, screen, status, subtests):
    """A trip is critical, and a station that is silent a warning."""
    with subtests.test("a report"):
        assert begun["B"].ask("report HV ERROR") == "told report HV ERROR 0"
    with subtests.test("a trip is critical"):
        assert at_last(status, 2) == 2
    style = running.write(os.path.join(folder, "style"), "state ERROR busy\n")
    with subtests.test("a style that says ERROR is none"):
        assert told(screen.host, "--style", style)[1] == 0
    running.write(style, "# all\nstate READY alarm #102030\nstate ERROR alarm\n")
    with subtests.test("a style that says READY is one"):
        assert told(screen.host, "--alarm", "NONE", "--style", style)[1] == 2
    with subtests.test("no such style"):
        assert told(screen.host, "--style", style + " is not there")[1] == 3
    lines, _ = told(screen.host)
    with subtests.test("it is told"):
        assert [lines[0].startswith("CRITICAL: in alarm: "), lines[-1]] == [True, "HV of TPC is ERROR"]
    with subtests.test("another report"):
        assert begun["B"].ask("report HV READY") == "told report HV READY 0"
    with subtests.test("all is well again"):
        assert at_last(status, 0) == 0
    begun["C"].kill()
    with subtests.test("a silent station is a warning"):
        assert at_last(status, 1) == 1
    lines, _ = told(screen.host)
    with subtests.test("it is named"):
        assert [lines[0], [line.endswith(" silent") for line in lines[4:5]]] == [
            "WARNING: silent: C; 3 domains, 1 devices", [True]]
    with subtests.test("patience"):
        assert told(screen.host, "--silent", "1000")[1] == 0
