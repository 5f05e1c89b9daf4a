"""What is installed and packed: the files, the page, the unit, completion, and the package for Debian.

`make install` is run with bin/smi into a folder of its own, and the package is installed into one and removed from it,
so nothing of the machine is touched. man, dpkg, lintian, zsh, nft and systemd look at it if the machine has them.
"""

import os
import re
import shutil
import subprocess
import sys

import pytest

import deb
import documents
import firewall
import hierarchy
import kit
import lines
import running
from running import ROOT, text_of

# What is installed, from the folder of the installation, without the documents.
INSTALLED = """bin/smi
bin/smi-demo
lib/systemd/system/smi-node@.service
lib/systemd/system/smi-screen.service
lib/systemd/system/smi-watch@.service
lib/systemd/system/smi-watch@.timer
lib/sysusers.d/smi.conf
share/bash-completion/completions/smi
share/man/man1/smi.1
share/zsh/site-functions/_smi
share/doc/lunskaf/README.md
share/doc/lunskaf/SECURITY.md
share/doc/lunskaf/CHANGELOG.md
share/doc/lunskaf/LICENSE
share/smi/tools/rows.py
share/smi/tools/status.py
share/smi/tools/health.py
share/smi/tools/tango_bridge.py
share/smi/tools/console.py
share/smi/tools/demo.py
share/smi/examples/shift.plan
share/smi/tools/lunskaf.py
share/smi/examples/supply.py
share/smi/tools/devices.py
share/smi/tools/mqtt_bridge.py
share/smi/tools/gateway.py
share/smi/tools/modbus_bridge.py
share/smi/examples/channel.py
share/smi/examples/crate_device.py
share/smi/examples/smi-device@.service
share/smi/tools/hierarchy.py
share/smi/tools/tree.py
share/smi/tools/tree_check.py
share/smi/tools/tree_diff.py
share/smi/examples/experiment.source
share/smi/examples/experiment.tree
share/smi/examples/detector.tree
share/smi/examples/detector-local.tree""".splitlines()


def ran(words, **how):
    """Returns what a command prints, standard error included, and its status."""
    done = subprocess.run(words, stdout=subprocess.PIPE, stderr=subprocess.STDOUT, check=False, **how)
    return done.stdout.decode(), done.returncode


def need(program):
    """Skips a check, or the rest of a test, if this machine lacks a program."""
    if not shutil.which(program):
        pytest.skip("there is no " + program)


def without_markup(page):
    """Returns the text of a manual page as its source has it, without fonts and escapes."""
    page = re.sub(r"\\f[BIR]", "", page)
    page = re.sub(r"^\.(?:BR|BI|B|I|RI) ?(.*)$", r"\1", page, flags=re.M)
    return page.replace("\\-", "-").replace('"', "")


def test_page(subtests):
    """The manual page: no warning, and what README.md and docs/NUMBERS.md have, with the version of CHANGELOG.md."""
    path = os.path.join(ROOT, "package", "smi.1")
    page = without_markup(text_of("package/smi.1"))
    words = ["man", "--warnings", "-E", "UTF-8", "-l", path]
    with subtests.test("the page has no warning"):
        need("man")
        assert running.run(words)[1:] == (b"", 0)
    rows = documents.tables(documents.section(text_of("README.md"), "The commands"))
    # a bar in a cell of a table follows a backslash, and cuts the cell in two
    told = re.findall(r"`bin/(smi [^`]+)`", "\n".join(" | ".join(row) for row in rows).replace("\\ | ", "| "))
    for form in told:
        with subtests.test("the page has the form %s" % form):
            assert form in page
    with subtests.test("the page has all forms"):
        assert len(told) == 8
    numbers = text_of("docs/NUMBERS.md")
    orders = [row[0] for row in documents.tables(documents.section(numbers, "How an order ends"))]
    listed = re.findall(r"^(\d+)  +\S", page, flags=re.M)
    # 32 is never told to an operator
    with subtests.test("the page has the ends of orders"):
        assert listed == [it for it in orders if it != "32"]
    for row in documents.tables(documents.section(numbers, "Lines on standard error")):
        with subtests.test("the page has %s" % row[0]):
            assert row[0].strip("`") in page
    logic = re.search(r"proved with the logic `(.*?)`", text_of("README.md"))[1]
    with subtests.test("README.md has the logic of this toolchain"):
        assert logic == kit.logic()
    wanted = "Version %s, proved with the toolchain's logic %s." % (deb.version(), logic)
    with subtests.test("the page has the version and the logic"):
        assert wanted in page
    with subtests.test("PROOF.md has the logic"):
        assert "the logic `%s`" % logic in text_of("docs/PROOF.md")
    with subtests.test("the page is of that version"):
        assert 'Lunskaf %s' % deb.version() in page.splitlines()[1]
    log = documents.section(text_of("CHANGELOG.md"), deb.version())
    with subtests.test("CHANGELOG.md has the version and the logic"):
        assert "Proved with the toolchain's logic `%s`." % logic in log
    with subtests.test("README.md has the version"):
        assert "Version %s, proved with" % deb.version() in text_of("README.md")


def installed(folder):
    """Installs into a folder of its own, as if it were /usr."""
    words = ["make", "--no-print-directory", "-s", "-o", "bin/smi", "install", "PREFIX=/usr", "DESTDIR=" + folder]
    return ran(words, cwd=ROOT)


def test_install(folder, subtests):
    with subtests.test("make install"):
        assert installed(folder) == ("", 0)
    top = os.path.join(folder, "usr")
    found = [os.path.relpath(path, "usr") for path in deb.files_of(folder)]
    for path in INSTALLED + ["share/doc/lunskaf/" + it for it in documents.documents() if it.startswith("docs/")]:
        with subtests.test("there is %s" % path):
            assert path in found
    for document in documents.documents():
        folder_of = os.path.dirname(os.path.join("share/doc/lunskaf", document))
        for picture in re.findall(r"!\[[^\]]*\]\(([^)]+)\)", text_of(document)):
            with subtests.test("the picture %s of %s is there" % (picture, document)):
                assert os.path.normpath(os.path.join(folder_of, picture)) in found
    modes = {path: os.stat(os.path.join(top, path)).st_mode & 0o777 for path in found}
    with subtests.test("the program and its demo alone may be run"):
        programs = ("bin/smi", "bin/smi-demo")
        assert all(mode == (0o755 if path in programs else 0o644) for path, mode in modes.items())
    demo = running.read(os.path.join(top, "bin/smi-demo")).decode()
    with subtests.test("the demo runs what is installed"):
        assert demo.splitlines()[-1] == 'exec python3 /usr/share/smi/tools/demo.py /usr/bin/smi "$@"'
    told = ran([sys.executable, "demo.py", "--help"], cwd=os.path.join(top, "share/smi/tools"))
    with subtests.test("the demo finds what it needs"):
        assert [told[0].startswith("usage: demo.py"), told[1]] == [True, 0]
    unit = running.read(os.path.join(top, "lib/systemd/system/smi-node@.service")).decode()
    with subtests.test("the unit runs what is installed"):
        assert "=/usr/bin/smi node " in unit and "/usr/local" not in unit
    page = running.read(os.path.join(top, "share/man/man1/smi.1")).decode()
    with subtests.test("the page names what is installed"):
        assert "/usr/share/smi/examples" in page and "/usr/share/doc/lunskaf" in page
        assert "@SHARE@" not in page and "@DOC@" not in page
    told = ran([sys.executable, "rows.py"], cwd=os.path.join(top, "share/smi/tools"))
    with subtests.test("a tool runs where it is installed"):
        assert [told[0].startswith("usage: rows.py"), told[1]] == [True, 1]
    check_console(unit, subtests)
    with subtests.test("systemd takes the unit"):
        need("systemd-analyze")
        # the program need not be on this machine
        path = running.write(os.path.join(folder, "smi-node@TRACKER.service"), unit.replace("/usr/bin/smi", "/bin/true"))
        assert ran(["systemd-analyze", "verify", "--man=no", path]) == ("", 0)


def check_console(unit, subtests):
    """The unit's console: in a folder of its own, for its user and group alone."""
    run = re.search(r"^ExecStart=(.*)$", unit, flags=re.M)[1].split()
    with subtests.test("the unit has a console"):
        assert run[run.index("--console") + 1] == "/run/smi-%i/console"
    with subtests.test("the unit's folder is there and goes"):
        assert "RuntimeDirectory=smi-%i" in unit.splitlines()
    mask = int(re.search(r"^UMask=(.*)$", unit, flags=re.M)[1], 8)
    with subtests.test("its group may give orders, and nobody else"):
        assert 0o777 & ~mask == 0o770


COMPLETE = r"""
compopt() { :; }
complete() { :; }
. "$1"
shift
COMP_WORDS=("$@") COMP_CWORD=$(($# - 1))
_smi
printf '%s\n' "${COMPREPLY[@]}" | sort
"""
COMPLETED = [
    (["smi", ""], ["answer", "audit", "check", "node", "rows", "screen", "sim"]), (["smi", "s"], ["screen", "sim"]),
    (["smi", "x"], []),
    (["smi", "node", "three.tree", ""], ["A", "B", "C"]),
    (["smi", "node", "--turns", "5", "three.tree", "B"], ["B"]),
    (["smi", "node", "nowhere", ""], []),
    (["smi", "node", "-"], ["--accept-older", "--console", "--endless", "--journal", "--journal-sync", "--open",
                            "--service", "--sources", "--turns"]),
    (["smi", "node", "--journal", "night", "three.tree", "B"], ["B"]),
    (["smi", "screen", "-"], ["--accept-older", "--endless", "--history", "--history-days", "--host", "--http",
                              "--open", "--orders", "--origin", "--service", "--sources", "--style", "--token",
                              "--turns"]),
    (["smi", "check", "--"], ["--lint"]), (["smi", "audit", "-"], ["--trace"]),
    (["smi", "audit", "three.tree", "worked.t"], ["worked.tree"]),
    (["smi", "screen", "--http", "127.0.0.1:80", "three.tree", "B"], ["B"]),
    (["smi", "sim", "--s"], ["--seed", "--settle", "--steps"]),
    (["smi", "sim", "--seed", ""], []), (["smi", "rows", "-"], []),
    (["smi", "check", "thr"], ["three.tree"]), (["smi", "check", "three.tree", "t"], []),
    (["smi", "node", "three.tree", "A", "wor"], ["worked.schedule", "worked.tree"]),
]


def test_completion(subtests):
    script = os.path.join(ROOT, "package", "smi.bash")
    for words, wanted in COMPLETED:
        told = ran(["bash", "-c", COMPLETE, "bash", script, *words], cwd=os.path.join(ROOT, "examples"))
        with subtests.test("bash completes %s" % " ".join(words)):
            assert (told[0].split(), told[1]) == (wanted, 0)
    with subtests.test("zsh reads its completion"):
        need("zsh")
        assert ran(["zsh", "-n", os.path.join(ROOT, "package", "_smi")]) == ("", 0)


def dpkg(root, *words):
    """Runs dpkg over a folder as the root, whose scripts run outside it and are told so."""
    how = ["dpkg", "--root=" + root, "--force-script-chrootless", "--force-not-root", "--force-depends",
           "--log=/dev/null"]
    return ran(([] if os.geteuid() == 0 else ["fakeroot"]) + how + list(words))


def a_root(folder):
    """Makes a folder one that dpkg takes for a root, and returns it."""
    for path in ("var/lib/dpkg/info", "var/lib/dpkg/updates", "var/lib/dpkg/triggers", "etc"):
        os.makedirs(os.path.join(folder, path))
    running.write(os.path.join(folder, "var/lib/dpkg/status"), "")
    return folder


def found_in(root):
    """Returns the files of a root without those of dpkg."""
    return [path for path in deb.files_of(root) if not path.startswith("var/lib/dpkg/")]


def test_package(folder, subtests):
    need("dpkg-deb")
    made = deb.made(os.path.join(folder, "made"))
    with subtests.test("the package has its version"):
        assert os.path.basename(made) == "lunskaf_%s_amd64.deb" % deb.version()
    first = running.read(made)
    deb.made(os.path.join(folder, "made"))
    with subtests.test("the package is made alike again"):
        assert running.read(made) == first
    need("dpkg")
    root = a_root(os.path.join(folder, "root"))
    told, status = dpkg(root, "-i", made)
    with subtests.test("the package is installed"):
        assert status == 0, told
    found = found_in(root)
    page = "usr/share/man/man1/smi.1.gz"
    with subtests.test("the package has the program, its page and its unit"):
        assert {"usr/bin/smi", page, "usr/lib/systemd/system/smi-node@.service", "usr/lib/sysusers.d/smi.conf",
            "usr/share/zsh/vendor-completions/_smi", "usr/share/doc/lunskaf/copyright"} <= set(found)
    with subtests.test("the package has the place of the tree file"):
        assert os.path.isdir(os.path.join(root, "etc", "smi"))
    answer = ran([os.path.join(root, "usr/bin/smi"), "check", os.path.join(ROOT, "examples", "three.tree")])
    with subtests.test("the packed program runs"):
        assert answer == ("tree 17 stations 3 operators 3 domains 3 devices 2\n", 0)
    users = running.read(os.path.join(root, "etc", "passwd")).decode()
    with subtests.test("the user is made"):
        assert re.search(r"^smi:.*:/var/lib/smi:\S*nologin$", users, flags=re.M)
    os.makedirs(os.path.join(root, "var/lib/smi"))
    running.write(os.path.join(root, "var/lib/smi/TRACKER.store"), "grants")
    with subtests.test("the package is removed"):
        assert dpkg(root, "-P", "lunskaf")[1] == 0
    left = [path for path in found_in(root) if not path.startswith("etc/")]
    with subtests.test("stores alone are left"):
        assert left == ["var/lib/smi/TRACKER.store"]
    with subtests.test("lintian has no error"):
        need("lintian")
        told = ran(["lintian", "--fail-on", "error", "--allow-root", made])
        assert told[1] == 0 and not re.search(r"^E:", told[0], flags=re.M)


def test_tool(subtests):
    tree = hierarchy.read(os.path.join(ROOT, "examples", "detector.tree"))
    table = firewall.table_of(tree, "MUON")
    inside = re.search(r"elements = \{ (.*) \}", table)[1].split(", ")
    with subtests.test("the firewall lets all stations in"):
        assert inside == ["10.20.0.%d . 9000" % last for last in range(11, 17)]
    with subtests.test("the firewall is about the station alone"):
        assert re.findall(r"daddr (\S+) udp dport (\d+)", table) == [("10.20.0.14", "9000")] * 3
    with subtests.test("the firewall lets nobody else in"):
        assert table.splitlines()[-3].endswith("dport 9000 drop")
    with subtests.test("nft takes the table"):
        need("nft")
        if os.geteuid() != 0:
            pytest.skip("nft wants to be run as root")
        told = ran(["nft", "-c", "-f", "-"], input=table.encode())
        assert told[1] == 0 or "Operation not permitted" in told[0]
    reports = lines.lines(tree, "report", "PIXEL", "OFF")
    with subtests.test("lines for all devices below a domain"):
        assert [len(reports), reports[6]] == [6 + 12 + 8, "report PIXEL_HV1 OFF"]
    with subtests.test("lines for all devices of a station"):
        assert len(lines.lines(tree, "report", "TRIGGER", "OFF")) == 12
    with subtests.test("lines for a state that is none"):
        assert lines.lines(tree, "report", "PIXEL", "PURPLE") == []
    with subtests.test("lines for an operator that is none"):
        assert lines.lines(tree, "include", "TRACKER", "TRK") == []
    with subtests.test("lines that include"):
        assert lines.lines(tree, "include", "TRG_EXPERT", "TRG") == [
            "order TRG_EXPERT " + it for it in ("take TRG", "include TRG LEVEL_ONE", "include TRG CLOCK", "drop TRG")]
    with subtests.test("lines that exclude"):
        assert lines.lines(tree, "exclude", "SAFETY", "INFRA") == ["order SAFETY " + it
            for it in ("exclude INFRA COOLING", "exclude INFRA GAS", "exclude INFRA MAGNET", "exclude INFRA RACKS",
            "drop INFRA")]
