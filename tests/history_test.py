"""What journals tell of a night, by tools/history.py: journals written by hand, and events that follow from
docs/FORMATS.md, "Journals"."""

import json
import os
import subprocess
import sys

import pytest

import running

HISTORY = os.path.join(running.ROOT, "tools", "history.py")
HEAD = "journal 1 17 " + 64 * "0"
# ANNA takes DCS at a connection and starts TPC below it. The device trips, and somebody gives DCS back in the morning.
TRACKER = [
    HEAD,
    "2026-11-27T22:00:01.000Z TRK 7 booted TRK 7",
    "2026-11-27T22:00:01.000Z TRK 7 stands TPC 5 DCS 3 settled 0",
    "2026-11-27T22:00:01.000Z TRK 7 link DCS TPC held 5 3 included",
    "2026-11-27T22:00:03.000Z TRK 7 typed 1003 # name ANNA",
    "2026-11-27T22:00:03.100Z TRK 7 typed 1003 @1 order ANN take  DCS",
    "2026-11-27T22:00:03.200Z TRK 7 granted DCS 7 ANN",
    "2026-11-27T22:00:03.300Z TRK 7 told ANN take DCS 0",
    "2026-11-27T22:00:05.000Z TRK 7 typed 0 order ANN do DCS START",
    "2026-11-27T22:00:05.000Z TRK 7 ran DCS 7 1 do START",
    "2026-11-27T22:00:05.500Z TRK 7 ran TPC 5 4 do START",
    "2026-11-27T22:00:06.500Z TRK 7 settled TPC 5 4 0",
    "2026-11-27T22:00:07.000Z TRK 7 settled DCS 7 1 0",
    "2026-11-27T22:00:07.000Z TRK 7 told ANN do DCS START 0",
    "2026-11-27T22:00:08.000Z TRK 7 passed HV 7.2 READY",
    "2026-11-28T03:12:00.000Z TRK 7 passed HV 7.3 TRIPPED",
]
# Another station, whose file is named first and whose last line is torn.
CALO = [
    HEAD,
    "2026-11-27T22:00:02.000Z CAL 3 booted CAL 3",
    "2026-11-28T04:00:00.000Z CAL 3 told BOB take DCS 5",
    "2026-11-28T06:00:03.200Z CAL 3 freed DCS 8",
    "2026-11-28T06:00:04.000Z CAL 3 granted DC",
]
ALL = [
    ("2026-11-27T22:00:01.000Z", "station TRK started, boot 7"),
    ("2026-11-27T22:00:02.000Z", "station CAL started, boot 3"),
    ("2026-11-27T22:00:03.200Z", "DCS held by ANN"),
    ("2026-11-27T22:00:03.300Z", "ANN: take DCS: done, typed at connection 1003 by ANNA 0.2 s before"),
    ("2026-11-27T22:00:06.500Z", "TPC ran do START, by DCS for ANN: done, after 1.0 s"),
    ("2026-11-27T22:00:07.000Z", "DCS ran do START, by ANN: done, after 2.0 s"),
    ("2026-11-27T22:00:07.000Z", "ANN: do DCS START: done, typed at the standard input 2.0 s before"),
    ("2026-11-28T03:12:00.000Z", "HV is TRIPPED"),
    ("2026-11-28T04:00:00.000Z", "BOB: take DCS: another one holds the domain"),
    ("2026-11-28T06:00:03.200Z", "DCS free: ANN held it for 8 h 00 min"),
]


@pytest.fixture
def night(folder):
    """Returns the paths of the journals of a night."""
    paths = []
    for name, lines in (("CAL", CALO), ("TRK", TRACKER)):
        torn = lines is CALO
        paths.append(running.write(os.path.join(folder, name), "\n".join(lines) + ("" if torn else "\n")))
    return paths


def history(*words):
    """Runs the tool, and returns what it prints."""
    done = subprocess.run([sys.executable, HISTORY, *words], capture_output=True, text=True, check=True)
    assert done.stderr == ""
    return done.stdout


def printed(events):
    """Returns how events are printed."""
    return "".join("%s  %s\n" % it for it in events)


def test_a_night_is_told_whole(night):
    assert history(*night) == printed(ALL)


@pytest.mark.parametrize("words, places", [
    (["--domain", "TPC"], [4]),
    (["--domain", "DCS", "--operator", "BOB"], [8]),
    (["--operator", "ANN"], [2, 3, 4, 5, 6, 9]),
    (["--object", "HV"], [7]),
    (["--from", "2026-11-28", "--to", "2026-11-28T04"], [7, 8]),
    (["--to", "2026-11-27T22:00:02"], [0, 1]),
    (["--from", "2026-11-29"], []),
])
def test_a_history_is_narrowed_down(night, words, places):
    assert history(*words, *night) == printed(ALL[it] for it in places)


def test_all_states_are_told_if_asked_for(night):
    assert "2026-11-27T22:00:08.000Z  HV is READY\n" in history("--states", *night)


def test_a_pattern_says_what_an_alarm_is(night):
    told = history("--alarm", "READY", *night)
    assert "HV is READY" in told and "TRIPPED" not in told


def test_a_command_whose_end_is_not_told_is_said_so(folder):
    path = running.write(os.path.join(folder, "TRK"), "\n".join(TRACKER[:-6]) + "\n")
    assert "DCS began do START, by ANN: its end is not told\n" in history(path)


def by_whom(folder, typed):
    """Returns who gave the orders of a night in which these lines are typed, and then each order ends."""
    orders = [it.partition("order ")[2] for it in typed if "order " in it]
    said = ["typed " + it for it in typed] + ["told %s 0" % it for it in orders]
    lines = ["2026-11-27T22:00:%02d.000Z TRK 7 %s" % it for it in enumerate(said)]
    path = running.write(os.path.join(folder, "TRK"), "\n".join([HEAD, *lines, ""]))
    told = [it["text"].partition("typed at ")[2].split() for it in json.loads(history("--json", path))]
    return [it[it.index("by") + 1] if "by" in it else "" for it in told]


@pytest.mark.parametrize("typed, names", [
    # a name is that of the session from there on, and not of what was typed before
    (["1003 order ANN take A", "1003 # name MARIA", "1003 @1 order ANN take B", "1003 order ANN take C",
      "1004 order ANN take D"], ["", "MARIA", "MARIA", ""]),
    # two names by turns
    (["1003 # name MARIA", "1003 order ANN take A", "1003 # name PAUL", "1003 order ANN take B", "1003 # name MARIA",
      "1003 order ANN take C"], ["MARIA", "PAUL", "MARIA"]),
    # a name of a tag is that of the next order with the tag in the same session, and of no other
    (["1003 # @1 name MARIA", "1003 @1 order ANN take A", "1003 @2 order ANN take B", "1003 # @3 name PAUL",
      "1003 @3 order ANN take C", "1003 @1 order ANN take D", "1003 order ANN take E"],
     ["MARIA", "", "PAUL", "", ""]),
    (["1003 # @1 name MARIA", "1004 @1 order ANN take A", "1003 @11 order ANN take B", "1003 order ANN take C",
      "1003 @1 order ANN take D"], ["", "", "", "MARIA"]),
    # it counts for more than the name of the session
    (["1003 # name ANNA", "1003 # @1 name MARIA", "1003 @1 order ANN take A", "1003 @2 order ANN take B"],
     ["MARIA", "ANNA"]),
    # the names of two orders that are under way at once
    (["1003 # @1 name MARIA", "1003 # @2 name PAUL", "1003 @2 order ANN take A", "1003 @1 order ANN take B"],
     ["PAUL", "MARIA"]),
    # no names: another remark, and a word more
    (["1003 # @1 nameMARIA", "1003 # @1 my name MARIA", "1003 # @ 1 name MARIA", "1003 @1 order ANN take A"], [""]),
])
def test_who_gave_an_order(folder, typed, names):
    assert by_whom(folder, typed) == names


def test_a_name_ends_with_the_boot_of_its_session(folder):
    lines = [HEAD, "2026-11-27T22:00:00.000Z TRK 7 typed 1003 # name MARIA",
             "2026-11-27T22:00:01.000Z TRK 7 typed 1003 # @1 name PAUL",
             "2026-11-27T22:00:02.000Z TRK 8 booted TRK 8",
             "2026-11-27T22:00:03.000Z TRK 8 typed 1003 @1 order ANN take DCS",
             "2026-11-27T22:00:04.000Z TRK 8 told ANN take DCS 0", ""]
    path = running.write(os.path.join(folder, "TRK"), "\n".join(lines))
    assert history(path).splitlines()[-1] == (
        "2026-11-27T22:00:04.000Z  ANN: take DCS: done, typed at connection 1003 1.0 s before")


def test_programs_read_the_same_events(night):
    events = json.loads(history("--json", *night))
    assert [(it["time"], it["text"]) for it in events] == ALL
    assert events[4] == {"time": "2026-11-27T22:00:06.500Z", "station": "TRK", "kind": "ran", "about": "TPC",
                         "who": "ANN", "text": "TPC ran do START, by DCS for ANN: done, after 1.0 s"}
