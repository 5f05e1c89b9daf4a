"""The shift of examples/shift.schedule, beside the table of tests/shift.py.

A tree without the rule for a trip has to be caught by the same table. Besides, each class of devices is taken through
every state and action.
"""

import os

import pytest

import hierarchy
import running
from shift import PLACES, TOPS, TREE, last, runs_of, sim, states_of, traces


@pytest.fixture(scope="module")
def found(program):
    """Returns the name of each place of the schedule, with the trace up to it."""
    return list(traces(program, TREE))


def test_places(found):
    assert [name for name, _ in found] == [place.name for place in PLACES]


@pytest.mark.parametrize("at", range(len(PLACES)), ids=lambda at: PLACES[at].name)
def test_place(found, at, subtests):
    """What holds at a place of the schedule, and what has come since the one before it."""
    place, trace, before = PLACES[at], found[at][1], found[at - 1][1] if at else []
    shown, new = last(trace, ["showed", "CONTROL"], 2), trace[len(before):]
    with subtests.test("it goes on"):
        assert [trace[:len(before)], len(trace) > len(before)] == [before, True]
    with subtests.test("states"):
        assert states_of(hierarchy.read(TREE), trace) == place.states
    with subtests.test("what the control room sees"):
        assert {top: shown.get(top) for top in TOPS} == {top: place.shown.get(top, place.states[top]) for top in TOPS}
    with subtests.test("grants"):
        assert [line for line in new if line.startswith(("granted", "freed"))] == place.grants
    with subtests.test("what the crew is told"):
        assert [line[5:] for line in new if line.startswith("told")] == place.told
    with subtests.test("what ran"):
        assert runs_of(new) == place.runs


def test_a_tree_that_does_not_see_a_trip(program, folder):
    """A tree in which a tripped voltage is no fault shows something else at the trip: the table catches it."""
    text = running.read(TREE).decode()
    blind = text.replace("any GROUP OFF ERROR\n", "")
    places = {place.name: place for place in PLACES}
    path = running.write(os.path.join(folder, "blind.tree"), blind)
    held = {name: states_of(hierarchy.read(path), trace) == places[name].states
            for name, trace in traces(program, path, ("a run", "a trip"))}
    assert [blind != text, held] == [True, {"a run": True, "a trip": False}]


ACTIONS = ("GO_STANDBY", "CONFIGURE", "START", "STOP", "RECOVER", "SWITCH_OFF")
# Of each class a device, its domain, an operator of its station, and the states that such a device may be in.
SAMPLES = {
    "LOW_VOLTAGE": ("PIXEL_LV1", "PIXEL_LV", "TRK_EXPERT", ("UNKNOWN", "OFF", "RAMPING", "READY", "ERROR")),
    "HIGH_VOLTAGE": ("PIXEL_HV1", "PIXEL_HV", "TRK_EXPERT",
                     ("UNKNOWN", "OFF", "STANDBY", "RAMPING", "READY", "ERROR")),
    "READOUT": ("CLOCK_1", "CLOCK", "TRG_EXPERT", ("UNKNOWN", "OFF", "STANDBY", "READY", "RUNNING", "ERROR")),
    "SENSOR": ("GAS_1", "GAS", "SAFETY", ("UNKNOWN", "READY", "ERROR")),
}
SUPPLIES = ("LOW_VOLTAGE", "HIGH_VOLTAGE")
# In which states GO_STANDBY leaves what is on or off: a supply that is there already does not ramp.
GATHERED = {"LOW_VOLTAGE": {"READY", "RAMPING"}, "HIGH_VOLTAGE": {"STANDBY", "RAMPING"}, "READOUT": {"STANDBY"}}


def moved(program, folder, device, domain, operator, states):
    """Returns where each action brings a device from each state. An answer of 1 counts as staying."""
    lines, found = ["order %s take %s" % (operator, domain), "deliver 1", "deliver 2"], {}
    tried = [(state, action) for state in states for action in ACTIONS]
    for place, (state, action) in enumerate(tried):
        run = 3 + 2 * place
        lines += ["report %s %s" % (device, state), "order %s do %s %s" % (operator, domain, action),
                  "deliver %d" % run, "deliver %d" % (run + 1)]
    trace = sim(program, TREE, running.write(os.path.join(folder, "schedule"), "\n".join(lines) + "\n"))
    ended = [place for place, line in enumerate(trace) if line.startswith("told %s do " % operator)]
    for it, place in zip(tried, ended):
        found[it] = last(trace[:place], ["passed", device], 1).get(device)
    return found


@pytest.mark.parametrize("name", SAMPLES)
def test_moves(program, folder, name, subtests):
    """What has to hold of every class: what switches off, what recovers, and what nothing moves."""
    device, domain, operator, states = SAMPLES[name]
    to = moved(program, folder, device, domain, operator, states)
    with subtests.test("every action is tried"):
        assert sorted(to) == sorted((s, a) for s in states for a in ACTIONS)
    with subtests.test("a device goes where its class may be"):
        assert set(to.values()) <= set(states)
    with subtests.test("nothing moves what is unknown"):
        assert all(to.get(("UNKNOWN", it)) == "UNKNOWN" for it in ACTIONS)
    with subtests.test("RECOVER alone ends a fault"):
        assert all((to.get(("ERROR", it)) == "ERROR") == (it != "RECOVER") for it in ACTIONS)
    with subtests.test("RECOVER moves nothing else"):
        assert all(to.get((it, "RECOVER")) == it for it in states if it != "ERROR")
    if name in SUPPLIES:
        with subtests.test("an action leaves a supply as it is, or sets it RAMPING"):
            assert all(after in (before, "RAMPING") for (before, _), after in to.items())
        with subtests.test("no action ends a ramp"):
            assert all(to.get(("RAMPING", it)) == "RAMPING" for it in ACTIONS)
    if name == "SENSOR":
        return
    on = [it for it in states if it not in ("UNKNOWN", "OFF", "ERROR")]
    with subtests.test("SWITCH_OFF switches off, or has a supply ramp down"):
        assert all(to.get((it, "SWITCH_OFF")) == ("RAMPING" if name in SUPPLIES else "OFF") for it in on)
    # However far each is, those that are on come together, so that a group is in one state again. A supply has to ramp
    # if it is not there yet.
    begun = {to.get((it, "GO_STANDBY")) for it in [*on, "OFF"] if it != "RUNNING"}
    with subtests.test("GO_STANDBY brings them together"):
        assert begun == GATHERED[name]
    again = {to.get((to.get(("ERROR", "RECOVER")), "GO_STANDBY")), to.get(("OFF", "GO_STANDBY"))}
    with subtests.test("and what has recovered with them"):
        assert len(again) == 1
    runs = [it for it in states if to.get((it, "START")) == "RUNNING"]
    with subtests.test("a run begins from READY"):
        assert runs == (["READY", "RUNNING"] if name == "READOUT" else [])
    with subtests.test("STOP ends a run and nothing else"):
        assert all(to.get((it, "STOP")) == ("READY" if it == "RUNNING" else it) for it in states)
