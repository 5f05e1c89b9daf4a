"""The shift of examples/shift.schedule over examples/detector.tree: what must hold at the places that are named in it.

The table below is worked out from the rules of the tree and of docs/PROTOCOL.md, by hand. At each place it has the
state of every unit, what the control room was shown of the sub-detectors, and of all since the place before it the
grants, the commands that ran, and what the crew was told. tests/shift_test.py compares a run with it.
"""

import os
import tempfile

import running

TREE, SCHEDULE = running.example("detector.tree"), running.example("shift.schedule")
MARK = "# place "

TOPS = ("TRK", "CAL", "MUO", "TRG", "DAQ")
PARTS = {"TRK": ("PIXEL", "STRIP"), "CAL": ("EM", "HAD"), "MUO": ("BARREL", "ENDCAP")}
GROUPS = {"TRG": ("LEVEL_ONE", "CLOCK"), "DAQ": ("BUILDER", "LOGGER", "MONITOR")}
SERVICES = ("COOLING", "GAS", "MAGNET", "RACKS")
EXPERTS = [("TRK", "TRK_EXPERT"), ("CAL", "CAL_EXPERT"), ("MUO", "MUO_EXPERT"), ("TRG", "TRG_EXPERT"),
           ("DAQ", "RUN_CONTROL")]

# Of a sub-detector in each condition: its low voltages, its high voltages, its readout, and the whole of it.
CONDITIONS = {
    "UNKNOWN": ("UNKNOWN", "UNKNOWN", "UNKNOWN", "UNKNOWN"),
    "OFF": ("OFF", "OFF", "OFF", "OFF"),
    # The supplies are on their way up, or down, and the readout is there.
    "RISING": ("RAMPING", "RAMPING", "STANDBY", "RAMPING"),
    "FALLING": ("RAMPING", "RAMPING", "OFF", "RAMPING"),
    "STANDBY": ("READY", "STANDBY", "STANDBY", "STANDBY"),
    "RAMPING": ("READY", "RAMPING", "READY", "RAMPING"),
    "READY": ("READY", "READY", "READY", "READY"),
    "RUNNING": ("READY", "READY", "RUNNING", "RUNNING"),
}


def below(top):
    """Returns a sub-detector's domains, itself first, each domain before those below it."""
    found = [top]
    for part in PARTS.get(top, ()):
        found += [part] + ["%s_%s" % (part, kind) for kind in ("LV", "HV", "DAQ")]
    return found + list(GROUPS.get(top, ()))


def units(whole, conditions, others=None):
    """Returns each unit's state: of the experiment, of sub-detectors by their conditions, of services, of others."""
    states = {"EXPERIMENT": whole, "INFRA": "READY", **dict.fromkeys(SERVICES, "READY")}
    for top, condition in conditions.items():
        low, high, readout, all_of_it = CONDITIONS[condition]
        states[top] = all_of_it
        for part in PARTS.get(top, ()):
            states.update({part: all_of_it, part + "_LV": low, part + "_HV": high, part + "_DAQ": readout})
        # Trigger and data acquisition have nothing to ramp.
        states.update(dict.fromkeys(GROUPS.get(top, ()), readout))
        if top in GROUPS:
            states[top] = readout
    return {**states, **(others or {})}


def alike(condition, **others):
    return {**dict.fromkeys(TOPS, condition), **others}


def includes(operator, top):
    """Returns what an expert is told who includes a sub-detector's parts and groups, one after the other."""
    return ["%s include %s %s 0" % (operator, top, name) for name in below(top)[1:]]


def prepared():
    """Returns grants and answers of the experts.

    Each takes a sub-detector, includes what is in it, and gives it back.
    """
    grants = ["granted INFRA 1 SAFETY"] + ["granted %s 1 INFRA" % name for name in SERVICES] + ["freed INFRA 2"]
    told = ["SAFETY take INFRA 0", *("SAFETY include INFRA %s 0" % name for name in SERVICES), "SAFETY drop INFRA 0"]
    for top, expert in EXPERTS:
        grants.append("granted %s 1 %s" % (top, expert))
        for name in below(top)[1:]:
            above = name.rsplit("_", 1)[0] if name.endswith(("_LV", "_HV", "_DAQ")) else top
            grants.append("granted %s 1 %s" % (name, above))
        grants.append("freed %s 2" % top)
        told += ["%s take %s 0" % (expert, top)] + includes(expert, top) + ["%s drop %s 0" % (expert, top)]
    return grants, told


def led(command, code=0):
    return "SHIFT_LEADER do EXPERIMENT %s %d" % (command, code)


def ran(action, *tops):
    """Returns where an action has run: in every domain of these sub-detectors, or of all if it is the experiment."""
    if tops == ("EXPERIMENT",):
        return {(name, action): 1 for name in ["EXPERIMENT"] + [name for top in TOPS for name in below(top)]}
    return {(name, action): 1 for top in tops for name in below(top)}


def both(first, second):
    return {**first, **second}


class Place:
    """What must hold at a place. `shown` is what the control room was shown, if it differs from what is."""

    def __init__(self, name, states, grants=(), told=(), runs=None, shown=None):
        self.name, self.states, self.grants, self.told = name, states, list(grants), list(told)
        self.runs, self.shown = runs or {}, shown or {}


GRANTS, TOLD = prepared()
# Nothing is included yet, so nobody but the groups has a member to follow.
ALONE = {name: "UNKNOWN" for name in (*TOPS, *sum(PARTS.values(), ()), "EXPERIMENT", "INFRA")}
TRIPPED = {name: "ERROR" for name in ("PIXEL_LV", "PIXEL_HV", "PIXEL", "TRK")}
PLACES = [
    Place("all is off", units("UNKNOWN", alike("OFF"), ALONE)),
    Place("the sub-detectors are ready to be taken", units("UNKNOWN", alike("OFF")), GRANTS, TOLD),
    # The experts' grants were of epoch 1, and ended at 2.
    Place("one person commands the whole detector", units("OFF", alike("OFF")),
          ["granted EXPERIMENT 1 SHIFT_LEADER"] + ["granted %s 3 EXPERIMENT" % top for top in TOPS],
          ["SHIFT_LEADER take EXPERIMENT 0"] + ["SHIFT_LEADER include EXPERIMENT %s 0" % top for top in TOPS]),
    Place("the supplies are told", units("RAMPING", alike("RISING")),
          told=[led("GO_STANDBY")], runs=ran("GO_STANDBY", "EXPERIMENT")),
    Place("standby", units("STANDBY", alike("STANDBY"))),
    # The calorimeter has heard nothing, and nobody is told that it has.
    Place("the command waits for the calorimeter", units("RAMPING", alike("RAMPING", CAL="STANDBY")),
          runs=both({("EXPERIMENT", "CONFIGURE"): 1}, ran("CONFIGURE", "TRK", "MUO", "TRG", "DAQ"))),
    Place("the ramps have begun", units("RAMPING", alike("RAMPING")),
          told=[led("CONFIGURE")], runs=ran("CONFIGURE", "CAL")),
    Place("configured", units("READY", alike("READY"))),
    # MUO has saved that it starts, and no group of it has heard of it. The control room knows nothing of the stop.
    Place("the muon machine has stopped", units("READY", alike("RUNNING", MUO="UNKNOWN")),
          runs=both({("EXPERIMENT", "START"): 1, ("MUO", "START"): 1}, ran("START", "TRK", "CAL", "TRG", "DAQ")),
          shown={"MUO": "READY"}),
    # The command was saved, so it ends; no device moves, as none was reported yet.
    Place("its command goes on", units("UNKNOWN", alike("RUNNING", MUO="UNKNOWN")), told=[led("START")],
          runs={(name, "START"): 1 for name in below("MUO")[1:]}),
    Place("the muon devices are known again", units("READY", alike("RUNNING", MUO="READY"))),
    Place("a run", units("RUNNING", alike("RUNNING")), told=[led("START")], runs=ran("START", "EXPERIMENT")),
    Place("a trip", units("ERROR", alike("RUNNING"), TRIPPED)),
    Place("the run goes on without the tracker", units("RUNNING", alike("RUNNING"), TRIPPED), ["freed TRK 4"],
          ["SHIFT_LEADER exclude EXPERIMENT TRK 0"]),
    # All high voltages ramp, and the low voltage that had tripped. The low voltages of the strips were on all the time.
    Place("the tracker has recovered", units("RUNNING", alike("RUNNING", TRK="RISING"), {"STRIP_LV": "READY"}),
          ["granted TRK 5 TRK_EXPERT"],
          ["TRK_EXPERT take TRK 0"] + ["TRK_EXPERT do TRK %s 0" % it for it in ("STOP", "RECOVER", "GO_STANDBY")],
          both(both(ran("STOP", "TRK"), ran("RECOVER", "TRK")), ran("GO_STANDBY", "TRK"))),
    Place("the tracker is in standby", units("RUNNING", alike("RUNNING", TRK="STANDBY"))),
    Place("the tracker runs alone", units("RUNNING", alike("RUNNING")),
          told=["TRK_EXPERT do TRK %s 0" % it for it in ("CONFIGURE", "START")],
          runs=both(ran("CONFIGURE", "TRK"), ran("START", "TRK"))),
    Place("it is not given away", units("RUNNING", alike("RUNNING")), told=["SHIFT_LEADER include EXPERIMENT TRK 5"]),
    # The experiment is as far as its least member.
    Place("the tracker is back", units("READY", alike("RUNNING", TRK="READY")),
          ["freed TRK 6", "granted TRK 7 EXPERIMENT"],
          ["TRK_EXPERT do TRK STOP 0", "TRK_EXPERT drop TRK 0", "SHIFT_LEADER include EXPERIMENT TRK 0"],
          ran("STOP", "TRK")),
    Place("all run", units("RUNNING", alike("RUNNING")), told=[led("START")], runs=ran("START", "EXPERIMENT")),
    Place("the run has ended", units("READY", alike("READY")), told=[led("STOP")], runs=ran("STOP", "EXPERIMENT")),
    Place("the supplies are told to go off", units("RAMPING", alike("FALLING")),
          told=[led("SWITCH_OFF")], runs=ran("SWITCH_OFF", "EXPERIMENT")),
    Place("all is off again", units("OFF", alike("OFF")), ["freed EXPERIMENT 2"], ["SHIFT_LEADER drop EXPERIMENT 0"]),
]


def sim(program, tree, schedule):
    """Returns the lines of a trace, or none if the schedule is refused."""
    out, err, status = running.run([program, "sim", tree, schedule], timeout=300)
    return out.decode().splitlines() if (status, err) == (0, b"") else []


def traces(program, tree, only=None):
    """Yields the name of each place, or of these, and the trace of the lines above it."""
    lines = running.read(SCHEDULE).decode().splitlines()
    with tempfile.TemporaryDirectory() as folder:
        path = os.path.join(folder, "schedule")
        for count, line in enumerate(lines):
            if line.startswith(MARK) and (only is None or line[len(MARK):] in only):
                running.write(path, "\n".join(lines[:count]) + "\n")
                yield line[len(MARK):], sim(program, tree, path)


def last(trace, head, at):
    """Returns the last state of each object in lines that begin so. The object's name is the word at that place."""
    found = {}
    for line in trace:
        words = line.split()
        if words[:len(head)] == head:
            found[words[at]] = words[-1]
    return found


def runs_of(lines):
    """Returns how often each action has run in each domain."""
    found = {}
    for line in lines:
        words = line.split()
        if words[0] == "ran" and words[4] == "do":
            found[(words[1], words[5])] = found.get((words[1], words[5]), 0) + 1
    return found


def states_of(tree, trace):
    """Returns the state of every unit at the end of a trace."""
    passed = last(trace, ["passed"], 1)
    return {unit: passed.get(unit) for unit in tree.domains}
