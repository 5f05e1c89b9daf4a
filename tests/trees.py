"""Tree files and what `smi check` says of them, written down from docs/FORMATS.md, "The tree file"."""

import re

import doubts

WORKED = """tree 17
state OFF
state READY
state RUNNING
state ERROR
action CONFIGURE
action START
action STOP
station A 127.0.0.1:9001
station B 127.0.0.1:9002
operator ANN A
operator BOB B
devclass DEV OFF
move DEV OFF CONFIGURE READY
move DEV READY START RUNNING
unitclass UNIT OFF
accept UNIT CONFIGURE
accept UNIT START
any UNIT ERROR ERROR
all UNIT RUNNING RUNNING
all UNIT READY READY
all UNIT OFF OFF
domain DCS A UNIT -
domain TPC B UNIT DCS
device HV TPC DEV
"""

HEAD = ["tree 17", "state S1", "action A1", "station W 1.2.3.4:5", "operator O1 W", "devclass DEV S1",
        "unitclass UNIT S1"]
ROOT = "domain D1 W UNIT -"

# How doubts end, and what is told of the worked file's device, which is moved from the state in which it begins.
BY_WHICH = ", by which no device moves below a domain of its class"
SO_CODE_1 = ", which its parent accepts, so each such order from above ends with code 1"
IF_ALL = " keeps its old state if all its members are in "
IN_TWO = " keeps its old state if its members are in two or more of "
AND_NO_RULE = ", and no rule or move leads to it"
OBEYS = "device HV is moved by %s though nobody has reported it"


def numbered(form, first, last):
    """Returns one line for each number."""
    return [form % n for n in range(first, last + 1)]


def accepted(name, lines, counts):
    text = lines if isinstance(lines, str) else "\n".join(lines) + "\n"
    words = "tree %d stations %d operators %d domains %d devices %d\n" % counts
    return name, text.encode("latin-1"), words, doubts.told(text), 0


def refused(name, lines, line, fault):
    text = lines if isinstance(lines, str) else "\n".join(lines) + "\n"
    return name, text.encode("latin-1"), "", "tree line %d fault %d\n" % (line, fault), 1


def with_line(number, text):
    """Returns the worked file with another line at that place."""
    lines = WORKED.splitlines()
    lines[number - 1] = text
    return lines


def after_head(*lines):
    return HEAD + [ROOT] + list(lines)


def worked():
    yield accepted("the worked file", WORKED, (17, 2, 2, 2, 1))
    yield refused("without its first line", WORKED.split("\n", 1)[1], 1, 7)
    yield refused("a device of an unknown domain", with_line(25, "device HV TPX DEV"), 25, 5)
    yield accepted("carriage returns", WORKED.replace("\n", "\r\n"), (17, 2, 2, 2, 1))
    yield accepted("no last line feed", WORKED[:-1], (17, 2, 2, 2, 1))
    yield accepted("blank lines and comments", WORKED.replace("state OFF", "# states\n\n \t \nstate\tOFF  "),
                   (17, 2, 2, 2, 1))
    zeros = WORKED.replace("tree 17", "tree 0000000017").replace("127.0.0.1:9001", "127.00.000.01:0009001")
    yield accepted("zeros before numbers", zeros, (17, 2, 2, 2, 1))
    shared = WORKED.replace("device HV", "device OFF").replace("domain DCS A UNIT -", "domain A A UNIT -")
    yield accepted("a device and a domain with the names of a state and a station",
                   shared.replace("UNIT DCS", "UNIT A"), (17, 2, 2, 2, 1))


def faults():
    for fault, line in [(1, "stat X"), (2, "state"), (2, "state X Y"), (3, "state x"), (3, "state 1X"),
                        (3, "state X-Y"),
                        (3, "state ABCDEFGHIJKLMNOPQ"), (7, "tree 17"), (7, "tree"), (10, "state " + 195 * "X"),
                        (10, "# " + 199 * "x"), (10, 201 * " "), (3, "state X\x0b"), (1, "\x0b"), (3, "state X\r\r"),
                        (3, "state \xc4")]:
        yield refused("a second line: %r" % line[:20], with_line(2, line), 2, fault)
    for fault, line in [(7, "tree 0"), (7, "state OFF")]:
        yield refused("a first line: %s" % line, with_line(1, line), 1, 3 if line == "tree 0" else fault)
    for text, fault in [("tree 65536", 3), ("tree -1", 3), ("tree +1", 3), ("tree 00000000017", 3), ("tree", 2),
                        ("tree 1 2", 2)]:
        yield refused("a first line: %s" % text, with_line(1, text), 1, fault)
    for address in ["1.2.3.4", "1.2.3:4", "256.1.1.1:1", "1.1.1.1:0", "1.1.1.1:65536", "1.1.1.1.1:1", "a.1.1.1:1",
                    "1.1.1.1:1:1", "-"]:
        yield refused("an address: %s" % address, with_line(9, "station A %s" % address), 9, 8)
    yield refused("a state twice", with_line(3, "state OFF"), 3, 4)
    yield refused("an operator of an unknown station", with_line(11, "operator ANN C"), 11, 5)
    yield refused("an operator twice", with_line(12, "operator ANN B"), 12, 4)
    yield refused("a class with an unknown state", with_line(13, "devclass DEV ON"), 13, 5)
    yield refused("a unit class with the name of a device class", with_line(16, "unitclass DEV OFF"), 16, 4)
    yield refused("a move twice", with_line(15, "move DEV OFF CONFIGURE RUNNING"), 15, 4)
    yield refused("a move of a unit class", WORKED.replace("accept UNIT START", "move UNIT OFF START OFF").splitlines(),
                  18, 9)
    yield refused("an action of a device class", with_line(17, "accept DEV CONFIGURE"), 17, 9)
    yield refused("an action twice", with_line(18, "accept UNIT CONFIGURE"), 18, 4)
    yield refused("a rule of a device class", with_line(19, "any DEV ERROR ERROR"), 19, 9)
    yield refused("a domain of a device class", with_line(23, "domain DCS A DEV -"), 23, 9)
    yield refused("a device of a unit class", with_line(25, "device HV TPC UNIT"), 25, 9)
    yield refused("a parent further down", with_line(23, "domain DCS A UNIT TPC"), 23, 5)
    yield refused("a device with the name of an operator", with_line(25, "device ANN TPC DEV"), 25, 4)
    yield refused("a domain with the name of an operator", with_line(24, "domain BOB B UNIT DCS"), 24, 4)
    yield refused("a device in an operator", with_line(25, "device HV ANN DEV"), 25, 5)
    yield refused("a small letter before an address", with_line(9, "station a x"), 9, 3)
    yield refused("an address before an unknown name", with_line(9, "station A x"), 9, 8)
    yield refused("nothing", "", 0, 12)
    yield refused("a tree line alone", "tree 1\n", 0, 12)
    yield refused("no domain", HEAD, 0, 12)
    yield refused("no station", ["tree 1", "state S", "action A"], 0, 12)
    yield refused("a carriage return that ends the file", WORKED[:-1] + "\r", 25, 3)


def limits():
    root = 8
    yield accepted("64 states", after_head(*numbered("state S%d", 2, 64)), (17, 1, 1, 1, 0))
    yield refused("65 states", ["tree 1"] + numbered("state S%d", 1, 65), 66, 6)
    yield accepted("64 actions", after_head(*numbered("action A%d", 2, 64)), (17, 1, 1, 1, 0))
    yield refused("65 actions", after_head(*numbered("action A%d", 2, 65)), root + 64, 6)
    yield accepted("128 stations", after_head(*numbered("station W%d 1.1.1.1:1", 2, 128)), (17, 128, 1, 1, 0))
    yield refused("129 stations", after_head(*numbered("station W%d 1.1.1.1:1", 2, 129)), root + 128, 6)
    yield accepted("8 operators of a station", after_head(*numbered("operator O%d W", 2, 8)), (17, 1, 8, 1, 0))
    yield refused("9 operators of a station", after_head(*numbered("operator O%d W", 2, 9)), root + 8, 6)
    stations = numbered("station W%d 1.1.1.1:1", 1, 4)
    yield accepted("32 operators", after_head(*stations, *["operator P%d W%d" % (n, n % 4 + 1) for n in range(31)]),
                   (17, 5, 32, 1, 0))
    yield refused("33 operators", after_head(*stations, *["operator P%d W%d" % (n, n % 4 + 1) for n in range(32)]),
                  root + 4 + 32, 6)
    yield accepted("32 classes", after_head(*numbered("devclass C%d S1", 3, 32)), (17, 1, 1, 1, 0))
    yield refused("33 classes", after_head(*numbered("unitclass C%d S1", 3, 33)), root + 31, 6)
    yield accepted("32 rules", after_head(*["any UNIT S1 S1"] * 32), (17, 1, 1, 1, 0))
    yield refused("33 rules", after_head(*["all UNIT S1 S1"] * 33), root + 33, 6)
    yield accepted("16 children", after_head(*numbered("domain D%d W UNIT D1", 2, 17)), (17, 1, 1, 17, 0))
    yield refused("17 children", after_head(*numbered("domain D%d W UNIT D1", 2, 18)), root + 17, 6)
    yield accepted("16 devices of a domain", after_head(*numbered("device V%d D1 DEV", 1, 16)), (17, 1, 1, 1, 16))
    yield refused("17 devices of a domain", after_head(*numbered("device V%d D1 DEV", 1, 17)), root + 17, 6)
    yield accepted("8 deep", after_head(*["domain D%d W UNIT D%d" % (n, n - 1) for n in range(2, 9)]), (17, 1, 1, 8, 0))
    yield refused("9 deep", after_head(*["domain D%d W UNIT D%d" % (n, n - 1) for n in range(2, 10)]), root + 8, 6)
    yield accepted("128 domains", after_head(*numbered("domain D%d W UNIT -", 2, 128)), (17, 1, 1, 128, 0))
    yield refused("129 domains", after_head(*numbered("domain D%d W UNIT -", 2, 129)), root + 128, 6)
    domains = numbered("domain D%d W UNIT -", 2, 33)
    yield accepted("512 devices", after_head(*domains, *["device V%d D%d DEV" % (n, n % 33 + 1) for n in range(512)]),
                   (17, 1, 1, 33, 512))
    yield refused("513 devices", after_head(*domains, *["device V%d D%d DEV" % (n, n % 33 + 1) for n in range(513)]),
                  root + 32 + 513, 6)
    yield accepted("every limit at once", full(), (17, 128, 32, 128, 512))
    room = 262_144 - len(WORKED)
    filler = "#" + 98 * "x" + "\n"
    exact = WORKED + (room // 100) * filler + (room % 100) * " "
    yield accepted("262,144 bytes", exact, (17, 2, 2, 2, 1))
    yield refused("262,145 bytes", exact + " ", 0, 11)
    yield accepted("a name of sixteen", WORKED.replace("HV", "ABCDEFGHIJKLMNO_"), (17, 2, 2, 2, 1))
    yield accepted("a comment of 200 bytes", WORKED + "#" + 199 * "x" + "\r\n", (17, 2, 2, 2, 1))
    yield refused("a comment of 201 bytes", WORKED + "#" + 200 * "x" + "\r\n", 26, 10)


def doubtful():
    """Yields lawful files of which something is surely not meant, with what is told of them."""
    same = WORKED.replace("127.0.0.1:9002", "127.0.0.1:9001")
    idle = WORKED.replace("accept UNIT START", "accept UNIT START\naccept UNIT STOP")
    unreached = WORKED.replace("state ERROR", "state ERROR\nstate PURPLE")
    above = "unitclass TOP OFF\naccept TOP STOP\naccept TOP CONFIGURE\ndomain DCS A TOP -"
    apart = "unitclass TOP OFF\naccept TOP START\ndomain MUON B TOP DCS\ndevice HV"
    no_device = WORKED.replace("unitclass UNIT", "devclass OTHER PURPLE\nmove OTHER OFF STOP PURPLE\nunitclass UNIT")
    ruled = "".join("any TOP %s OFF\n" % it for it in ("OFF", "READY", "RUNNING", "ERROR"))
    below = WORKED.replace("domain DCS A UNIT -",
                           "unitclass TOP OFF\naccept TOP START\naccept TOP STOP\n" + ruled + "domain DCS A TOP -")
    moved = below.replace("unitclass UNIT", "move DEV ERROR STOP OFF\nunitclass UNIT")
    paused = WORKED.replace("state ERROR", "state ERROR\nstate PAUSED").replace(
        "unitclass", "move DEV PAUSED START RUNNING\nunitclass")
    reported = paused.replace("state PAUSED", "state PAUSED\nstate UNKNOWN").replace("DEV OFF\n", "DEV UNKNOWN\n")
    two = WORKED + "device GAS TPC DEV\n"
    for name, text, told in [
            ("nothing", WORKED, []),
            ("an action that a domain below does not accept", moved,
             ["domain TPC does not accept STOP" + SO_CODE_1]),
            ("such an action, and a domain below accepts another", below.replace("accept TOP STOP\n", ""), []),
            ("such an action, a second time", moved + "domain MUON B UNIT DCS\n",
             ["domain TPC does not accept STOP" + SO_CODE_1]),
            ("such an action, in a class of its own", moved + "unitclass SUB OFF\ndomain MUON B SUB TPC\n",
             ["domain TPC does not accept STOP" + SO_CODE_1, "domain MUON does not accept CONFIGURE" + SO_CODE_1,
              "domain MUON does not accept START" + SO_CODE_1, "domain TPC" + IN_TWO + "OFF READY RUNNING"]),
            ("two members", two, ["domain DCS" + IN_TWO + "OFF READY RUNNING"]),
            ("two members of two domains", WORKED + "device GAS DCS DEV\n",
             ["domain DCS" + IN_TWO + "OFF READY RUNNING"]),
            ("two members, and a rule for each state but one",
             two.replace("all UNIT OFF OFF", "any UNIT OFF OFF\nany UNIT READY READY"), []),
            ("a state for which there is no rule", paused + "any UNIT OFF PAUSED\n",
             ["domain DCS" + IF_ALL + "PAUSED"]),
            ("the same, where nothing moves at first",
             reported.replace("any UNIT ERROR ERROR", "any UNIT UNKNOWN ERROR"),
             ["domain DCS" + IF_ALL + "ERROR", "domain DCS" + IF_ALL + "PAUSED",
              "nothing begins in state PAUSED" + AND_NO_RULE]),
            ("a station with the address of another", same, ["station B has the address of station A"]),
            ("an address with zeros", same.replace("127.0.0.1:9001\nop", "127.000.00.01:09001\nop"),
             ["station B has the address of station A"]),
            ("another port", same.replace("127.0.0.1:9001\nop", "127.0.0.1:9011\nop"), []),
            ("an action that moves nothing", idle, ["domain DCS accepts STOP" + BY_WHICH]),
            ("a move to where it was", idle.replace("unitclass", "move DEV OFF STOP OFF\nunitclass"),
             ["domain DCS accepts STOP" + BY_WHICH]),
            ("an action that moves something", idle.replace("unitclass", "move DEV ERROR STOP OFF\nunitclass"), []),
            ("a class of its own above", WORKED.replace("domain DCS A UNIT -", above),
             ["domain DCS accepts STOP" + BY_WHICH, "domain TPC does not accept STOP" + SO_CODE_1,
              *("domain DCS" + IF_ALL + it for it in ("OFF", "READY", "RUNNING", "ERROR"))]),
            ("a class whose domain has no device", WORKED.replace("device HV", apart),
             ["domain MUON does not accept CONFIGURE" + SO_CODE_1, "domain MUON accepts START" + BY_WHICH,
              "domain DCS" + IN_TWO + "OFF READY RUNNING"]),
            ("a state that nothing leads to", unreached, ["nothing begins in state PURPLE" + AND_NO_RULE]),
            ("a state to which a rule leads that never wins", unreached + "any UNIT ERROR PURPLE\n",
             ["nothing begins in state PURPLE" + AND_NO_RULE]),
            ("a state to which a rule leads that wins over two", unreached + "any UNIT OFF PURPLE\n",
             ["domain DCS" + IF_ALL + "PURPLE"]),
            ("a state to which a move leads",
             unreached.replace("unitclass", "move DEV OFF STOP PURPLE\nunitclass"), ["domain DCS" + IF_ALL + "PURPLE"]),
            ("a state of a class that nothing has", no_device.replace("state ERROR", "state ERROR\nstate PURPLE"),
             ["nothing begins in state PURPLE" + AND_NO_RULE]),
            ("three doubts",
             same.replace("accept UNIT START", "accept UNIT STOP").replace("state ERROR", "state ERROR\nstate X"),
             ["station B has the address of station A", "domain DCS accepts STOP" + BY_WHICH,
              "nothing begins in state X" + AND_NO_RULE])]:
        domains, devices = text.count("\ndomain "), text.count("\ndevice ")
        words = "tree 17 stations 2 operators 2 domains %d devices %d\n" % (domains, devices)
        moving = re.findall("move DEV OFF (CONFIGURE|STOP) [PR]", text) if "devclass DEV OFF" in text else []
        told = told + [OBEYS % it for it in moving]
        yield "doubts: " + name, text.encode(), words, "".join("doubt: %s\n" % it for it in told), 0


def full():
    """Returns a tree at every limit but those of a domain alone, and domain 1 at these.

    tests/limits_test.py knows what is in it.
    """
    lines = ["tree 17"] + numbered("state S%d", 1, 64) + numbered("action A%d", 1, 64)
    lines += ["station W%d 10.0.0.%d:%d" % (n, n, 9000 + n) for n in range(1, 129)]
    lines += ["operator O%d W%d" % (n, (n + 7) // 8) for n in range(1, 33)]
    lines += ["devclass DEV S1"]
    lines += ["move DEV S%d A%d S%d" % (s, a, (s + a) % 64 + 1) for s in range(1, 65) for a in range(1, 65)]
    for unit in range(1, 32):
        lines += ["unitclass U%d S1" % unit] + ["accept U%d A%d" % (unit, n) for n in range(1, 65)]
        lines += ["%s U%d S%d S%d" % (("all", "any")[n % 2], unit, n, n + 1) for n in range(1, 33)]
    parents = {1: "-"}
    parents.update({n: "D1" for n in range(2, 18)})
    parents.update({n: "D%d" % (2 if n == 18 else n - 1) for n in range(18, 24)})
    parents.update({n: "D%d" % (3 + (n - 24) // 16) for n in range(24, 129)})
    lines += ["domain D%d W%d U%d %s" % (n, n, (n - 1) % 31 + 1, parents[n]) for n in range(1, 129)]
    lines += ["device V%d D%d DEV" % (n, 1 if n <= 16 else 2 + (n - 17) % 127) for n in range(1, 513)]
    return "\n".join(lines) + "\n"


def pairs():
    """Yields lines with two faults, of which the one that is tested first is answered."""
    begun = ["tree 1", "state S", "state T", "action A", "station P 10.0.0.1:1", "operator O P", "devclass D S",
             "move D S A T",
             "unitclass U S", "accept U A", "domain M P U -"]
    behind = len(begun) + 1
    long = 200 * " "
    for first, second, line in [
            (10, 7, "tree 2"), (10, 1, "stat"), (10, 2, "state"), (10, 3, "state x"), (10, 8, "station Q 1.2.3:4"),
            (10, 5, "operator N Q"), (10, 4, "state S"), (10, 9, "accept D A")]:
        yield refused("%d before %d" % (first, second), begun + [line + long], behind, first)
    for first, second, line in [
            (7, 2, "tree 2 3"), (7, 3, "tree x"), (2, 3, "state x y"), (2, 8, "station Q 1.2.3:4 Z"),
            (2, 5, "operator N Q Z"),
            (2, 4, "state S S"), (2, 9, "accept D A A"), (3, 8, "station q 1.2.3:4"), (3, 5, "operator N q"),
            (3, 5, "operator n Q"),
            (3, 4, "device O M d"), (3, 9, "move U S A t"), (8, 4, "station P 1.2.3:4"), (5, 4, "operator O Q"),
            (5, 4, "move D S A X"), (5, 4, "domain M Q U -"), (5, 4, "domain M P U X"), (5, 9, "move U S A X"),
            (5, 9, "any D X T"),
            (5, 9, "domain N P D X"), (5, 9, "device N X U"), (4, 9, "device O M U"), (4, 9, "domain O P D -")]:
        yield refused("%d before %d: %s" % (first, second, line), begun + [line], behind, first)
    for first, second, line in [(7, 1, "stat"), (7, 2, "state"), (7, 3, "state x"), (7, 8, "station Q 1.2.3:4"),
                                (7, 5, "operator N Q")]:
        yield refused("a first line, %d before %d" % (first, second), [line], 1, first)
    states = begun + numbered("state S%d", 3, 64)
    domains = begun + numbered("domain M%d P U -", 2, 128)
    devices = begun + numbered("device V%d M D", 1, 16)
    operators = begun + numbered("operator O%d P", 2, 8)
    rules = begun + ["any U S T"] * 32
    for full, first, line in [
            (states, 10, "state X" + long), (states, 7, "tree 2"), (states, 2, "state X Y"), (states, 3, "state x"),
            (states, 4, "state S"),
            (domains, 5, "domain N P U X"), (domains, 4, "domain M P U -"), (domains, 9, "domain N P D -"),
            (devices, 5, "device N M X"), (devices, 4, "device O M D"), (devices, 9, "device N M U"),
            (operators, 5, "operator N Q"), (operators, 4, "operator M P"), (rules, 5, "all U S X"),
            (rules, 3, "all U S x")]:
        yield refused("%d before 6: %s" % (first, line[:20]), full + [line], len(full) + 1, first)
    for full, line in [(states, "state X"), (domains, "domain N P U -"), (devices, "device N M D"),
                       (operators, "operator N P"), (rules, "all U S T")]:
        yield refused("6: %s" % line, full + [line], len(full) + 1, 6)
    stations = begun + numbered("station P%d 1.1.1.1:1", 2, 128)
    yield refused("8 before 6", stations + ["station Q 1.2.3:4"], len(stations) + 1, 8)
    yield refused("11 before 7", "stat\n" + 2622 * (99 * "x" + "\n"), 0, 11)


def all_trees():
    """Yields each tree file: its name, its bytes, standard output, standard error and status."""
    yield from worked()
    yield from faults()
    yield from limits()
    yield from pairs()
    yield from doubtful()
