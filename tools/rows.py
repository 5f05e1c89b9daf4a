"""Says in words what the rows of a store hold (docs/FORMATS.md, "Stable rows"), and settles a link there.

usage: rows.py STORE TREE [SMI] | rows.py STORE TREE --settle HOLDER DOMAIN

It reads the listing of `smi rows STORE`, so the store may be in use: by bin/smi where no other program is named, or
where that is not there by the one that is installed. Where the mark beside the store is of a tree with another number,
it says so and ends with status 1.
Whether a row is right is for `smi node` to say: a row that is cut or of no known schema is shown as it stands.

--settle has HOLDER, a domain or an operator of the store's station, forget what it knows of DOMAIN: a forged datagram
may have told it of an epoch that DOMAIN never reaches, so that it waits for ever. The store must be in no use, and all
nodes have to be stopped, because an order that is still on its way would be one that nobody knows of. The store and
what belongs to it are copied beside it first, to NAME.before-settle. An audit finds the change, and says so.
"""

import os
import shutil
import sqlite3
import struct
import subprocess
import sys

import hierarchy

BUILT = os.path.join(os.path.dirname(os.path.abspath(__file__)), "..", "bin", "smi")
VERBS = {1: "do", 2: "include", 3: "exclude", 4: "manual", 5: "ignore"}
MODES = {0: "included", 1: "manual", 2: "ignored"}
# What schemas a row of each kind may have.
SCHEMAS = {"boot": (1, 2), "domain": (1, 2), "operator": (1, 2, 3)}
# The bytes of a domain's and an operator's row before their links.
DOMAIN_HEAD, OPERATOR_HEAD = ">BBHQIBBHHH", ">BBH"
# The forms of a link that waits for an answer, and of one that has further commands.
UNSETTLED, FURTHER = (1, 3, 4, 5), 5
# With what a command of a domain ends that waited for the link: no epoch is left.
SPENT = 9


class Cut(Exception):
    """A row that is not as long as it says, or of a schema or a form that nobody knows."""


def name_of(names, number):
    """The name of that number, or the number where there is none."""
    names = list(names)
    return names[number - 1] if 1 <= number <= len(names) else str(number)


def command(tree, verb, argument):
    names = tree.actions if verb == 1 else tree.domains
    return "%s %s" % (VERBS.get(verb, "verb %d" % verb), name_of(names, argument))


def holder(tree, kind, number):
    if kind == 0:
        return "free"
    return "held by " + name_of(tree.operators if kind == 1 else tree.domains, number)


def take(data, form):
    """The numbers at the beginning of some bytes, and the rest of them."""
    size = struct.calcsize(form)
    if len(data) < size:
        raise Cut
    return struct.unpack(form, data[:size]), data[size:]


def pending(tree, form, number, verb, argument, data):
    """The commands of a held link that were not answered yet, oldest first, and the bytes after them."""
    commands = []
    if form in (3, 5):
        commands = [command(tree, verb, argument)]
    if form == 5:
        (count,), data = take(data, ">H")
        for _ in range(count):
            (verb, argument), data = take(data, ">HH")
            commands.append(command(tree, verb, argument))
    first = number - len(commands) + 1
    return ["%d %s" % (first + place, text) for place, text in enumerate(commands)], data


def link(tree, data, has_mode):
    """A link in words, and the bytes after it."""
    (domain, form, mode, epoch, number, verb, argument), data = take(data, ">HBBQIHH")
    waiting, data = pending(tree, form, number, verb, argument, data)
    if form == 0:
        text = "out, last heard of epoch %d" % epoch
    elif form == 1:
        text = "being taken, last seen free at epoch %d" % epoch
    elif form == 4:
        text = "being given back, held until epoch %d" % epoch
    elif form in (2, 3, 5):
        text = "held at epoch %d, " % epoch + (MODES.get(mode, "mode %d" % mode) + ", " if has_mode else "")
        text += "no command issued" if number == 0 else "%d issued" % number
        text += ", not answered: " + "; ".join(waiting) if waiting else ""
    else:
        raise Cut
    return "%s: %s" % (name_of(tree.domains, domain), text), data


def links(tree, data, count, has_mode):
    found = []
    for _ in range(count):
        text, data = link(tree, data, has_mode)
        found.append("    " + text)
    if data:
        raise Cut
    return found


def boot_row(_, data):
    (boot,), rest = take(data[4:], ">I")
    if rest:
        raise Cut
    return ["boot %d" % boot]


def domain_row(tree, data):
    (schema, kind, number, epoch, last, phase, _, outcome, gathered, count), rest = take(data, DOMAIN_HEAD)
    text = "%s at epoch %d" % (holder(tree, kind, number), epoch)
    if last == 0:
        text += ", no command has run" if kind else ""
    elif phase:
        text += ", command %d is at work, largest code so far %d" % (last, gathered)
    else:
        text += ", command %d has ended with %d" % (last, outcome)
    return [text] + links(tree, rest, count, schema >= 2)


def operator_row(tree, data):
    (_, _, count), rest = take(data, OPERATOR_HEAD)
    return [counted(count)] + links(tree, rest, count, False)


def counted(count):
    return "%d link%s" % (count, "" if count == 1 else "s")


def said(tree, station, domain, operator, data):
    """What a row says: its lines, the first with what it is about."""
    if domain and operator:
        kind, about, read = "", "domain %d and operator %d" % (domain, operator), None
    elif domain:
        kind, about, read = "domain", "domain " + name_of(tree.domains, domain), domain_row
    elif operator:
        kind, about, read = "operator", "operator " + name_of(tree.operators, operator), operator_row
    else:
        kind, about, read = "boot", "station " + name_of(tree.stations, station), boot_row
    head = "%s: " % about if kind == "boot" else "%s at %s: " % (about, name_of(tree.stations, station))
    try:
        if read is None or not data or data[0] not in SCHEMAS[kind]:
            raise Cut
        first, *more = read(tree, data)
    except Cut:
        return [head + "not a row that can be read: " + data.hex()]
    return [head + first] + more


def lines_of(tree, listing):
    """The words for a listing of rows."""
    found = []
    for line in listing.splitlines():
        station, domain, operator, text = (line + " ").split(" ")[:4]
        found += said(tree, int(station), int(domain), int(operator), bytes.fromhex(text))
    return found


def is_of_another(store, tree):
    """Whether the mark beside the store says that it was made for a tree with another number."""
    try:
        with open(store + "-tree", "rb") as file:
            mark = file.read()
    except OSError:
        return False
    return len(mark) in (34, 40) and int.from_bytes(mark[:2], "big") != tree.number


def links_of(data):
    """The links in these bytes: of each its domain, whether it waits for an answer, and its bytes."""
    found = []
    while data:
        (domain, form), _ = take(data, ">HB")
        size = 20
        if form == FURTHER:
            (further,), _ = take(data[20:], ">H")
            size = 22 + 4 * further
        if len(data) < size:
            raise Cut
        found.append((domain, form in UNSETTLED, data[:size]))
        data = data[size:]
    return found


def settled(data, is_domain, about):
    """The bytes of a row without its link to a domain. A domain that works on a command with no other link that waits
    has ended it."""
    form = DOMAIN_HEAD if is_domain else OPERATOR_HEAD
    head, rest = take(data, form)
    found = links_of(rest)
    left = [it for it in found if it[0] != about]
    if len(left) == len(found):
        raise KeyError
    head = [*head[:-1], len(left)]
    if is_domain and head[5] and not any(waits for _, waits, _ in left):
        # phase, zero, outcome and gathered code: the largest code that came counts
        head[5:9] = [0, 0, max(head[8], SPENT), 0]
    return struct.pack(form, *head) + b"".join(text for _, _, text in left)


def settle(store, tree, holder, domain):
    """Takes the link of a holder to a domain out of a store, of which a copy is made before."""
    names, is_domain = (list(tree.domains), True) if holder in tree.domains else (list(tree.operators), False)
    if holder not in names or domain not in tree.domains:
        sys.exit("no such holder, or no such domain")
    number, about = names.index(holder) + 1, list(tree.domains).index(domain) + 1
    for name in [store, store + "-wal", store + "-tree"]:
        if os.path.exists(name):
            shutil.copy2(name, name + ".before-settle")
    key = "domain = ? AND operator = 0" if is_domain else "domain = 0 AND operator = ?"
    with sqlite3.connect(store, timeout=0, isolation_level=None) as file:
        file.execute("PRAGMA locking_mode = EXCLUSIVE")
        file.execute("BEGIN EXCLUSIVE")
        found = file.execute("SELECT bytes FROM stable_rows WHERE " + key, (number,)).fetchone()
        if not found:
            sys.exit("%s has no row in this store" % holder)
        file.execute("UPDATE stable_rows SET bytes = ? WHERE " + key, (settled(found[0], is_domain, about), number))
        file.execute("COMMIT")


def main():
    words = sys.argv[1:]
    is_settled = len(words) == 5 and words[2] == "--settle"
    if not is_settled and (len(words) not in (2, 3) or "--settle" in words):
        sys.exit(__doc__.split("\n\n")[1])
    program = words[2] if len(words) == 3 else BUILT if os.path.isfile(BUILT) else "smi"
    tree = hierarchy.read(words[1])
    if is_of_another(words[0], tree):
        sys.exit("store of another tree")
    if is_settled:
        try:
            settle(words[0], tree, *words[3:])
        except KeyError:
            sys.exit("%s knows nothing of %s" % tuple(words[3:]))
        except Cut:
            sys.exit("the row of %s can't be read" % words[3])
        except sqlite3.Error as error:
            sys.exit("%s: %s" % (words[0], error))
    done = subprocess.run([program, "rows", words[0]], stdout=subprocess.PIPE, check=False)
    for line in lines_of(tree, done.stdout.decode()):
        print(line)
    sys.exit(done.returncode)


if __name__ == "__main__":
    main()
