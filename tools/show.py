"""Shows the datagrams of a file and what `smi answer` says to each, in hexadecimal beside what they say.

usage: show.py FILE COMMAND..

The command is `bin/smi answer`, or another that runs it.
"""

import struct
import subprocess
import sys

SIZE = 44
KINDS = {1: "ASK", 2: "TAKE", 3: "DROP", 4: "RUN", 5: "TELL", 6: "WATCH", 7: "STATE", 8: "UNWATCH"}
VERBS = {1: "do", 2: "include", 3: "exclude", 4: "manual", 5: "ignore"}
HOLDERS = {0: "free", 1: "operator", 2: "domain"}


def said(datagram):
    """What a datagram says, in words."""
    (kind, sender, receiver, subject, holder_kind, phase, holder, code, epoch, number, argument, tree,
     echo, boot, sequence) = struct.unpack(">BHHHBBHHQIHHIII", datagram[3:])
    name = KINDS.get(kind, "kind %d" % kind)
    who = HOLDERS.get(holder_kind, "holder %d" % holder_kind)
    if holder_kind:
        who += " %d" % holder
    parts = ["%s from station %d to %d," % (name, sender, receiver)]
    if kind <= 5:
        parts.append("domain %d" % subject)
    else:
        parts.append("object %d, echo %d" % (subject, echo))
    if kind in (2, 3, 4):
        parts.append("by %s, epoch %d" % (who, epoch))
    if kind == 4:
        parts.append("command %d: %s %d" % (number, VERBS.get(code, "verb %d" % code), argument))
    if kind == 5:
        parts.append("%s at epoch %d, last %d %s with %d"
                     % (who, epoch, number, "busy" if phase else "settled", code))
    if kind == 7:
        parts.append("version %d.%d, state %d" % (boot, sequence, code))
    return " ".join(parts)


def show(mark, datagram):
    """One datagram, twenty-two bytes a line, with what it says above."""
    print("%s %s" % (mark, said(datagram) if len(datagram) == SIZE else "%d bytes" % len(datagram)))
    for start in range(0, len(datagram), 22):
        print("    " + datagram[start:start + 22].hex(" "))


def main():
    path, *command = sys.argv[1:]
    with open(path, "rb") as file:
        data = file.read()
    run = subprocess.run(command, input=data, capture_output=True, check=False)
    for place in range(0, len(data), SIZE):
        show("->", data[place:place + SIZE])
        answer = run.stdout[place:place + SIZE]
        if not answer:
            break
        show("<-", answer)
    sys.stdout.flush()
    sys.stderr.write(run.stderr.decode())
    print("status %d" % run.returncode)


if __name__ == "__main__":
    main()
