"""The layout of datagrams as data, written down from docs/FORMATS.md, and what it refuses.

This shares nothing with the program: the command-line tests hold the program against it.
"""

ASK, TAKE, DROP, RUN, TELL, WATCH, STATE, UNWATCH = range(1, 9)
LAST_EPOCH = 2 ** 62
LAST_BOOT = 4_000_000_000


def between(low, high):
    return lambda value: low <= value <= high


# The place of a field, how many bytes it has, and its range by the kinds that use it.
FIELDS = {
    "from": (4, 2, dict.fromkeys(range(1, 9), between(1, 128))),
    "to": (6, 2, dict.fromkeys(range(1, 9), between(1, 128))),
    "subject": (8, 2, {**dict.fromkeys(range(1, 6), between(1, 128)),
                       **dict.fromkeys(range(6, 9), between(1, 640))}),
    "holder kind": (10, 1, {TAKE: between(1, 2), DROP: between(1, 2), RUN: between(1, 2), TELL: between(0, 2)}),
    "phase": (11, 1, {TELL: between(0, 1)}),
    "holder": (12, 2, dict.fromkeys(range(2, 6), between(0, 128))),
    "code": (14, 2, {RUN: between(1, 5), TELL: lambda x: x in (0, 1, 2, 3, 4, 5, 6, 7, 9), STATE: between(1, 64)}),
    "epoch": (16, 8, {TAKE: between(0, LAST_EPOCH), TELL: between(0, LAST_EPOCH),
                      DROP: lambda e: e <= LAST_EPOCH and e % 2 == 1, RUN: lambda e: e <= LAST_EPOCH and e % 2 == 1}),
    "number": (24, 4, {RUN: between(1, 1_000_000), TELL: between(0, 1_000_000)}),
    "argument": (28, 2, {RUN: between(1, 128)}),
    "tree": (30, 2, dict.fromkeys(range(1, 9), between(1, 65_535))),
    "echo": (32, 4, dict.fromkeys(range(6, 9), between(1, LAST_BOOT))),
    "boot": (36, 4, {STATE: between(1, LAST_BOOT)}),
    "sequence": (40, 4, {STATE: between(0, LAST_BOOT)}),
}


def values(data):
    """Returns the number at each field's place."""
    return {name: int.from_bytes(data[at:at + size], "big") for name, (at, size, _) in FIELDS.items()}


def datagram(kind, **fields):
    """Returns the bytes of a datagram of tree 17 with these fields, whose names have `_` for a blank."""
    data = bytearray(b"SM" + bytes([2 if kind == RUN and fields.get("code", 0) > 3 else 1, kind]) + bytes(40))
    for name, value in {"tree": 17, **fields}.items():
        place, size, _ = FIELDS[name.replace("_", " ")]
        data[place:place + size] = value.to_bytes(size, "big")
    assert refusal(bytes(data)) == 0
    return bytes(data)


def holder_fits(kind, number):
    return {0: number == 0, 1: 1 <= number <= 32, 2: 1 <= number <= 128}[kind]


def is_record(field):
    """Returns true if the fields of a TELL are a record together."""
    free = field["holder kind"] == 0
    settled = field["phase"] == 0
    if free != (field["epoch"] % 2 == 0) or (free and field["number"] != 0):
        return False
    if field["number"] == 0 and not (settled and field["code"] == 0):
        return False
    return settled or field["code"] == 0


def refusal(data):
    """Returns the first of the tests 1 to 6 that the bytes fail, or 0."""
    if len(data) != 44:
        return 1
    if data[:2] != b"SM":
        return 2
    layout, kind = data[2], data[3]
    if layout not in (1, 2):
        return 3
    if not 1 <= kind <= 8 or (layout == 2 and kind != RUN):
        return 4
    field = values(data)
    for name, (_, _, users) in FIELDS.items():
        if kind in users and not users[kind](field[name]):
            return 5
    if TAKE <= kind <= TELL and not holder_fits(field["holder kind"], field["holder"]):
        return 5
    if kind == RUN and (field["code"] >= 4) != (layout == 2):
        return 5
    if kind == RUN and field["code"] == 1 and field["argument"] > 64:
        return 5
    if kind == TELL and not is_record(field):
        return 5
    for name, (_, _, users) in FIELDS.items():
        if kind not in users and field[name] != 0:
            return 6
    return 0


def refusal_of_answer(data):
    """Returns the first of the tests 1 to 9 of `smi answer` that the bytes fail, or 0."""
    code = refusal(data)
    if code:
        return code
    field = values(data)
    if field["tree"] != 17:
        return 7
    if field["to"] != 1:
        return 8
    if data[3] > RUN or field["subject"] != 1:
        return 9
    return 9 if data[3] != ASK and field["holder kind"] != 1 else 0


def take_answered(data):
    """Returns what `smi answer` says to a take that it accepts, on a fresh domain."""
    field = values(data)
    holder = field["holder"] if field["epoch"] == 0 else 0
    return (b"SM\x01\x05" + (1).to_bytes(2, "big") + field["from"].to_bytes(2, "big") + b"\x00\x01"
            + bytes([1 if holder else 0, 0]) + holder.to_bytes(2, "big") + bytes(2)
            + (1 if holder else 0).to_bytes(8, "big") + bytes(6) + (17).to_bytes(2, "big") + bytes(12))
