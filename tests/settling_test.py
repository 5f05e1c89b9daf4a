"""Drawn schedules that go on until nothing is under way: each comes to rest, and each order is answered.

The items that a seed draws are computed here a second time (docs/FORMATS.md, "Drawn schedules"), so each order that was
given is known, and its answer has to be in the trace. A question is answered at most once, because a later one of the
same operator replaces it and a start forgets it.
"""

import collections
import os
import re

import pytest

import running

MASK = 2 ** 64 - 1
MULTIPLIER = 6364136223846793005
# How many schedules are drawn for each tree, and how many items each has.
DRAWN, ITEMS = {"worked.tree": 1000, "detector.tree": 200}, 200
# Trees of which each operator takes a domain. The last has eleven stations and twelve operators.
TREES = ["worked.tree", "three.tree", "detector.tree", "experiment.tree"]
# What a drawn order asks, by its number.
KINDS = ("take", "drop", "do", "do", "include", "exclude", "ask", "watch")


def rotated(state):
    """Returns the output of the generator's state (PCG XSH RR 64/32)."""
    shifted, turn = ((state >> 18 ^ state) >> 27) & 0xFFFFFFFF, state >> 59
    return (shifted >> turn | shifted << (-turn & 31)) & 0xFFFFFFFF


def words(seed, count):
    """Yields the first words that the generator draws from a seed."""
    parts, state = [], seed
    for _ in range(4):
        state = (state * MULTIPLIER + 11634580027462260723) & MASK
        parts.append(rotated(state))
    increment = (parts[3] << 32 | parts[2]) | 1
    state = ((parts[1] << 32 | parts[0]) + increment) & MASK
    state = (state * MULTIPLIER + increment) & MASK
    for _ in range(count):
        yield rotated(state)
        state = (state * MULTIPLIER + increment) & MASK


def names_of(path):
    """Returns the names that a tree file declares, by the first word of their lines."""
    found = collections.defaultdict(list)
    with open(path, encoding="ascii") as file:
        for line in file:
            parts = line.split()
            if parts and not parts[0].startswith("#"):
                found[parts[0]].append(parts[1])
    return found


def order_of(names, word):
    """Returns the operator and the order of a drawn word, or None if it draws another item."""
    if word % 16 not in (12, 13, 14):
        return None
    operators, domains, actions = names["operator"], names["domain"], names["action"]
    kind = KINDS[word // 512 % 8]
    order = [kind, domains[word // 4096 % len(domains)]]
    if kind == "do":
        order.append(actions[word // 524288 % len(actions)])
    elif kind in ("include", "exclude"):
        order.append(domains[word // 524288 % len(domains)])
    return " ".join([operators[word // 16 % len(operators)], *order])


def is_settled(smi, tree, names, seed):
    """Returns true if the schedule of a seed comes to rest with all its orders answered."""
    out, err, status = smi("sim", tree, "--seed", str(seed), "--steps", str(ITEMS), "--settle")
    lines = out.decode().splitlines()
    given = collections.Counter(order for order in (order_of(names, word) for word in words(seed, ITEMS)) if order)
    told = collections.Counter(re.sub(r" ask (\S+) .*| \d+$", lambda it: " ask " + it[1] if it[1] else "", line[5:])
                               for line in lines if line.startswith("told "))
    is_question = lambda order: order.split(" ")[1] == "ask"
    answered = all(told[it] <= given[it] if is_question(it) else told[it] == given[it] for it in {*given, *told})
    ended = lines and re.fullmatch(r"settled after \d+ items", lines[-1])
    return bool(status == 0 and not err and ended and answered)


@pytest.mark.parametrize("name", DRAWN)
def test_settling(smi, name):
    """All drawn schedules over a tree."""
    tree = running.example(name)
    names = names_of(tree)
    assert [seed for seed in range(DRAWN[name]) if not is_settled(smi, tree, names, seed)] == []


@pytest.mark.parametrize("name", TREES)
def test_all_operators(smi, folder, name, subtests):
    """Each operator takes a domain, and all these takes are lost: each is answered, and no station is started again."""
    tree = running.example(name)
    names = names_of(tree)
    orders = ["%s take %s" % it for it in zip(names["operator"], names["domain"])]
    schedule = running.write(os.path.join(folder, "schedule"), "".join("order %s\n" % it for it in orders))
    out, err, status = smi("sim", tree, schedule, "--settle")
    lines = out.decode().splitlines()
    with subtests.test("it comes to rest"):
        assert (err, status) == (b"", 0) and re.fullmatch(r"settled after \d+ items", lines[-1])
    with subtests.test("each is answered"):
        assert sorted(it for it in lines if it.startswith("told ")) == sorted("told %s 0" % it for it in orders)
    with subtests.test("each station has begun once"):
        assert [it for it in lines if it.startswith("booted ")] == ["booted %s 1" % it for it in names["station"]]
