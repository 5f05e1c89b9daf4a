"""Mutated datagrams beside orders: each is refused with its own number, and what may be obeyed ends no node."""

import collections
import random

import pytest

import layout
import mutations

SEED, DRAWN = 20261201, 5_000
# How many mutations are sent one by one; for how many seconds each flood lasts, and how many come in one.
ONE_BY_ONE, SECONDS, RATE = 6_000, 5, 20_000


def test_drawn(subtests):
    """Mutations are of all kinds, and those that have to be refused are refused by the documents."""
    draw = random.Random(SEED)
    codes = collections.Counter(mutations.refusal(mutations.refused(draw)) for _ in range(DRAWN))
    with subtests.test("each number that a datagram is refused with"):
        assert sorted(codes) == list(range(1, 10)) and min(codes.values()) > DRAWN // 50
    codes = collections.Counter(mutations.refusal(mutations.mutated(draw)) for _ in range(DRAWN))
    with subtests.test("some mutations may be obeyed, and some may not"):
        assert codes[0] > DRAWN // 5 and codes[5] > DRAWN // 10
    with subtests.test("what is mutated is well formed itself"):
        assert {mutations.refusal(it) for it in mutations.TEMPLATES} == {0}
    with subtests.test("of all kinds, to A alone"):
        assert {it[3] for it in mutations.TEMPLATES} == set(range(1, 9))
        assert {layout.values(it)["to"] for it in mutations.TEMPLATES} == {1}


@pytest.mark.alone
def test_played(program, subtests):
    """Nodes under mutated datagrams, by tests/mutations.py."""
    for name, is_so, came in mutations.played(program, random.Random(SEED), ONE_BY_ONE, SECONDS, RATE):
        with subtests.test(name):
            assert is_so, came


def test_a_number_that_is_another_is_seen(program, folder, monkeypatch):
    """What counts as refused with another number than expected is told."""
    play = mutations.Play(program, folder, random.Random(SEED))
    try:
        assert mutations.one_by_one(play, mutations.AT_ONCE * 3)
        right = mutations.refusal
        monkeypatch.setattr(mutations, "refusal", lambda data: {5: 6}.get(right(data), right(data)))
        assert not mutations.one_by_one(play, mutations.AT_ONCE * 3)
    finally:
        play.end()
