"""A node's consoles under attack: each part of tests/hostile_consoles.py, with fewer lines and connections.

The crew at a connection of its own is answered meanwhile, and the node keeps nothing of what it was sent.
"""

import pytest

import hostile
import hostile_consoles
from hostile import checked

# How many lines one connection says, how many connections come, and for how many seconds the crew asks beside a flood.
LINES, COMERS, FLOODED = 20_000, 5_000, 1


@pytest.fixture
def site(program, folder):
    """Returns two nodes, of which one has a console at a path and one at an address. Both have to go on afterwards."""
    made = hostile.Site(program, folder, has_screen=False)
    try:
        yield made
        for name, holds, came in made.after():
            assert holds, (name, came)
    finally:
        made.end()


def test_lines(site, subtests):
    """Lines that are none are told as such, in plain words, and none is an order."""
    checked(subtests, hostile_consoles.lines(site))


def test_many_lines(site, subtests):
    """Each of many lines of one connection is answered."""
    checked(subtests, hostile_consoles.many_lines(site, LINES))


@pytest.mark.alone
def test_everybody(site, subtests):
    """All places of both consoles are taken, and the crew is served."""
    checked(subtests, hostile_consoles.everybody(site))


@pytest.mark.alone
def test_deaf(site, subtests):
    """Readers that read nothing hold up nobody, and are let go."""
    checked(subtests, hostile_consoles.deaf(site))


@pytest.mark.alone
def test_storm(site, subtests):
    """Connections that come as fast as they can hold up nobody, and leave nothing."""
    checked(subtests, hostile_consoles.storm(site, COMERS))


@pytest.mark.alone
def test_fairness(site, subtests):
    """Connections that say lines without end hold up no other one."""
    checked(subtests, hostile_consoles.fairness(site, FLOODED))


def test_all_files(program, folder, subtests):
    """A node whose connections have taken all files that it may open serves and saves."""
    site = hostile.Site(program, folder, has_screen=False, preexec_fn=hostile_consoles.limited(hostile_consoles.FILES))
    try:
        checked(subtests, hostile_consoles.all_files(site))
    finally:
        site.end()


def test_few_files(program, folder, subtests):
    """A node that may open few files serves, or says why it can't."""
    checked(subtests, hostile_consoles.few_files(program, folder))
