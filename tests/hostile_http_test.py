"""A screen under attack over HTTP: each part of tests/hostile_http.py, with fewer requests and connections.

What is ambiguous is refused, nothing that hides in it is answered or ordered, no page elsewhere reads or orders, and
another guest is answered meanwhile.
"""

import pytest

import hostile
import hostile_http
from hostile import checked

# How many guests are rude at once, how many connections come, and how many requests are drawn.
CROWD, COMERS, FUZZ, SEED = 100, 5_000, 4_000, 20261130


@pytest.fixture(params=[False, True], ids=["shows", "orders"])
def has_orders(request):
    """Returns whether the screen has orders; with `@ordering` it always has."""
    return request.param


ordering = pytest.mark.parametrize("has_orders", [True], ids=["orders"])


@pytest.fixture
def site(has_orders, program, folder):
    """Returns a screen beside two nodes. Both have to go on afterwards, and nothing may be ordered."""
    made = hostile.Site(program, folder, has_orders=has_orders)
    try:
        yield made
        for name, holds, came in [*hostile_http.nothing_ordered(made.screen), *made.after()]:
            assert holds, (name, came)
    finally:
        made.end()


def test_framings(site, subtests):
    """Requests that are ambiguous, or none, are refused, and what they hide is not answered."""
    checked(subtests, hostile_http.framing(site))


def test_places(site, subtests):
    """No file of the machine is a place of the screen."""
    checked(subtests, hostile_http.places(site))


def test_strangers(site, subtests):
    """A page elsewhere may not read the screen, and orders nothing."""
    checked(subtests, hostile_http.strangers(site))


@ordering
@pytest.mark.alone
def test_crowds(site, subtests):
    """Guests that are slow, deaf or silent keep nobody out."""
    checked(subtests, hostile_http.crowd(site, CROWD))


@ordering
@pytest.mark.alone
def test_storm(site, subtests):
    """Connections that come as fast as they can leave the node alone, and all is as before once they have gone."""
    checked(subtests, hostile_http.storm(site, COMERS))


@ordering
@pytest.mark.alone
def test_fuzz(site, subtests):
    """Requests that are wrong somewhere end nothing, and order nothing."""
    checked(subtests, hostile_http.fuzz(site, FUZZ, SEED))


def test_pipeline(program, folder, subtests):
    """Each order of a pipeline that is taken is given once."""
    site = hostile.Site(program, folder, has_orders=True)
    try:
        checked(subtests, hostile_http.piped(site))
    finally:
        site.end()
