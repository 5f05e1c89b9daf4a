"""Schedules: the items that lines say and that a seed draws (docs/FORMATS.md, "Schedules")."""

import typing

from . import text
from .station import Order
from .text import Fault

# Which words come after the first one, and after the word of an order.
ITEMS = {b"deliver": ["from 1"], b"recent": ["number"], b"tick": ["station"], b"restart": ["station"],
         b"report": ["device", "state"]}
ORDERS = {b"take": ["domain"], b"drop": ["domain"], b"ask": ["domain"], b"do": ["domain", "action"],
          b"watch": ["object"], b"unwatch": ["object"],
          **{it: ["domain", "domain"] for it in (b"include", b"exclude", b"manual", b"ignore")}}
HOWS = {b"stop": (b"before", b"after"), b"fail": (b"device", b"before", b"after")}
# What a stop or a failed save may not be about.
NOT_INSIDE = (b"restart", *HOWS)
UNKNOWN = "unknown"
# How a word of 32 bits is drawn from a state of 64, and how a seed becomes the first state and the increment.
MULTIPLIER, SEEDING, WORD, STATE = 6364136223846793005, 11634580027462260723, 2 ** 32, 2 ** 64


class Item(typing.NamedTuple):
    """An item by its first word, with what it is about as numbers; an `Order`; and the item that it holds."""
    word: str
    numbers: tuple = ()
    order: typing.Optional[Order] = None
    # of `stop` and `fail`
    how: str = ""
    inner: typing.Any = None


def form_of(words, is_inside=False):
    """Returns what each word of a line has to be: None if it is right, UNKNOWN if it is none of the tables'.

    A word that is missing is no unknown word.
    """
    if not words or words[0] in (NOT_INSIDE if is_inside else ()):
        return [UNKNOWN]
    if words[0] in ITEMS:
        return [None, *ITEMS[words[0]]]
    if words[0] == b"order":
        after = ORDERS.get(words[2], []) if len(words) > 2 else []
        return [None, "operator", None if len(words) < 3 or words[2] in ORDERS else UNKNOWN, *after]
    if words[0] in HOWS:
        inner = form_of(words[3:], True) if len(words) > 3 else [None]
        return [None, "station", None if len(words) < 3 or words[2] in HOWS[words[0]] else UNKNOWN, *inner]
    return [UNKNOWN]


def number_of(tree, kind, word):
    """Returns the number that a word is or has as a name, or None if the tree does not have it."""
    if kind in ("from 1", "number"):
        return int(word)
    if kind == "object":
        device = tree.numbers["device"].get(word)
        return tree.numbers["domain"].get(word) or (device and tree.count("domain") + device)
    return tree.numbers[kind].get(word)


def is_well_formed(kind, word):
    if kind in ("from 1", "number"):
        return text.number_in(word, kind == "from 1", 9_999_999_999) is not None
    return text.is_name(word)


def read_line(tree, line):
    """Returns the item of a line, or None if it is skipped, and the code of its first fault, or 0."""
    if len(line) > text.LONGEST_LINE:
        return None, 10
    words = text.words_of(line)
    if not words:
        return None, 0
    form = form_of(words)
    if UNKNOWN in form:
        return None, 1
    if len(words) != len(form):
        return None, 2
    given = [(kind, word) for kind, word in zip(form, words) if kind]
    if not all(is_well_formed(*it) for it in given):
        return None, 3
    if any(number_of(tree, *it) is None for it in given):
        return None, 5
    return item_of(tree, words, form), 0


def item_of(tree, words, form):
    """Returns the item of words that are as they have to be."""
    numbers = tuple(number_of(tree, *it) for it in zip(form, words) if it[0])
    word = words[0].decode()
    if word == "order":
        return Item(word, numbers[:1], Order(words[2].decode(), *numbers[1:]))
    if words[0] in HOWS:
        return Item(word, numbers[:1], None, words[2].decode(), item_of(tree, words[3:], form[3:]))
    return Item(word, numbers)


def read_items(tree, data):
    """Yields the items of a schedule. Raises the fault of the first line that is refused."""
    for number, line in enumerate(text.lines_of(data), 1):
        item, code = read_line(tree, line)
        if code:
            raise Fault(number, code)
        if item:
            yield item


def drawn_words(seed):
    """Yields the words that the generator PCG32 draws after a seed of 64 bits."""
    filled = []
    for _ in range(4):
        seed = (seed * MULTIPLIER + SEEDING) % STATE
        filled.append(output(seed))
    state, increment = filled[0] + filled[1] * WORD, (filled[2] + filled[3] * WORD) | 1
    state = ((state + increment) * MULTIPLIER + increment) % STATE
    while True:
        yield output(state)
        state = (state * MULTIPLIER + increment) % STATE


def output(state):
    """Returns the word of a state: some of its bits, rotated to the right by its highest five."""
    bits, turns = ((state >> 18 ^ state) >> 27) % WORD, state >> 59
    return (bits >> turns | bits << (-turns % 32)) % WORD


def drawn_item(tree, word):
    """Returns the item that a word draws."""
    kind, a = word % 16, word // 16
    stations, domains, devices = (tree.count(it) for it in ("station", "domain", "device"))
    if kind < 8:
        return Item("recent", (a % 16,))
    if kind == 8:
        return Item("deliver", (1 + a % 4096,))
    if kind < 11:
        return Item("tick", (1 + a % stations,))
    if kind == 11:
        if devices == 0:
            return Item("tick", (1,))
        return Item("report", (1 + a % devices, 1 + word // 8192 % tree.count("state")))
    if kind == 15:
        return Item("restart", (1 + a % stations,))
    order = ["take", "drop", "do", "do", "include", "exclude", "ask", "watch"][word // 512 % 8]
    subject, more = 1 + word // 4096 % domains, ()
    if order in ("do", "include", "exclude"):
        more = (1 + word // 524_288 % (tree.count("action") if order == "do" else domains),)
    return Item("order", (1 + a % tree.count("operator"),), Order(order, subject, *more))
