"""The colours of the screen's page, by computed figures: what is written can be read, and states can be told apart.

Contrast is that of WCAG 2.2, sections 1.4.3 and 1.4.11. How far two colours are from each other is CIEDE2000 (ISO/CIE
11664-6). What is seen without the cones for red or for green is computed after Machado, Oliveira and Fernandes, "A
physiologically-based model for simulation of color vision deficiency" (2009), at full severity.
"""

import itertools
import math
import os
import re

import pytest

import running

PAGE = os.path.join(running.ROOT, "crates", "smi_program", "page")
# The least contrast of a text, and of what shows where something ends.
READ, SEEN = 4.5, 3.0
# How far two states have to be from each other, and people from states and each other. At 2 a trained eye sees a
# difference side by side; dots that are far from each other need several times as much.
FAR = 15
# What is seen of red, green and blue light.
SIGHTS = {
    "full": ((1, 0, 0), (0, 1, 0), (0, 0, 1)),
    "without green": ((0.367322, 0.860646, -0.227968), (0.280085, 0.672501, 0.047413), (-0.011820, 0.042940, 0.968881)),
    "without red": ((0.152286, 1.052583, -0.204868), (0.114503, 0.786281, 0.099216), (-0.003882, -0.048116, 1.051998)),
}
GROUNDS = ["back", "card", "part"]


def read(name):
    with open(os.path.join(PAGE, name), encoding="utf-8") as file:
        return file.read()


def themes():
    """Returns the colours of both themes by name."""
    rules = re.findall(r":root[^{]*\{([^}]*)\}", read("base.css"))
    found = [dict(re.findall(r"--(\w+): (#\w+)", rule)) for rule in rules]
    return {"light": found[0], "dark": found[1], "dark that was chosen": found[2]}


def whole(colour):
    """Returns a colour with six digits."""
    return colour if len(colour) == 7 else "#" + "".join(2 * digit for digit in colour[1:])


def table(name):
    """Returns the colours of a table or a list of the page."""
    text = re.search(r"const %s = [{\[](.*?)[}\]];" % name, read("colours.mjs"), re.DOTALL).group(1)
    return dict(re.findall(r'(\w+): "(#\w{6})"', text)) or re.findall(r'"(#\w{6})"', text)


def light_of(colour):
    """Returns the red, green and blue light of a colour, from 0 to 1."""
    parts = [int(whole(colour)[at:at + 2], 16) / 255 for at in (1, 3, 5)]
    return [part / 12.92 if part <= 0.04045 else ((part + 0.055) / 1.055) ** 2.4 for part in parts]


def contrast(one, other):
    low, high = sorted(sum(k * part for k, part in zip((0.2126, 0.7152, 0.0722), light_of(it))) for it in (one, other))
    return (high + 0.05) / (low + 0.05)


def best(colour):
    """Returns the contrast of black or white on a colour, whichever is higher."""
    return max(contrast(colour, ink) for ink in ("#000000", "#ffffff"))


def lab(colour, sight):
    """Returns lightness and the two opponent values (CIELAB, white of D65) of what is seen of a colour."""
    light = light_of(colour)
    red, green, blue = (min(1, max(0, sum(k * part for k, part in zip(row, light)))) for row in SIGHTS[sight])
    x, y, z = (at ** (1 / 3) if at > 216 / 24389 else (24389 / 27 * at + 16) / 116 for at in (
        (0.4124564 * red + 0.3575761 * green + 0.1804375 * blue) / 0.95047,
        0.2126729 * red + 0.7151522 * green + 0.0721750 * blue,
        (0.0193339 * red + 0.1191920 * green + 0.9503041 * blue) / 1.08883))
    return 116 * y - 16, 500 * (x - y), 200 * (y - z)


def distance(one, other):
    """Returns how far two colours of CIELAB are from each other."""
    (l1, a1, b1), (l2, a2, b2) = one, other
    mean = (math.hypot(a1, b1) + math.hypot(a2, b2)) / 2
    stretch = 1.5 - 0.5 * math.sqrt(mean ** 7 / (mean ** 7 + 25 ** 7))
    c1, c2 = math.hypot(stretch * a1, b1), math.hypot(stretch * a2, b2)
    h1, h2 = (math.degrees(math.atan2(b, stretch * a)) % 360 for a, b in ((a1, b1), (a2, b2)))
    turn = 0 if c1 * c2 == 0 else (h2 - h1 + 180) % 360 - 180
    if c1 * c2 == 0:
        hue = h1 + h2
    else:
        hue = (h1 + turn / 2) % 360
    l, c = (l1 + l2) / 2, (c1 + c2) / 2
    cos = lambda degrees: math.cos(math.radians(degrees))
    t = 1 - 0.17 * cos(hue - 30) + 0.24 * cos(2 * hue) + 0.32 * cos(3 * hue + 6) - 0.20 * cos(4 * hue - 63)
    light = (l2 - l1) / (1 + 0.015 * (l - 50) ** 2 / math.sqrt(20 + (l - 50) ** 2))
    chroma = (c2 - c1) / (1 + 0.045 * c)
    tint = 2 * math.sqrt(c1 * c2) * math.sin(math.radians(turn / 2)) / (1 + 0.015 * c * t)
    bend = math.sin(math.radians(60 * math.exp(-((hue - 275) / 25) ** 2))) * 2 * math.sqrt(c ** 7 / (c ** 7 + 25 ** 7))
    return math.sqrt(light ** 2 + chroma ** 2 + tint ** 2 - bend * chroma * tint)


def near(colours, others=None, sight="full"):
    """Returns the pairs that are too near to each other, each with how far."""
    pairs = itertools.product(colours, others) if others else itertools.combinations(colours, 2)
    far = {pair: distance(lab(pair[0], sight), lab(pair[1], sight)) for pair in pairs}
    return {pair: round(it, 1) for pair, it in far.items() if it < FAR}


def test_formulas(subtests):
    """Published pairs: the highest contrast, and two of the test data of Sharma, Wu and Dalal (2005)."""
    with subtests.test("contrast"):
        assert contrast("#000", "#fff") == pytest.approx(21)
    with subtests.test("distance"):
        assert [distance((50, 2.6772, -79.7751), (50, 0, -82.7485)), distance((50, 2.5, 0), (73, 25, -18)),
                distance((2.0776, 0.0795, -1.1350), (0.9033, -0.0636, -0.5514))] == pytest.approx(
                    [2.0425, 27.1492, 0.9082], abs=5e-5)
    with subtests.test("one without green takes a red and a green for the same that are not"):
        assert distance(lab("#aa7700", "without green"), lab("#7f8800", "without green")) < FAR < distance(
            lab("#aa7700", "full"), lab("#7f8800", "full"))


@pytest.mark.parametrize("theme", ["light", "dark", "dark that was chosen"])
def test_theme(theme, subtests):
    """Texts can be read on each ground of a theme, and the edges of dots and of what has the focus can be seen."""
    colours = themes()[theme]
    for ground in GROUNDS:
        for text in ("ink", "soft"):
            with subtests.test("text", text=text, ground=ground):
                assert contrast(colours[text], colours[ground]) >= READ
        for edge in ("soft", "focus"):
            with subtests.test("edge", edge=edge, ground=ground):
                assert contrast(colours[edge], colours[ground]) >= SEEN
    with subtests.test("what was not seen"):
        assert contrast(colours["soft"], colours["none"]) >= READ


def test_inks(subtests):
    """Black or white can be read on each colour of a state or a person."""
    for name in ("KNOWN", "SPARE", "PEOPLE"):
        colours = table(name)
        for colour in colours.values() if isinstance(colours, dict) else colours:
            with subtests.test(name, colour=colour):
                assert best(colour) >= READ


def test_fixed(subtests):
    """What the style sheets write on a colour of their own can be read."""
    found = [(name, *pair) for name in sorted(os.listdir(PAGE)) + ["orders/orders.css"] if name.endswith(".css")
             for rule in re.findall(r"\{([^{}]*)\}", read(name))
             for pair in re.findall(r"background: (#\w{3,6}); color: (#\w{3,6})\b", rule)
             + [pair[::-1] for pair in re.findall(r"\bcolor: (#\w{3,6}); background: (#\w{3,6})\b", rule)]]
    with subtests.test("there are some"):
        assert len(found) >= 6
    for name, ground, text in found:
        with subtests.test(name, ground=ground, text=text):
            assert contrast(ground, text) >= READ


@pytest.mark.parametrize("sight", list(SIGHTS))
def test_states(sight):
    """Any two states can be told apart, also without green or without red."""
    states = table("KNOWN")
    assert (len(states), near(states.values(), sight=sight)) == (7, {})


def test_people(subtests):
    """People have colours of their own. Who sees no green or no red has their initials."""
    people, states = table("PEOPLE"), table("KNOWN").values()
    with subtests.test("from each other"):
        assert (len(people), near(people)) == (9, {})
    with subtests.test("from states"):
        assert near(people, states) == {}


def test_style():
    """The colours that a style file's kinds have are those of docs/FORMATS.md."""
    known = table("KNOWN")
    kinds = dict(re.findall(r"(\w+): KNOWN\.(\w+)", read("colours.mjs").split("const KINDS")[1].split(";")[0]))
    with open(os.path.join(running.ROOT, "docs", "FORMATS.md"), encoding="utf-8") as file:
        told = dict(re.findall(r"^\| `(\w+)` \|[^|]*\| `(#\w{6})` \|$", file.read(), re.MULTILINE))
    assert told == {kind: known[state] for kind, state in kinds.items()}
