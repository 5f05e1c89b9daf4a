"""Lines, words, names and numbers, as tree files and schedules have them."""

import dataclasses
import re

LONGEST_LINE, LONGEST_FILE = 200, 262_144
NAME = re.compile(rb"[A-Z][A-Z0-9_]{0,15}")
NUMBER = re.compile(rb"[0-9]{1,10}")


@dataclasses.dataclass
class Fault(Exception):
    """A refused text: the line, from 1, or 0 for the text as a whole, and the number of the fault."""
    line: int
    code: int


def lines_of(data):
    """Yields the lines of a text, without the LF at their ends and one CR before it."""
    *whole, rest = data.split(b"\n")
    for line in whole:
        yield line[:-1] if line.endswith(b"\r") else line
    # a CR that no LF follows is a byte of its line
    if rest:
        yield rest


def words_of(line):
    """Returns the words of a line; none if it is skipped. Only spaces and tabs are between words."""
    words = [it for it in re.split(rb"[ \t]", line) if it]
    return [] if words and words[0].startswith(b"#") else words


def is_name(word):
    return NAME.fullmatch(word) is not None


def number_in(word, low, high):
    """Returns the number that a word is, or None if it is none of this range."""
    if NUMBER.fullmatch(word) is None:
        return None
    return int(word) if low <= int(word) <= high else None
