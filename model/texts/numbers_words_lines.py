"""Numbers, words, lines. A text is taken as a string with one character for each byte."""
import re


class Refused(Exception):
    """A text is refused: at a line, for a kind of cause."""

    def __init__(self, line, kind):
        super().__init__(line, kind)
        self.line, self.kind = line, kind


class BadForm(Exception):
    """A word, or the number of words, isn't as stated."""


class BadNumber(Exception):
    """A number is outside its range."""


NAME = re.compile(r"[A-Za-z0-9:_/.-]{1,32}\Z")
NUMBER = re.compile(r"(0|[1-9][0-9]*)\Z")
SIGNED = re.compile(r"(0|-?[1-9][0-9]*)\Z")
U32, I32 = (0, 2 ** 32 - 1), (-2 ** 31, 2 ** 31 - 1)


def form(condition):
    if not condition:
        raise BadForm


def number(word, low, high):
    """The number that a word is, and whether it is in its range; where the range has numbers below 0 it may have a sign."""
    form((SIGNED if low < 0 else NUMBER).match(word))
    outside = len(word) > 25
    return 0 if outside else int(word), not outside and low <= int(word) <= high


def numbers(words, *ranges):
    """The numbers that these words are, one for each range. A bad form anywhere goes before a number outside its range."""
    form(len(words) == len(ranges))
    found = [number(word, *limits) for word, limits in zip(words, ranges)]
    if not all(inside for _, inside in found):
        raise BadNumber
    return [value for value, _ in found]


def rising(words, low, high):
    """One number or more, strictly rising."""
    form(words)
    found = numbers(words, *[(low, high)] * len(words))
    if any(a >= b for a, b in zip(found, found[1:])):
        raise BadNumber
    return tuple(found)


def listed(values):
    return " ".join(map(str, values)) or "-"
