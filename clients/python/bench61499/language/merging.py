"""Merges two texts that come from one, line by line."""
from __future__ import annotations

import re
from collections import Counter
from collections.abc import Iterator, Sequence
from dataclasses import dataclass
from difflib import SequenceMatcher
from typing import NamedTuple

MARKS = "<<<<<<<", "=======", ">>>>>>>"
"""What the lines begin with that stand round the two sides of a conflict."""
MARKED = "has the marked lines of a conflict, and is not committed until they are gone"
_LINES = re.compile(r"[^\n]*\n|[^\n]+")
_MOST_LINES, _MOST_PAIRS = 5_000, 100_000
"""Lines, and pairs of equal lines, that are compared in reasonable time; texts with more are one conflict."""

Lines = Sequence[str]


@dataclass(frozen=True)
class Merged:
    """A text with the changes of both sides, and how many places both changed in different ways: there it has marked lines."""

    text: str
    conflicts: int


class _Common(NamedTuple):
    """Lines that all three texts have: where they begin in each, and how many they are."""

    base: int
    mine: int
    theirs: int
    size: int


def merged(base: str, mine: str, theirs: str, names: tuple[str, str] = ("mine", "theirs")) -> Merged:
    """`base` with the changes that lead to `mine` and to `theirs`; `names` stand behind the marks."""
    if mine == theirs or theirs == base:
        return Merged(mine, 0)
    if mine == base:
        return Merged(theirs, 0)
    texts = [_LINES.findall(text) for text in (base, mine, theirs)]
    found: list[str] = []
    conflicts = 0
    for piece in _pieces(*texts):
        lines = _agreed(*piece)
        conflicts += lines is None
        found += _marked(*piece[1:], names) if lines is None else lines
    return Merged("".join(found), conflicts)


def conflict_lines(text: str) -> list[int]:
    """The numbers of the lines at which the marked lines of conflicts begin; none in a text that has not all of the marks."""
    begins = [line.split(" ")[0].strip() for line in _LINES.findall(text)] if MARKS[0] in text else []
    return [number for number, begin in enumerate(begins, 1) if begin == MARKS[0]] if all(mark in begins for mark in MARKS) else []


def is_marked(text: str) -> bool:
    """Whether a text has the marked lines of a conflict. No client commits one where others get it."""
    return bool(conflict_lines(text))


def _agreed(base: Lines, mine: Lines, theirs: Lines) -> Lines | None:
    """What both sides can be taken for; None if both have changed these lines in different ways."""
    if mine == theirs or theirs == base:
        return mine
    return theirs if mine == base else None


def _marked(mine: Lines, theirs: Lines, names: tuple[str, str]) -> list[str]:
    begin, middle, end = MARKS
    return [f"{begin} {names[0]}\n", *_ended(mine), f"{middle}\n", *_ended(theirs), f"{end} {names[1]}\n"]


def _ended(lines: Lines) -> list[str]:
    """Lines of which the last one has an end too."""
    return [line if line.endswith("\n") else f"{line}\n" for line in lines]


def _pieces(base: Lines, mine: Lines, theirs: Lines) -> Iterator[tuple[Lines, Lines, Lines]]:
    """The three texts cut where all have the same lines: in turn what is between such lines, and the lines."""
    at = _Common(0, 0, 0, 0)
    for it in _common(base, mine, theirs):
        yield base[at.base : it.base], mine[at.mine : it.mine], theirs[at.theirs : it.theirs]
        same = base[it.base : it.base + it.size]
        yield same, same, same
        at = _Common(it.base + it.size, it.mine + it.size, it.theirs + it.size, 0)


def _common(base: Lines, mine: Lines, theirs: Lines) -> Iterator[_Common]:
    """The lines that all three have, in order; at last the ends."""
    left, right = _matches(base, mine), _matches(base, theirs)
    while left and right:
        one, other = left[0], right[0]
        start, end = max(one.base, other.base), min(one.end, other.end)
        if start < end:
            yield _Common(start, one.at(start), other.at(start), end - start)
        (left if one.end < other.end else right).pop(0)
    yield _Common(len(base), len(mine), len(theirs), 0)


class _Match(NamedTuple):
    """Lines that two texts have: where they begin in each, and how many they are."""

    base: int
    other: int
    size: int

    @property
    def end(self) -> int:
        return self.base + self.size

    def at(self, base: int) -> int:
        """Where in the other text a line of the base stands."""
        return self.other + base - self.base


def _matches(base: Lines, other: Lines) -> list[_Match]:
    """The lines that two texts have, in order. Those of a common front and a common end are found without any comparison of all pairs."""
    shorter = min(len(base), len(other))
    front = next((at for at in range(shorter) if base[at] != other[at]), shorter)
    end = next((at for at in range(shorter - front) if base[-1 - at] != other[-1 - at]), shorter - front)
    inner, outer = base[front : len(base) - end], other[front : len(other) - end]
    between = SequenceMatcher(None, inner, outer, autojunk=False).get_matching_blocks() if _is_soon(inner, outer) else []
    found = [_Match(0, 0, front), *(_Match(front + it.a, front + it.b, it.size) for it in between)]
    return [it for it in (*found, _Match(len(base) - end, len(other) - end, end)) if it.size]


def _is_soon(base: Lines, other: Lines) -> bool:
    """Whether two lists of lines are compared in reasonable time."""
    if max(len(base), len(other)) > _MOST_LINES:
        return False
    counts = Counter(other)
    return sum(counts[line] for line in base) <= _MOST_PAIRS
