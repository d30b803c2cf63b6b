"""What an editor selects step by step from a place on: the name, the item, the section, the unit."""
from __future__ import annotations

from typing import Any

from bench61499.language.nesting import Nesting
from bench61499.language.plant import Text
from bench61499.language.tokens import Token, pieces

_ENDS = frozenset([";", ","])


def selection_ranges(text: Text, places: list[int]) -> list[dict[str, Any]]:
    """For each place the smallest range, with those round it as its parents."""
    its = list(pieces(text.text))
    pairs = [(its[begin].start, its[end].end) for begin, end in Nesting(its).pairs]
    return [_nested(text, sorted({*_spans(its, pairs, at), (0, len(text.places.encoded))}, key=lambda it: it[0] - it[1]), at) for at in places]


def _spans(its: list[Token], pairs: list[tuple[int, int]], at: int) -> list[tuple[int, int]]:
    """The token, the item between signs that end items, and all sections and statements round a place."""
    found = [pair for pair in pairs if pair[0] <= at <= pair[1]]
    token = next((index for index, it in enumerate(its) if it.start <= at <= it.end and it.kind == "word"), None)
    token = next((index for index, it in enumerate(its) if it.start <= at <= it.end), None) if token is None else token
    if token is None:
        return found
    found.append((its[token].start, its[token].end))
    if its[token].kind == "comment":
        return found
    inner = max((pair[0] for pair in found[:-1]), default=-1)
    first = last = token
    while first and its[first - 1].words not in _ENDS and its[first - 1].start > inner and its[first - 1].kind != "comment":
        first -= 1
    end = min((pair[1] for pair in found[:-1]), default=len(its) and its[-1].end)
    while its[last].words not in _ENDS and last + 1 < len(its) and its[last + 1].end < end:
        last += 1
    return [*found, (its[first].start, its[last].end)]


def _nested(text: Text, spans: list[tuple[int, int]], at: int) -> dict[str, Any]:
    """Ranges in each other, from the largest to the smallest; one that does not hold the next is left out."""
    found: dict[str, Any] = {}
    outer = (0, len(text.places.encoded))
    for start, end in spans:
        if outer[0] <= start <= at <= end <= outer[1] and (not found or (start, end) != outer):
            found = {"range": text.range(start, end), **({"parent": found} if found else {})}
            outer = start, end
    return found
