"""Where else to look for the reason of a fault: the declaration of what it names, or the first one of two."""
from __future__ import annotations

from collections.abc import Iterator

from bench61499.language.declarations import TYPE, Key
from bench61499.language.plant import Plant, Text
from bench61499.lsp.documents import Diagnostic
from bench61499.lsp.navigation import location

_MOST = 3
"""Places that are shown of one fault."""


def related(plant: Plant, text: Text, start: int, end: int) -> list[Diagnostic]:
    """The related information of a fault at a span."""
    found: dict[str, Diagnostic] = {}
    for words, other, first, last in (*_first(text, start, end), *_named(plant, text, start, end)):
        is_here = other is text and start <= first < end
        if not is_here:
            found.setdefault(words, {"location": location(other, first, last), "message": words})
    return list(found.values())[:_MOST]


def _first(text: Text, start: int, end: int) -> Iterator[tuple[str, Text, int, int]]:
    """Of what is declared at the span, the first declaration of the same name."""
    for it in text.unit.declared:
        first = text.unit.first.get(it.key)
        if it.start == start and it.end == end and first and first.start != it.start:
            yield f"the first {it.words} is declared here", text, first.start, first.end


def _named(plant: Plant, text: Text, start: int, end: int) -> Iterator[tuple[str, Text, int, int]]:
    """The declarations of what is used at the span; of a name that its type does not declare, the type."""
    for use in text.unit.uses:
        if start <= use.start and use.end <= end:
            key = plant.key(use)
            its = list(plant.declarations(key)) or list(plant.declarations(Key(key.unit, TYPE, "", key.unit)))
            for other, it in its[:1]:
                yield f"{it.words} is declared here", other, it.start, it.end
