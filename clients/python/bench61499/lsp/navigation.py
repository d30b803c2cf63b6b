"""What a text consists of, and where the names of a plant are declared and used."""
from __future__ import annotations

import re
from collections.abc import Iterator, Sequence
from dataclasses import dataclass
from enum import IntEnum
from typing import Any

from bench61499.language.declarations import ALGORITHM, APPLICATION, DEVICE, LOCALS, TYPE, Declaration, Key, Use
from bench61499.language.plant import Plant, Text
from bench61499.language.positions import Range
from bench61499.language.written import Written, joined


class SymbolKind(IntEnum):
    """How editors sort what has a name."""

    NAMESPACE = 3
    PACKAGE = 4
    CLASS = 5
    METHOD = 6
    PROPERTY = 7
    FIELD = 8
    INTERFACE = 11
    VARIABLE = 13
    OBJECT = 19
    ENUM_MEMBER = 22
    STRUCT = 23
    EVENT = 24


SYMBOL_KINDS = {
    "FUNCTION_BLOCK": SymbolKind.CLASS,
    "ADAPTER": SymbolKind.INTERFACE,
    "SUBAPPLICATION": SymbolKind.PACKAGE,
    "SYSTEM": SymbolKind.NAMESPACE,
    "TYPE": SymbolKind.STRUCT,
    "EVENT_INPUT": SymbolKind.EVENT,
    "EVENT_OUTPUT": SymbolKind.EVENT,
    "VAR_INPUT": SymbolKind.PROPERTY,
    "VAR_OUTPUT": SymbolKind.PROPERTY,
    "VAR": SymbolKind.VARIABLE,
    LOCALS: SymbolKind.VARIABLE,
    "STRUCT": SymbolKind.FIELD,
    "PLUGS": SymbolKind.INTERFACE,
    "SOCKETS": SymbolKind.INTERFACE,
    "FBS": SymbolKind.OBJECT,
    "SUBAPPS": SymbolKind.OBJECT,
    "EC_STATES": SymbolKind.ENUM_MEMBER,
    "ALGORITHM": SymbolKind.METHOD,
    "APPLICATION": SymbolKind.NAMESPACE,
    "DEVICE": SymbolKind.STRUCT,
    "RESOURCE": SymbolKind.OBJECT,
}


_LEAST_LETTERS, _MOST_NAMES = 2, 500
"""Letters of a query from which on it finds other names than those of units, and how many of these at most."""


@dataclass(frozen=True)
class Found:
    """The name at a place: what it stands for, its span, and its declaration where it is one."""

    key: Key
    start: int
    end: int
    declaration: Declaration | None = None


def name_at(plant: Plant, text: Text, place: int) -> Found | None:
    """The declared or used name at a place, or right before it."""
    its: list[Declaration | Use] = [it for it in text.unit.names() if it.start <= place <= it.end]
    if not its:
        return None
    it = max(its, key=lambda it: it.start)
    if isinstance(it, Declaration):
        return Found(it.key, it.start, it.end, it)
    return Found(plant.key(it), it.start, it.end)


def location(text: Text, start: int, end: int) -> dict[str, Any]:
    """Where a name stands."""
    return {"uri": text.uri, "range": text.name_range(start, end)}


def definitions(plant: Plant, key: Key) -> list[dict[str, Any]]:
    """Where a name is declared."""
    return [location(text, it.start, it.end) for text, it in plant.declarations(key)]


def occurrences(plant: Plant, key: Key, with_declaration: bool) -> Iterator[tuple[Text, Sequence[Declaration | Use]]]:
    """All uses of a name in all units by text, perhaps with its declarations before them."""
    if with_declaration:
        yield from ((text, [it]) for text, it in plant.declarations(key))
    yield from plant.uses(key)


def references(plant: Plant, key: Key, with_declaration: bool) -> Written:
    """The same as locations."""
    return joined(it for text, those in occurrences(plant, key, with_declaration) for it in text.written_locations(those))


def highlights(plant: Plant, text: Text, key: Key) -> list[dict[str, Range]]:
    """The declaration and the uses of a name in one text."""
    places = [(it.start, it.end) for it in text.unit.declared if it.key == key]
    places += [(use.start, use.end) for use in plant.uses_in(text, key)]
    return [{"range": text.name_range(*it)} for it in places]


def outline(text: Text) -> list[dict[str, Any]]:
    """The unit with what it declares; instances stand in their application, resources in their device."""
    tops: list[dict[str, Any]] = []
    open_ones: list[tuple[Declaration, list[dict[str, Any]]]] = []
    for it in text.unit.declared:
        while open_ones and open_ones[-1][0].last <= it.begin:
            open_ones.pop()
        shown = _symbol(text, it)
        (open_ones[-1][1] if open_ones else tops).append(shown)
        if it.key.space in (TYPE, APPLICATION, DEVICE, ALGORITHM):
            open_ones.append((it, shown["children"]))
    return tops


def _symbol(text: Text, it: Declaration) -> dict[str, Any]:
    return {
        "name": it.words,
        "detail": f"{it.section} : {it.type}" if it.type else it.section,
        "kind": SYMBOL_KINDS[it.section],
        "range": text.range(it.begin, it.last),
        "selectionRange": text.name_range(it.start, it.end),
        "children": [],
    }


def symbols_named(plant: Plant, query: str) -> Written:
    """The units of the folder whose names have the letters of the query in their order, those that begin with it first; then ports, instances and other
    names of units with all of the query, those that are it first."""
    wanted = query.upper()
    letters = re.compile(".*".join(map(re.escape, wanted)))
    found = [it for it in plant.texts() if it.head and letters.search(it.name)]
    found.sort(key=lambda it: (not it.name.startswith(wanted), wanted not in it.name, it.name))
    units = [f'{{"name":"{it.name}","kind":{SYMBOL_KINDS[it.kind]:d},"location":{it.head}}}' for it in found]
    return joined([*units, *(_written_symbol(text, it) for text, it in _names(plant, wanted))])


def _names(plant: Plant, wanted: str) -> list[tuple[Text, Declaration]]:
    """What units declare with these letters in its name."""
    if len(wanted) < _LEAST_LETTERS:
        return []
    found = [(text, it) for text in plant.texts_with(wanted) for it in text.unit.declared if it.key.space != TYPE and wanted in it.key.name]
    found.sort(key=lambda it: (it[1].key.name != wanted, not it[1].key.name.startswith(wanted), it[1].key.name, it[0].name))
    return found[:_MOST_NAMES]


def _written_symbol(text: Text, it: Declaration) -> str:
    (place,) = text.written_locations([it])
    return f'{{"name":"{it.words}","kind":{SYMBOL_KINDS[it.section]:d},"containerName":"{it.key.owner}","location":{place}}}'
