"""What an editor shows within a text: the resources of instances, and the types that connections carry."""
from __future__ import annotations

from collections.abc import Iterator
from itertools import islice
from typing import Any

from bench61499.language.declarations import EVENT, Declaration
from bench61499.language.plans import resources
from bench61499.language.plant import Plant, Text
from bench61499.language.wording import counted
from bench61499.lsp.instances import homes_of_instance, leading_to, paths, units_in

_TYPE, _OTHER = 1, 0
_MOST_NAMED = 2
_MOST_PATHS = 256
"""Instances of the unit in one system whose resources are looked at."""


def hints(plant: Plant, text: Text, start: int, end: int) -> list[dict[str, Any]]:
    """The hints between two places: after an instance `on NORTH.MOTION`, by the mappings of all systems, and after the source of a connection its type."""
    its = [it for it in text.unit.declared if it.section in ("FBS", "SUBAPPS") and start <= it.end <= end]
    homes = _homes(plant, text, its) if its else {}
    found = [_hint(text, it.end, f" on {_named(names)}", _OTHER) for it in its if (names := homes.get(it.start))]
    return [*found, *(_hint(text, at, f" : {of}", _TYPE) for at, of in _types(plant, text) if start <= at <= end)]


def _types(plant: Plant, text: Text) -> Iterator[tuple[int, str]]:
    """The ends of the sources of connections of data and adapters, with the types of these ports."""
    for it in text.unit.connections:
        port = plant.declaration(plant.key(it.source[-1])) if it.space != EVENT and it.destination else None
        if port and port.type:
            yield it.source[-1].end, port.type


def _homes(plant: Plant, text: Text, its: list[Declaration]) -> dict[int, list[str]]:
    """The resources of instances of a text, in all systems, by where they are declared."""
    leading = leading_to(plant, text.unit.name)
    systems = [text] if text.unit.kind == "SYSTEM" else [plant.declaring(it)[0] for it in units_in(leading, plant, "SYSTEM")]
    found: dict[int, dict[str, None]] = {it.start: {} for it in its}
    for system in systems:
        mapped = resources(system.text)
        fronts: list[tuple[str, ...]] = [()] if system is text else list(islice(paths(plant, system, text.unit.name, leading), _MOST_PATHS))
        for it in its:
            own = (it.key.owner, it.key.name) if it.key.scope else (it.key.name,)
            for front in fronts:
                found[it.start] |= dict.fromkeys(homes_of_instance(it, (*front, *own), mapped))
    return {at: sorted(names) for at, names in found.items()}


def _named(names: list[str]) -> str:
    return " and ".join(names) if len(names) <= _MOST_NAMED else counted(len(names), "resource")


def _hint(text: Text, at: int, words: str, kind: int) -> dict[str, Any]:
    its = {"position": text.range(at, at)["end"], "label": words, "paddingRight": False}
    return {**its, "kind": kind} if kind else its
