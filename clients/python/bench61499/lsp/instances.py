"""Where instances of a type are in systems and subapplications, by the texts, and the resources that mappings give them."""
from __future__ import annotations

from collections.abc import Iterator, Mapping

from bench61499.language.declarations import TYPE, Declaration, Key, Unit
from bench61499.language.plant import Plant, Text

_MOST_INSTANCES = 4_096
"""Instances that are looked at in one system: the most that one may have."""


def leading_to(plant: Plant, name: str) -> set[str]:
    """A type and all that have instances of it, or of what leads to it."""
    found, waiting = {name}, [name]
    while waiting:
        its = waiting.pop()
        above = {text.unit.name for text, _ in plant.uses(Key(its, TYPE, "", its)) if any(it.type.upper() == its for it in instances(text.unit))}
        waiting += above - found
        found |= above
    return found


def units_in(leading: set[str], plant: Plant, kind: str) -> list[str]:
    """The units of a kind among those that lead to a type."""
    return sorted(leading.intersection(map(str.upper, plant.kinds(kind))))


def instances(unit: Unit) -> Iterator[Declaration]:
    """The blocks and subapplications in a unit, whatever application they are in."""
    return (it for it in unit.declared if it.section in ("FBS", "SUBAPPS"))


def paths(plant: Plant, root: Text, name: str, leading: set[str]) -> Iterator[tuple[str, ...]]:
    """The paths of the instances of a type in a system or a subapplication, the application first. A type that contains itself has no end, so there is a bound."""
    waiting = [(_front(it), it.type.upper()) for it in instances(root.unit)]
    for _ in range(_MOST_INSTANCES):
        if not waiting:
            return
        path, its = waiting.pop()
        if its == name:
            yield path
        if its in leading and (unit := plant.unit(its)):
            waiting += [((*path, it.key.name), it.type.upper()) for it in instances(unit)]


def _front(it: Declaration) -> tuple[str, ...]:
    return (it.key.owner, it.key.name) if it.key.scope else (it.key.name,)


def home_of(path: tuple[str, ...], homes: Mapping[str, str]) -> str | None:
    """The resource of the mapping with the longest path that leads to an instance."""
    found = (".".join(path[:length]) for length in range(len(path), 0, -1))
    return next((homes[it] for it in found if it in homes), None)


def homes_of_instance(it: Declaration, path: tuple[str, ...], homes: Mapping[str, str]) -> list[str]:
    """The resource of an instance; of a subapplication whose parts have mappings of their own, all of theirs."""
    whole = home_of(path, homes)
    if it.section != "SUBAPPS":
        return [whole] if whole else []
    front = ".".join(path) + "."
    return [*([whole] if whole else []), *(home for mapped, home in homes.items() if mapped.startswith(front))]
