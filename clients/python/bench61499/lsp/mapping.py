"""Mappings that are missing: an instance that no mapping gives a resource gets one."""
from __future__ import annotations

from collections.abc import Iterator
from itertools import islice

from bench61499.language.declarations import DEVICE, Declaration, Key
from bench61499.language.nesting import Nesting
from bench61499.language.plans import resources
from bench61499.language.plant import Plant, Text
from bench61499.language.tokens import pieces
from bench61499.lsp.fixes import Fix, added, at_end
from bench61499.lsp.instances import homes_of_instance, leading_to, paths, units_in

_MOST_PATHS, _MOST_RESOURCES = 4, 8
"""Instances of a type, and resources of their systems, that are offered."""


def mappings(plant: Plant, text: Text, start: int, end: int) -> Iterator[Fix]:
    """For the instance that is declared at a span, in a system or deeper, a mapping to each resource of its system, if it has none."""
    its = next((it for it in text.unit.declared if it.section in ("FBS", "SUBAPPS") and it.start <= end and start <= it.end), None)
    if not its:
        return
    leading = leading_to(plant, text.unit.name)
    systems = [text] if text.unit.kind == "SYSTEM" else [plant.declaring(it)[0] for it in units_in(leading, plant, "SYSTEM")]
    for system in systems:
        mapped = resources(system.text)
        fronts: list[tuple[str, ...]] = [(its.key.owner,)] if system is text else sorted(paths(plant, system, text.unit.name, leading))
        unmapped = (path for front in fronts if not homes_of_instance(its, path := (*front, its.key.name), mapped))
        for path in islice(unmapped, _MOST_PATHS):
            yield from _offered(plant, text, system, _spelled(plant, system, path))


def _offered(plant: Plant, text: Text, system: Text, path: str) -> Iterator[Fix]:
    where = "" if system is text else f" in {system.unit.declared[0].words}"
    for resource in _resources(system)[:_MOST_RESOURCES]:
        yield Fix(f"Map {path} on {resource}{where}", system, *_place(system, f"{path} ON {resource};"))


def _resources(system: Text) -> list[str]:
    """The resources of a system as they are spelled, `DEVICE.RESOURCE`."""
    unit = system.unit
    devices = {it.key.owner: unit.first.get(Key(unit.name, DEVICE, "", it.key.owner)) for it in unit.declared if it.section == "RESOURCE"}
    return [f"{device.words}.{it.words}" for it in unit.declared if it.section == "RESOURCE" and (device := devices[it.key.owner])]


def _spelled(plant: Plant, system: Text, path: tuple[str, ...]) -> str:
    """A path of names as they are declared, the application first."""
    application, *names = path
    words = [next((it.words for it in system.unit.declared if it.section == "APPLICATION" and it.key.name == application), application)]
    unit, scope = system.unit, next((it.key.scope for it in system.unit.declared if it.section in ("FBS", "SUBAPPS") and it.key.owner == application), application)
    for name in names:
        its: Declaration | None = unit.instance(scope, name)
        words.append(its.words if its else name)
        unit, scope = (its and plant.unit(its.type.upper())) or unit, ""
    return ".".join(words)


def _place(system: Text, item: str) -> tuple[int, int, str]:
    """At the end of the mappings, or in new ones at the end of the system."""
    its = [it for it in pieces(system.text) if it.kind != "comment"]
    pairs = Nesting(its).pairs
    if not any(its[begin].upper == "MAPPINGS" for begin, _ in pairs):
        for begin, end in pairs:
            if its[begin].upper == "SYSTEM":
                return at_end(system, its[end].start, f"MAPPINGS {item} END_MAPPINGS")
    return added(system, "MAPPINGS", item)
