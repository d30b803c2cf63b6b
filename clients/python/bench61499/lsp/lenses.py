"""What an editor shows above a unit: how often it is used, and on which resources its instances run."""
from __future__ import annotations

from typing import Any

from bench61499.language.declarations import TYPE
from bench61499.language.plans import resources
from bench61499.language.plant import Plant, Text
from bench61499.language.wording import counted, listed
from bench61499.lsp.instances import home_of, instances, leading_to, paths

_MOST_NAMED = 4


def lenses(plant: Plant, text: Text) -> list[dict[str, Any]]:
    """The lenses of a unit, at its name."""
    head = next((it for it in text.unit.declared if it.key.space == TYPE), None)
    if not head:
        return []
    uses = sum(len(those) for _, those in plant.uses(head.key))
    titles = [f"used {counted(uses, 'time')}"] if head.section != "SYSTEM" else []
    if head.section in ("FUNCTION_BLOCK", "SUBAPPLICATION") and (homes := homes_of(plant, text.unit.name)):
        titles.append(f"runs on {listed([*homes[:_MOST_NAMED], *([f'{len(homes) - _MOST_NAMED:,} more'] if len(homes) > _MOST_NAMED else [])], 'and')}")
    return [{"range": text.name_range(head.start, head.end), "command": {"title": it, "command": ""}} for it in titles]


def homes_of(plant: Plant, name: str) -> list[str]:
    """The resources of all systems on which instances of a type run; with the name of the system if there is more than one."""
    systems = sorted(plant.kinds("SYSTEM"))
    leading = leading_to(plant, name)
    found: set[str] = set()
    for system in systems:
        its = plant.declaring(system.upper())[0]
        if not leading.isdisjoint(it.type.upper() for it in instances(its.unit)):
            front = f"{system}: " if len(systems) > 1 else ""
            found |= {f"{front}{home}" for home in _homes(plant, its, name, leading)}
    return sorted(found)


def _homes(plant: Plant, system: Text, name: str, leading: set[str]) -> set[str]:
    """The resources of one system on which instances of a type run."""
    homes = resources(system.text)
    return {home for path in paths(plant, system, name, leading) if (home := home_of(path, homes))}
