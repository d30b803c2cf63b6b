"""Subapplications without a type: each has a unit of its own, and export writes it where it is used again."""
from __future__ import annotations

from collections import Counter
from collections.abc import Mapping

from bench61499.exchange.exchanged import Unit
from bench61499.exchange.lowering import networks, subapplications

RECORD = "Untyped"


def untyped(units: Mapping[str, Unit]) -> frozenset[str]:
    """The units that are written within others, by their names in upper case as `units` are: those of subapplications that had no type, if one instance
    of a unit with a file, or of one within that, has them."""
    uses = Counter(it.type.upper() for unit in units.values() for network in networks(unit) for it in network.instances)
    own = {name for name, unit in units.items() if unit.record(RECORD, "name") and uses[name] == 1}
    reached: set[str] = set()
    waiting = [unit for name, unit in units.items() if name not in own]
    while waiting:
        found = {it.type.upper() for _, it in subapplications(waiting.pop())} & own - reached
        reached |= found
        waiting += (units[name] for name in found)
    return frozenset(reached)
