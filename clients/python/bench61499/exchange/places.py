"""Where blocks and states are drawn, in hundredths of a line."""
from __future__ import annotations

from collections import Counter
from collections.abc import Sequence

from bench61499.exchange.exchanged import Network, State, Transition, Unit
from bench61499.language.layers import Gaps, Size, layered

_LINE, _LETTER = 100, 60
_GAPS = Gaps(across=600, down=200, unbroken=9000)
_ASPECT = 1.5
Place = tuple[int, int]


def of_instances(network: Network, types: dict[str, Unit]) -> list[Place]:
    """The left upper corner of each instance."""
    index = {it.name.upper(): at for at, it in reversed(list(enumerate(network.instances)))}
    ends = [(it.source.partition(".")[0], it.destination.partition(".")[0]) for its in network.connections.values() for it in its]
    edges = [(index[source.upper()], index[destination.upper()]) for source, destination in ends if {source.upper(), destination.upper()} <= index.keys()]
    return _placed([_size(it.name, it.type, types.get(it.type.upper())) for it in network.instances], edges)


def of_states(states: Sequence[State], transitions: Sequence[Transition]) -> list[Place]:
    index = {it.name.upper(): at for at, it in reversed(list(enumerate(states)))}
    ends = [(it.source.upper(), it.destination.upper()) for it in transitions]
    edges = [(index[source], index[destination]) for source, destination in ends if {source, destination} <= index.keys()]
    return _placed([(_LETTER * (len(it.name) + 2), _LINE * (1 + len(it.actions))) for it in states], edges)


def of_transitions(states: Sequence[State], corners: Sequence[Place], transitions: Sequence[Transition]) -> list[Place]:
    """A place half way between the states of each transition, lower for each further one between the same states."""
    of = {it.name.upper(): corner for it, corner in reversed(list(zip(states, corners)))}
    seen: Counter[tuple[str, str]] = Counter()
    found = []
    for it in transitions:
        ends = it.source.upper(), it.destination.upper()
        (left, top), (right, bottom) = (of.get(end, (0, 0)) for end in ends)
        found.append(((left + right) // 2, (top + bottom) // 2 + 2 * _LINE * seen[ends]))
        seen[ends] += 1
    return found


def _placed(sizes: list[Size], edges: list[tuple[int, int]]) -> list[Place]:
    return [(round(x), round(y)) for x, y in layered(sizes, edges, _ASPECT, _GAPS).corners] if sizes else []


def _size(name: str, type_: str, unit: Unit | None) -> Size:
    """A block is as tall as its longer side has ports, and as wide as its longest names."""
    left, right = _ports(unit, "EVENT_INPUT", "VAR_INPUT", "SOCKETS"), _ports(unit, "EVENT_OUTPUT", "VAR_OUTPUT", "PLUGS")
    widest = max(len(name), len(type_) + 2, *(len(it) + 2 for it in (*left, *right))) if left or right else max(len(name), len(type_))
    return 2 * _LETTER * (widest + 2), _LINE * (3 + max(len(left), len(right)))


def _ports(unit: Unit | None, *sections: str) -> list[str]:
    if not unit:
        return []
    events, variables, adapters = sections
    return [
        *(it.name for it in unit.events[events]),
        *(it.name for it in unit.variables[variables]),
        *(it.name for it in unit.adapters[adapters]),
    ]
