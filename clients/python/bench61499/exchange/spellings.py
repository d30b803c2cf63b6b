"""The names of a plan, which are in upper case, as the texts spell them, and as files had them."""
from __future__ import annotations

import re
from collections.abc import Iterable, Mapping
from dataclasses import dataclass
from functools import lru_cache
from typing import Protocol, TypeVar

from bench61499.exchange import names
from bench61499.exchange.exchanged import Instance, Network, Unit, recorded
from bench61499.exchange.generic import generic_type, runtime_type
from bench61499.exchange.inouts import inputs_of
from bench61499.exchange.outgoing import recorded_names
from bench61499.exchange.values import spelled_value, unquoted

_UNFIT = re.compile(r"[\x00-\x1f\x7f;.]")


class _Named(Protocol):
    name: str


N = TypeVar("N", bound=_Named)


def find(its: Iterable[N], name: str) -> N | None:
    """The first of these that has a name, in any case."""
    return next((it for it in its if it.name.upper() == name), None)


@dataclass(frozen=True)
class Spelled:
    """An instance of a system: its names from the application on, and the unit of its type if that is known."""

    names: tuple[str, ...]
    unit: Unit | None


@dataclass(frozen=True)
class Place:
    """A port of a block: its path in upper case, and the names of the port: one, or those of an adapter and of its port."""

    block: str
    ports: tuple[str, ...]


class Spellings:
    """The names of a system. `types` are all units by their names in upper case."""

    def __init__(self, system: Unit, types: Mapping[str, Unit], plain_types: bool):
        self.system, self.types, self._plain_types = system, types, plain_types
        self._instances: dict[str, Spelled | None] = {}
        self._packages = {it["type"].upper(): it["package"] for it in recorded(system, "Package") if {"type", "package"} <= it.keys()}
        self._recorded = lru_cache(None)(lambda name: recorded_names(types[name]))

    def name(self, owner: Unit, name: str) -> str:
        """A name of a unit as the file had it, if a boot file can have it."""
        file = names.restored(name, self._recorded(owner.name.upper()))
        return name if _UNFIT.search(file) else file

    def type(self, name: str) -> str:
        """A type with its package; one that is not among the texts is that of a resource."""
        unit = self.types.get(name.upper())
        if not unit:
            return self._packaged(self._packages.get(name.upper(), ""), self.name(self.system, name))
        if generic_type(unit):
            return runtime_type(unit)
        return self._packaged(unit.record("CompilerInfo", "packageName").strip(), self.name(unit, unit.name))

    def _packaged(self, package: str, name: str) -> str:
        return f"{package}::{name}" if package and not self._plain_types else name

    def value(self, owner: Unit, value: str) -> str:
        """A constant of a unit as the file had it."""
        if value in (recorded := self._recorded(owner.name.upper())):
            return recorded[value]
        words = unquoted(value[1:-1]) if value.startswith("[") else None
        if words is not None and spelled_value(words) == (value, True):
            return words
        return names.replace_words(value, names.OPERATOR_WORDS, lambda name: self.name(owner, name))

    def instance(self, path: str) -> Spelled | None:
        """The instance at a path in upper case, which begins with an application; the application itself if that is all."""
        if path not in self._instances:
            for end in (*(at for at, it in enumerate(path) if it == "."), len(path)):  # From the application on: there may be thousands of names.
                self._instances[path[:end]] = self._instance(path[:end])
        return self._instances[path]

    def _instance(self, path: str) -> Spelled | None:
        head, _, last = path.rpartition(".")
        if not head:
            application = find(self.system.applications, last)
            return Spelled((self.name(self.system, application.name),), None) if application else None
        outer = self.instance(head)
        owner = outer.unit if outer and "." in head else self.system
        its = find(self._network(head, owner).instances, last) if outer and owner else None
        if not outer or not owner or not its:
            return None
        return Spelled((*outer.names, self.name(owner, its.name)), self.types.get(its.type.upper()))

    def _network(self, path: str, owner: Unit | None) -> Network:
        if "." in path:
            return owner.network if owner and owner.network else Network()
        application = find(self.system.applications, path)
        return application.network if application else Network()

    def owner(self, path: str) -> Unit:
        """The unit that declares the instance at a path."""
        outer = self.instance(path.rpartition(".")[0])
        return outer.unit if outer and outer.unit else self.system

    def parameters(self, of: Instance) -> list[tuple[str, str]]:
        """The parameters of a device or a resource."""
        return [(self.name(self.system, it.name), self.value(self.system, it.value)) for it in of.parameters]

    def ports(self, place: Place) -> tuple[str, ...]:
        """The names of a port."""
        block = self.instance(place.block)
        return tuple(self._ports(block.unit if block else None, place.ports))

    def _ports(self, unit: Unit | None, ports: tuple[str, ...]) -> list[str]:
        if not unit:
            return list(ports)
        if len(ports) == 1:
            ports = (inputs_of(unit).get(ports[0], ports[0]).upper(),)
            return [self.name(unit, next((it for it in unit.ports() if it.upper() == ports[0]), ports[0]))]
        adapter = find((it for group in unit.adapters.values() for it in group), ports[0])
        inner = self.types.get(adapter.type.upper()) if adapter else None
        return [*self._ports(unit, ports[:1]), *self._ports(inner, ports[1:])]

    def is_plug(self, place: Place) -> bool:
        """Whether the first name of a port through an adapter is a plug."""
        block = self.instance(place.block)
        return bool(block and block.unit and find(block.unit.adapters["PLUGS"], place.ports[0]))

    def withs(self, place: Place) -> set[tuple[str, ...]]:
        """The ports of the data that go with an event."""
        block = self.instance(place.block)
        unit = block.unit if block else None
        for name in place.ports[:-1]:
            adapter = find((it for group in unit.adapters.values() for it in group), name) if unit else None
            unit = self.types.get(adapter.type.upper()) if adapter else None
        event = find((it for group in unit.events.values() for it in group), place.ports[-1]) if unit else None
        return {(*place.ports[:-1], it.upper()) for it in event.withs} if event else set()
