"""Connections of imported units whose data tools convert, and the workbench does not."""
from __future__ import annotations

from collections.abc import Iterator, Mapping
from typing import NamedTuple

from bench61499.exchange.exchanged import Connection, Unit
from bench61499.exchange.lowering import networks
from bench61499.language.widening import is_converted


class Conversion(NamedTuple):
    connection: Connection
    source: str
    destination: str

    @property
    def words(self) -> str:
        ends = f"{self.connection.source} ({self.source}) to {self.connection.destination} ({self.destination})"
        return f"{ends}: 4diac converts this, and check reports DATA_TYPE, as the workbench compares the names of types"


class Conversions:
    """What is converted in units, of which `units` are all by their names in upper case."""

    def __init__(self, units: Mapping[str, Unit]):
        self._units = units
        self._ports: dict[str, dict[str, str]] = {}

    def of(self, unit: Unit) -> Iterator[Conversion]:
        """The connections of a unit that are converted."""
        own = _ports(unit)
        for network in networks(unit):
            instances = {it.name.upper(): it.type.upper() for it in reversed(network.instances)}
            for it in network.connections["DATA_CONNECTIONS"]:
                types = [self._type(end, own, instances) for end in (it.source, it.destination)]
                if all(types) and is_converted(*types):
                    yield Conversion(it, *types)

    def _type(self, end: str, own: Mapping[str, str], instances: Mapping[str, str]) -> str:
        """The type of an end; empty if it is not known."""
        head, point, port = end.upper().partition(".")
        return self._ports_of(instances.get(head, "")).get(port, "") if point else own.get(head, "")

    def _ports_of(self, name: str) -> Mapping[str, str]:
        if name not in self._ports:
            self._ports[name] = _ports(self._units[name]) if name in self._units else {}
        return self._ports[name]


def _ports(unit: Unit) -> dict[str, str]:
    """The types of the data ports of a unit by their names in upper case. Of two with a name it is the first."""
    return {it.name.upper(): it.type for section in ("VAR_OUTPUT", "VAR_INPUT") for it in reversed(unit.variables[section])}
