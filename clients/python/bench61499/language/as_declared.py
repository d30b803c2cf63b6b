"""The names of networks and plans, which the workbench gives in capitals, as the texts declare them."""
from __future__ import annotations

from collections.abc import Iterable, Iterator, Mapping
from dataclasses import replace
from functools import cache

from bench61499 import Link
from bench61499.language.copies import Originals
from bench61499.language.declarations import ADAPTER_SECTIONS, APPLICATION, DEVICE, EVENT, INSTANCE, RESOURCE, VARIABLE, Declaration, Key, Unit
from bench61499.language.texts import Texts

_SPACES = {"event": EVENT, "data": VARIABLE}
"""The spaces of ports by the sorts of links."""


def declared(texts: Texts, unit: str) -> str:
    """The name of a unit as its text declares it. The unit's own name if the text declares another one first."""
    its = texts.unit(unit)
    words = its.declared[0].words if its and its.declared else unit
    return words if words.upper() == unit.upper() else unit


def shown_units(texts: Mapping[str, str], units: Iterable[str]) -> list[str]:
    """Units as they are declared, copies of types as their originals, each once."""
    of, originals = Texts.of(texts), Originals(texts)
    return list(dict.fromkeys(declared(of, originals.of(it) or it) for it in units))


class AsDeclared:
    """The names of one subapplication or system. What no text declares stays as it is."""

    def __init__(self, texts: Texts, unit: str):
        self._texts, self._unit = texts, unit
        self._spelled = cache(self._path)

    def path(self, path: str) -> str:
        """The path of a block, of a subapplication instance or of an application."""
        return self._spelled(path, "")[0]

    def type(self, name: str) -> str:
        return declared(self._texts, name)

    def resource(self, name: str) -> str:
        """A resource, `DEVICE.RESOURCE`."""
        device, _, resource = name.partition(".")
        keys = Key(self._unit, DEVICE, "", device), Key(self._unit, RESOURCE, device, resource)
        its = [self._texts.declaration(key) for key in keys]
        return ".".join(found.words if found else words for found, words in zip(its, (device, resource)))

    def port(self, place: str, space: str) -> str:
        """The place of a port of a space: the path of its block and its name."""
        return self._spelled(place, space)[0]

    def place(self, sort: str, place: str) -> str:
        """The place of a port of the sort of a link."""
        return self.port(place, _SPACES.get(sort, INSTANCE))

    def end(self, path: str) -> str:
        """What can be traced: a block, a plug, a socket or a port, of whatever sort."""
        its = (self._spelled(path, space) for space in ("", EVENT, VARIABLE))
        return next((words for words, is_known in its if is_known), self.path(path))

    def port_of(self, type_: str, sort: str, name: str) -> str:
        """A port of a type, of the sort of a link."""
        its = self._texts.declaration(Key(type_, _SPACES.get(sort, INSTANCE), "", name))
        return its.words if its else name

    def own_port(self, sort: str, name: str) -> str:
        """A port of the subapplication itself."""
        return self.port_of(self._unit, sort, name)

    def _ends(self, source: str, destination: str, spaces: tuple[str, ...]) -> tuple[str, str]:
        """The ends of a link of the first of these sorts that both can be."""
        for space in spaces:
            (one, is_there), (other, is_known) = (self._spelled(it, space) for it in (source, destination))
            if is_there and is_known:
                return one, other
        return self.path(source), self.path(destination)

    def link(self, it: Link) -> Link:
        return replace(it, source=self.place(it.sort, it.source), destination=self.place(it.sort, it.destination))

    def commands(self, its: Iterable[str]) -> Iterator[str]:
        """The commands of a resource. They have events and data in one form: of two that are the same the first is of events."""
        seen: set[str] = set()
        for it in its:
            yield self._command(it, (VARIABLE, EVENT) if it in seen else (EVENT, VARIABLE))
            seen.add(it)

    def _command(self, words: str, spaces: tuple[str, ...]) -> str:
        match words.split(" "):
            case ["CREATE", "FB", path, type_]:
                return f"CREATE FB {self.path(path)} {self.type(type_)}"
            case ["CREATE", "CONNECTION", source, destination]:
                return f"CREATE CONNECTION {' '.join(self._ends(source, destination, spaces))}"
            case ["WRITE", place, *constant]:
                return " ".join(["WRITE", self.port(place, VARIABLE), *constant])
            case ["START", resource]:
                return f"START {self.resource(resource)}"
        return words

    def _path(self, path: str, space: str) -> tuple[str, bool]:
        """A path, perhaps of a port in a space, and whether all its names are declared."""
        names, unit, scope = path.split("."), self._texts.unit(self._unit), ""
        found: list[Declaration | None] = []
        for at, name in enumerate(names):
            if unit and unit.kind == "SYSTEM" and not at:
                found.append(unit.first.get(Key(unit.name, APPLICATION, "", name)))
                scope = name
                continue
            its = _named(unit, scope, name, space if at == len(names) - 1 else "") if unit else None
            found.append(its)
            unit, scope = self._texts.unit(its.type.upper()) if its and its.key.space == INSTANCE else None, ""
        return ".".join(its.words if its else name for its, name in zip(found, names)), all(found)


def _named(unit: Unit, scope: str, name: str, space: str) -> Declaration | None:
    """What a name is in a unit: a port if that is asked for, else an instance. In a block nothing but plugs and sockets is seen from outside."""
    port = unit.first.get(Key(unit.name, space, "", name)) if space else None
    its = unit.first.get(Key(unit.name, INSTANCE, scope, name))
    return port or (its if its and (unit.kind != "FUNCTION_BLOCK" or its.section in ADAPTER_SECTIONS) else None)
