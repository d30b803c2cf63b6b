"""The fix for a connection whose data 4diac converts: a block such as F_INT_TO_DINT in between, with the events that go with the data."""
from __future__ import annotations

from collections.abc import Iterator
from typing import NamedTuple

from bench61499.language.declarations import EVENT, EVENT_SECTIONS, INSTANCE, VARIABLE, Connection, Declaration, Key, Use
from bench61499.language.plant import Plant, Text
from bench61499.language.widening import wider

Edit = tuple[int, int, str]
_TYPE = """\
(* Converts a value of type {source} to {destination} *)
FUNCTION_BLOCK {name}
  EVENT_INPUT
    REQ WITH IN;
  END_EVENT
  EVENT_OUTPUT
    CNF WITH OUT;
  END_EVENT
  VAR_INPUT
    IN : {source};
  END_VAR
  VAR_OUTPUT
    OUT : {destination};
  END_VAR
END_FUNCTION_BLOCK
"""


class Conversion(NamedTuple):
    """A connection, and the types of its ends, in upper case."""

    connection: Connection
    source: str
    destination: str

    @property
    def type(self) -> str:
        return f"F_{self.source}_TO_{self.destination}"

    @property
    def type_text(self) -> str:
        """The interface of the block, which a runtime has."""
        return _TYPE.format(name=self.type, source=self.source, destination=self.destination)


def conversion_at(plant: Plant, text: Text, start: int, end: int) -> Conversion | None:
    """The connection whose destination is a span, if its data are converted."""
    for it in text.unit.connections:
        if it.space == VARIABLE and it.destination and it.destination[0].start == start and it.destination[-1].end == end:
            types = [_type(plant, side) for side in (it.source, it.destination)]
            return Conversion(it, *types) if types[1] in wider(types[0]) else None
    return None


def _type(plant: Plant, end: tuple[Use, ...]) -> str:
    its = plant.declaration(plant.key(end[-1]))
    return its.type.upper() if its else ""


def new_name(text: Text, scope: str) -> str:
    """A name that no instance of a network has."""
    taken = {it.key.name for it in text.unit.declared if it.key.space == INSTANCE and it.key.scope == scope}
    return next(name for number in range(1, len(taken) + 2) if (name := f"CONVERT{number}") not in taken)


def rerouted(plant: Plant, text: Text, it: Conversion, name: str) -> list[Edit]:
    """The changes of connections: the data go through the block, and so do all events that go with them, where each of these leads to each."""
    edits = [_through(text, it.connection, f"{name}.IN", f"{name}.OUT")]
    ways = list(_events(plant, text, it.connection))
    pairs = {(_words(text, way.source), _words(text, way.destination)) for way in ways}
    if len(pairs) < len({source for source, _ in pairs}) * len({destination for _, destination in pairs}):
        return edits
    seen: set[str] = set()
    for way in ways:
        source, destination = _words(text, way.source), _words(text, way.destination)
        new = [f"{source} TO {name}.REQ", f"{name}.CNF TO {destination}"]
        edits.append(_replaced(way, "; ".join(item for item in new if item not in seen)))
        seen |= set(new)
    return edits


def _through(text: Text, it: Connection, first: str, second: str) -> Edit:
    return _replaced(it, f"{_words(text, it.source)} TO {first}; {second} TO {_words(text, it.destination)}")


def _replaced(it: Connection, words: str) -> Edit:
    return it.source[0].start, it.destination[-1].end, words


def _words(text: Text, end: tuple[Use, ...]) -> str:
    return text.places.words(end[0].start, end[-1].end)


def _events(plant: Plant, text: Text, it: Connection) -> Iterator[Connection]:
    """The connections of events that go with both ends of one of data."""
    for way in text.unit.connections:
        if way.space == EVENT and way.scope == it.scope and way.destination and all(
            _goes_with(plant, event, data) for event, data in ((way.source, it.source), (way.destination, it.destination))
        ):
            yield way


def _goes_with(plant: Plant, event: tuple[Use, ...], data: tuple[Use, ...]) -> bool:
    """Whether an end of an event is of the same instance as one of data, or of the unit itself as that is, and has the data after WITH."""
    if [one.key.name for one in event[:-1]] != [one.key.name for one in data[:-1]]:
        return False
    key, name = plant.key(event[-1]), data[-1].key.name
    its = plant.declaration(Key(key.unit, EVENT, "", key.name))
    return its is not None and its.section in EVENT_SECTIONS and name in map(str.upper, its.companions)


def mapping_of(text: Text, it: Conversion, name: str) -> str | None:
    """The mapping of the block in a system: to the resource of the destination, or of the source, if that has a mapping of its own."""
    for end in (it.connection.destination, it.connection.source):
        application = it.connection.scope
        found = _mapping(text, application, end[0].key.name) if application and len(end) > 1 else None
        if found:
            return f"{_application(text, application)}.{name} ON {found};"
    return None


def _application(text: Text, scope: str) -> str:
    its: Declaration | None = next((it for it in text.unit.declared if it.section == "APPLICATION" and it.key.name == scope.partition("#")[0]), None)
    return its.words if its else scope


def _mapping(text: Text, application: str, instance: str) -> str | None:
    """The resource that an instance of an application is mapped to, as written."""
    uses = text.unit.uses
    for at, use in enumerate(uses[:-3]):
        path = uses[at : at + 4]
        if use.key.space == "application" and [it.key.space for it in path[1:]] == [INSTANCE, "device", "resource"]:
            if (use.key.name, path[1].key.name) == (application.partition("#")[0], instance):
                return f"{text.places.words(path[2].start, path[2].end)}.{text.places.words(path[3].start, path[3].end)}"
    return None
