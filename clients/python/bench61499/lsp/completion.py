"""The names and words that may stand at a place."""
from __future__ import annotations

from collections.abc import Iterable, Iterator
from enum import IntEnum
from typing import NamedTuple

from bench61499.language.declarations import (
    ALGORITHM, APPLICATION, CONNECTION_SECTIONS, DATA_TYPE, DESTINATION, DEVICE, ELEMENTARY, EVENT, FIELD, INSTANCE, INTERFACE, PARAMETERS, RESOURCE,
    SOURCE, STATE, TYPE, TYPE_KINDS, VARIABLE, Declaration, Step, Unit, Use, Wanted, is_elementary, is_free,
)
from bench61499.language.full_library import FUNCTIONS
from bench61499.language.plant import Plant, Text
from bench61499.language.reader import read
from bench61499.language.tokens import pieces


class ItemKind(IntEnum):
    """How editors sort what may be written."""

    METHOD = 2
    FUNCTION = 3
    FIELD = 5
    VARIABLE = 6
    CLASS = 7
    INTERFACE = 8
    MODULE = 9
    PROPERTY = 10
    KEYWORD = 14
    SNIPPET = 15
    ENUM_MEMBER = 20
    STRUCT = 22
    EVENT = 23


class Candidate(NamedTuple):
    """A name or a word that may stand at a place."""

    words: str
    kind: ItemKind
    detail: str = ""


_TYPE_ITEMS = {"ADAPTER": ItemKind.INTERFACE, "FUNCTION_BLOCK": ItemKind.CLASS, "SUBAPPLICATION": ItemKind.MODULE}
_INPUTS = {EVENT: ("EVENT_INPUT",), VARIABLE: ("VAR_INPUT",), INSTANCE: ("SOCKETS",)}
_OUTPUTS = {EVENT: ("EVENT_OUTPUT",), VARIABLE: ("VAR_OUTPUT",), INSTANCE: ("PLUGS",)}
_OWN = {SOURCE: _INPUTS, DESTINATION: _OUTPUTS}
"""The own ports that a source and a destination may be."""
ACROSS = {SOURCE: _OUTPUTS, DESTINATION: _INPUTS}
"""The same of the ports of an instance, which are seen from outside."""
_PORTS = {"PLUGS": _OWN, "SOCKETS": ACROSS, "FBS": ACROSS, "SUBAPPS": ACROSS}
"""By the section of an instance: the sections of its type that have what a source and a destination may be."""
_ITEMS = {
    EVENT: ItemKind.EVENT,
    VARIABLE: ItemKind.VARIABLE,
    FIELD: ItemKind.FIELD,
    INSTANCE: ItemKind.FIELD,
    STATE: ItemKind.ENUM_MEMBER,
    ALGORITHM: ItemKind.METHOD,
    APPLICATION: ItemKind.MODULE,
    DEVICE: ItemKind.STRUCT,
    RESOURCE: ItemKind.PROPERTY,
}
_SECTIONS = {STATE: "EC_STATES", ALGORITHM: "ALGORITHM", APPLICATION: "APPLICATION", DEVICE: "DEVICE"}


def candidates(plant: Plant, text: Text, place: int) -> list[Candidate]:
    """What may stand at a place, where perhaps the beginning of a word stands already; each once."""
    front = _front(text, place)
    if front is None:
        return []
    before = read(front)
    other = _other_end(text, before, place)
    of = plant.declaration(plant.key(other)) if other else None
    names = [it for wanted in before.wanted for it in named(plant, text.unit, wanted, of.type if of else "")]
    words = [Candidate(word, ItemKind.KEYWORD) for word in before.words if word.isidentifier()]
    return list(dict.fromkeys([*names, *_of_full(text, before, place), *words]))


def _of_full(text: Text, before: Unit, place: int) -> Iterator[Candidate]:
    """The variables of an algorithm IN ST_FULL around a place, and functions, where a value is possible."""
    body = next((it for it in text.unit.bodies if it.begin <= place <= it.end), None)
    if body and any(it.space == VARIABLE and not it.path for it in before.wanted):
        yield from (Candidate(it.name.words, ItemKind.VARIABLE, f"{it.section} : {it.spelled}") for it in body.locals)
        yield from (Candidate(name, ItemKind.FUNCTION, "function") for name in FUNCTIONS)


def _front(text: Text, place: int) -> str | None:
    """The text before the word at a place; None inside a comment, a string or a number."""
    encoded = text.places.encoded[:place]
    its = list(pieces(encoded.decode()))
    last = its[-1] if its else None
    if last and (last.kind == "unclosed" or last.words.startswith("//") and b"\n" not in encoded[last.end :]):
        return None
    line_start = max(encoded.rfind(b"\n"), encoded.rfind(b"\r"))
    if any(it.words in ("'", '"') and it.start > line_start for it in its):
        return None
    if last and last.end == place and last.kind not in ("symbol", "comment"):
        return encoded[: last.start].decode() if last.kind == "word" else None
    return encoded.decode()


def _other_end(text: Text, before: Unit, place: int) -> Use | None:
    """The port at the other end of the connection whose end is wanted: the source before it, or the destination behind it in its line."""
    wanted = before.wanted[-1] if before.wanted else None
    if not wanted or not wanted.side or wanted.section not in CONNECTION_SECTIONS:
        return None
    if wanted.side == DESTINATION:
        begin = before.connections[-1].source[0].start
        return next((it.source[-1] for it in text.unit.connections if it.source[0].start == begin), None)
    line = text.places.line_column(place)[0]
    behind = (it.destination for it in text.unit.connections if it.source[0].start <= place and it.destination and place <= it.destination[0].start)
    return next((it[-1] for it in behind if text.places.line_column(it[0].start)[0] == line), None)


def named(plant: Plant, unit: Unit, wanted: Wanted, other: str = "") -> Iterator[Candidate]:
    """The names that are wanted at a place of a unit. `other` is the type at the other end of a connection, where it is known."""
    if wanted.space == TYPE:
        kind = TYPE_KINDS[wanted.section]
        yield from (Candidate(name, _TYPE_ITEMS[kind]) for name in sorted(plant.kinds(kind)) if name.upper() != unit.name)
    elif wanted.space == DATA_TYPE:
        structures = sorted(name for name in plant.kinds("TYPE") if name.upper() != unit.name and not is_elementary(name.upper()))
        yield from (Candidate(name, ItemKind.STRUCT) for name in (*structures, *ELEMENTARY))
        yield Candidate("ARRAY", ItemKind.KEYWORD)
    else:
        yield from (_candidate(it) for it in declared(plant, unit, wanted) if not other or _goes_with(it, wanted, other))


def _goes_with(it: Declaration, wanted: Wanted, other: str) -> bool:
    """Whether a connection may join a declared name with a port of this type. An instance leads on to its ports."""
    if it.key.space != wanted.space or it.section not in INTERFACE:
        return True
    one, two = ("".join(type_.upper().split()) for type_ in (it.type, other))
    return one == two or wanted.space == VARIABLE and any(is_free(type_) for type_ in (one, two))


def _candidate(it: Declaration) -> Candidate:
    return Candidate(it.words, _ITEMS[it.key.space], f"{it.section} : {it.type}" if it.type else it.section)


def declared(plant: Plant, unit: Unit, wanted: Wanted) -> Iterable[Declaration]:
    """The declarations whose names are wanted."""
    if wanted.section == PARAMETERS:
        its = plant.unit(wanted.owner)
        return its.of("VAR_INPUT") if its else ()
    if wanted.section == "MAPPINGS" and wanted.space == INSTANCE:
        return _mapped(plant, unit, wanted)
    if wanted.space == RESOURCE:
        return unit.of("RESOURCE", scope=wanted.scope)
    if wanted.space in _SECTIONS:
        return unit.of(_SECTIONS[wanted.space])
    if wanted.is_member:
        return _members(plant, unit, wanted)
    if wanted.path:
        its = plant.unit(_type_of(unit, wanted))
        return its.of(*port_sections(unit, wanted)) if its else ()
    return [*_own(unit, wanted), *_leading(unit, wanted)]


def _members(plant: Plant, unit: Unit, wanted: Wanted) -> Iterable[Declaration]:
    """The data of a plug or a socket, or the fields of a structure, that may stand behind a point in an expression."""
    way = unit.way(wanted.path)
    its = plant.unit(plant.owner(way)) if way else None
    if not way or not its:
        return ()
    return its.of(*("VAR_INPUT", "VAR_OUTPUT") if way.space == VARIABLE and not way.steps else ("STRUCT",))


def _mapped(plant: Plant, unit: Unit, wanted: Wanted) -> Iterable[Declaration]:
    """The instances that a mapping may name behind others."""
    if not wanted.path:
        return unit.of("FBS", "SUBAPPS", scope=wanted.scope)
    return _inside(plant, unit.instance(wanted.scope, wanted.path[0].name), wanted.path[1:])


def _inside(plant: Plant, instance: Declaration | None, path: tuple[Step, ...]) -> Iterable[Declaration]:
    """The instances in a subapplication that a path leads to."""
    its = plant.unit(instance.type.upper()) if instance else None
    if not its or its.kind != "SUBAPPLICATION":
        return ()
    return _inside(plant, its.instance("", path[0].name), path[1:]) if path else its.of("FBS", "SUBAPPS")


def _type_of(unit: Unit, wanted: Wanted) -> str:
    instance = unit.instance(wanted.scope, wanted.path[0].name)
    return instance.type.upper() if instance else ""


def port_sections(unit: Unit, wanted: Wanted) -> tuple[str, ...]:
    """The sections that may have a wanted port: of the type of the instance before it, or of the unit itself."""
    if not wanted.path:
        return () if wanted.scope else _OWN[wanted.side][wanted.space]
    instance = unit.instance(wanted.scope, wanted.path[0].name)
    if not instance:
        return ()
    return _PORTS[instance.section][wanted.side][wanted.space]


def _own(unit: Unit, wanted: Wanted) -> Iterable[Declaration]:
    """The events, variables, plugs and sockets of the unit itself."""
    if wanted.section in ("EVENT_INPUT", "EVENT_OUTPUT"):
        return unit.of(wanted.section.replace("EVENT", "VAR"))
    return unit.of(*(port_sections(unit, wanted) if wanted.side else ("VAR_INPUT", "VAR_OUTPUT", "VAR")))


def _leading(unit: Unit, wanted: Wanted) -> Iterable[Declaration]:
    """The instances whose ports may stand here."""
    if wanted.section in ("EVENT_INPUT", "EVENT_OUTPUT"):
        return ()
    if wanted.section not in CONNECTION_SECTIONS:
        return unit.of("PLUGS", "SOCKETS")
    blocks = () if unit.kind == "SUBAPPLICATION" or wanted.space == INSTANCE else ("PLUGS", "SOCKETS")
    return unit.of("FBS", "SUBAPPS", *blocks, scope=wanted.scope)
