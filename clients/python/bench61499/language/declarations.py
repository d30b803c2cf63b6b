"""What a unit's text declares and which names it uses, as `reader` reads it."""
from __future__ import annotations

import re
from collections.abc import Iterator
from dataclasses import dataclass, field
from functools import cached_property
from typing import NamedTuple

from bench61499.language.full_body import Body

TYPE, EVENT, VARIABLE, INSTANCE, STATE, ALGORITHM = "type", "event", "variable", "instance", "state", "algorithm"
APPLICATION, DEVICE, RESOURCE = "application", "device", "resource"
FIELD = "field"
LOCAL = "variable of an algorithm"
LOCALS = "VAR_TEMP"
"""The section of the variables that an algorithm declares for itself, whatever word begins it."""
DATA_TYPE = "data type"
"""The space of elementary types alone: another type of data is a unit."""
SOURCE, DESTINATION = "source", "destination"
PARAMETERS = "parameters"
"""The section, as it were, of what stands in parentheses behind the type of an instance."""
NAMELESS = "-"
"""The unit of a text that declares no name. It is no name, so nothing else can stand for it."""

KINDS = ("FUNCTION_BLOCK", "ADAPTER", "SUBAPPLICATION", "SYSTEM", "TYPE")
EVENT_SECTIONS = ("EVENT_INPUT", "EVENT_OUTPUT")
DATA_SECTIONS = ("VAR_INPUT", "VAR_OUTPUT")
ADAPTER_SECTIONS = ("PLUGS", "SOCKETS")
CONNECTION_SECTIONS = {"EVENT_CONNECTIONS": EVENT, "DATA_CONNECTIONS": VARIABLE, "ADAPTER_CONNECTIONS": INSTANCE}
INTERFACE = (*EVENT_SECTIONS, *DATA_SECTIONS, *ADAPTER_SECTIONS)
PARTS = {
    "": KINDS,
    "FUNCTION_BLOCK": (*INTERFACE, "VAR", "FBS", *CONNECTION_SECTIONS, "EC_STATES", "EC_TRANSITIONS", "ALGORITHM", "SERVICE"),
    "ADAPTER": (*EVENT_SECTIONS, *DATA_SECTIONS, "SERVICE"),
    "SUBAPPLICATION": (*INTERFACE, "FBS", "SUBAPPS", *CONNECTION_SECTIONS, "SERVICE"),
    "SYSTEM": ("APPLICATION", "DEVICE", "MAPPINGS"),
    "TYPE": (),
    "APPLICATION": ("FBS", "SUBAPPS", *CONNECTION_SECTIONS),
    "DEVICE": ("RESOURCE",),
    "RESOURCE": (),
}
"""What may stand in a unit, and in the parts of a system."""
ENDS = {
    **dict.fromkeys(EVENT_SECTIONS, "END_EVENT"),
    **dict.fromkeys([*DATA_SECTIONS, "VAR"], "END_VAR"),
    **{word: f"END_{word}" for word in (*ADAPTER_SECTIONS, "FBS", "SUBAPPS", "MAPPINGS", "ALGORITHM", "SERVICE", "STRUCT")},
    **dict.fromkeys(CONNECTION_SECTIONS, "END_CONNECTIONS"),
    "EC_STATES": "END_STATES",
    "EC_TRANSITIONS": "END_TRANSITIONS",
    **{word: f"END_{word}" for word in (*KINDS, "APPLICATION", "DEVICE", "RESOURCE")},
}
"""The word that ends what a word begins."""
LEVELS = {**dict.fromkeys(KINDS, 0), "APPLICATION": 1, "DEVICE": 1, "RESOURCE": 2}
"""How deep units and the parts of a system stand in each other."""
TYPE_KINDS = {"PLUGS": "ADAPTER", "SOCKETS": "ADAPTER", "FBS": "FUNCTION_BLOCK", "SUBAPPS": "SUBAPPLICATION"}
"""The kind of unit that is the type of an instance, by its section."""
STATEMENTS = ("IF", "CASE", "FOR", "WHILE", "REPEAT")
"""The words that begin statements which an END_ ends."""
ELEMENTARY = (
    *("BOOL", "SINT", "INT", "DINT", "LINT", "USINT", "UINT", "UDINT", "ULINT", "BYTE", "WORD", "DWORD", "LWORD", "REAL", "LREAL"),
    *("TIME", "DATE", "TOD", "TIME_OF_DAY", "DT", "DATE_AND_TIME", "STRING", "WSTRING", "ANY"),
)
"""Types of data that no unit declares; names that begin with ANY_ are such types too."""
_ELEMENTS = re.compile(r"ARRAY\b.*\bOF\s+(\w+)", re.IGNORECASE | re.DOTALL)


def is_elementary(name: str) -> bool:
    return name in ELEMENTARY or is_free(name)


def is_free(name: str) -> bool:
    """Whether data of any type go with this one."""
    return name == "ANY" or name.startswith("ANY_")


def type_of_data(spelled: str) -> str:
    """The name, in upper case, in the type of a variable: of an array that of its elements."""
    elements = _ELEMENTS.fullmatch(spelled)
    return (elements[1] if elements else spelled.partition("[")[0]).strip().upper()


def type_with_fields(spelled: str, is_subscripted: bool) -> str:
    """The unit whose fields may stand behind a variable of this type; empty where there is none. An array has fields behind subscripts alone, and
    what is no array has none there."""
    has_fields = bool(_ELEMENTS.fullmatch(spelled)) if is_subscripted else spelled.isidentifier()
    name = type_of_data(spelled)
    return name if has_fields and not is_elementary(name) else ""


class Key(NamedTuple):
    """What a name stands for: the unit that declares it, its name space, the application or device it is in, and the name; in upper case.

    The unit is empty where nothing tells whose name it is: that of a port whose instance is not declared, or of an elementary type. A second
    application or device of a name is a scope of its own.
    """

    unit: str
    space: str
    scope: str
    name: str

    @property
    def owner(self) -> str:
        """The application, the device or the unit that has the name."""
        return self.scope.partition("#")[0] or self.unit


class Step(NamedTuple):
    """A name that leads on to others, and whether subscripts stand behind it."""

    name: str
    is_subscripted: bool = False


class Wanted(NamedTuple):
    """A name that is read, or that may stand at the end of the tokens.

    `path` are the names before it, as in `BELT.START` or `LEVELS[0].MOST`; `owner` is the type whose name it is, where that is written; `side`
    is that of an end of a connection. `leads_on` is whether a point follows on the first name of a reference.
    """

    space: str
    section: str
    scope: str = ""
    path: tuple[Step, ...] = ()
    owner: str = ""
    side: str = ""
    leads_on: bool = False

    @property
    def is_member(self) -> bool:
        """Whether it stands behind a point in an expression: data of a plug or a socket, or a field."""
        return self.space == VARIABLE and bool(self.path) and not self.side


class Walk(NamedTuple):
    """The way to the unit that declares a name: from a unit through names of it and of others. `space` is that of the first step; further
    ones are instances behind instances, and fields behind data."""

    unit: str
    space: str
    steps: tuple[Step, ...]


class Use(NamedTuple):
    """A name that is used, with its place in bytes. Deep in a path only other units tell whose name it is: there `walk` leads to the owner."""

    key: Key
    start: int
    end: int
    walk: Walk | None = None


class Connection(NamedTuple):
    """A connection of a network: its space, and the names of its ends, one or two each; no destination where that is not written yet."""

    space: str
    scope: str
    source: tuple[Use, ...]
    destination: tuple[Use, ...]


class Doubt(NamedTuple):
    """A name in an algorithm that the workbench skips, in upper case, whose owner is not known from its text: a member after a point or of a
    structure, or another one."""

    name: str
    start: int
    end: int
    algorithm: str
    is_member: bool


@dataclass(slots=True)
class Declaration:
    """A declared name at `start` to `end`, in a declaration from `begin` to `last`.

    `section` is the word that begins its section; `type`, `value` and `companions`, the names behind WITH, are as written.
    """

    key: Key
    section: str
    words: str
    start: int
    end: int
    begin: int
    last: int
    type: str = ""
    value: str = ""
    companions: tuple[str, ...] = ()


@dataclass
class Unit:
    """What was read of a text: all declarations and uses, each in the order of the text, and what may follow at its end."""

    kind: str = ""
    name: str = NAMELESS
    declared: list[Declaration] = field(default_factory=list)
    uses: list[Use] = field(default_factory=list)
    connections: list[Connection] = field(default_factory=list)
    wanted: list[Wanted] = field(default_factory=list)
    words: list[str] = field(default_factory=list)
    bodies: list[Body] = field(default_factory=list)
    """The algorithms that the workbench skips and that end."""
    doubts: list[Doubt] = field(default_factory=list)

    @cached_property
    def first(self) -> dict[Key, Declaration]:
        """What each name stands for: the first of its declarations."""
        found: dict[Key, Declaration] = {}
        for it in self.declared:
            found.setdefault(it.key, it)
        return found

    def uses_of(self, key: Key) -> list[Use]:
        return [use for use in self.uses if use.key == key]

    def names(self) -> list[Declaration | Use]:
        """All places that have a name."""
        return [*self.declared, *self.uses]

    @cached_property
    def walking(self) -> frozenset[str]:
        """The names that are used deep in a path, where only other units tell whose they are."""
        return frozenset(use.key.name for use in self.uses if use.walk)

    def is_skipped(self, place: int) -> bool:
        """Whether a place, in bytes, is in an algorithm that the workbench skips."""
        return any(it.begin <= place < it.end for it in self.bodies)

    def prepare(self) -> None:
        """Has the tables made now, and not when somebody asks."""
        self.first, self.walking

    def of(self, *sections: str, scope: str = "") -> Iterator[Declaration]:
        """What is declared in these sections, first declarations alone."""
        return (it for it in self.first.values() if it.section in sections and it.key.scope == scope)

    def instance(self, scope: str, name: str) -> Declaration | None:
        return self.first.get(Key(self.name, INSTANCE, scope, name))

    def plug_or_socket(self, name: str) -> Declaration | None:
        its = self.instance("", name)
        return its if its and its.section in ADAPTER_SECTIONS else None

    def way(self, path: tuple[Step, ...]) -> Walk | None:
        """The way to the owner of a member behind these names of a reference; None where they can have no members."""
        first, *rest = path
        port = None if first.is_subscripted else self.plug_or_socket(first.name)
        if port:
            return Walk(port.type.upper(), VARIABLE, tuple(rest))
        its = self.first.get(Key(self.name, VARIABLE, "", first.name))
        owner = type_with_fields(its.type, first.is_subscripted) if its else ""
        return Walk(owner, FIELD, tuple(rest)) if owner else None
