"""What clients find in algorithms `IN ST_FULL`, which the workbench skips: names that are nowhere, and assignments to what is no variable.

They are warnings of the clients. Whatever a right program may have is passed over: where the types of others, other files of a project or the packages
that a unit imports may have a name, it gets no warning.
"""
from __future__ import annotations

import re
from collections.abc import Callable, Container, Iterator
from typing import NamedTuple

from bench61499.language.declarations import (
    ADAPTER_SECTIONS, ALGORITHM, DATA_SECTIONS, ELEMENTARY, EVENT, FIELD, INSTANCE, STATE, VARIABLE, Key, Unit, Walk, is_free, type_of_data,
)
from bench61499.language.full_body import LABEL, READ, WRITTEN, Body, Local, Reference
from bench61499.language.full_library import block_ports, is_function, is_known_type, near_function
from bench61499.language.full_names import Meaning, Scope, scopes
from bench61499.language.imported import Imported, imported, is_odd
from bench61499.language.missing_types import CODE as NO_SUCH_TYPE
from bench61499.language.missing_types import near_type
from bench61499.language.texts import NEAR, Texts, owner
from bench61499.language.tokens import Token
from bench61499.language.wording import Names, asked

NO_SUCH_VARIABLE, NO_SUCH_MEMBER, NO_SUCH_FUNCTION, NOT_ASSIGNABLE = "NO_SUCH_VARIABLE", "NO_SUCH_MEMBER", "NO_SUCH_FUNCTION", "NOT_ASSIGNABLE"
CODES = {
    NO_SUCH_VARIABLE: "a name in an algorithm IN ST_FULL is that of no variable",
    NO_SUCH_MEMBER: "a name in an algorithm IN ST_FULL is no member of what stands before it",
    NO_SUCH_FUNCTION: "an algorithm IN ST_FULL calls what is no function",
    NOT_ASSIGNABLE: "an algorithm IN ST_FULL assigns to what is no variable",
}
OF_CLIENT = "(a warning of this client: the workbench does not read algorithms IN ST_FULL)"
_BITS = re.compile(r"[XBWDL]\d+")
_OWN = (EVENT, INSTANCE, STATE, ALGORITHM)
_WHAT = {
    "EVENT_INPUT": "an event input", "EVENT_OUTPUT": "an event output", "PLUGS": "a plug", "SOCKETS": "a socket", "FBS": "a block instance",
    "EC_STATES": "a state", "ALGORITHM": "an algorithm",
}


class Doubtful(NamedTuple):
    """A name that is wrong as far as this client knows, the words about it, and the name that may be meant."""

    code: str
    start: int
    end: int
    explanation: str
    meant: str | None = None


def doubtful(text: str, unit: Unit, texts: Texts, is_broken: Callable[[str], bool], units: Container[str] = ()) -> list[Doubtful]:
    """What is wrong in the algorithms of a unit, which is not broken itself. Types that are broken are not used. `units` are the names, in upper case, of
    those that are there, perhaps without a text."""
    if not any(it.is_read for it in unit.bodies) or is_broken(unit.name):
        return []
    kept = imported(text)
    found = [it for body, scope in scopes(unit, kept) for it in _Judge(unit, body, scope, kept, texts, is_broken, units).found()]
    return sorted(dict.fromkeys(found), key=lambda it: it.start)


class _Judge:
    """What is wrong in one algorithm."""

    def __init__(self, unit: Unit, body: Body, scope: Scope, kept: Imported, texts: Texts, is_broken: Callable[[str], bool], units: Container[str]):
        self._unit, self._body, self._scope, self._kept, self._texts, self._is_broken, self._units = unit, body, scope, kept, texts, is_broken, units
        self._may_have_values = kept.imports_all or self._has_unknown_types()

    def found(self) -> Iterator[Doubtful]:
        for local in self._body.locals:
            yield from self._type(local)
        for it in self._body.references:
            yield from self._first(it)
            if not it.is_qualified:
                for at, part in enumerate(it.parts):
                    yield from self._member(it, at) if at else ()
                    yield from self._arguments(it, at) if part.arguments else ()

    # What is known of types

    def _has_unknown_types(self) -> bool:
        """Whether data that the algorithm can name may be of a type that no text declares: its values may have names, as those of an enumeration."""
        data = (it.type for it in self._unit.declared if it.key.space == VARIABLE and it.key.name not in self._kept.blocks)
        adapters = (it.type.upper() for it in self._unit.declared if it.section in ADAPTER_SECTIONS)
        waiting = {*map(type_of_data, data), *(type_of_data(it.spelled) if it.type else "" for it in self._body.locals)}
        waiting |= {*adapters, *(it for name, it in self._kept.blocks.items() if self._scope.variable(name))}
        seen: set[str] = set()
        while waiting:
            name = waiting.pop()
            seen.add(name)
            its = self._texts.unit(name)
            if its and not self._is_broken(name):
                waiting |= {type_of_data(it.type) for it in its.declared if it.key.space == FIELD or it.section in DATA_SECTIONS} - seen
            elif is_free(name) or not is_known_type(name):
                return True
        return False

    def _owner(self, way: Walk | None) -> Unit | None:
        """The unit that a way leads to, if it is known and not broken."""
        its = self._read(owner(way, self._read)) if way else None
        return its if its and its.kind in ("TYPE", "ADAPTER", "FUNCTION_BLOCK") else None

    def _read(self, name: str) -> Unit | None:
        """A unit that is known and not broken; nothing is known of what a broken one leads to."""
        return None if self._is_broken(name) else self._texts.unit(name)

    def _is_elsewhere(self, name: str) -> bool:
        """Whether something that has no text here may have a name."""
        return name in self._kept.known or self._kept.imports_all or is_odd(name)

    # What is wrong

    def _type(self, it: Local) -> Iterator[Doubtful]:
        name = it.type.upper if it.type else ""
        if it.type and not is_known_type(name) and not self._texts.unit(name) and name not in self._units and not self._is_elsewhere(name):
            meant = near_type(self._texts.units("TYPE"))(it.type.words)
            yield Doubtful(NO_SUCH_TYPE, it.type.start, it.type.end, f"no type {it.type.words} here{asked(meant)}", meant)

    def _first(self, it: Reference) -> Iterator[Doubtful]:
        meaning, part = self._scope.first(it), it.first
        name = self._scope.name(part.name)
        if meaning == Meaning.FUNCTION:
            yield from self._function(name, part.name)
        elif meaning == Meaning.UNKNOWN and not self._is_elsewhere(name):
            yield from self._unknown(it, name)
        elif it.role == WRITTEN and self._is_constant(meaning, name):
            yield self._not_assignable(part.name, "a constant")

    def _is_constant(self, meaning: Meaning, name: str) -> bool:
        if meaning == Meaning.LOCAL:
            return self._scope.locals[name].is_constant
        return meaning == Meaning.VARIABLE and name in self._kept.constants

    def _not_assignable(self, token: Token, what: str) -> Doubtful:
        return Doubtful(NOT_ASSIGNABLE, token.start, token.end, f"{token.words} is {what}: nothing can be assigned to it")

    def _unknown(self, it: Reference, name: str) -> Iterator[Doubtful]:
        """A name that is no variable. One alone may be a value of an enumeration that no text declares."""
        part = it.first
        is_alone = len(it.parts) == 1 and not part.is_subscripted and not part.is_called
        own = next((its for space in _OWN if (its := self._unit.first.get(Key(self._unit.name, space, "", name)))), None)
        if it.role == LABEL or it.role == READ and is_alone and self._may_have_values:
            return
        token = part.name
        if own and it.role == WRITTEN:
            yield self._not_assignable(token, f"{_WHAT.get(own.section, 'no variable')} and no variable")
            return
        meant = None if own else self._variables().near(token.words)
        what = f"{token.words} is {_WHAT.get(own.section, 'no variable')} and no variable" if own else f"no variable {token.words} here{asked(meant)}"
        yield Doubtful(NO_SUCH_VARIABLE, token.start, token.end, what, meant)

    def _variables(self) -> Names:
        own = (it.words for it in self._unit.declared if it.key.space == VARIABLE or it.section in ADAPTER_SECTIONS)
        return Names([*own, *(it.name.words for it in self._scope.locals.values())], NEAR)

    def _function(self, name: str, token: Token) -> Iterator[Doubtful]:
        is_algorithm = Key(self._unit.name, ALGORITHM, "", name) in self._unit.first
        if is_function(name) or is_algorithm or self._is_elsewhere(name) or self._texts.unit(name) or self._is_conversion_elsewhere(name):
            return
        its = self._scope.variable(name)
        if its and not is_known_type(type_of_data(its.type)):
            return
        meant = near_function(token.words)
        yield Doubtful(NO_SUCH_FUNCTION, token.start, token.end, f"IEC 61131-3 has no function {token.words}, and none is known here{asked(meant)}", meant)

    def _is_conversion_elsewhere(self, name: str) -> bool:
        """Whether it may convert values of a type that has no text, such as COLOR_TO_INT."""
        types = {type_of_data(it.type) for it in self._unit.declared if it.key.space == VARIABLE}
        return any((it in types or it in self._kept.known) and not is_known_type(it) for it in name.split("_TO_"))

    def _member(self, it: Reference, at: int) -> Iterator[Doubtful]:
        """What is wrong with a name after a point. One that is called is that of an event or a method."""
        part = it.parts[at]
        if part.is_called or it.parts[at - 1].is_opaque:
            return
        way = self._scope.way(it, at)
        type_ = self._plain_type(it) if at == 1 and not way else ""
        if type_ and not _BITS.fullmatch(part.name.upper):
            yield Doubtful(NO_SUCH_MEMBER, part.name.start, part.name.end, f"{it.first.name.words} is of the type {type_}, which has no members")
        yield from self._in(way, part.name)

    def _plain_type(self, it: Reference) -> str:
        """The type of a variable at the begin of a reference, if it is an elementary one."""
        name, meaning = self._scope.name(it.first.name), self._scope.first(it)
        its = self._scope.variable(name)
        type_ = self._scope.locals[name].spelled if meaning == Meaning.LOCAL else its.type if its and meaning == Meaning.VARIABLE else ""
        is_plain = type_.upper() in ELEMENTARY and not is_free(type_.upper()) and not it.first.is_subscripted and not it.first.is_called
        return type_ if is_plain else ""

    def _in(self, way: Walk | None, token: Token) -> Iterator[Doubtful]:
        """What is wrong with a name that must be one of what a way leads to."""
        name, of = self._scope.name(token), self._owner(way)
        if not of:
            yield from self._in_standard_block(way, token)
            return
        those = [it for it in of.declared[1:] if it.key.name == name]
        if is_odd(name) or any(it.key.space in (FIELD, VARIABLE) or of.kind == "FUNCTION_BLOCK" for it in those):
            return
        its = those[0] if those else None
        whose, meant = of.declared[0].words, None if its else self._texts.names(of, "STRUCT", *DATA_SECTIONS).near(token.words)
        told = f"{token.words} is {_WHAT.get(its.section, 'a name')} of {whose} and no variable" if its else f"{whose} has no {token.words}{asked(meant)}"
        yield Doubtful(NO_SUCH_MEMBER, token.start, token.end, told, meant)

    def _in_standard_block(self, way: Walk | None, token: Token) -> Iterator[Doubtful]:
        """A name after a block of IEC 61131-3 that no text declares."""
        ports = block_ports(way.unit) if way and not way.steps and not self._texts.unit(way.unit) else None
        if way and ports and token.upper not in ports and token.upper not in ("EN", "ENO"):
            meant = Names(ports, NEAR).near(token.words)
            yield Doubtful(NO_SUCH_MEMBER, token.start, token.end, f"{way.unit} has no {token.words}{asked(meant)}", meant)

    def _arguments(self, it: Reference, at: int) -> Iterator[Doubtful]:
        if self._scope.first(it) in (Meaning.VARIABLE, Meaning.LOCAL):
            way = self._scope.arguments(it, at)
            for token in it.parts[at].arguments:
                if token.upper not in ("EN", "ENO"):
                    yield from self._in(way, token)
