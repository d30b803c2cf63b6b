"""Whose the names in an algorithm `IN ST_FULL` are, as far as its own text shows: its own variables, those of its unit, and members of these."""
from __future__ import annotations

from collections.abc import Iterable, Iterator
from dataclasses import dataclass, field
from enum import Enum, auto
from itertools import pairwise

from bench61499.language.declarations import (
    DATA_TYPE, FIELD, INSTANCE, LOCAL, LOCALS, TYPE, VARIABLE, Declaration, Doubt, Key, Step, Unit, Use, Walk, is_elementary, type_of_data,
    type_with_fields,
)
from bench61499.language.full_body import Body, Local, Reference
from bench61499.language.full_library import is_function
from bench61499.language.imported import Imported, name_of
from bench61499.language.tokens import Token


class Meaning(Enum):
    """What the first name of a reference is."""

    LOCAL = auto()
    VARIABLE = auto()
    PORT = auto()
    """A plug or a socket before a point."""
    FUNCTION = auto()
    """A function that is called, or what is no variable."""
    UNKNOWN = auto()
    ELSEWHERE = auto()
    """It has the name of its package before it, or means the unit itself."""


@dataclass
class Found:
    """What was found of a unit's algorithms: declarations and uses in the order of the text, and names in doubt."""

    declared: list[Declaration] = field(default_factory=list)
    uses: list[Use] = field(default_factory=list)
    doubts: list[Doubt] = field(default_factory=list)


class Scope:
    """The names that are known in an algorithm. `blocks` are the variables of its unit that are called somewhere, in upper case."""

    def __init__(self, unit: Unit, body: Body, kept: Imported, blocks: frozenset[str]):
        self._unit, self._kept, self._blocks = unit, kept, blocks
        self.algorithm = body.algorithm
        self.locals: dict[str, Local] = {}
        for it in body.locals:
            self.locals.setdefault(self.name(it.name), it)

    def name(self, token: Token) -> str:
        """A name in upper case, as the text has it."""
        return name_of(token.words)

    def variable(self, name: str) -> Declaration | None:
        return self._unit.first.get(Key(self._unit.name, VARIABLE, "", name))

    def local_key(self, name: str) -> Key:
        return Key(self._unit.name, LOCAL, self.algorithm.upper(), name)

    def first(self, it: Reference) -> Meaning:
        """What the first name of a reference is."""
        name, part = self.name(it.first.name), it.first
        if it.is_qualified or name in ("THIS", "SUPER"):
            return Meaning.ELSEWHERE
        local, its = self.locals.get(name), self.variable(name)
        declared = local.spelled if local else its.type if its else ""
        if part.is_called and not part.is_subscripted and not self._can_be_block(name, declared):
            return Meaning.FUNCTION
        if local:
            return Meaning.LOCAL
        if len(it.parts) > 1 and not part.is_subscripted and not part.is_called and self._unit.plug_or_socket(name):
            return Meaning.PORT
        return Meaning.VARIABLE if its else Meaning.UNKNOWN

    def _can_be_block(self, name: str, type_: str) -> bool:
        return name in self._kept.blocks or bool(type_) and not is_elementary(type_of_data(type_))

    def way(self, it: Reference, at: int) -> Walk | None:
        """The way to the owner of the name number `at` of a reference; None if it is not known."""
        return None if any(part.is_opaque or part.is_called for part in it.parts[:at]) else self._way(it, at)

    def _way(self, it: Reference, at: int) -> Walk | None:
        name, first = self.name(it.first.name), it.first
        path = tuple(Step(self.name(part.name), part.is_subscripted) for part in it.parts[1:at])
        match self.first(it):
            case Meaning.LOCAL:
                owner = type_with_fields(self.locals[name].spelled, first.is_subscripted)
                return Walk(owner, FIELD, path) if owner and self.locals[name].type else None
            case Meaning.VARIABLE:
                return self._way_of_variable(name, first.is_subscripted, path)
            case Meaning.PORT:
                return self._unit.way((Step(name), *path))
        return None

    def _way_of_variable(self, name: str, is_subscripted: bool, path: tuple[Step, ...]) -> Walk | None:
        if name in self._kept.blocks:
            owner = self._kept.blocks[name]
            return Walk(owner, VARIABLE, path) if owner else None
        its = self.variable(name)
        owner = type_with_fields(its.type, is_subscripted) if its else ""
        return Walk(owner, VARIABLE if name in self._blocks else FIELD, path) if owner else None

    def arguments(self, it: Reference, at: int) -> Walk | None:
        """The way to the block whose ports the named arguments after the name number `at` are; None if it is not known.

        It is known of a block that is called by its name. Behind that an event of it may stand, whose arguments are its ports, or a method, which has others.
        """
        way = self._way(it, 1) if not at and not it.first.is_opaque else None
        return way._replace(space=VARIABLE) if way else None


def called_blocks(bodies: Iterable[Body]) -> frozenset[str]:
    """The names that are called in algorithms: of variables those of blocks."""
    return frozenset(name_of(it.first.name.words) for body in bodies for it in body.references if any(part.is_called for part in it.parts[:2]))


def scopes(unit: Unit, kept: Imported) -> Iterator[tuple[Body, Scope]]:
    """The algorithms of a unit that could be read, each with its names."""
    blocks = called_blocks(unit.bodies)
    return ((body, Scope(unit, body, kept, blocks)) for body in unit.bodies if body.is_read)


def find_names(unit: Unit, kept: Imported) -> Found:
    """The names in the algorithms of a unit whose other parts are read."""
    found = Found()
    for body, scope in scopes(unit, kept):
        _Finder(unit, body, scope, found).find()
    for body in (it for it in unit.bodies if not it.is_read):
        found.doubts += _all_in_doubt(body)
    found.uses.sort(key=lambda it: it.start)
    return found


def _all_in_doubt(body: Body) -> Iterator[Doubt]:
    """The names of an algorithm that could not be read."""
    for before, it in pairwise([None, *body.tokens]):
        if it and it.kind == "word":
            is_member = before is not None and before.words == "."
            yield Doubt(name_of(it.words), it.start, it.end, body.algorithm, is_member)


class _Finder:
    """Finds the names of one algorithm."""

    def __init__(self, unit: Unit, body: Body, scope: Scope, found: Found):
        self._unit, self._body, self._scope, self._found = unit, body, scope, found

    def find(self) -> None:
        for it in self._body.locals:
            self._declare(it)
        for reference in self._body.references:
            self._first(reference)
            for at in range(len(reference.parts)):
                self._arguments(reference, at)
                if at and not reference.is_qualified:
                    self._member(reference.parts[at].name, self._scope.way(reference, at))
        for token in self._body.fields:
            self._member(token, None)

    def _declare(self, it: Local) -> None:
        key = self._scope.local_key(self._scope.name(it.name))
        made = Declaration(key, LOCALS, it.name.words, it.name.start, it.name.end, it.name.start, it.last, it.spelled, it.value)
        self._found.declared.append(made)
        if it.type and self._scope.locals[key.name] is it:
            name = it.type.upper
            self._use(Key("", DATA_TYPE, "", name) if is_elementary(name) else Key(name, TYPE, "", name), it.type)

    def _use(self, key: Key, token: Token, walk: Walk | None = None) -> None:
        self._found.uses.append(Use(key, token.start, token.end, walk))

    def _doubt(self, token: Token, is_member: bool) -> None:
        self._found.doubts.append(Doubt(self._scope.name(token), token.start, token.end, self._body.algorithm, is_member))

    def _first(self, it: Reference) -> None:
        token = it.first.name
        name = self._scope.name(token)
        match self._scope.first(it):
            case Meaning.LOCAL:
                self._use(self._scope.local_key(name), token)
            case Meaning.PORT:
                self._use(Key(self._unit.name, INSTANCE, "", name), token)
            case Meaning.VARIABLE | Meaning.UNKNOWN:
                self._use(Key(self._unit.name, VARIABLE, "", name), token)
            case Meaning.FUNCTION if not is_function(name):
                self._doubt(token, False)

    def _member(self, token: Token, way: Walk | None) -> None:
        """A name after a point, or one of a field."""
        name = self._scope.name(token)
        if not way:
            self._doubt(token, True)
        elif way.steps:
            self._use(Key("", FIELD, "", name), token, way)
        else:
            self._use(Key(way.unit, way.space, "", name), token)

    def _arguments(self, it: Reference, at: int) -> None:
        """The names before `:=` and `=>` in a call. Those of a function are of no unit."""
        is_function = not at and self._scope.first(it) == Meaning.FUNCTION
        for token in it.parts[at].arguments if not is_function and not it.is_qualified else ():
            self._member(token, self._scope.arguments(it, at))
