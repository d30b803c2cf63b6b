"""Faults that the texts tell by their names alone: for the units that the workbench does not judge, as they have a SYNTAX fault."""
from __future__ import annotations

from collections.abc import Callable, Iterator, Sequence
from itertools import islice

from bench61499 import Fault
from bench61499.language.declarations import (
    ADAPTER_SECTIONS, ALGORITHM, CONNECTION_SECTIONS, DATA_SECTIONS, DEVICE, ENDS, EVENT, EVENT_SECTIONS, FIELD, INSTANCE, KINDS, LOCAL, STATE, TYPE,
    TYPE_KINDS, VARIABLE, Connection, Declaration, Key, Unit, Use,
)
from bench61499.language.grammar import Stop, stops
from bench61499.language.surroundings import Surroundings, is_output
from bench61499.language.texts import Texts, owner
from bench61499.language.tokens import Token

_PORTS = {EVENT: EVENT_SECTIONS, VARIABLE: DATA_SECTIONS, INSTANCE: ADAPTER_SECTIONS}
_WITHOUT_DECLARATIONS = frozenset([*CONNECTION_SECTIONS, "EC_TRANSITIONS", "ALGORITHM", "MAPPINGS"])
_BOUNDARIES = frozenset([*ENDS, *ENDS.values()])
MOST = 20
"""Notes on one unit."""


def notes(text: str, texts: Texts, is_broken: Callable[[str], bool]) -> list[Fault]:
    """What is wrong in a broken text behind its first SYNTAX fault: other places where it leaves the grammar, and names.

    What stands in an item that could not be read is passed over, and so is a name in a section that could not be read: it may be declared there. After too many
    stops the text is not read further, and no name is judged.
    """
    its = Surroundings(text).tokens
    found = list(islice(stops(its), MOST + 1))
    if not its or not found or its[-1].kind == "unclosed" or any(_is_unit_in_unit(its, it) for it in found):
        return []
    if found[0].at == len(its) and len(found[0].open) > 1:
        return []  # The text breaks off, and what it uses may have been declared behind that.
    end = next((its[it.at].start for it in found if not it.open), its[-1].end)
    more = [Fault("SYNTAX", its[it.at].start, its[it.at].end) for it in found[1:] if it.at < len(its) and its[it.at].start < end]
    if len(found) > MOST:
        return more
    suspects = frozenset(name for stop in found for name in _around(its, stop))
    torn = [_item(its, stop.at) for stop in found if stop.at < len(its)]
    known = Judge(text.encode()[:end].decode(), texts, is_broken)
    names = [it for it in known.faults() if suspects.isdisjoint(known.names(it)) and not any(begin <= it.start < end for begin, end in torn)]
    return sorted([*names, *more], key=lambda it: it.start)[:MOST]


def _is_unit_in_unit(of: Sequence[Token], stop: Stop) -> bool:
    """Whether a second unit begins before the first one ends: what stands behind is not known to be part of either."""
    return bool(stop.open) and stop.at < len(of) and of[stop.at].upper in KINDS


def _item(of: Sequence[Token], at: int) -> tuple[int, int]:
    """The span of the item that a token stands in: what is between two `;`, or words that begin or end sections."""
    begin = next((number for number in range(at - 1, 0, -1) if _is_apart(of[number])), 0)
    end = next((number for number in range(at, len(of)) if _is_apart(of[number])), len(of) - 1)
    return of[begin].start, of[end].end


def _is_apart(token: Token) -> bool:
    return token.words == ";" or token.upper in _BOUNDARIES


def _around(of: Sequence[Token], stop: Stop) -> Iterator[str]:
    """The names that may be declared in the part round a stop that could not be read."""
    if stop.at == len(of) or stop.open and of[stop.open[-1].opening].upper in _WITHOUT_DECLARATIONS:
        return
    boundaries = [at for at, it in enumerate(of) if it.upper in _BOUNDARIES]
    begin = max((at for at in boundaries if at < stop.at), default=0)
    end = min((at for at in boundaries if at > stop.at), default=len(of))
    yield from (it.upper for it in of[begin:end] if it.kind == "word")


class Judge:
    """What is wrong with the names of one text. What the workbench does not judge, as types are broken or of another kind, is not judged here."""

    def __init__(self, text: str, texts: Texts, is_broken: Callable[[str], bool]):
        self._at = Surroundings(text)
        self._unit = self._at.unit
        self._texts = texts
        self._is_broken = is_broken

    def faults(self) -> Iterator[Fault]:
        yield from (Fault("DUPLICATE", it.start, it.end) for it in self._unit.declared if self._unit.first[it.key] is not it and it.key.space != LOCAL)
        for it in self._unit.uses:
            if self._unit.is_skipped(it.start):
                continue
            at = self._at.token_at(it.start)
            if code := self._code(it, at, self._at.section(at)):
                yield Fault(code, it.start, self._end(it, at, code))
        for connection in self._unit.connections:
            yield from self._of_connection(connection)

    def names(self, fault: Fault) -> set[str]:
        """The names at a fault."""
        begin, end = (self._at.token_at(place) for place in (fault.start, fault.end))
        return {it.upper for it in self._at.tokens[begin:end]}

    def _end(self, use: Use, at: int, code: str) -> int:
        """Where a fault ends that begins with a name: with that of a path behind it, where it is of both."""
        is_both = code in ("EVENT_UNKNOWN", "VARIABLE_UNKNOWN", "NO_SUCH_RESOURCE") and self._at.words(at + 1) == "."
        return self._at.tokens[at + 2].end if is_both else use.end

    def _usable(self, name: str, kind: str) -> Unit | None:
        its = self._texts.unit(name.upper())
        return its if its and its.kind == kind and not self._is_broken(name.upper()) else None

    def _code(self, use: Use, at: int, section: str) -> str | None:
        """What is wrong with a used name, apart from ends of connections."""
        space = use.key.space
        if space == TYPE:
            return self._of_type(use.key.name, TYPE_KINDS[section]) if section in TYPE_KINDS else None
        if space in (STATE, ALGORITHM):
            return None if use.key in self._unit.first else f"{space.upper()}_UNKNOWN"
        if space == DEVICE:
            return self._of_device(use, at)
        if space == FIELD:
            return self._of_field(use) if section in ("ALGORITHM", "EC_TRANSITIONS") else None
        is_first = section not in CONNECTION_SECTIONS and self._at.words(at - 1) != "."
        return self._of_name(use, at, section) if is_first and space in (EVENT, INSTANCE, VARIABLE) else None

    def _of_type(self, name: str, kind: str) -> str | None:
        its = self._texts.unit(name)
        if not its:
            return "UNKNOWN_TYPE"
        return None if self._is_broken(name) or its.kind == kind else "WRONG_KIND"

    def _of_device(self, use: Use, at: int) -> str | None:
        resource = self._at.use(at + 2)
        is_known = use.key in self._unit.first and resource is not None and resource.key in self._unit.first
        return None if resource is None or is_known else "NO_SUCH_RESOURCE"

    def _of_field(self, use: Use) -> str | None:
        of = self._usable(owner(use.walk, self._on_the_way) if use.walk else use.key.unit, "TYPE")
        return "MEMBER_UNKNOWN" if of and Key(of.name, FIELD, "", use.key.name) not in of.first else None

    def _on_the_way(self, name: str) -> Unit | None:
        """A unit that a way leads through: after one that is broken or of another kind no name is checked."""
        return self._usable(name, "ADAPTER") or self._usable(name, "TYPE")

    def _of_name(self, use: Use, at: int, section: str) -> str | None:
        """Of a name behind WITH, of a parameter, and of events and variables of charts and algorithms."""
        its = self._unit.first.get(use.key)
        if section in EVENT_SECTIONS:
            return None if its and its.section == section.replace("EVENT", "VAR") else "WITH_UNKNOWN"
        if section == "FBS" and use.key.space == VARIABLE:
            of = self._usable(use.key.unit, "FUNCTION_BLOCK")
            return "PARAMETER_UNKNOWN" if of and not _is_in(of.first.get(use.key._replace(unit=of.name)), "VAR_INPUT") else None
        if section not in ("EC_STATES", "EC_TRANSITIONS", "ALGORITHM"):
            return None
        comes_in = section != "EC_STATES"
        if use.key.space == EVENT:
            return None if its and is_output(its) != comes_in else "EVENT_UNKNOWN"
        if use.key.space == VARIABLE:
            return None if its else "VARIABLE_UNKNOWN"
        return self._of_path(its, self._at.use(at + 2), comes_in)

    def _of_path(self, its: Declaration | None, port: Use | None, comes_in: bool) -> str | None:
        """Of `p.X` in a chart or an algorithm."""
        if not port:
            return None
        code = "EVENT_UNKNOWN" if port.key.space == EVENT else "VARIABLE_UNKNOWN"
        if not its or its.section not in ADAPTER_SECTIONS:
            return code
        of = self._usable(its.type, "ADAPTER")
        known = of.first.get(Key(of.name, port.key.space, "", port.key.name)) if of else None
        if not of or known and (code == "VARIABLE_UNKNOWN" or is_output(known) != (comes_in == (its.section == "PLUGS"))):
            return None
        return code

    # Connections

    def _of_connection(self, it: Connection) -> Iterator[Fault]:
        for end, is_source in ((it.source, True), (it.destination, False)):
            if end and (code := self._of_end(it.space, end, is_source)):
                yield Fault(code, end[0].start, end[-1].end)

    def _of_end(self, space: str, end: tuple[Use, ...], is_source: bool) -> str | None:
        at = self._at.token_at(end[0].start)
        if len(end) == 1 and self._at.words(at + 1) == ".":
            return None
        its = self._unit.first.get(end[0].key)
        if len(end) == 1:
            port = its if self._unit.kind != "SYSTEM" else None
        else:
            is_own = its is not None and its.section in ADAPTER_SECTIONS
            if not its or is_own and (self._unit.kind == "SUBAPPLICATION" or space == INSTANCE):
                return "PORT_UNKNOWN"
            of = self._usable(its.type, TYPE_KINDS[its.section])
            if not of:
                return None
            port = of.first.get(Key(of.name, space, "", end[1].key.name))
        if not port or port.section not in _PORTS[space]:
            return "PORT_UNKNOWN"
        return None if self._at.is_source(at, port) == is_source else "PORT_SIDE"


def _is_in(its: Declaration | None, section: str) -> bool:
    return its is not None and its.section == section
