"""A part of a network as a subapplication of its own.

The instances move into a new unit, with their parameters and the connections among them. Where a connection crosses the border the new unit has a port, and
there is a connection on each side of it. Mappings that lead to the instances lead on through the new one.
"""
from __future__ import annotations

import re
from bisect import bisect_left
from collections import defaultdict
from collections.abc import Callable, Iterator, Mapping, Sequence
from dataclasses import dataclass, field
from typing import NamedTuple

from bench61499 import CHANGES_LIMIT, NAME_LIMIT, TEXT_LIMIT
from bench61499.language.declarations import (
    CONNECTION_SECTIONS, ENDS, EVENT, INSTANCE, INTERFACE, TYPE, VARIABLE, Connection, Declaration, Key, Use, is_elementary,
)
from bench61499.language.grammar import first_stop
from bench61499.language.layout import Edit, applied, formatted
from bench61499.language.nesting import Nesting
from bench61499.language.plans import resources
from bench61499.language.plant import Plant, Text
from bench61499.language.tokens import RESERVED, head, pieces, tokens
from bench61499.language.wording import counted, listed
from bench61499.lsp.fixes import added

_MOST_NAMED = 3
_LINE_END = re.compile(rb"\r\n|\n|\r")
_SECTIONS = {
    (EVENT, True): "EVENT_INPUT",
    (EVENT, False): "EVENT_OUTPUT",
    (VARIABLE, True): "VAR_INPUT",
    (VARIABLE, False): "VAR_OUTPUT",
    (INSTANCE, True): "SOCKETS",
    (INSTANCE, False): "PLUGS",
}
"""The section of a port by what its connection carries, and whether it leads in."""
_NETWORK = ("FBS", "SUBAPPS", *CONNECTION_SECTIONS)


class CantExtract(Exception):
    """Why it is not done, in the words for the user."""


@dataclass(frozen=True)
class Extraction:
    """A new unit, and what other texts become. `moved` are the names of the instances in it."""

    moved: tuple[str, ...]
    name: str
    text: str
    changed: list[tuple[Text, str]]

    @property
    def title(self) -> str:
        what = listed(self.moved, "and") if len(self.moved) <= _MOST_NAMED else counted(len(self.moved), "instance")
        return f"Extract {what} into a subapplication {self.name}"


def chosen(text: Text, start: int, end: int) -> list[Declaration]:
    """The instances of a network at a span, where these may be in a subapplication: a block type has none."""
    found = [it for it in text.unit.declared if it.section in ("FBS", "SUBAPPS") and it.begin <= end and start <= it.last]
    can_move = text.unit.kind in ("SUBAPPLICATION", "SYSTEM") and found and not first_stop(list(tokens(text.text)))
    return found if can_move else []


def extracted(plant: Plant, text: Text, moved: list[Declaration], elsewhere: Mapping[str, str]) -> Extraction:
    """Moves instances of one network. `elsewhere` are the texts of units that have no file here. Raises `CantExtract`."""
    _check(plant, text, moved)
    if text.unit.kind == "SUBAPPLICATION":
        _check_mappings(moved, elsewhere)
    network = _Network(plant, text, moved, elsewhere)
    new = network.unit()
    edits = {text.uri: (text, network.edits())}
    for other, place in network.mappings():
        edits.setdefault(other.uri, (other, []))[1].append((place, place, f"{network.name}."))
    its = [(other, applied(other.text, sorted(those))) for other, those in edits.values()]
    its[0] = text, _without_empty_sections(its[0][1])
    found = Extraction(tuple(it.words for it in moved), network.type, applied(new, formatted(new)), its)
    _check_size(found)
    return found


def _check(plant: Plant, text: Text, moved: list[Declaration]) -> None:
    if len({it.key.scope for it in moved}) > 1:
        raise CantExtract("the instances are of more than one application")
    if "#" in moved[0].key.scope:
        raise CantExtract(f"the application {moved[0].key.owner} is declared more than once")
    if len(plant.declaring(text.unit.name)) > 1:
        raise CantExtract(f"more than one file declares {text.unit.name}")
    for it in moved:
        if sum(other.key == it.key for other in text.unit.declared) > 1:
            raise CantExtract(f"{it.words} is declared more than once")


def _check_mappings(moved: list[Declaration], elsewhere: Mapping[str, str]) -> None:
    """A system that can't be changed here must not name a moved instance."""
    for unit, text in elsewhere.items():
        mapped = {name for path in resources(text) for name in path.split(".")[1:]} if head(text)[0] == "SYSTEM" else set()
        for it in moved:
            if it.key.name in mapped:
                raise CantExtract(f"{unit}, which has no file here, may map {it.words}")


def _check_size(found: Extraction) -> None:
    """The workbench has to take it in one commit."""
    needed = len(found.changed) + 1
    if needed > CHANGES_LIMIT:
        raise CantExtract(f"this takes {needed:,} changes, and a commit has at most {CHANGES_LIMIT}")
    for name, text in [(found.name, found.text), *((it.words, after) for it, after in found.changed)]:
        if (size := len(text.encode())) > TEXT_LIMIT:
            raise CantExtract(f"{name} would have {size:,} bytes, and the text of a unit has at most {TEXT_LIMIT:,}")


class _Item(NamedTuple):
    """The span of a declaration or a connection with its `;`, and that with the comments that belong to it: in the lines before it, and after it in its line."""

    start: int
    end: int
    first: int
    last: int


@dataclass
class _Port:
    """A port of the new unit, and the connections that lead through it, all from one source."""

    section: str
    name: str
    type: str
    connections: list[Connection] = field(default_factory=list)

    @property
    def declared(self) -> str:
        return f"{self.name} : {self.type};" if self.type else f"{self.name};"


class _Network:
    """A network, the part of it that moves, and the ports that come of the connections between the two."""

    def __init__(self, plant: Plant, text: Text, moved: list[Declaration], elsewhere: Mapping[str, str]):
        self._plant, self._text, self._moved = plant, text, moved
        self._scope = moved[0].key.scope
        self._names = {it.key.name for it in moved}
        self._pieces = list(pieces(text.text))
        self._starts = [it.start for it in self._pieces]
        self._connections = [it for it in text.unit.connections if it.scope == self._scope]
        owner = next((it.words for it in text.unit.declared if it.section == "APPLICATION" and it.key.name == self._scope), text.words)
        self.name = _free(["PART"], self._is_taken)
        self.type = _free([f"{owner}_PART"], lambda name: name in elsewhere or self._is_unit(name))
        self._ports = self._crossing()

    def _is_taken(self, name: str) -> bool:
        """Whether the network has an instance of a name, or uses one."""
        key = Key(self._text.unit.name, INSTANCE, self._scope, name)
        return key in self._text.unit.first or any(self._plant.uses(key))

    def _is_unit(self, name: str) -> bool:
        """Whether there is a unit of a name, its file, or a use of it."""
        is_there = bool(self._plant.declaring(name)) or self._text.file.with_name(f"{name}.fb").exists()
        return is_elementary(name) or is_there or any(self._plant.uses(Key(name, TYPE, "", name)))

    # The ports

    def _is_inside(self, end: Sequence[Use]) -> bool:
        return len(end) == 2 and end[0].key.name in self._names

    def _crosses(self, it: Connection) -> bool:
        return self._is_inside(it.source) != self._is_inside(it.destination)

    def _port(self, it: Connection) -> _Port | None:
        """The port that a connection leads through, if it crosses the border."""
        return self._ports[_source(it)] if self._crosses(it) else None

    def _crossing(self) -> dict[tuple[str, tuple[str, ...]], _Port]:
        """The ports by what they carry and their sources."""
        crossing: defaultdict[tuple[str, tuple[str, ...]], list[Connection]] = defaultdict(list)
        for it in self._connections:
            if self._crosses(it):
                crossing[_source(it)].append(it)
        ports: dict[tuple[str, tuple[str, ...]], _Port] = {}
        taken = {(INSTANCE, name) for name in self._names}
        for key, those in crossing.items():
            its = self._type_of(those[0].source)
            name = _free(list(self._port_names(those, its)), {name for space, name in taken if space == key[0]}.__contains__)
            taken.add((key[0], name.upper()))
            ports[key] = _Port(_SECTIONS[key[0], not self._is_inside(those[0].source)], name, its.type, those)
        return ports

    def _type_of(self, source: Sequence[Use]) -> Declaration:
        """The port that is the source of a connection."""
        its = self._plant.declaration(self._plant.key(source[-1]))
        if not its or its.section not in INTERFACE or not its.type and its.key.space != EVENT:
            raise CantExtract(f"the port {self._words(source)}, which a connection across the border begins with, is not known")
        return its

    def _port_names(self, those: list[Connection], its: Declaration) -> Iterator[str]:
        """The names that a port may have: that of the source, or of the only destination if that is inside."""
        end = those[0].source
        if not self._is_inside(end) and len(end) == 2 and len({_upper(it.destination) for it in those}) == 1:
            end = those[0].destination
        name = its.words if end is those[0].source else self._words(end[-1:])
        yield name
        if len(end) == 2:
            yield f"{self._words(end[:1])}_{name}"

    def _words(self, end: Sequence[Use]) -> str:
        return self._text.places.words(end[0].start, end[-1].end)

    # The new unit

    def unit(self) -> str:
        """Its text, not laid out."""
        parts = [(it.section, it.declared) for it in sorted(self._ports.values(), key=lambda it: (*_SECTIONS.values(),).index(it.section))]
        parts += [(it.section, self._cut(self._item(it.begin, it.last))) for it in self._moved]
        sections: dict[str, list[str]] = {}
        for section, item in [*parts, *self._inner()]:
            sections.setdefault(section, []).append(item)
        order = sorted(sections, key=[*_SECTIONS.values(), *_NETWORK].index)
        lines = [f"SUBAPPLICATION {self.type}", *(line for it in order for line in (it, *sections[it], ENDS[it])), "END_SUBAPPLICATION", ""]
        return ("\r\n" if "\r\n" in self._text.text else "\n").join(lines)

    def _inner(self) -> Iterator[tuple[str, str]]:
        """Its connections, each with its section."""
        words = {space: section for section, space in CONNECTION_SECTIONS.items()}
        for it in self._connections:
            port = self._port(it)
            if port and self._is_inside(it.source):
                if it is port.connections[0]:
                    yield words[it.space], f"{self._words(it.source)} TO {port.name};"
            elif port and it is port.connections[0]:
                yield words[it.space], f"{port.name} TO {self._words(it.destination)};"
            elif port:
                item, words_at = self._item(it.source[0].start, it.destination[-1].end), self._text.places.words
                yield words[it.space], words_at(item.first, item.start) + port.name + words_at(it.source[-1].end, item.last)
            elif self._is_inside(it.source):
                yield words[it.space], self._cut(self._item(it.source[0].start, it.destination[-1].end))

    def _item(self, start: int, end: int) -> _Item:
        """The item with a span; its `;` is in it or after it."""
        before = at = bisect_left(self._starts, start)
        while before and self._pieces[before - 1].kind == "comment" and self._lines(before - 1) > 0 and self._lines(before) == 1:
            before -= 1
        while self._pieces[at].end < end or self._pieces[at].words != ";":
            at += 1
        end = self._pieces[at].end
        behind = at + 1
        while behind < len(self._pieces) and self._pieces[behind].kind == "comment" and not self._lines(behind):
            behind += 1
        is_last = self._lines(behind) > 0
        return _Item(start, end, self._pieces[before].start, self._pieces[behind - 1].end if is_last else end)

    def _lines(self, at: int) -> int:
        """The number of line ends before a piece, or before the end of the text; at its begin one."""
        start = self._pieces[at - 1].end if at else 0
        end = self._starts[at] if at < len(self._starts) else len(self._text.places.encoded)
        return len(_LINE_END.findall(self._text.places.encoded[start:end])) + (at == 0)

    def _cut(self, item: _Item) -> str:
        return self._text.places.words(item.first, item.last)

    # The other texts

    def edits(self) -> list[Edit]:
        """Those of the network: what moves is taken out, and the ends of the connections that cross become the new ports."""
        found: list[Edit] = []
        out = [self._item(it.begin, it.last) for it in self._moved]
        for it in self._connections:
            port = self._port(it)
            if port and self._is_inside(it.source):
                found.append((it.source[0].start, it.source[-1].end, f"{self.name}.{port.name}"))
            elif port and it is port.connections[0]:
                found.append((it.destination[0].start, it.destination[-1].end, f"{self.name}.{port.name}"))
            elif port or self._is_inside(it.source):
                out.append(self._item(it.source[0].start, it.destination[-1].end))
        found += _without(self._text.places.encoded, [(it.first, it.last) for it in out])
        return [*found, added(self._text, "SUBAPPS", f"{self.name} : {self.type};", self._scope)]

    def mappings(self) -> Iterator[tuple[Text, int]]:
        """Where the moved instances are named in the paths of mappings."""
        ends = {use.start for it in self._connections for use in (*it.source, *it.destination)}
        for it in self._moved:
            for text, uses in self._plant.uses(it.key):
                yield from ((text, use.start) for use in uses if text is not self._text or use.start not in ends)


def _source(it: Connection) -> tuple[str, tuple[str, ...]]:
    return it.space, _upper(it.source)


def _upper(end: Sequence[Use]) -> tuple[str, ...]:
    return tuple(use.key.name for use in end)


def _free(wanted: list[str], is_taken: Callable[[str], bool]) -> str:
    """The first of some names that can be one and is free; else the first one with a number."""
    for name in wanted:
        if len(name) <= NAME_LIMIT and name.upper() not in RESERVED and not is_taken(name.upper()):
            return name
    number = 2
    while is_taken((name := f"{wanted[0][: NAME_LIMIT - len(str(number))]}{number}").upper()):
        number += 1
    return name


def _without_empty_sections(text: str) -> str:
    """A text without those sections of networks that have nothing in them, not even a comment."""
    its = list(pieces(text))
    foreign = Nesting(its).foreign
    pairs = ((at, its[at], its[at + 1]) for at in range(len(its) - 1))
    empty = [(begin.start, end.end) for at, begin, end in pairs if begin.upper in _NETWORK and end.upper == ENDS[begin.upper] and at not in foreign]
    return applied(text, list(_without(text.encode(), empty)))


def _without(encoded: bytes, spans: list[tuple[int, int]]) -> Iterator[Edit]:
    """What takes spans out: with their lines if nothing else is in them, else with blanks on one side."""
    joined: list[tuple[int, int]] = []
    for start, end in sorted(spans):
        if joined and not encoded[joined[-1][1] : start].strip(b" \t"):
            start = joined.pop()[0]
        joined.append((start, end))
    for start, end in joined:
        yield _with_blanks(encoded, start, end)


def _with_blanks(encoded: bytes, start: int, end: int) -> Edit:
    before = encoded[:start].rstrip(b" \t")
    behind = encoded[end:].lstrip(b" \t")
    is_at_begin, is_at_end = before[-1:] in (b"", b"\r", b"\n"), behind[:1] in (b"", b"\r", b"\n")
    last = len(encoded) - len(behind)
    if is_at_begin and is_at_end:
        return len(before), last + (2 if behind[:2] == b"\r\n" else len(behind[:1])), ""
    return (len(before), end, "") if is_at_end else (start, last, "")
