"""Where the parts of a text are in the file of XML that it was made of."""
from __future__ import annotations

import re
from bisect import bisect_right
from collections.abc import Iterator
from typing import NamedTuple

from bench61499 import Places
from bench61499.exchange.exchanged import Algorithm, Unit
from bench61499.exchange.from_text import read_or_none
from bench61499.exchange.lowering import networks
from bench61499.exchange.outgoing import recorded_names
from bench61499.exchange.names import restored
from bench61499.exchange.xmltext import escaped
from bench61499.language.skipped import GUARD

_QUOTED = re.compile(r'"[^"]*"')


class Part(NamedTuple):
    """A part of a unit: the line at which it begins, and its element by its name."""

    line: int
    element: str
    algorithm: Algorithm | None = None


def parts(unit: Unit) -> Iterator[Part]:
    """The parts of a unit in an order that a unit of a file and that of its text share."""
    yield Part(unit.line, f"the {unit.name}")
    yield from (Part(it.line, f"Event {it.name}") for its in unit.events.values() for it in its)
    yield from (Part(it.line, f"VarDeclaration {it.name}") for its in unit.variables.values() for it in its)
    yield from (Part(it.line, f"AdapterDeclaration {it.name}") for its in unit.adapters.values() for it in its)
    yield from (Part(it.line, f"ECState {it.name}") for it in unit.states or ())
    yield from (Part(it.line, f"ECTransition {it.source} -> {it.destination}") for it in unit.transitions)
    ways = {it.condition.partition("[")[2].strip("]"): f"ECTransition {it.source} -> {it.destination}" for it in unit.transitions if GUARD in it.condition}
    yield from (Part(it.line, ways.get(it.name, f"Algorithm {it.name}"), it) for it in unit.algorithms)
    yield from (Part(it.line, f"Application {it.name}") for it in unit.applications)
    for network in networks(unit):
        yield from (Part(it.line, f"{'SubApp' if it.section == 'SUBAPPS' else 'FB'} {it.name}") for it in network.instances)
        yield from (Part(it.line, f"Connection {it.source} -> {it.destination}") for its in network.connections.values() for it in its)
    for device in unit.devices:
        yield Part(device.itself.line, f"Device {device.itself.name}")
        yield from (Part(it.line, f"Resource {it.name}") for it in device.resources)
    yield from (Part(it.line, f"Mapping {it.path}") for it in unit.mappings)


class Located(NamedTuple):
    """A place in a file of XML: the element that it is of, and the bytes that are shown."""

    element: str
    start: int
    end: int


class Lines:
    """The lines of a unit's text as those of its file."""

    def __init__(self, unit: Unit, text: str, xml: str):
        own = read_or_none(text)
        pairs = list(zip(parts(own), parts(unit), strict=True)) if own else []
        self._pairs = sorted(pairs, key=lambda it: it[0].line)
        self._begins = [it.line for it, _ in self._pairs]
        self._unit, self._places, self._xml = unit, Places(text), xml.split("\n")
        self._offsets = [0]
        for line in self._xml:
            self._offsets.append(self._offsets[-1] + len(line.encode()) + 1)
        self._names = recorded_names(unit)

    def located(self, start: int, end: int) -> Located:
        """The place in the file for one in the text."""
        line, _ = self._places.line_column(start)
        words = self._places.words(start, end)
        at = bisect_right(self._begins, line) - 1
        if at < 0:
            return self.shown(self._unit.line, f"the {self._unit.name}", words)
        own, its = self._pairs[at]
        algorithm = its.algorithm
        if algorithm and algorithm.body_line and line > own.line:
            at_body = -algorithm.body_line if algorithm.body_line < 0 else algorithm.body_line + line - own.line - 1
            return self.shown(at_body, its.element, words)
        return self.shown(its.line or self._unit.line, its.element, words)

    def shown(self, line: int, element: str, words: str) -> Located:
        """A place in a line of the file: words, or all of the line if they are not in it."""
        number = min(max(line, 1), len(self._xml))
        whole = self._xml[number - 1].rstrip("\r")
        begin, end = self._span(whole, words)
        base = self._offsets[number - 1]
        return Located(element, base + len(whole[:begin].encode()), base + len(whole[:end].encode()))

    def _span(self, line: str, words: str) -> tuple[int, int]:
        """The words in a line, in the value of an attribute if they are there; all of the line if they are not."""
        file = ".".join(restored(it, self._names) for it in words.split("."))
        for each in dict.fromkeys((file, words, file.rpartition(".")[2])):
            sought = re.compile(rf"(?<!\w){re.escape(escaped(each))}(?!\w)") if each else None
            found = next((it for quoted in _QUOTED.finditer(line) if sought and (it := sought.search(line, *quoted.span()))), None) or sought and sought.search(line)
            if found:
                return found.span()
        return len(line) - len(line.lstrip()), len(line)
