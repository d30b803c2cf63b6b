"""Random libraries of units, and what the workbench finds of them: most full of faults, from the generator of oracle/, or all without faults."""
from __future__ import annotations

import random
import sys
from collections.abc import Iterable, Iterator
from dataclasses import dataclass
from functools import cache
from itertools import islice

from support import CLIENTS, workbench

from bench61499 import Change, Fault, Flat, Net, NoSuchKey, Put, Remove, Session, batches

from bench61499.language.tokens import tokens

sys.path.append(str(CLIENTS.parent / "oracle"))

from generate import Gen  # noqa: E402

Tokens = list[str]


@dataclass
class Library:
    """The texts of units that belong together, by name, with their faults and their networks."""

    texts: dict[str, str]
    faults: dict[str, tuple[Fault, ...]]
    nets: dict[str, Net]

    def codes(self, name: str) -> set[str]:
        return {it.code for it in self.faults[name]}

    def flat(self) -> Iterator[tuple[str, Flat]]:
        return ((name, net) for name, net in self.nets.items() if isinstance(net, Flat))


def faulty_libraries(seed: int) -> Iterator[dict[str, str]]:
    making = Gen(random.Random(seed))
    while True:
        yield making.library()


def sound_libraries(seed: int) -> Iterator[dict[str, str]]:
    making = Sound(random.Random(seed))
    while True:
        yield making.library()


@cache
def checked() -> tuple[Library, ...]:
    """Libraries of 2,000 units, half of these with faults, and what the workbench finds of them."""
    with Session.script(workbench()) as session:
        its = [*so_many(faulty_libraries(1), 1000), *so_many(sound_libraries(1), 1000)]
        return tuple(Library(texts, faults_of(session, texts), nets_of(session, texts)) for texts in its)


def at_tokens(text: str, faults: tuple[Fault, ...]) -> list[tuple[str, int, int]]:
    """Faults with the numbers of the first token at them and of the first after them."""
    starts = [it.start for it in tokens(text)]
    return [(it.code, sum(start < it.start for start in starts), sum(start < it.end for start in starts)) for it in faults]


def so_many(libraries: Iterable[dict[str, str]], units: int) -> Iterator[dict[str, str]]:
    for texts in libraries:
        yield texts
        units -= len(texts)
        if units <= 0:
            return


def faults_of(session: Session, texts: dict[str, str]) -> dict[str, tuple[Fault, ...]]:
    """The faults of these texts, which the workbench gets in the place of all that this session has put."""
    known = session.revisions
    changes: list[Change] = [Remove(name, revision) for name, revision in known.items() if name not in texts]
    changes += [Put(name, known.get(name, 0), text) for name, text in texts.items()]
    for batch in batches(changes):
        session.commit(batch)
    return session.settle()


def nets_of(session: Session, texts: dict[str, str]) -> dict[str, Net]:
    found: dict[str, Net] = {}
    for name in texts:
        try:
            found[name] = session.net(name)
        except NoSuchKey:
            continue
    return found


@dataclass
class Interface:
    """The ports of a type: names by sort and side, of adapters with their type."""

    events: dict[str, list[str]]
    data: dict[str, list[str]]
    adapters: dict[str, list[tuple[str, str]]]

    def ends(self, sort: str, side: str) -> list[tuple[str, str]]:
        """The ports of a sort that are sources or destinations seen from outside, each with its type."""
        if sort == "ADAPTER":
            return self.adapters["plug" if side == "source" else "socket"]
        names = (self.events if sort == "EVENT" else self.data)["out" if side == "source" else "in"]
        return [(name, sort) for name in names]


class Sound:
    """Libraries without faults: adapters, block types, nested subapplications, a system, in odd layouts."""

    def __init__(self, chance: random.Random):
        self.chance = chance
        self.spelling = Gen(chance)

    def library(self) -> dict[str, str]:
        self.types: dict[str, Interface] = {}
        units = {f"A{at}": self.adapter(f"A{at}") for at in range(2)}
        units |= {f"B{at}": self.block(f"B{at}") for at in range(self.chance.randint(2, 4))}
        blocks = [name for name in units if name[0] == "B"]
        inner: list[str] = []
        for at in range(self.chance.randint(1, 4)):
            units[f"S{at}"] = self.subapplication(f"S{at}", blocks, list(inner))
            inner.append(f"S{at}")
        units["PLANT"] = self.system(blocks, inner)
        return {name: self.spelling.join(of) for name, of in units.items()}

    def some(self, prefix: str, most: int) -> list[str]:
        return [f"{prefix}{at}" for at in range(self.chance.randint(0, most))]

    def interface(self, with_adapters: bool) -> Interface:
        events, data = ({"in": self.some(f"{word}I", 2), "out": self.some(f"{word}O", 2)} for word in "ED")
        adapters = {"plug": self.some("P", 2), "socket": self.some("K", 2)} if with_adapters else {"plug": [], "socket": []}
        return Interface(events, data, {side: [(name, self.chance.choice(["A0", "A1"])) for name in names] for side, names in adapters.items()})

    def ports(self, its: Interface) -> list[Tokens]:
        """The sections of an interface, in any order."""
        parts = []
        for side, word in (("in", "INPUT"), ("out", "OUTPUT")):
            withs = ["WITH", *self.spelling.commas([[name] for name in its.data[side]])] if its.data[side] else []
            parts.append([f"EVENT_{word}", *(token for name in its.events[side] for token in (name, *withs, ";")), "END_EVENT"])
            parts.append([f"VAR_{word}", *(token for name in its.data[side] for token in (name, ":", "INT", ";")), "END_VAR"])
        for side, word in (("plug", "PLUGS"), ("socket", "SOCKETS")):
            if its.adapters[side]:
                parts.append(self.section(word, its.adapters[side]))
        self.chance.shuffle(parts)
        return parts

    def section(self, word: str, names: list[tuple[str, str]]) -> Tokens:
        return [word, *(token for name, of in names for token in (name, ":", of, ";")), f"END_{word}"]

    def adapter(self, name: str) -> Tokens:
        self.types[name] = self.interface(with_adapters=False)
        return ["ADAPTER", name, *sum(self.ports(self.types[name]), []), "END_ADAPTER"]

    def block(self, name: str) -> Tokens:
        self.types[name] = its = self.interface(with_adapters=True)
        return ["FUNCTION_BLOCK", name, *sum([*self.ports(its), *self.chart(its)], []), "END_FUNCTION_BLOCK"]

    def chart(self, its: Interface) -> list[Tokens]:
        """A chart over all events that come in, with an algorithm over all data."""
        coming, going = self.chart_events(its, "in"), self.chart_events(its, "out")
        actions = self.spelling.commas([["STEP", "->", *it] for it in going] or [["STEP"]])
        rows = [["REST", "TO", "WORK", ":=", *it, ";"] for it in coming] + [["WORK", "TO", "REST", ":=", "1", ";"]]
        statements = [[*one, ":=", *other, "+", "1", ";"] for one, other in zip(self.variables(its), self.variables(its)[1:])]
        return [
            ["EC_STATES", "REST", ";", "WORK", ":", *actions, ";", "END_STATES"],
            ["EC_TRANSITIONS", *sum(rows, []), "END_TRANSITIONS"],
            ["ALGORITHM", "STEP", "IN", "ST", ":", *sum(statements, []), "END_ALGORITHM"],
        ]

    def chart_events(self, its: Interface, side: str) -> list[Tokens]:
        found = [[name] for name in its.events[side]]
        across = {"in": "out", "out": "in"}[side]
        for role, way in (("plug", side), ("socket", across)):
            found += [[name, ".", event] for name, of in its.adapters[role] for event in self.types[of].events[way]]
        return found

    def variables(self, its: Interface) -> list[Tokens]:
        found = [[name] for side in ("in", "out") for name in its.data[side]]
        of_adapters = [*its.adapters["plug"], *its.adapters["socket"]]
        return found + [[name, ".", data] for name, of in of_adapters for side in ("in", "out") for data in self.types[of].data[side]]

    def network(self, blocks: list[str], inner: list[str], own: Interface | None) -> tuple[list[Tokens], list[tuple[str, str]]]:
        """Sections of instances and of connections, and the instances."""
        instances = [(f"F{at}", self.chance.choice(blocks)) for at in range(self.chance.randint(1, 3))]
        nested = [(f"N{at}", self.chance.choice(inner)) for at in range(self.chance.randint(0, 2)) if inner]
        parts = [self.section("FBS", instances), *([self.section("SUBAPPS", nested)] if nested else [])]
        parts += [self.connections(sort, [*instances, *nested], own) for sort in ("EVENT", "DATA", "ADAPTER")]
        self.chance.shuffle(parts)
        return parts, [*instances, *nested]

    def connections(self, sort: str, instances: list[tuple[str, str]], own: Interface | None) -> Tokens:
        """Connections at random: no data destination and no end of an adapter connection twice, nothing straight through."""
        sources, destinations = (self.ends(sort, side, instances, own) for side in ("source", "destination"))
        made: Tokens = []
        for end, of in sources:
            fitting = [it for it in destinations if it[1] == of and not (len(it[0]) == len(end) == 1)]
            if fitting and self.chance.random() < 0.8:
                other = self.chance.choice(fitting)
                made += [*end, "TO", *other[0], ";"]
                if sort != "EVENT":
                    destinations.remove(other)
        return [f"{sort}_CONNECTIONS", *made, "END_CONNECTIONS"]

    def ends(self, sort: str, side: str, instances: list[tuple[str, str]], own: Interface | None) -> list[tuple[Tokens, str]]:
        found = [([name, ".", port], of) for name, it in instances for port, of in self.types[it].ends(sort, side)]
        across = {"source": "destination", "destination": "source"}[side]
        return found + [([port], of) for port, of in (own.ends(sort, across) if own else [])]

    def subapplication(self, name: str, blocks: list[str], inner: list[str]) -> Tokens:
        self.types[name] = own = self.interface(with_adapters=True)
        parts = [*self.ports(own), *self.network(blocks, inner, own)[0]]
        self.chance.shuffle(parts)
        return ["SUBAPPLICATION", name, *sum(parts, []), "END_SUBAPPLICATION"]

    def system(self, blocks: list[str], inner: list[str]) -> Tokens:
        parts: list[Tokens] = [["DEVICE", "D", ":", "DT", "RESOURCE", "R", ":", "RT", "END_RESOURCE", "END_DEVICE"]]
        for application in islice(("LINE", "TEST"), self.chance.randint(1, 2)):
            its, instances = self.network(blocks, inner, None)
            parts.append(["APPLICATION", application, *sum(its, []), "END_APPLICATION"])
            paths = [[application], *([application, ".", name] for name, _ in instances)]
            parts.append(["MAPPINGS", *(token for path in paths for token in (*path, "ON", "D", ".", "R", ";")), "END_MAPPINGS"])
        self.chance.shuffle(parts)
        return ["SYSTEM", "PLANT", *sum(parts, []), "END_SYSTEM"]
