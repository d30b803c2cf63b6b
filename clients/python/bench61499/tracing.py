"""What feeds an input, and where an output leads: the ways through a flat network, as a workbench has proved it, block by block.

    tracing = Tracing("PLANT", session.net("PLANT"), session.deploy("PLANT"), Texts.of(texts).unit)    # the texts that are known, by unit
    end = tracing.end("LINE.PANEL.VALUE")                                                              # raises NoSuchEnd
    for step in tracing.back(end).steps:
        print(step.number, step.path, step.type, step.resource, [hop.link for hop in step.hops])

Links and cuts are those of the network and the plan. A block's outputs count as fed by all of its inputs: what its algorithms do is not looked at.
"""
from __future__ import annotations

from collections import defaultdict
from collections.abc import Callable, Iterable, Iterator, Mapping
from dataclasses import dataclass
from functools import cached_property

from bench61499.language.declarations import ADAPTER_SECTIONS, INSTANCE, INTERFACE, Key, Unit
from bench61499.language.network import LEFT, SORTS, homes
from bench61499.language.wording import Names, asked
from bench61499.session import Border, Deploy, Flat, Link, Net, Plan, Sort

Place = tuple[Sort, str]
"""A port of a block, or an own port of the network, by its sort and its path."""


class NoSuchEnd(Exception):
    """The path is no end of a connection; the text says why, and which one may have been meant."""


@dataclass(frozen=True)
class End:
    """What is asked about: its path, and the ports of blocks that it is or leads to.

    `block` is the path of the block whose port it is; empty if it is an own port, or a port of a subapplication, which may lead to several. `into` are the ports
    that something can feed, `out` those that feed something: a block, a plug and a socket have both. `constant` is the parameter that is written to an input.
    """

    path: str
    block: str
    into: tuple[Place, ...] = ()
    out: tuple[Place, ...] = ()
    constant: str = ""


@dataclass(frozen=True)
class Hop:
    """A link on a way. It `is_cut` if it leads from one resource to another; `is_border` if one of its ends is an own port of the network."""

    link: Link
    is_cut: bool = False
    is_border: bool = False


@dataclass(frozen=True)
class Step:
    """A block on a way, by the number of links between it and the end, with the links by which it is reached. `resource` is empty without a plan.

    An own port of the network has its path and no type. It `is_again` if it is in an earlier step, and so leads no further here.
    """

    number: int
    path: str
    type: str
    resource: str
    hops: tuple[Hop, ...]
    is_again: bool = False


@dataclass(frozen=True)
class Way:
    """All that feeds an end, or that it feeds, nearest first. `is_whole` if nothing is left out for the number of steps."""

    steps: tuple[Step, ...]
    is_whole: bool = True

    @property
    def hops(self) -> list[Hop]:
        return [hop for step in self.steps for hop in step.hops]


class Tracing:
    """The network of a unit. `read` gives what is declared in the text of a unit, if that is known: the ports of a type, and the types of instances.

    `net_of` gives the net of a subapplication type as the workbench has it; its borders lead from a port of an instance to the ports of blocks.
    """

    def __init__(self, unit: str, net: Flat, deploy: Deploy | None, read: Callable[[str], Unit | None], net_of: Callable[[str], Net | None] = lambda _: None):
        self._unit, self._net, self._read, self._net_of = unit, net, read, net_of
        self._plan = deploy if isinstance(deploy, Plan) else None
        self._types = {it.path: it.type for it in net.blocks}
        self._homes = homes(deploy)
        self._cuts = frozenset(self._plan.cuts) if self._plan else frozenset[Link]()

    # Ends

    def end(self, path: str) -> End:
        """The end with a path in any case: a port of a block or of a plug or socket, a plug, a socket, a block, a port of a subapplication, or an own port. Raises `NoSuchEnd`."""
        path = path.upper()
        if path in self._types:
            return self._whole(path, path, f"{path}.")
        if block := self.block_of(path):
            return self._port(path, block)
        if its := self._own(path):
            return its
        if its := self._inner(path):
            return its
        raise NoSuchEnd(self._why_none(path))

    def block_of(self, place: str) -> str:
        """The path of the block whose port a place is; empty if no block has it."""
        return next((front for cut in (1, 2) if (front := ".".join(place.split(".")[:-cut])) in self._types), "")

    def _port(self, path: str, block: str) -> End:
        if any(place.startswith(f"{path}.") for _, place in self._places):
            return self._whole(path, block, f"{path}.")
        into, out = self._known(lambda place: place == path)
        sides = self._sides(self._types[block], path[len(block) + 1 :])
        if sides is None and not into and not out:
            raise NoSuchEnd(self._why_no_port(path, block))
        into = into or tuple((sort, path) for sort, is_in in sides or () if is_in)
        out = out or tuple((sort, path) for sort, is_in in sides or () if not is_in)
        return End(path, block, into, out, self._constants.get(path, ""))

    def _whole(self, path: str, block: str, front: str) -> End:
        """All ports of a block, a plug or a socket."""
        into, out = self._known(lambda place: place.startswith(front))
        return End(path, block, into, out)

    def _own(self, path: str) -> End | None:
        """An own port of a subapplication: its input feeds what is inside, its output is fed by that."""
        its = [it for it in self._net.borders if it.port == path]
        declared = self._ports(self._unit).get(path, ())
        if not its and not declared:
            return None
        is_in = {(sort, side in LEFT) for sort, side in declared}
        into = tuple((sort, path) for sort, left in is_in if not left or sort == "adapter")
        out = tuple((sort, path) for sort, left in is_in if left or sort == "adapter")
        return End(path, "", into, out) if declared else End(path, "", tuple((it.sort, path) for it in its), tuple((it.sort, path) for it in its))

    def _inner(self, path: str) -> End | None:
        """A port of a subapplication instance, by the borders of its type."""
        front, _, port = path.rpartition(".")
        inner = self._type_of(front) if front else ""
        net = self._net_of(inner) if inner else None
        declared = self._ports(inner).get(port, ())
        if not isinstance(net, Flat) or not declared:
            return None
        its = [self.end(f"{front}.{it.place}") for it in net.borders if it.port == port]
        if not its:
            raise NoSuchEnd(f"{port} of {inner} leads to no block inside of {front}, so the flat network has no such end")
        is_adapter = any(sort == "adapter" for sort, _ in declared)
        sides = {section in LEFT for _, section in declared}
        into = tuple(dict.fromkeys(place for it in its for place in it.into if is_adapter or True in sides))
        out = tuple(dict.fromkeys(place for it in its for place in it.out if is_adapter or False in sides))
        return End(path, "", into, out)

    def _type_of(self, path: str) -> str:
        """The type of a subapplication instance, by the texts; empty if that is not known."""
        known, scope, names = self._read(self._unit), "", path.split(".")
        if known and known.kind == "SYSTEM":
            scope, *names = names
        of = self._unit
        for name in names:
            its = known.instance(scope, name) if known else None
            if not its or its.section != "SUBAPPS":
                return ""
            of, scope = its.type.upper(), ""
            known = self._read(of)
        return of if names else ""

    def _known(self, wanted: Callable[[str], bool]) -> tuple[tuple[Place, ...], tuple[Place, ...]]:
        """The ports of blocks that links lead to, and those that links lead from."""
        into = tuple(it for it in self._to if wanted(it[1]))
        return into, tuple(it for it in self._from if wanted(it[1]))

    @cached_property
    def _places(self) -> dict[Place, None]:
        return dict.fromkeys([*self._to, *self._from])

    # Ways

    def back(self, end: End, most: int = 0) -> Way:
        """What feeds an end, and what feeds that, over all steps, or over `most` of them."""
        return self._way(end.into, self._to, lambda it: it.source, self._inputs, most)

    def forth(self, end: End, most: int = 0) -> Way:
        """What an end feeds, and what that feeds."""
        return self._way(end.out, self._from, lambda it: it.destination, self._outputs, most)

    def _way(
        self, places: Iterable[Place], hops: Mapping[Place, list[Hop]], far: Callable[[Link], str], further: Mapping[str, list[Place]], most: int
    ) -> Way:
        """Goes from ports over links to blocks, and on from all their ports, each once."""
        steps: list[Step] = []
        seen, used, number = set[str](), set[Link](), 0
        while places and (not most or number < most):
            number += 1
            found: defaultdict[str, list[Hop]] = defaultdict(list)
            for hop in (it for place in places for it in hops.get(place, ()) if it.link not in used):
                found[self.block_of(far(hop.link)) or far(hop.link)].append(hop)
                used.add(hop.link)
            steps += [self._step(number, path, bool(self.block_of(far(its[0].link))), its, path in seen) for path, its in found.items()]
            places = [place for path in found if path not in seen for place in further.get(path, ())]
            seen |= found.keys()
        return Way(tuple(steps), not any(it.link not in used for place in places for it in hops.get(place, ())))

    def _step(self, number: int, path: str, is_block: bool, hops: list[Hop], is_again: bool) -> Step:
        return Step(number, path, self.type(path) if is_block else "", self.resource(path) if is_block else "", tuple(hops), is_again)

    def type(self, block: str) -> str:
        """The type of a block; empty if there is none."""
        return self._types.get(block, "")

    def resource(self, block: str) -> str:
        """The resource of a block; empty without a plan."""
        return self._homes.get(block, "")

    def blocks_of(self, *types: str) -> list[str]:
        """The paths of all blocks of these types."""
        return [path for path, its in self._types.items() if its in types]

    @cached_property
    def _hops(self) -> list[Hop]:
        """All links, and each border as a link with an own port."""
        links = [Hop(it, it in self._cuts) for it in self._net.links]
        return [*links, *(hop for it in self._net.borders for hop in self._border(it))]

    def _border(self, it: Border) -> Iterator[Hop]:
        sides = {side in LEFT for sort, side in self._ports(self._unit).get(it.port, ()) if sort == it.sort}
        if it.sort == "adapter" or not sides or True in sides:
            yield Hop(Link(it.sort, it.port, it.place), is_border=True)
        if it.sort == "adapter" or not sides or False in sides:
            yield Hop(Link(it.sort, it.place, it.port), is_border=True)

    @cached_property
    def _to(self) -> dict[Place, list[Hop]]:
        """The links by the port that they lead to."""
        return _by(self._hops, lambda it: it.destination)

    @cached_property
    def _from(self) -> dict[Place, list[Hop]]:
        return _by(self._hops, lambda it: it.source)

    @cached_property
    def _inputs(self) -> dict[str, list[Place]]:
        """The ports of each block that links lead to."""
        return self._by_block(self._to)

    @cached_property
    def _outputs(self) -> dict[str, list[Place]]:
        return self._by_block(self._from)

    def _by_block(self, places: Iterable[Place]) -> dict[str, list[Place]]:
        found: defaultdict[str, list[Place]] = defaultdict(list)
        for place in places:
            if block := self.block_of(place[1]):
                found[block].append(place)
        return found

    @cached_property
    def _constants(self) -> dict[str, str]:
        """The constants of the plan by the inputs that they are written to."""
        words = (it.split(" ", 2) for resource in (self._plan.resources if self._plan else ()) for it in resource.commands)
        return {place: constant for command, place, constant in (it for it in words if len(it) == 3) if command == "WRITE"}

    # Types

    def _ports(self, unit: str) -> dict[str, list[tuple[Sort, str]]]:
        """The ports of a unit, each with its sort and its section; none if its text is not known."""
        found: defaultdict[str, list[tuple[Sort, str]]] = defaultdict(list)
        known = self._read(unit)
        for it in known.of(*INTERFACE) if known else ():
            found[it.key.name].append((SORTS[it.section], it.section))
        return found

    def _sides(self, unit: str, name: str) -> list[tuple[Sort, bool]] | None:
        """Of each port of a type with a name its sort, and whether it is an input; None if there is none. A port of a plug is an input if it is one of the adapter."""
        own, _, inner = name.partition(".")
        known = self._read(unit)
        if not inner:
            found = [(sort, side) for sort, section in self._ports(unit).get(own, ()) for side in ((True, False) if sort == "adapter" else (section in LEFT,))]
            return found or None
        its = known.first.get(Key(unit, INSTANCE, "", own)) if known else None
        if not its or its.section not in ADAPTER_SECTIONS:
            return None
        sides = [(sort, (section in LEFT) == (its.section == "PLUGS")) for sort, section in self._ports(its.type.upper()).get(inner, ())]
        return sides or None

    # Words

    def _why_no_port(self, path: str, block: str) -> str:
        of = self._types[block]
        if not self._read(of):
            return f"no connection has {path} as an end, and the text of {of} is not known"
        names = Names(self._ports(of), 0.6)
        near = names.near(path[len(block) + 1 :].partition(".")[0])
        return f"{of} has no port {path[len(block) + 1 :]}{asked(near and f'{block}.{near}')}"

    def _why_none(self, path: str) -> str:
        front, _, port = path.rpartition(".")
        if any(it.startswith(f"{path}.") for it in self._types):
            return f"{path} holds blocks: name one of its ports"
        if front and any(it.startswith(f"{front}.") for it in self._types):
            inner = self._type_of(front)
            near = Names(self._ports(inner), 0.6).near(port)
            return f"{inner} has no port {port}{asked(near and f'{front}.{near}')}" if self._read(inner) else f"the type of {front} is not known here, so neither is its {port}"
        return f"{self._unit} has no {path}{asked(self._near(path))}"

    def _near(self, path: str) -> str | None:
        """The path that differs in one name, if any is near: of a block with the same port, or of an own port."""
        paths = [*self._types, *self._ports(self._unit)]
        front, _, port = path.rpartition(".")
        block = Names(self._types).near(front) if front else None
        return f"{block}.{port}" if block else Names(paths).near(path)


def _by(hops: Iterable[Hop], end: Callable[[Link], str]) -> dict[Place, list[Hop]]:
    found: defaultdict[Place, list[Hop]] = defaultdict(list)
    for hop in hops:
        found[hop.link.sort, end(hop.link)].append(hop)
    return dict(found)
