"""Flat networks as they are drawn: blocks with their ports, and links that end at ports."""
from __future__ import annotations

from collections.abc import Iterator, Mapping
from dataclasses import dataclass, field

from bench61499 import Block, Border, Deploy, Flat, Link, Plan, Sort
from bench61499.language.reader import ports

SORTS: dict[str, Sort] = {
    **dict.fromkeys(["EVENT_INPUT", "EVENT_OUTPUT"], "event"),
    **dict.fromkeys(["VAR_INPUT", "VAR_OUTPUT"], "data"),
    **dict.fromkeys(["PLUGS", "SOCKETS"], "adapter"),
}
LEFT = frozenset(["EVENT_INPUT", "VAR_INPUT", "SOCKETS"])


@dataclass(frozen=True)
class Port:
    sort: Sort
    name: str


@dataclass
class Box:
    """A block with its ports: on the left what comes in, on the right what goes out."""

    block: Block
    left: list[Port] = field(default_factory=list)
    right: list[Port] = field(default_factory=list)

    def add(self, port: Port, left: bool) -> None:
        if port not in self.left and port not in self.right:
            (self.left if left else self.right).append(port)


@dataclass(frozen=True)
class End:
    """One end of a link: the box, the port of the box, and the port of the adapter where the port is one."""

    box: Box
    port: Port
    inner: str

    @property
    def is_left(self) -> bool:
        return self.port in self.box.left


@dataclass(frozen=True)
class Wire:
    """A link with its two ends."""

    link: Link
    source: End
    destination: End

    @property
    def inner(self) -> str:
        """What goes through two adapters, where the link is between them."""
        return self.source.inner or self.destination.inner

    @property
    def is_backward(self) -> bool:
        """Whether it leads from a left side to a right one, as what comes back through an adapter does."""
        return self.source.is_left and not self.destination.is_left


@dataclass(frozen=True)
class Tag:
    """An own port of a subapplication, on the left where it comes in, and the end inside that it leads to."""

    border: Border
    left: bool
    inside: End


class Network:
    """The boxes of a flat network, its wires and its tags. `texts` are those that are known, by units."""

    def __init__(self, unit: str, texts: Mapping[str, str], net: Flat):
        self._texts = texts
        self._ports: dict[str, list[tuple[Port, bool]]] = {}
        self.own = dict(self._ports_of(unit))
        self.boxes = {block.path: self._box(block) for block in net.blocks}
        self.tags = [self._tag(border) for border in net.borders]
        self.wires = [Wire(it, self._end(it.source, it.sort, False), self._end(it.destination, it.sort, True)) for it in net.links]

    def _ports_of(self, unit: str) -> list[tuple[Port, bool]]:
        """The ports of a unit, where its text is known, and whether they stand on the left."""
        if unit not in self._ports:
            its = ports(self._texts[unit]) if unit in self._texts else []
            self._ports[unit] = [(Port(SORTS[section], name), section in LEFT) for name, section in its]
        return self._ports[unit]

    def _box(self, block: Block) -> Box:
        """A block with the ports of its type, where its text is known."""
        box = Box(block)
        for port, left in self._ports_of(block.type):
            box.add(port, left)
        return box

    def _tag(self, border: Border) -> Tag:
        left = self.own.get(Port(border.sort, border.port), True)
        return Tag(border, left, self._end(border.place, border.sort, left))

    def _end(self, place: str, sort: Sort, left: bool) -> End:
        """The end of a link at a place, whose port is added on the side told where its type is not known."""
        names = place.split(".")
        path = next(path for cut in (1, 2) if (path := ".".join(names[:-cut])) in self.boxes)
        name, _, inner = place[len(path) + 1 :].partition(".")
        port = Port("adapter" if inner else sort, name)
        self.boxes[path].add(port, left)
        return End(self.boxes[path], port, inner)


def homes(deploy: Deploy | None) -> dict[str, str]:
    """The resource of each block of a system, by its path, where there is a plan."""
    resources = deploy.resources if isinstance(deploy, Plan) else ()
    return {path: resource.name for resource in resources for path in _created(resource.commands)}


def _created(commands: tuple[str, ...]) -> Iterator[str]:
    """The paths of the blocks that these commands create."""
    for command in commands:
        if command.startswith("CREATE FB "):
            yield command.split(" ")[2]
