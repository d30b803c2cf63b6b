"""A flat network laid out for a page: boxes with their corners and ports, wires between ports, and frames round what one resource and one subapplication hold."""
from __future__ import annotations

from collections.abc import Mapping
from dataclasses import dataclass
from functools import cached_property
from itertools import zip_longest
from typing import Any

from bench61499 import Deploy, Flat, Plan, Sort
from bench61499.language.as_declared import AsDeclared
from bench61499.language.layers import Edge, Gaps, Size, layered
from bench61499.language.levels import AUTO, Levels
from bench61499.language.network import Box, End, Network, Port, homes
from bench61499.language.texts import Texts
from bench61499.language.wording import counted

HEAD = 42
"""Height of a box's head, with its path and its type."""
ROW = 16
"""Height of a row of ports."""
FOOT = 8
TAG_HEIGHT = 24
PAD = 24
"""Room between a frame and what stands in it, and as much again above for its name."""
_WIDE, _NARROW = 7.4, 6.4
_NAME = 11
"""Width of a letter of a frame's name, which is written larger where the picture is small."""
_LEAST, _MOST = 96.0, 320.0
_SORTS: tuple[Sort, ...] = ("event", "data", "adapter")

Rows = list[tuple[Port | None, Port | None]]
Corner = tuple[float, float]


@dataclass(frozen=True)
class _Shape:
    """A box or a tag as it is drawn; a tag is `left` if its port comes in. A closed subapplication has `inner` blocks in it."""

    name: str
    type: str
    rows: Rows
    home: str = ""
    left: bool | None = None
    inner: int = 0

    @cached_property
    def size(self) -> Size:
        if self.left is not None:
            return len(self.name) * _WIDE + 28, TAG_HEIGHT
        heads = [len(self.name) * _WIDE, len(self.type) * _NARROW]
        rows = [sum(len(it.name) if it else 0 for it in row) * _NARROW + 24 for row in self.rows]
        return round(min(max(_LEAST, *(it + 20 for it in heads), *(it + 8 for it in rows)), _MOST)), HEAD + ROW * len(self.rows) + FOOT


@dataclass
class _Part:
    """What is laid out together: the corners of shapes, the frames of subapplications as path, name, corner and size, and the size of the whole."""

    width: float
    height: float
    corners: dict[int, Corner]
    folds: list[list[Any]]

    def moved(self, left: float, top: float) -> tuple[dict[int, Corner], list[list[Any]]]:
        corners = {at: (left + x, top + y) for at, (x, y) in self.corners.items()}
        return corners, [[path, name, left + x, top + y, width, height] for path, name, x, y, width, height in self.folds]


class Picture:
    """The picture of a network, for a window that is `aspect` times as wide as it is tall.

    `deploy` tells the resources and the cut links of a system that has a plan; `opened` which subapplications are open (`Levels`); `names` are what its names
    are shown as.
    """

    def __init__(self, unit: str, texts: Mapping[str, str], net: Flat, deploy: Deploy | None, aspect: float, opened: str = AUTO, names: AsDeclared | None = None):
        self._aspect, self._names = aspect, names or AsDeclared(Texts.of(texts), unit)
        self._network = Network(unit, texts, net)
        self._plan = deploy if isinstance(deploy, Plan) else None
        self._homes = homes(deploy)
        self._levels = Levels(self._network.boxes, deploy is not None, opened)
        shown = dict.fromkeys(map(self._levels.box_of, self._network.boxes))
        self._shapes = [self._shape(it) for it in shown]
        self._index = {it.name: at for at, it in enumerate(self._shapes)}
        self._tags: dict[tuple[Sort, str], int] = {}
        for tag in self._network.tags:
            key = tag.border.sort, tag.border.port
            if key not in self._tags:
                self._tags[key] = len(self._shapes)
                self._shapes.append(_Shape(tag.border.port, tag.border.sort, [], left=tag.left))
        self._frames: list[list[Any]] = []
        self._folds: list[list[Any]] = []

    def _shape(self, path: str) -> _Shape:
        """A block, or a subapplication that is closed, on the resource that has all of it, if any."""
        if box := self._network.boxes.get(path):
            return _Shape(path, box.block.type, rows_of(box), self._homes.get(path, ""))
        its = self._levels.inside[path]
        on = {self._homes.get(it, "") for it in its}
        what = counted(len(its), "block") + (f" on {counted(len(on), 'resource')}" if len(on) > 1 else "")
        return _Shape(path, what, [], on.pop() if len(on) == 1 else "", inner=len(its))

    def view(self) -> dict[str, Any]:
        wires = self._wires()
        corners, width, height = self._placed([(wire[1], wire[4]) for wire in wires])
        ports = _Numbered()
        boxes = [
            [*self._shown(it), it.left, round(x), round(y), *it.size, ports.number([self._row(it.type, row) for row in it.rows]), it.inner]
            for it, (x, y) in zip(self._shapes, corners)
        ]
        folds = [[self._names.path(path), name, *map(round, its)] for path, name, *its in self._folds]
        hidden = [[*self._shown_block(it.block.path, it.block.type, self._homes.get(it.block.path, "")), self._index[shown]] for it in self._network.boxes.values()
                  if (shown := self._levels.box_of(it.block.path)) != it.block.path]
        opened = [self._names.path(it) for it in sorted(self._levels.open)]
        open_ones = {"levels": len(self._levels.inside), "opened": opened, "folds": folds, "hidden": hidden}
        return {"width": round(width), "height": round(height), "boxes": boxes, "rows": ports.values, "wires": wires, "frames": self._frames, **open_ones}

    def _shown(self, it: _Shape) -> tuple[str, str, str]:
        """The name, the type and the resource of a shape."""
        if it.left is not None:
            return self._names.own_port(it.type, it.name), it.type, it.home
        return self._shown_block(it.name, it.type, it.home)

    def _shown_block(self, path: str, type_: str, home: str) -> tuple[str, str, str]:
        return self._names.path(path), self._names.type(type_), self._names.resource(home) if home else ""

    def _row(self, type_: str, row: tuple[Port | None, Port | None]) -> list[Any]:
        left, right = (self._names.port_of(type_, it.sort, it.name) if it else "" for it in row)
        return [next((it.sort for it in row if it), ""), left, right]

    def _wires(self) -> list[list[Any]]:
        """The wires and the tags' own: sort, box, side and row of the source, the same of the destination, label, whether it is cut, direction, and how many links it
        stands for: those of one sort to or from a closed subapplication are one."""
        cuts = frozenset(self._plan.cuts) if self._plan else frozenset()
        rows = {path: _places_of(self._shapes[at].rows) for path, at in self._index.items()}
        wires: list[list[Any]] = []
        bundles: dict[tuple[Any, ...], list[Any]] = {}
        for wire in self._network.wires:
            ends = [self._end(wire.source, rows, False), self._end(wire.destination, rows, True)]
            if not self._is_closed(wire.source) and not self._is_closed(wire.destination):
                one, other = reversed(ends) if wire.is_backward else ends
                inner = self._names.link(wire.link).source.rpartition(".")[2] if wire.inner else ""
                wires.append([wire.link.sort, *one, *other, inner, wire.link in cuts, "back" if wire.is_backward else "forth", 1])
            elif ends[0][0] != ends[1][0]:
                its = [wire.link.sort, *ends[0], *ends[1], "", wire.link in cuts, "forth"]
                bundles.setdefault(tuple(its), [*its, 0])[-1] += 1
        for tag in self._network.tags:
            outside = [self._tags[tag.border.sort, tag.border.port], not tag.left, -1]
            inside = self._end(tag.inside, rows, tag.left)
            one, other = (outside, inside) if tag.left else (inside, outside)
            inner = self._names.place(tag.border.sort, tag.border.place).rpartition(".")[2] if tag.inside.inner else ""
            its = [tag.border.sort, *one, *other, inner, False, "forth" if tag.border.sort != "adapter" and self._network.own else "none"]
            if self._is_closed(tag.inside):
                bundles.setdefault(tuple(its), [*its, 0])[-1] += 1
            else:
                wires.append([*its, 1])
        return [*wires, *bundles.values()]

    def _is_closed(self, end: End) -> bool:
        path = end.box.block.path
        return self._levels.box_of(path) != path

    def _end(self, end: End, rows: Mapping[str, Mapping[Port, int]], left: bool) -> list[Any]:
        """The box, its side and its row; of a closed subapplication the middle of its left side or its right one."""
        path = end.box.block.path
        shown = self._levels.box_of(path)
        return [self._index[path], end.is_left, rows[path][end.port]] if shown == path else [self._index[shown], left, -1]

    def _placed(self, edges: list[Edge]) -> tuple[list[Corner], float, float]:
        """The corners of all shapes: what one resource holds is laid out by itself, and then the resources are."""
        groups = [it.name for it in self._plan.resources] if self._plan else []
        groups = [it for it in groups if any(shape.home == it for shape in self._shapes)] + [""] * any(not it.home for it in self._shapes)
        members = {group: [at for at, it in enumerate(self._shapes) if it.home == group] for group in groups}
        layouts = {group: self._laid_out(its, 0, edges) for group, its in members.items()}
        sizes = [self._outer(group, layouts[group].width, layouts[group].height) for group in groups]
        home = {at: number for number, group in enumerate(groups) for at in members[group]}
        between = [(home[one], home[other]) for one, other in edges]
        whole = layered(sizes, between, self._aspect, Gaps(120, 60, unbroken=0))
        corners: list[Corner] = [(0.0, 0.0)] * len(self._shapes)
        for group, (left, top), size in zip(groups, whole.corners, sizes):
            inner_left, inner_top = (left + PAD, top + 2 * PAD) if group else (left, top)
            if group:
                self._frames.append([self._names.resource(group), round(left), round(top), *(round(it) for it in size)])
            its, folds = layouts[group].moved(inner_left, inner_top)
            self._folds += folds
            for at, corner in its.items():
                corners[at] = corner
        return corners, whole.width, whole.height

    def _laid_out(self, members: list[int], depth: int, edges: list[Edge]) -> _Part:
        """Shapes beside each other, and those of one open subapplication within its frame."""
        ways = {at: [] if self._shapes[at].left is not None else self._levels.frames_of(self._shapes[at].name) for at in members}
        groups: dict[int | str, list[int]] = {}
        for at in members:
            groups.setdefault(ways[at][depth] if len(ways[at]) > depth else at, []).append(at)
        number = {at: it for it, its in enumerate(groups.values()) for at in its}
        here = [(one, other) for one, other in edges if one in number and other in number]
        parts = {key: self._laid_out(its, depth + 1, here) for key, its in groups.items() if isinstance(key, str)}
        sizes = [self._outer(self._fold_name(key), parts[key].width, parts[key].height) if isinstance(key, str) else self._shapes[key].size for key in groups]
        layout = layered(sizes, [(number[one], number[other]) for one, other in here], self._aspect)
        whole = _Part(layout.width, layout.height, {}, [])
        for key, size, (x, y) in zip(groups, sizes, layout.corners):
            if not isinstance(key, str):
                whole.corners[key] = (x, y)
                continue
            corners, folds = parts[key].moved(x + PAD, y + 2 * PAD)
            whole.corners |= corners
            whole.folds += [[key, self._fold_name(key), x, y, *size], *folds]
        return whole

    def _fold_name(self, path: str) -> str:
        """The path of an open subapplication from the frame round it on."""
        outer = self._levels.frames_of(path)
        return self._names.path(path)[len(outer[-1]) + 1 if outer else 0 :]

    @staticmethod
    def _outer(group: str, width: float, height: float) -> Size:
        return (max(width, len(group) * _NAME) + 2 * PAD, height + 3 * PAD) if group else (width, height)


class _Numbered:
    """Values that are told once, and named by their number."""

    def __init__(self) -> None:
        self.values: list[Any] = []
        self._numbers: dict[str, int] = {}

    def number(self, value: Any) -> int:
        key = repr(value)
        if key not in self._numbers:
            self._numbers[key] = len(self.values)
            self.values.append(value)
        return self._numbers[key]


def rows_of(box: Box) -> Rows:
    """The ports of a box row by row: events, data and adapters, each with what comes in on the left and what goes out on the right."""
    return [row for sort in _SORTS for row in zip_longest(_of(box.left, sort), _of(box.right, sort))]


def _of(side: list[Port], sort: Sort) -> list[Port]:
    return [port for port in side if port.sort == sort]


def _places_of(rows: Rows) -> dict[Port, int]:
    return {port: at for at, row in enumerate(rows) for port in row if port}
