"""A layered layout of a network: what goes from left to right leads from one column to a later one.

Rectangles that are joined stand together; what has no end in common stands apart. Nothing overlaps. Columns that would be too tall are broken
into several, and a long row of columns into rows, so that the whole is about of the shape that is wanted.
"""
from __future__ import annotations

from collections.abc import Iterable, Iterator, Sequence
from dataclasses import dataclass
from itertools import accumulate
from math import sqrt

Size = tuple[float, float]
Edge = tuple[int, int]

_SWEEPS = 4
_TRIES = 40
_TALL = 1.6


@dataclass(frozen=True)
class Gaps:
    """The room between two columns, and between two rectangles one above the other. A row narrower than `unbroken` stays one row."""

    across: float = 90
    down: float = 28
    unbroken: float = 900


@dataclass(frozen=True)
class Layout:
    """Where the left upper corner of each rectangle is, and the size of the whole."""

    corners: tuple[tuple[float, float], ...]
    width: float
    height: float


def layered(sizes: Sequence[Size], edges: Iterable[Edge], aspect: float, gaps: Gaps = Gaps()) -> Layout:
    """Lays out rectangles of these sizes; edges are pairs of their indices, from the source to the destination.

    The whole is to be `aspect` times as wide as it is tall, as far as that can be.
    """
    ahead: list[list[int]] = [[] for _ in sizes]
    for source, destination in dict.fromkeys(edges):
        if source != destination:
            ahead[source].append(destination)
    parts = [_Part(members, sizes, ahead, aspect, gaps) for members in _components(ahead)]
    places, width, height = _packed([(part.width, part.height) for part in parts], aspect, gaps)
    corners: list[tuple[float, float]] = [(0.0, 0.0)] * len(sizes)
    for part, (left, top) in zip(parts, places):
        for index, (x, y) in part.corners.items():
            corners[index] = (left + x, top + y)
    return Layout(tuple(corners), width, height)


def _components(ahead: list[list[int]]) -> list[list[int]]:
    """The rectangles that are joined, each list rising, in the order of their first ones."""
    beside: list[list[int]] = [list(its) for its in ahead]
    for source, its in enumerate(ahead):
        for destination in its:
            beside[destination].append(source)
    found: list[list[int]] = []
    seen = [False] * len(ahead)
    for first in range(len(ahead)):
        if not seen[first]:
            seen[first], members = True, [first]
            for index in members:
                new = [it for it in dict.fromkeys(beside[index]) if not seen[it]]
                for it in new:
                    seen[it] = True
                members += new
            found.append(sorted(members))
    return found


def _packed(sizes: list[Size], aspect: float, gaps: Gaps) -> tuple[list[tuple[float, float]], float, float]:
    """Places rectangles in rows, tall ones first."""
    area = sum((width + gaps.across) * (height + gaps.down) for width, height in sizes)
    limit = max([sqrt(area * aspect), *(width for width, _ in sizes)])
    places: list[tuple[float, float]] = [(0.0, 0.0)] * len(sizes)
    left = top = row = widest = 0.0
    for index in sorted(range(len(sizes)), key=lambda it: -sizes[it][1]):
        width, height = sizes[index]
        if left and left + width > limit:
            left, top, row = 0.0, top + row + gaps.down, 0.0
        places[index] = (left, top)
        row, widest = max(row, height), max(widest, left + width)
        left += width + gaps.across
    return places, widest, top + row


class _Part:
    """The layout of rectangles that are joined."""

    def __init__(self, members: list[int], sizes: Sequence[Size], ahead: list[list[int]], aspect: float, gaps: Gaps):
        self._sizes, self._aspect, self._gaps = sizes, aspect, gaps
        self._ahead = _without_cycles(members, ahead)
        self._behind: dict[int, list[int]] = {it: [] for it in members}
        for source, its in self._ahead.items():
            for destination in its:
                self._behind[destination].append(source)
        self.corners: dict[int, tuple[float, float]] = {}
        self.width = self.height = 0.0
        self._place(list(self._columns(self._layers(members))))

    def _layers(self, members: list[int]) -> list[list[int]]:
        """Each rectangle as far right as its longest way from one without sources, and those just left of what they lead to.

        Each layer is ordered so that few edges cross.
        """
        rank = dict.fromkeys(members, 0)
        for source in _sources_first(members, self._ahead, self._behind):
            for destination in self._ahead[source]:
                rank[destination] = max(rank[destination], rank[source] + 1)
        for source, its in self._ahead.items():
            if its and not self._behind[source]:
                rank[source] = min(rank[it] for it in its) - 1
        layers: list[list[int]] = [[] for _ in range(max(rank.values()) + 1)]
        for index in members:
            layers[rank[index]].append(index)
        for _ in range(_SWEEPS):
            _sort_all(layers, self._behind)
            _sort_all(layers[::-1], self._ahead)
        return layers

    def _columns(self, layers: list[list[int]]) -> Iterator[list[int]]:
        """The layers, broken where they are taller than the whole should be."""
        room = sum((self._sizes[it][0] + self._gaps.across) * (self._sizes[it][1] + self._gaps.down) for layer in layers for it in layer)
        limit = _TALL * sqrt(room / self._aspect)
        for layer in layers:
            column: list[int] = []
            height = 0.0
            for index in layer:
                if column and height + self._sizes[index][1] > limit:
                    yield column
                    column, height = [], 0.0
                column.append(index)
                height += self._sizes[index][1] + self._gaps.down
            yield column

    def _place(self, columns: list[list[int]]) -> None:
        """Places the columns in rows: in as many as make the whole about of the shape that is wanted."""
        widths = [max(self._sizes[it][0] for it in column) for column in columns]
        heights = [self._height(column) for column in columns]
        ends = list(accumulate(width + self._gaps.across for width in widths))
        limits = [it for it in ends[:: -(-len(ends) // _TRIES)] if it > self._gaps.unbroken] + ends[-1:]
        splits = [list(_rows(widths, max(limit - self._gaps.across, *widths, 0), self._gaps.across)) for limit in limits]
        for begin, end in min(splits, key=lambda split: self._extent(split, widths, heights)):
            self._place_row(columns[begin:end])

    def _extent(self, rows: list[tuple[int, int]], widths: list[float], heights: list[float]) -> float:
        """How tall a window of the wanted shape has to be for these rows."""
        width = max(sum(widths[begin:end]) + self._gaps.across * (end - begin - 1) for begin, end in rows)
        height = sum(max(heights[begin:end]) + 2 * self._gaps.down for begin, end in rows)
        return max(width / self._aspect, height)

    def _height(self, column: list[int]) -> float:
        return sum(self._sizes[it][1] for it in column) + self._gaps.down * (len(column) - 1)

    def _place_row(self, row: list[list[int]]) -> None:
        """Places columns below what is placed already, each rectangle as near to the middle of its sources as there is room."""
        top = self.height + 2 * self._gaps.down if self.corners else 0.0
        left = 0.0
        placed: dict[int, float] = {}
        for column in row:
            tops = self._tops(column, placed)
            placed.update(zip(column, tops))
            width = max(self._sizes[it][0] for it in column)
            for index, y in zip(column, tops):
                self.corners[index] = (left + (width - self._sizes[index][0]) / 2, y)
            self.width = max(self.width, left + width)
            left += width + self._gaps.across
        shift = top - min(placed.values())
        for index, y in placed.items():
            self.corners[index] = (self.corners[index][0], y + shift)
            self.height = max(self.height, y + shift + self._sizes[index][1])

    def _tops(self, column: list[int], placed: dict[int, float]) -> list[float]:
        """The upper ends of the rectangles of a column, beside columns that are placed."""
        wanted: list[float | None] = []
        for index in column:
            middles = [placed[it] + self._sizes[it][1] / 2 for it in self._behind[index] if it in placed]
            wanted.append(sum(middles) / len(middles) - self._sizes[index][1] / 2 if middles else None)
        tops: list[float] = []
        least = None
        for index, want in zip(column, wanted):
            top = max(it for it in (want, least, 0.0 if want is None and least is None else None) if it is not None)
            tops.append(top)
            least = top + self._sizes[index][1] + self._gaps.down
        pulls = [want - top for want, top in zip(wanted, tops) if want is not None]
        shift = sum(pulls) / len(pulls) if pulls else -self._height(column) / 2
        return [top + shift for top in tops]


def _rows(widths: list[float], limit: float, gap: float) -> Iterator[tuple[int, int]]:
    """Breaks columns of these widths into rows that are not wider than the limit: the first of each and the one behind its last."""
    begin, left = 0, 0.0
    for at, width in enumerate(widths):
        if at > begin and left + width > limit + 0.5:
            yield begin, at
            begin, left = at, 0.0
        left += width + gap
    yield begin, len(widths)


def _without_cycles(members: list[int], ahead: list[list[int]]) -> dict[int, list[int]]:
    """The edges, with those turned round that close a cycle on the way from the first rectangles."""
    kept: dict[int, list[int]] = {it: [] for it in members}
    under_way, done = set[int](), set[int]()
    for first in members:
        if first in done:
            continue
        under_way.add(first)
        path = [(first, iter(ahead[first]))]
        while path:
            index, rest = path[-1]
            following = next(rest, None)
            if following is None:
                path.pop()
                under_way.discard(index)
                done.add(index)
            elif following in under_way:
                kept[following].append(index)
            else:
                kept[index].append(following)
                if following not in done:
                    under_way.add(following)
                    path.append((following, iter(ahead[following])))
    return kept


def _sources_first(members: list[int], ahead: dict[int, list[int]], behind: dict[int, list[int]]) -> Iterator[int]:
    """The rectangles, each after all its sources."""
    waiting = {it: len(behind[it]) for it in members}
    ready = [it for it in members if not waiting[it]]
    for index in ready:
        yield index
        for it in ahead[index]:
            waiting[it] -= 1
            if not waiting[it]:
                ready.append(it)


def _sort_all(layers: list[list[int]], neighbours: dict[int, list[int]]) -> None:
    """Sorts each layer by the mean place of its neighbours in the layers before it."""
    place: dict[int, float] = {}
    for layer in layers:
        if len(layer) == 1:
            place[layer[0]] = 0.5
            continue
        old = {index: at / len(layer) for at, index in enumerate(layer)}
        mean = {}
        for index in layer:
            known = [place[it] for it in neighbours[index] if it in place]
            mean[index] = sum(known) / len(known) if known else old[index]
        layer.sort(key=mean.__getitem__)
        place.update((index, (at + 0.5) / len(layer)) for at, index in enumerate(layer))
