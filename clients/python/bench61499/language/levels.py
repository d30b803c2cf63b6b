"""The subapplication instances of a flat network, by the paths of its blocks: which of them are open in a picture, and which are one box."""
from __future__ import annotations

from collections import defaultdict
from collections.abc import Iterable

MOST_SHOWN = 40
"""Boxes up to which subapplications are open unless somebody asks for others."""
AUTO, ALL, NONE = "auto", "all", "-"


class Levels:
    """`open` are the paths of the open instances: those that are asked for, joined by commas, all, none, or by level up to a number that can be read.

    What stands in one that is closed is shown as one box. The first name of a path in a system is that of its application, which is no instance.
    """

    def __init__(self, paths: Iterable[str], is_system: bool, wanted: str = AUTO):
        self._first = 1 if is_system else 0
        self._blocks = list(paths)
        self.inside: defaultdict[str, list[str]] = defaultdict(list)
        for path in self._blocks:
            for front in self._fronts(path):
                self.inside[front].append(path)
        self.open = self._opened(wanted)

    def _fronts(self, path: str) -> list[str]:
        """The instances that a block is in, the outermost first."""
        names = path.split(".")
        return [".".join(names[:count]) for count in range(1 + self._first, len(names))]

    def _opened(self, wanted: str) -> frozenset[str]:
        if wanted == ALL:
            return frozenset(self.inside)
        if wanted != AUTO:
            return frozenset(wanted.upper().split(",")) & self.inside.keys()
        opened = frozenset[str]()
        deepest = max((it.count(".") for it in self.inside), default=-1)
        for depth in range(deepest + 1):
            more = opened | {it for it in self.inside if it.count(".") == depth}
            if len({self._shown(it, more) for it in self._blocks}) > MOST_SHOWN:
                break
            opened = more
        return opened

    def _shown(self, path: str, opened: frozenset[str]) -> str:
        return next((front for front in self._fronts(path) if front not in opened), path)

    def box_of(self, path: str) -> str:
        """What a block is shown as: itself, or the outermost closed instance that it is in."""
        return self._shown(path, self.open)

    def frames_of(self, shown: str) -> list[str]:
        """The open instances round what is shown, the outermost first."""
        return [front for front in self._fronts(shown) if front in self.open]
