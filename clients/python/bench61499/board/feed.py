"""The feed of the board: what was changed, by whom, and which faults came and went with it."""
from __future__ import annotations

import time
from collections import Counter
from collections.abc import Iterable, Mapping
from dataclasses import dataclass, field, replace
from functools import cached_property
from itertools import islice
from typing import Any, NamedTuple

from bench61499.language.mentions import Mentions, words_of

KEPT = 10_000
"""Changes that are told to a page which lost its connection for a while."""
ONE_CHANGE = 60.0
"""Seconds after a change within which another one of the same units by the same author is told as one with it."""
CAUSES = 50
"""Changes among which the one is looked for that brought a fault."""
TOLD = 12
"""Faults that are told of one change, at most, of those that came, and of those that went."""
NO_PLAN = "NO_PLAN"


class Step(NamedTuple):
    """What a change did to a unit: from one revision to another, 0 for absence."""

    unit: str
    old: int
    new: int


class Wrong(NamedTuple):
    """A fault, by its code and the words at its place; or that a system without faults has no plan: `NO_PLAN`."""

    unit: str
    code: str
    words: str = ""


@dataclass(frozen=True)
class Change:
    """A change that was seen. `serial` is its own; `number` is a greater one each time that there is more to tell of it.

    Changes of the same units soon after each other are one: `count` of them. `commit` is the number of the last one, 0 if it is not known. `balance` has how
    often each fault came, less how often it went.
    """

    serial: int
    number: int
    time: float
    author: str
    commit: int
    steps: tuple[Step, ...]
    count: int = 1
    balance: Counter[Wrong] = field(default_factory=Counter)

    @cached_property
    def units(self) -> frozenset[str]:
        return frozenset(it.unit for it in self.steps)

    def told(self) -> dict[str, Any]:
        """As a JSON value."""
        came, went = self._in_order(+self.balance), self._in_order(-self.balance)
        return {
            "serial": self.serial, "number": self.number, "time": self.time, "author": self.author, "commit": self.commit, "count": self.count,
            "steps": [list(it) for it in self.steps],
            "came": [list(it) for it in came[:TOLD]], "came_count": len(came),
            "went": [list(it) for it in went[:TOLD]], "went_count": len(went),
        }

    def _in_order(self, faults: Counter[Wrong]) -> list[Wrong]:
        """Those of the units that were changed first, and plans last."""
        units = self.units
        return sorted(faults.elements(), key=lambda it: (it.code == NO_PLAN, it.unit not in units, it))


class Feed:
    """The changes in their order. It is for one thread at a time."""

    def __init__(self) -> None:
        self._changes: dict[int, Change] = {}
        self._number = self._serial = 0
        self._mentions = Mentions()

    @property
    def number(self) -> int:
        """The number of what was told last; 0 at the start."""
        return self._number

    def after(self, number: int) -> tuple[Change, ...]:
        """The changes of which there is something to tell after this number."""
        return tuple(it for it in self._changes.values() if it.number > number)

    def changed(self, steps: Iterable[Step], author: str, commit: int = 0) -> None:
        """Tells of a change, as one with the last one of these units where it can be."""
        its = tuple(steps)
        self._number += 1
        new = Change(self._next_serial(), self._number, time.time(), author, commit, its)
        if last := self._last_of(new):
            del self._changes[last.serial]
            old = {it.unit: it.old for it in last.steps}
            new = replace(new, serial=last.serial, steps=tuple(it._replace(old=old[it.unit]) for it in its), count=last.count + 1, balance=last.balance)
        self._changes[new.serial] = new
        if len(self._changes) > KEPT:
            del self._changes[next(iter(self._changes))]

    def _next_serial(self) -> int:
        self._serial += 1
        return self._serial

    def _last_of(self, new: Change) -> Change | None:
        """The change that this one is one with: of the same units by the same author, soon before, with no other one of these between."""
        units = new.units
        last = next((it for it in reversed(self._changes.values()) if it.units & units or it.time < new.time - ONE_CHANGE), None)
        if not last or (last.units, last.author) != (units, new.author) or last.time < new.time - ONE_CHANGE:
            return None
        return last if all(it.new for it in last.steps) and all(it.old and it.new for it in new.steps) else None

    def judged(self, unit: str, balance: Counter[Wrong], texts: Mapping[str, str]) -> None:
        """Tells which faults came and went in a unit, with the change that did it."""
        cause = self._cause(unit, any(it.code == NO_PLAN for it in balance), texts)
        if cause:
            whole = Counter(cause.balance)
            whole.update(balance)
            self._number += 1
            self._changes[cause.serial] = replace(cause, number=self._number, balance=whole)

    def _cause(self, unit: str, is_of_plan: bool, texts: Mapping[str, str]) -> Change | None:
        """The last change that can have changed the faults of a unit, or its plan; if there is none, the last one at all."""
        recent = list(islice(reversed(self._changes.values()), CAUSES))
        names = {unit, *words_of(texts.get(unit, ""))}
        if is_of_plan:
            below = self._mentions.below(unit, texts)
            names |= below.union(*(words_of(texts[it]) for it in below))  # Also the names of units that are gone.
        elif recent and not recent[0].units & names:
            names |= self._mentions.near([unit], texts)
        return next((it for it in recent if it.units & names), recent[0] if recent else None)
