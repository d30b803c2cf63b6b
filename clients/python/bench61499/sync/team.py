"""The units of a workbench as they are known here, what has happened to them, and commits."""
from __future__ import annotations

import queue
import threading
import time
from collections.abc import Callable, Iterable
from dataclasses import dataclass
from typing import Self

from bench61499 import UNITS_LIMIT, Change, Commit, NoSuchUnit, Put, Session, WorkbenchError
from bench61499.mirror import Changed, Connected, Disconnected, Loaded, Mirror, News, Version

ASKED_AFTER = 2.0
"""Seconds after which a commit of its own that was not told yet is asked for."""


@dataclass(frozen=True)
class _Awaited:
    """A change that is to be told: the number of its commit, or one before it for a removal; and since when."""

    number: int
    is_removal: bool
    since: float

    def is_told_by(self, revision: int) -> bool:
        return revision > self.number or revision == (0 if self.is_removal else self.number)


class Team:
    """A workbench that others use too. What it tells comes on another thread and is taken by `take`.

    `units` are those that have changed since they were last taken from it; `error` is why there is no connection; `editors` gives the sessions of the user's editors.
    """

    def __init__(self, connect: Callable[[], Session], editors: Callable[[], set[int]] = set):
        self._editors = editors
        self._news: queue.SimpleQueue[News] = queue.SimpleQueue()
        self._woken = threading.Event()
        self._mirror = Mirror(connect, self._told, all_texts=True, kinds=())
        self._awaited: dict[str, _Awaited] = {}
        self._callers: dict[str, str] = {}
        self._removers: dict[str, str] = {}
        self._own: set[int] = set()
        self.units: set[str] = set()
        self.error: WorkbenchError | None = None

    def __enter__(self) -> Self:
        self._mirror.start()
        return self

    def __exit__(self, *_: object) -> None:
        self._mirror.close()

    def _told(self, news: News) -> None:
        self._news.put(news)
        self._woken.set()

    def wait(self, seconds: float) -> None:
        """Waits until something is told, or so long."""
        self._woken.wait(seconds)
        self._woken.clear()

    def take(self) -> None:
        """Takes what was told."""
        editors = set() if self._news.empty() else self._editors()
        while not self._news.empty():
            match self._news.get():
                case Connected(_, is_other):
                    self.error = None
                    if is_other:
                        self._awaited, self._own, self._callers, self._removers = {}, set(), {}, {}
                case Loaded():
                    self.units |= self._mirror.revisions().keys()
                case Changed(commit, changes):
                    self.units |= {it.unit for it in changes}
                    if commit:
                        self._see(commit, "you" if commit.number in self._own else _named(commit.caller, editors))
                case Disconnected(error):
                    self.error = error
        self._ask_for_late()

    def _see(self, commit: Commit, caller: str) -> None:
        _note(self._callers, [*commit.put, *commit.removed], caller)
        _note(self._removers, commit.removed, caller)
        self._own.discard(commit.number)
        for unit in (*commit.put, *commit.removed):
            if unit in self._awaited and self._awaited[unit].number <= commit.number:
                del self._awaited[unit]

    def _ask_for_late(self) -> None:
        """A unit that came and went while nothing was told is not told at all."""
        now = time.monotonic()
        late = [unit for unit, it in self._awaited.items() if now - it.since > ASKED_AFTER and not self.error]
        try:
            for unit in late:
                self._ask(unit)
        except WorkbenchError:
            return

    def _ask(self, unit: str) -> None:
        with self._mirror.session() as session:
            try:
                session.text(unit)
            except NoSuchUnit:
                del self._awaited[unit]

    # What is known

    @property
    def workbench(self) -> str:
        """The identity of the workbench, once all of its units are known; empty before."""
        return self._mirror.workbench if self._mirror.is_loaded else ""

    @property
    def session(self) -> int:
        """The number of the session that commits; another one, perhaps, after each new connection."""
        return self._mirror.caller

    def version(self, unit: str) -> Version | None:
        """A unit as it is there; None while that is not known, as after a commit that was not told yet."""
        version = self._mirror.version(unit)
        if unit in self._awaited and self._awaited[unit].is_told_by(version.revision):
            del self._awaited[unit]
        return None if unit in self._awaited or version.revision and version.text is None else version

    def names(self) -> set[str]:
        return set(self._mirror.revisions())

    def caller(self, unit: str) -> str:
        """Who changed a unit last, in words; empty if that is not known."""
        return f" by {self._callers[unit]}" if unit in self._callers else ""

    def remover(self, unit: str) -> str:
        """Who removed a unit last, in words; empty if that is not known."""
        return self._removers.get(unit, "")

    # What is done

    def commit(self, workbench: str, changes: list[Change]) -> int:
        """Commits, and gives the commit's number. Raises `WorkbenchError`."""
        with self._mirror.session(workbench) as session:
            number = session.commit(changes)
        self._own.add(number)
        for it in changes:
            self.expect(it.unit, number, not isinstance(it, Put))
        return number

    def expect(self, unit: str, number: int, is_removal: bool) -> None:
        """Has a unit not known until it is told with this revision or a later one, or as removed after it."""
        self._awaited[unit] = _Awaited(number, is_removal, time.monotonic())


def _note(known: dict[str, str], units: Iterable[str], caller: str) -> None:
    """Takes note of who has changed units, of no more than a workbench can have: names come and go."""
    for unit in units:
        known.pop(unit, None)
        known[unit] = caller
        if len(known) > UNITS_LIMIT:
            del known[next(iter(known))]


def _named(session: int, editors: set[int]) -> str:
    return f"your editor (session {session})" if session in editors else f"session {session}"
