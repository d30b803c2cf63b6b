"""Keeps the board up to date with a host that answers reads: all its units, texts and faults, who commits what, and no recorded call."""
from __future__ import annotations

import threading
import time
from collections.abc import Callable, Iterable
from typing import Any

from bench61499 import Session, TooManyParts
from bench61499.board.state import Board, Key, NoEntry, NotAnswered, Revised, Source, Value
from bench61499.mirror import Came, Changed, Connected, Disconnected, Loaded, Mirror, News, NoKey

TELL_LOADED = 0.25
"""Seconds after which the faults that were read meanwhile are shown, until all of a plant are known."""


class MirroredWatch:
    """A board of a workbench that is mirrored. `say` tells the user that the connection has ended, and that it is there again."""

    def __init__(self, board: Board, connect: Callable[[], Session], say: Callable[[str], object]):
        self._board, self._say = board, say
        self._mirror = Mirror(connect, self._told, all_texts=True)
        self._systems: set[str] = set()
        self._answering = threading.Lock()
        self._faults: dict[str, Any] = {}
        self._next_told = 0.0

    def run(self) -> None:
        """Keeps the board up to date forever."""
        threading.Thread(target=self._follow_wishes, name="wishes", daemon=True).start()
        self._mirror.run()

    # What the mirror tells

    def _told(self, news: News) -> None:
        if isinstance(news, Came) and news.kind == "faults":
            self._faults[news.unit] = news.value
            if not self._mirror.is_loaded and time.monotonic() < self._next_told:
                return
        self._take_faults()
        match news:
            case Connected(_, is_other):
                self._connected(is_other)
            case Loaded():
                self._loaded()
            case Changed():
                self._changed(news)
            case Came(kind, unit) if kind != "faults":
                self._answer((kind, unit))
            case Disconnected(error):
                self._say(f"{error}; trying again")
                self._board.end(f"{error}; trying again")

    def _connected(self, is_other: bool) -> None:
        self._board.known_as(self._mirror.caller)
        if is_other:
            self._board.listed(self._mirror.revisions())
            self._want_plans(list(self._systems))
        if self._board.why_ended():
            self._board.end("")
            self._say("the workbench answers again")

    def _loaded(self) -> None:
        """Takes the texts of units whose faults are still pending."""
        rows, versions = self._board.rows(), self._mirror.versions()
        self._board.found({}, {unit: it.text for unit, it in versions.items() if it.text is not None and unit in rows and not rows[unit].source})
        self._want_plans(versions)

    def _changed(self, news: Changed) -> None:
        commit = news.commit
        revisions = {it.unit: it.after.revision for it in news.units}
        if commit:
            revisions |= {**dict.fromkeys(commit.put, commit.number), **dict.fromkeys(commit.removed, 0)}
        texts = {it.unit: it.after.text for it in news.units}
        units = {unit: Revised(revision, _source(texts[unit], revision)) for unit, revision in revisions.items()}
        self._board.changed(units, f"session {commit.caller}" if commit else "", commit.number if commit else 0)
        self._want_plans(units)
        for key in self._board.wishes():
            self._answer(key)  # A picture shows the ports of the present texts.

    def _take_faults(self) -> None:
        """Takes the faults that have come, with the texts of units that have none yet."""
        if self._faults:
            rows = {unit: row for unit in self._faults if (row := self._board.row(unit)) and row.revision}
            texts = {unit: self._mirror.version(unit).text for unit, row in rows.items() if not row.source}
            self._board.found({unit: self._faults[unit] for unit in rows}, {unit: text for unit, text in texts.items() if text is not None})
            self._faults = {}
            self._next_told = time.monotonic() + TELL_LOADED

    def _want_plans(self, units: Iterable[str]) -> None:
        """Follows the plans of systems, and no longer those of what is none any more."""
        for unit in units:
            row = self._board.row(unit)
            is_system = row is not None and row.is_system and bool(row.revision)
            if is_system and unit not in self._systems:
                self._systems.add(unit)
                self._mirror.want("deploy", unit)
                self._answer(("deploy", unit))
            elif not is_system and unit in self._systems:
                self._systems.discard(unit)
                self._unwant(("deploy", unit))

    # What browsers look at

    def _follow_wishes(self) -> None:
        followed: set[Key] = set()
        while True:
            wishes = self._board.wait_for_other_wishes(followed)
            for key in wishes - followed:
                self._mirror.want(*key)
                self._answer(key)
            for key in followed - wishes:
                self._unwant(key)
            followed = wishes

    def _unwant(self, key: Key) -> None:
        if key not in self._board.wishes() and not (key[0] == "deploy" and key[1] in self._systems):
            self._mirror.unwant(*key)

    def _answer(self, key: Key) -> None:
        """Takes a net or a plan as it is known now. Two threads do it, and none of them with a value that is older than the other one's."""
        with self._answering:
            value = _value(self._mirror.value(*key))
            self._board.answered(key, value)
            if key[0] == "deploy" and key[1] in self._systems:
                self._board.planned({key[1]: value})


def _source(text: str | None, revision: int) -> Source | None:
    return None if text is None or not revision else Source(None, text, revision)


def _value(value: Any) -> Value | None:
    if isinstance(value, TooManyParts):
        return NotAnswered(str(value))
    return NoEntry() if isinstance(value, NoKey) else value
