"""A workbench that others use, as it was at one moment: read by one session, without a recorded call.

    with Session.connect("127.0.0.1", 6149) as session:
        snapshot = Snapshot(session)                                   # raises NoReads at a server that answers none
        faults = snapshot.values(("faults", unit) for unit in snapshot.texts)
        snapshot.texts["A"].text                                       # of the same moment as the faults
"""
from __future__ import annotations

import time
from collections.abc import Callable, Iterable
from typing import Any

from bench61499.session import BadReply, Commit, Event, Key, NoResult, Result, Session, Text, Waits, Watched

LOOK = 5.0
"""Seconds that it waits at once for a value that is being computed."""
ROUNDS = 10_000
"""Replies by which it catches up with what has happened, at most: each has up to 200 calls of a host."""


class Snapshot:
    """The texts of all units, by name, and the values of some keys. The texts are those of the moment of the last values that were read."""

    def __init__(self, session: Session):
        self._session = session
        self.workbench = session.status().workbench
        self.texts: dict[str, Text] = {}
        self._at = 0
        self._list()

    def values(self, keys: Iterable[Key], progress: Callable[[int], object] = lambda _: None, is_brief: bool = False) -> dict[Key, Any]:
        """The values of those of these keys that are there, with the texts all of one moment. Waits for those that are being computed, and calls `progress` with how many are known.
        If it `is_brief`, a network or a plan is `There`.

        Raises `NoResult` if it waits in vain: for longer than the patience of the session.
        """
        wanted = list(dict.fromkeys(keys))
        known: dict[Key, Any] = {}
        unsure, waits = wanted, Waits(self._session.patience)
        while True:
            found = self._session.peek_all(unsure, is_brief)
            for key in unsure:
                known.pop(key, None)
            known |= found
            pending = [key for key, value in found.items() if value is None]
            progress(len(known) - len(pending))
            news = self._news(min(LOOK, self._session.patience) if pending else 0)
            if not pending and not news.events and not news.missed:
                self._at = news.at
                self._check(known)
                return known
            waits.go_on(pending, len(known) - len(pending))
            unsure = wanted if self._follow(news) else _again(pending, wanted, news)

    def _check(self, values: dict[Key, Any]) -> None:
        """Raises `BadReply` if a fault is not in the text of its unit: what answers is no workbench."""
        for (kind, unit), faults in values.items():
            if kind == "faults" and faults and (unit not in self.texts or max(it.end for it in faults) > len(self.texts[unit].text.encode())):
                raise BadReply(f"faults of {unit} that are not in its text".encode())

    def _list(self) -> None:
        listed = self._session.units()
        self._at, self.texts = listed.at, self._session.texts(it.unit for it in listed.units)

    def _news(self, wait: float) -> Watched:
        """All that has happened since the last news, however many replies report it; waits so long for it if nothing has.

        Raises `NoResult` if it does not catch up: what answers may be no workbench.
        """
        events: list[Event] = []
        at, news = self._at, self._session.watch(self._at, wait)
        end = time.monotonic() + self._session.patience
        for _ in range(ROUNDS):
            if news.at == at or news.missed:
                return Watched(news.at, tuple(events), news.missed)
            if time.monotonic() > end:
                break
            events += news.events
            at, news = news.at, self._session.watch(news.at)
        raise NoResult(f"the workbench reports further calls without end: neither {ROUNDS:,} replies nor {self._session.patience:g} seconds suffice to catch up with it")

    def _follow(self, news: Watched) -> bool:
        """Brings the texts up to date; gives whether there were commits, each of which can have changed any value."""
        if news.missed:
            self._list()
            return True
        commits = [it for it in news.events if isinstance(it, Commit)]
        changed = dict.fromkeys(unit for it in commits for unit in (*it.put, *it.removed))
        self.texts = {unit: text for unit, text in self.texts.items() if unit not in changed} | self._session.texts(changed)
        self._at = news.at
        return bool(commits)


def _again(pending: list[Key], wanted: list[Key], news: Watched) -> list[Key]:
    """The keys whose values are not sure after results have come."""
    came = {(it.kind, it.unit) for it in news.events if isinstance(it, Result)}
    return list(dict.fromkeys([*pending, *(key for key in wanted if key in came)]))
