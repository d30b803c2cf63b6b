"""What has happened in a workbench, as far back as its host knows, and what happens from then on."""
from __future__ import annotations

from collections.abc import Iterable
from dataclasses import dataclass, replace

from bench61499 import Commit, Event, Session


@dataclass(frozen=True)
class Since:
    """What has happened in a workbench from one place on up to the next one.

    If it `is_other`, the host was started again, and all is of another workbench than before. `missing` are the numbers of the commits before these events
    that the host no longer knows.
    """

    place: Place
    is_other: bool
    missing: range
    events: tuple[Event, ...]

    @property
    def commits(self) -> list[Commit]:
        return [it for it in self.events if isinstance(it, Commit)]


@dataclass(frozen=True)
class Place:
    """Where somebody has come to who looks at what happens: after a recorded call, and after the commit of this number."""

    workbench: str = ""
    at: int = 0
    commit: int = 0

    def catch_up(self, session: Session) -> Since:
        """All that has happened since, or that is known of it."""
        status = session.status()
        if status.workbench != self.workbench:
            return replace(Place(status.workbench).catch_up(session), is_other=True)
        at, events = min(self.at, status.calls), list[Event]()
        while True:
            watched = session.watch(at)
            at = _first_known(session, watched.at) if watched.missed else watched.at
            events = [] if watched.missed else events
            events += watched.events
            if at >= status.calls and not watched.missed:
                return self._since(at, events, status.commits)

    def wait(self, session: Session, seconds: float) -> Since:
        """What happens next, or nothing in so many seconds."""
        watched = session.watch(self.at, seconds)
        return self.catch_up(session) if watched.missed else self._since(watched.at, watched.events, self.commit)

    def _since(self, at: int, events: Iterable[Event], commits: int) -> Since:
        """`commits` is the number of the last commit if none of the events is one."""
        new = tuple(it for it in events if not isinstance(it, Commit) or it.number > self.commit)
        numbers = [it.number for it in new if isinstance(it, Commit)]
        missing = range(self.commit + 1, numbers[0] if numbers else commits + 1)
        return Since(Place(self.workbench, at, numbers[-1] if numbers else max(commits, self.commit)), False, missing, new)


def _first_known(session: Session, calls: int) -> int:
    """The number of the first call after which all is known: a host drops what is older when its history is full."""
    low, high = 0, calls
    while low < high:
        middle = (low + high) // 2
        if session.watch(middle).missed:
            low = middle + 1
        else:
            high = middle
    return low
