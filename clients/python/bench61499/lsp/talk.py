"""The talk of a language server with a workbench, in a thread of its own: it is opened, kept up to date, and opened again after it has ended.

With a host that answers reads another one goes on: `teamtalk`."""
from __future__ import annotations

import time
from collections.abc import Callable, Iterator
from concurrent.futures import Future, ThreadPoolExecutor
from contextlib import suppress
from functools import partial
from typing import Any

from bench61499 import HistoryFull, Key, NoSeat, NoSuchKey, NotLetIn, NoWorkbench, Refused, Session, WorkbenchError, pauses
from bench61499.lsp.rpc import ERROR, INFO
from bench61499.lsp.commits import News, Wanted
from bench61499.lsp.shared import SharedTexts
from bench61499.lsp.team import LastCommon
from bench61499.lsp.teamtalk import TeamTalk, woken

FULL_PAUSE = 60.0
"""Seconds between two questions whether a history is full yet."""
NOT_LET_IN = 3
"""Failures in a row after which the user is told that the secret may be wrong."""
NO_TEXTS = "This server gives no text back, as a `host` does, so texts of colleagues can't be compared with those here, and news of them comes late."


class Talk:
    """One talk. `wake` is called, in its thread, when something is done; `tell` shows words to the user; `last_common` gives the texts that the files and a workbench had in
    common, as recorded.

    A shared workbench is looked for again by itself, an own one when `open` is called. `trouble` tells why nothing is checked now; it is empty
    if all is well. `successor` begins the talk that goes on, if the workbench turns out to answer reads. `caller` is the number of the session that commits,
    0 if nobody tells it.
    """

    gives_texts = is_over = False
    caller = 0

    def __init__(self, open_workbench: Callable[[], Session], shared: bool, tell: Callable[[int, str], None], wake: Callable[[], None], last_common: LastCommon):
        self._open_workbench, self._shared, self._tell, self._wake, self._last_common = open_workbench, shared, tell, wake, last_common
        self.trouble = ""
        self.successor: Callable[[], TeamTalk] | None = None
        self._texts: SharedTexts | None = None
        self._session: Session | None = None
        self._thread = ThreadPoolExecutor(1)
        self._task: Future[Session | float | None] | None = None
        self._due: float | None = None
        self._pauses: Iterator[float] = pauses()
        self._failures = 0
        self._is_new = self._is_resumed = self._is_full = self._is_told = self._is_without_texts = self._has_reads = False

    def patience(self) -> float | None:
        """How long there is nothing to do if no text changes; None if that is until `wake` is called, or forever."""
        if self._task:
            return 0 if self._task.done() else None
        return None if self._due is None else max(0.0, self._due - time.monotonic())

    def open(self) -> None:
        """Looks for a workbench if there is none, and none is looked for."""
        if not self._session and not self._task and (self._due is None or not self._shared):
            self._submit(self._look_for_it)

    def can_begin(self, is_new: bool) -> bool:
        """Whether a turn can begin and is useful: as texts are new, or as it is time for one."""
        if not self._session or self._task:
            return False
        return is_new and not self._is_full or self._is_due()

    def _look_for_it(self) -> Session:
        """Opens a session, and finds out whether its workbench answers reads: that is no recorded call."""
        session = self._open_workbench()
        try:
            self._has_reads = self._shared and session.answers_reads()
        except WorkbenchError:
            session.close()
            raise
        return session

    def begin(self, wanted: Wanted, _is_new: bool) -> None:
        """Begins a turn: `poll` gives what it has found, once `wake` was called."""
        assert self._session
        if not self._texts:
            self._texts, self._is_resumed = SharedTexts(self._session, self._shared), True
        texts, session = self._texts, None if self._is_resumed else self._session
        self._is_resumed = True

        def turn() -> float | None:
            if session:
                texts.resume(session, self._is_new)
            return texts.turn(wanted)

        self._submit(turn)

    def values(self, keys: list[Key]) -> Future[dict[Key, Any]] | None:
        """Asks for values, after the turn that is under way; None if there is no workbench, or it has no texts yet. `wake` is called when they are there."""
        if not self._session or not self._texts:
            return None
        return woken(self._thread.submit(_values, self._session, keys), self._wake)

    def poll(self) -> News | None:
        """Takes what was done, and looks for a workbench again when it is time to; gives what a turn has found, be it ended by an error."""
        task = self._task
        if not task:
            if not self._session and self._is_due():
                self._submit(self._look_for_it)
            return None
        if not task.done():
            return None
        self._task = None
        try:
            self._take(task.result())
        except WorkbenchError as error:
            self._fail(error)
        return self._texts.take_news() if self._texts else None

    def close(self) -> None:
        """Ends the workbench, with what it is doing."""
        task, self._task = self._task, None
        if self._session:
            self._session.close()
        elif task and not task.exception() and isinstance(opened := task.result(), Session):
            opened.close()
        self._session = self._due = None

    def _submit(self, act: Callable[[], Session | float | None]) -> None:
        self._due = None
        self._task = woken(self._thread.submit(act), self._wake)

    def _is_due(self) -> bool:
        return self._due is not None and time.monotonic() >= self._due

    def _take(self, result: Session | float | None) -> None:
        """Takes a workbench that was found, or how long there is nothing more to do after a turn."""
        if isinstance(result, Session) and self._has_reads:
            self.successor = partial(TeamTalk, self._open_workbench, result, self._tell, self._wake, self._last_common)
            return
        if isinstance(result, Session):
            self._session, self._is_resumed, self._due = result, False, time.monotonic()
            if self._shared and not self._is_without_texts:
                self._is_without_texts = True
                self._tell(INFO, NO_TEXTS)
            return
        self._due = None if result is None else time.monotonic() + result
        if self._is_told:
            self._tell(INFO, "The workbench answers again.")
        self.trouble, self._failures, self._pauses = "", 0, pauses()
        self._is_new = self._is_full = self._is_told = False

    def _fail(self, error: WorkbenchError) -> None:
        self._failures += 1
        if isinstance(error, Refused) and not isinstance(error, NoSeat):
            self._is_full = isinstance(error, HistoryFull)
            self._due = time.monotonic() + FULL_PAUSE if self._is_full else None
            self._complain(f"{error}; {'it is asked again once a minute' if self._is_full else 'the next change tries again'}")
        elif self._shared:
            self._lose(isinstance(error, NoWorkbench))
            self._due = time.monotonic() + next(self._pauses)
            self._complain(f"{error}; trying again", not isinstance(error, NotLetIn) or self._failures >= NOT_LET_IN)
        else:
            self._lose(True)
            self._is_told = False
            self._complain(f"{error}; save to try again")

    def _lose(self, is_new: bool) -> None:
        """Continues without a workbench. The next one `is_new` if this one has ended for certain."""
        self._is_new |= is_new
        if self._session:
            self._session.close()
        self._session = None

    def _complain(self, trouble: str, is_to_tell: bool = True) -> None:
        """Tells the user once what is the matter."""
        self.trouble = trouble
        if is_to_tell and not self._is_told:
            self._is_told = True
            self._tell(ERROR, trouble)


def _values(session: Session, keys: list[Key]) -> dict[Key, Any]:
    """The values of those of these keys that are there."""
    found: dict[Key, Any] = {}
    for kind, unit in keys:
        with suppress(NoSuchKey):
            found[kind, unit] = session.wait(kind, unit)
    return found
