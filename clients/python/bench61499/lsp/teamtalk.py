"""The talk of a language server with a host that answers reads: a mirror tells what is there, and commits go beside it."""
from __future__ import annotations

import queue
import time
from collections.abc import Callable
from concurrent.futures import Future, ThreadPoolExecutor, wait
from typing import Any, TypeVar

from bench61499 import Key, NoReads, Refused, Session, WorkbenchError
from bench61499.lsp.commits import News, Wanted
from bench61499.lsp.rpc import ERROR, INFO, WARNING
from bench61499.lsp.team import LastCommon, TeamTexts
from bench61499.mirror import Connected, Mirror
from bench61499.mirror import News as Told

PATIENCE, PAUSE = 20.0, 0.05
"""Seconds that a value is waited for while it is being computed, and between two questions for it."""
ENDS_IN = 1.0
"""Seconds that a turn under way has yet when the talk is to end."""
AGAIN = 1.0
"""Seconds after which a commit of which no reply came is looked at again."""
STARTED_AGAIN = "The workbench was started again, and has lost what it had: the texts here are compared with those that it has now."

Result = TypeVar("Result")


def woken(task: Future[Result], wake: Callable[[], None]) -> Future[Result]:
    """A task after which `wake` is called."""
    task.add_done_callback(lambda _: wake())
    return task


class TeamTalk:
    """One talk, which begins with a session that is open already; `Talk` tells of the arguments. It connects again by itself."""

    gives_texts = True

    def __init__(self, connect: Callable[[], Session], first: Session, tell: Callable[[int, str], None], wake: Callable[[], None], last_common: LastCommon):
        self._connect, self._first, self._tell, self._wake = connect, [first], tell, wake
        self.trouble, self._known_caller = "", 0
        self.is_over = self._is_known = self._is_woken = False
        self._told: queue.SimpleQueue[Told] = queue.SimpleQueue()
        self._mirror = Mirror(self._open, self._hear, all_texts=True)
        self._texts = TeamTexts(self._mirror, last_common)
        self._thread, self._asking = ThreadPoolExecutor(1), ThreadPoolExecutor(1)
        self._task: Future[None] | None = None
        self._lost: WorkbenchError | None = None
        self._failure: WorkbenchError | None = None
        self._due: float | None = None
        self._mirror.start()

    @property
    def caller(self) -> int:
        return self._mirror.caller

    def _open(self) -> Session:
        return self._first.pop() if self._first else self._connect()

    def _hear(self, news: Told) -> None:
        """Takes news on the thread of the mirror. There may be many: one of them wakes."""
        self._told.put(news)
        if not self._is_woken:
            self._is_woken = True
            self._wake()

    def patience(self) -> float | None:
        """How long there is nothing to do if no text changes; None if that is until `wake` is called."""
        if self._task:
            return 0 if self._task.done() else None
        if not self._told.empty():
            return 0
        return None if self._due is None or self._mirror.error else max(0.0, self._due - time.monotonic())

    def open(self) -> None:
        """The mirror looks for the workbench by itself."""

    def can_begin(self, is_new: bool) -> bool:
        """Whether a turn can begin and is useful: as the mirror has told something, as texts are new, or as it is time to try again."""
        if self._task:
            return False
        is_due = self._due is not None and time.monotonic() >= self._due
        return not self._told.empty() or self._texts.is_loaded and not self._mirror.error and (is_new or is_due)

    def values(self, keys: list[Key]) -> Future[dict[Key, Any]] | None:
        """Asks for values, which is no recorded call; None if there is no workbench yet. `wake` is called when they are there."""
        if not self._texts.is_loaded or self._mirror.error:
            return None
        return woken(self._asking.submit(self._peek, keys), self._wake)

    def _peek(self, keys: list[Key]) -> dict[Key, Any]:
        """The values of those of these keys that are there and come in time."""
        end = time.monotonic() + PATIENCE
        while True:
            with self._mirror.session(self._mirror.workbench) as session:
                found = session.peek_all(keys)
            if None not in found.values() or time.monotonic() > end:
                return {key: it for key, it in found.items() if it is not None}
            time.sleep(PAUSE)

    def begin(self, wanted: Wanted, is_new: bool) -> None:
        """Begins a turn: `poll` gives what it has found, once `wake` was called. A commit that was refused is tried again with new texts only."""
        told = [self._told.get() for _ in range(self._told.qsize())]
        is_to_commit = is_new or not isinstance(self._failure, Refused)
        self._due = None
        self._task = woken(self._thread.submit(self._texts.turn, wanted, told, is_to_commit), self._wake)
        for it in told:
            if isinstance(it, Connected) and it.is_other:
                self._tell_other()

    def _tell_other(self) -> None:
        """Tells of a workbench that is not the first one."""
        if self._is_known:
            self._tell(WARNING, STARTED_AGAIN)
        self._is_known = True

    def poll(self) -> News | None:
        """Takes what was done; gives what a turn has found, be it ended by an error."""
        self._is_woken = False
        task = self._task
        if task and task.done():
            self._task = None
            self._take(task)
        self._say()
        return self._texts.take_news() if task and not self._task else None

    def finish(self) -> News:
        """Gives what the turn that is under way has found, if it ends soon."""
        if self._task:
            wait([self._task], ENDS_IN)
        return self._texts.take_news()

    def close(self) -> None:
        """Ends the talk, with what it is doing."""
        self._mirror.close()
        for it in (self._thread, self._asking):
            it.shutdown(wait=False)

    def _take(self, task: Future[None]) -> None:
        try:
            task.result()
        except WorkbenchError as error:
            self._failure = error
            self._due = None if isinstance(error, Refused) else time.monotonic() + AGAIN
        else:
            self._failure = None
            self._due = time.monotonic() if self._texts.has_more else None

    def _say(self) -> None:
        """Tells the user once what is the matter, and once that it is over."""
        if self._mirror.error or self._told.empty() and not self._task:
            self._lost = self._mirror.error  # What was told since the connection came back is taken first.
        self.is_over, trouble = isinstance(self._lost, NoReads), ""
        if self._lost or self._failure:
            again = "the next change tries again" if not self._lost and isinstance(self._failure, Refused) else "trying again"
            trouble = f"{self._lost or self._failure}; {again}"
        if trouble and not self.trouble:
            self._tell(ERROR, trouble)
        elif self.trouble and not trouble:
            is_other = self.caller != self._known_caller
            self._tell(INFO, f"The workbench answers again{f'; this editor is session {self.caller} now' if is_other else ''}.")
        self._known_caller = self._known_caller if trouble else self.caller
        self.trouble = trouble
