"""What is told to the user while a folder and a workbench are kept the same."""
from __future__ import annotations

import sys
import time
from collections import Counter
from collections.abc import Mapping

from bench61499 import NoSeat, NoSecret, NotLetIn, NotYourHost, WorkbenchError
from bench61499.language.names import printable
from bench61499.sync.deciding import Step

MANY = 20
"""So many files are named of which the same is told at once; if there are more, they are counted."""
LASTS = 30.0
"""Seconds of an outage after which it is reported again, if somebody answers at the address and lets nobody in."""
_CONNECTION = ".connection"
_DONE = {
    Step.WRITE: "written",
    Step.DELETE: "deleted",
    Step.PUT: "committed",
    Step.REMOVE: "removed from the workbench",
    Step.MERGE: "merged",
    Step.CONFLICT: "in conflict",
}
_MORE = {Step.CONFLICT: ": each file has the other text beside it, as NAME.fb.theirs; edit the files, and delete those to commit them"}
"""What is added to a number of units."""


class Report:
    """Lines on standard output for what was done, or would be if it `is_dry`; lines on standard error for what can't be done, once for each reason."""

    def __init__(self, is_dry: bool = False, address: str = ""):
        self._is_dry, self._address, self._session = is_dry, address, 0
        self._lines: list[tuple[Step, str]] = []
        self._troubles: dict[str, str] = {}
        self._problems: dict[str, str] = {}
        self._lost_at = 0.0
        self.counts: Counter[Step] = Counter()

    def did(self, step: Step, name: str, words: str = "") -> None:
        self.counts[step] += 1
        self._lines.append((step, f"{name}: {'to be ' if self._is_dry else ''}{_DONE[step]}{words}"))

    def left(self, step: Step, name: str) -> None:
        """Tells of a step that is not done in this run, if nothing is."""
        if self._is_dry and step != Step.AGREE:
            self.did(step, name)

    def connected(self, session: int) -> None:
        """Prints the number by which others know who commits, if it is another one than before."""
        if session != self._session:
            self._session = session
            self.say(f"connected to {self._address} as session {session}")

    def flush(self) -> None:
        """Prints what was done since the last time."""
        lines, self._lines = self._lines, []
        counts = Counter(step for step, _ in lines)
        for step, line in lines:
            if counts[step] <= MANY:
                self.say(line)
        for step, count in counts.items():
            if count > MANY:
                self.say(f"{count:,} units {'to be ' if self._is_dry else ''}{_DONE[step]}{_MORE.get(step, '')}")

    def say(self, words: str) -> None:
        print(printable(words), flush=True)

    def trouble(self, of: str, words: str) -> None:
        """Prints what can't be done of a unit."""
        if self._troubles.get(of) != words:
            self._troubles[of] = words
            self._complain(words)

    def is_over(self, of: str) -> bool:
        """Prints that it can be done now, and whether it could not be done before."""
        return self._troubles.pop(of, None) is not None

    def lost(self, error: WorkbenchError) -> None:
        """Prints that there is no connection, by one line: further tries during the same outage may fail for other reasons."""
        is_known = _CONNECTION in self._troubles
        self._lost_at = self._lost_at if is_known else time.monotonic()
        is_refused = isinstance(error, NoSeat | NoSecret | NotLetIn | NotYourHost)
        if not is_known or is_refused and time.monotonic() - self._lost_at >= LASTS:
            self.trouble(_CONNECTION, f"{error}; trying again")

    def found(self) -> None:
        """Prints that there is a connection again, if there was none."""
        if self.is_over(_CONNECTION):
            self.say("the host answers again")

    def tell_problems(self, problems: Mapping[str, str]) -> None:
        """Tells of files that can be no unit."""
        for file, words in problems.items():
            if self._problems.get(file) != words:
                self._complain(words)
        self._problems = dict(problems)

    def has_troubles(self) -> bool:
        return bool(self._troubles or self._problems)

    def _complain(self, words: str) -> None:
        print(printable(f"sync: {words}"), file=sys.stderr, flush=True)
