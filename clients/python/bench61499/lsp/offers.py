"""What a user is asked of files that are not open: to take texts of colleagues, and to let units go from the workbench."""
from __future__ import annotations

import time
from collections.abc import Callable, Iterable
from dataclasses import dataclass
from pathlib import Path

from bench61499.language.units import Misuse, read_text
from bench61499.language.wording import counted
from bench61499.lsp.asking import Asking, edits_between
from bench61499.lsp.commits import Unit
from bench61499.lsp.diagnoses import named
from bench61499.lsp.rpc import INFO

CALM = 1.0
"""Seconds without further news of a unit after which its file is offered; a `sync` of the folder has written it by then."""
MOST_UNASKED = 16
"""Files whose texts are given to the editor without a question: as many as one commit changes."""
MOST_REMOVED = 3
"""Units that are removed without a question, and within so many seconds."""
REMOVED_WITHIN = 60.0
TAKE, LEAVE = "Take them", "Leave them"
REMOVE, KEEP = "Remove them", "Keep them"


@dataclass(frozen=True)
class _Offer:
    """A file that has the last common text of a unit, and what the workbench has of that."""

    path: Path
    unit: str
    it: Unit


class Offers:
    """Texts of colleagues for files that are not open and have nothing that is not committed. The editor gets them by one edit, so that its user can undo it.

    `expect` is told of each text before and after.
    """

    def __init__(self, asking: Asking, is_open: Callable[[Path], bool], expect: Callable[[Path, str, str, Unit], None]):
        self._asking, self._is_open, self._expect = asking, is_open, expect
        self._waiting: dict[Path, _Offer] = {}
        self._declined: set[Path] = set()
        self._due = 0.0

    def note(self, path: Path, unit: str, it: Unit, text: str | None) -> None:
        """Takes note of what the workbench has of a unit whose file has a text."""
        is_clean = it.is_changed and not it.is_former and it.text is not None and it.common is not None and it.common == text
        if is_clean and path not in self._declined and not self._is_open(path) and self._asking.can("workspace", "applyEdit"):
            self._waiting[path] = _Offer(path, unit, it)
            self._due = time.monotonic() + CALM
        else:
            self._waiting.pop(path, None)

    def decline(self, path: Path) -> None:
        """Has a file not be offered again until it is opened."""
        self._declined.add(path)
        self._waiting.pop(path, None)

    def opened(self, path: Path) -> None:
        self._declined.discard(path)
        self._waiting.pop(path, None)

    def patience(self) -> float | None:
        return max(0.0, self._due - time.monotonic()) if self._waiting else None

    def step(self) -> None:
        """Offers what has been calm for a while."""
        if not self._waiting or time.monotonic() < self._due:
            return
        offers = [it for it in self._waiting.values() if self._is_still(it)]
        self._waiting.clear()
        if len(offers) > MOST_UNASKED:
            what = f"{counted(len(offers), 'unit')} that are not open here were changed by others: {named(it.unit for it in offers)}. Take the team's texts?"
            self._asking.choose(what, [TAKE, LEAVE], lambda choice: self._give(offers) if choice == TAKE else self._decline(offers))
        elif offers:
            self._give(offers)

    def _is_still(self, offer: _Offer) -> bool:
        """Whether the file is still as it was, and not open."""
        try:
            return not self._is_open(offer.path) and read_text(offer.path) == offer.it.common
        except Misuse:
            return False

    def _give(self, offers: list[_Offer]) -> None:
        edits = {it.path.as_uri(): (None, edits_between(it.it.common or "", it.it.text or "")) for it in offers}
        for it in offers:
            self._expect(it.path, it.it.common or "", it.it.text or "", it.it)
        self._asking.edit(f"The team's text of {named(it.unit for it in offers)}", edits, lambda why: self._given(offers, why))

    def _given(self, offers: list[_Offer], why: str | None) -> None:
        if why is not None:
            return self._decline(offers)
        its = "its editor has" if len(offers) == 1 else "their editors have"
        self._asking.tell(INFO, f"Others have changed {named(it.unit for it in offers)}: {its} the team's text now, which is not saved.")

    def _decline(self, offers: list[_Offer]) -> None:
        for it in offers:
            self.decline(it.path)


class Vanished:
    """Units whose texts vanish, as by another branch or a share that is not there: more than a few are removed from a team's workbench only if the user says so.

    `kept` are those that stay. `act` is called when that has changed.
    """

    def __init__(self, asking: Asking, act: Callable[[], None]):
        self._asking, self._act = asking, act
        self.kept: frozenset[str] = frozenset()
        self._removed: list[float] = []

    def look(self, gone: set[str], there: Iterable[str]) -> None:
        """Takes note of units that came from here and are `gone`, and of those that are there."""
        now = time.monotonic()
        self.kept -= frozenset(there)
        new = gone - self.kept
        self._removed = [it for it in self._removed if now - it < REMOVED_WITHIN]
        if len(new) + len(self._removed) <= MOST_REMOVED:
            self._removed += [now] * len(new)
            return
        self.kept |= new
        what = f"{counted(len(new), 'unit')} of the team's workbench have no file here any more: {named(new)}. Remove them there too?"
        self._asking.choose(what, [REMOVE, KEEP], lambda choice: self._remove(new) if choice == REMOVE else None)

    def _remove(self, units: set[str]) -> None:
        self.kept -= units
        self._act()
