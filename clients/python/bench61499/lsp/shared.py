"""The units of a workbench that answers no reads, and their faults: its own one, or one of a team that gives no text back and is asked again and again."""
from __future__ import annotations

import time
from collections.abc import Iterable
from itertools import islice

from bench61499 import CHANGES_LIMIT, UNITS_LIMIT, NoSuchKey, Put, Session
from bench61499.language.mentions import Mentions
from bench61499.language.merging import is_marked
from bench61499.lsp.commits import ABSENT, Committed, Faults, Unit, Wanted

MOST_JOBS = 16
"""Jobs that an own workbench does at once. It begins with one, as faults come first, and networks are not wanted here."""
MANY_NEW = 1_024
"""New units of which an own workbench gets at first only those that the open ones rest on, as these are wanted first."""
MOST_PUT = 512
"""Units that it gets at once then, so that a change that comes meanwhile does not wait long."""
MOST_ASKED = 64
"""Units whose faults are asked for at once, so that a change that comes meanwhile does not wait long."""
FIRST_PAUSE, LONGEST_PAUSE = 0.05, 1.0
"""Seconds before the first question for faults that workers of the workbench are computing; each further pause is twice as long."""
IDLE_LOOK, BUSY_LOOK = 6.0, 1.5
"""Seconds between two looks, of one recorded call each, at what others have changed: usually, and within a minute after others changed something."""
BUSY_FOR = 60.0
OUTER_EACH, AGAIN_EACH = 4, 7
"""Of so many looks one is at units that no open text depends on, and one asks for the faults of a unit again: a text of somebody else may lead
to units of which the texts here know nothing."""


class SharedTexts(Committed):
    """The units of such a workbench. It puts and removes them against the revisions that it has seen, and never what somebody else has put, unless the user insists.
    One of a team gets no text with marked lines of a merge.

    All its methods are for one thread at a time. After a connection has ended it goes on with `resume`.
    """

    def __init__(self, session: Session, shared: bool):
        super().__init__()
        self.session, self._shared = session, shared
        self._faults: dict[str, Faults] = {}
        self._mentions = Mentions()
        self._waiting: set[str] = set()
        self._has_more = False
        self._last = 0
        self._jobs, self._pause = 1, FIRST_PAUSE
        self._looks = 0
        self._next_question = self._next_look = self._busy_until = 0.0
        self._inner: list[str] = []
        self._outer: list[str] = []
        self._again: list[str] = []

    def turn(self, wanted: Wanted | None) -> float | None:
        """Brings the workbench up to date if there is something new, asks for some faults, and looks at what others do.

        Gives after how many seconds another turn is useful; None if none is without a change.
        """
        if wanted and not (self._has_more and self._waiting):
            self._bring(wanted)
            self.news.is_brought = not self._has_more
        if self._waiting and not self._shared:
            self._work()
        if time.monotonic() >= self._next_question:
            self._ask_some()
        if self._shared and not self._waiting and time.monotonic() >= self._next_look:
            self._look()
        if self._has_more:
            return 0.0
        if not self._waiting and not self._shared:
            return None
        return max(0.0, (self._next_question if self._waiting else self._next_look) - time.monotonic())

    # Texts

    def _bring(self, wanted: Wanted) -> None:
        self._wanted = wanted
        self._find_out(unit for unit in wanted.texts if unit not in self._units)
        changed, first, is_rest = set[str](), self._first(), self._has_more
        most = max(len(first), MOST_PUT) if is_rest else len(first) or UNITS_LIMIT
        try:
            self._has_more = self._bring_new(self.session, changed, most, first)
        finally:
            if changed and not is_rest:
                self._reach(changed)
        if is_rest:
            asked = self._mentions.near(wanted.open, wanted.texts) if self._has_more else self._units.keys()
            self._waiting = {unit for unit in asked if self._units[unit].revision}

    def _first(self) -> set[str]:
        """The new units that an own workbench gets before all others: the open ones and what they rest on, so that their faults are those that stay. None if all may go at once."""
        texts, new = self._wanted.texts, [unit for unit, it in self._units.items() if not it.revision]
        if self._shared or not self._has_more and len(new) <= MANY_NEW:
            return set()
        return self._mentions.near(self._wanted.open, texts) & set(new)

    def _is_to_put(self, unit: str, text: str) -> bool:
        """Whether the workbench lacks a text: not where it has that of somebody else, unless the user insists."""
        it = self._units[unit]
        if self._shared and is_marked(text):
            return False
        return it.text != text and (it.text is not None or unit in self._wanted.insisted or not it.revision and not it.is_changed)

    def _find_out(self, units: Iterable[str]) -> None:
        """Asks which of these units the workbench has already; an own one has none."""
        new = list(units)
        found = self.session.present(new) if self._shared else dict.fromkeys(new, 0)
        for unit, revision in found.items():
            if self._shared:
                self._set(unit, Unit(revision))
            else:
                self._units[unit] = ABSENT  # That is no news: it gets them all.
            if revision:
                self._waiting.add(unit)
        self._last = max(self._last, *found.values(), 0)

    def _put(self, unit: str, number: int, text: str) -> None:
        self._number(number)
        self._set(unit, Unit(number, text))

    def _removed(self, unit: str, number: int) -> None:
        self._number(number)
        self._set(unit, ABSENT)

    def _number(self, number: int) -> None:
        """Takes note of the number of a commit from here."""
        if number > self._last + 1:
            self._busy()  # The commits between were those of others.
        self._last = max(self._last, number)

    def _overtaken(self, unit: str, revision: int) -> None:
        self._see(unit, revision)

    def _see(self, unit: str, revision: int) -> None:
        """Takes the revision that somebody else has made of a unit."""
        if self._units.get(unit, ABSENT).text is not None:
            self.news.taken.add(unit)
        self._set(unit, Unit(revision, is_changed=True))
        self._last = max(self._last, revision)
        self._busy()
        self._reach({unit})

    def _set(self, unit: str, it: Unit) -> None:
        self._units[unit] = self.news.units[unit] = it
        self.news.faults.pop(unit, None)  # Those were of another text.
        if not it.revision:
            self._waiting.discard(unit)

    def _reach(self, changed: set[str]) -> None:
        """Has the faults asked for that a change can have changed. It may go on through texts of others, which are not known."""
        roots = changed | {unit for unit, it in self._units.items() if it.is_changed}
        present = {unit for unit, it in self._units.items() if it.revision}
        is_most = 2 * len(roots) >= len(present)
        self._waiting |= present if is_most else self._mentions.reached(roots, self._wanted.texts) & present
        self._jobs, self._pause = 1, FIRST_PAUSE
        self._next_question = time.monotonic() + (FIRST_PAUSE if self._shared else 0)

    def _busy(self) -> None:
        """Looks more often for a while: others are at work."""
        now = time.monotonic()
        self._busy_until = now + BUSY_FOR
        self._next_look = min(self._next_look, now + BUSY_LOOK)

    # Faults

    def _work(self) -> None:
        self.session.work(self._jobs)
        self._jobs = min(2 * self._jobs, MOST_JOBS)

    def _ask_some(self) -> None:
        """Asks for faults until one is pending. Workers find those of a unit whose name is less first, so the others are mostly there once the last one is.

        The open units come first, but in a large folder after what they rest on: in what is broken no name is warned of.
        """
        opened = self._waiting & self._wanted.open.keys()
        others = sorted(self._waiting - opened, reverse=self._shared)
        order = [*others, *sorted(opened)] if self._has_more else [*sorted(opened), *others]
        found: dict[str, Faults] = {}
        for unit in islice(order, MOST_ASKED):
            try:
                faults = self.session.faults(unit)
            except NoSuchKey:
                self._see(unit, 0)
                continue
            if faults is None:
                self._wait()
                break
            found[unit] = faults
        self._waiting -= found.keys()
        self._found({unit: faults for unit, faults in found.items() if self._stay(unit, faults)})

    def _stay(self, unit: str, faults: Faults) -> bool:
        """Whether faults are those that stay: of a unit that lacks something yet that it rests on these are the ones of its own text."""
        return not self._has_more or unit in self._wanted.open or any(it.code == "SYNTAX" for it in faults)

    def _wait(self) -> None:
        """Leaves time to the workers before the next question."""
        if self._shared:
            self._next_question = time.monotonic() + self._pause
            self._pause = min(2 * self._pause, LONGEST_PAUSE)

    def _found(self, found: dict[str, Faults]) -> None:
        """Takes faults. Where they are other ones than before, the text that they are of may be another one too."""
        new = {unit: self._units[unit].revision for unit, faults in found.items() if faults != self._faults.get(unit)}
        changed = self.session.changed(new) if self._shared and new else {}
        for unit, revision in changed.items():
            self._see(unit, revision)
        its = {unit: faults for unit, faults in found.items() if unit not in changed}
        self._faults |= its
        self.news.faults |= its

    # Others

    def _look(self) -> None:
        """One recorded call, and more only where it finds a change."""
        self._looks += 1
        now = time.monotonic()
        self._next_look = now + (BUSY_LOOK if now < self._busy_until else IDLE_LOOK)
        if self._looks % AGAIN_EACH == 0:
            self._ask_again()
        elif units := self._next_units():
            for unit, revision in self.session.changed({it: self._units[it].revision for it in units}).items():
                self._see(unit, revision)

    def _next_units(self) -> list[str]:
        """As many units as one call takes: those in turn that open texts depend on, and now and then others."""
        inner = self._mentions.near(self._wanted.open, self._wanted.texts) & self._units.keys()
        if not self._inner:
            self._inner = sorted(inner)
        if not self._outer:
            self._outer = sorted(self._units.keys() - inner)
        ring = self._outer if self._outer and (not self._inner or self._looks % OUTER_EACH == 0) else self._inner
        units = [unit for unit in ring[:CHANGES_LIMIT] if unit in self._units]
        del ring[:CHANGES_LIMIT]
        return units

    def _ask_again(self) -> None:
        if not self._again:
            self._again = sorted(unit for unit, it in self._units.items() if it.revision)
        if self._again:
            self._waiting.add(self._again.pop(0))
            self._ask_some()

    # After a connection has ended

    def resume(self, session: Session, is_new: bool) -> None:
        """Continues with another session: of a workbench that `is_new`, or of the same one, in which others may have changed something meanwhile."""
        self.session = session
        known = {unit: it.revision for unit, it in self._units.items()}
        now = {} if is_new else session.changed(known)
        is_other = any(0 < revision < known[unit] for unit, revision in now.items()) or not any({**known, **now}.values())
        if is_new or is_other:
            return self._forget()
        made, self._under_way = {it.unit: it for it in self._under_way}, []
        for unit, revision in now.items():
            it = made.get(unit)
            if isinstance(it, Put) and revision == self._last + 1:  # The commit of which no reply came was made.
                self._set(unit, Unit(revision, it.text))
            else:
                self._see(unit, revision)
        self._last = max(self._last, *now.values(), 0)
        self._waiting = {unit for unit, it in self._units.items() if it.revision}

    def _forget(self) -> None:
        """Nothing is known of the workbench any more."""
        self._units.clear()
        self._faults.clear()
        self._waiting.clear()
        self._under_way, self._last, self._has_more = [], 0, False
