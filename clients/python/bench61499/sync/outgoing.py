"""What goes from a folder to a workbench."""
from __future__ import annotations

from collections.abc import Callable, Iterable, Mapping

from bench61499 import Change, NoSuchUnit, Put, Refused, StaleBase, batches
from bench61499.sync.deciding import Step
from bench61499.sync.report import Report
from bench61499.sync.store import FileRevision, Store
from bench61499.sync.team import Team


class Outgoing:
    """Commits files that were saved together as one commit, as far as they fit."""

    def __init__(self, store: Store, team: Team, report: Report, fail: Callable[[str, str], None]):
        """`fail` is told of units that can't be committed, and why."""
        self._store, self._team, self._report, self._fail = store, team, report, fail

    def send(self, changes: Iterable[Change], files: Mapping[str, str]) -> list[str]:
        """Commits changes, of units with these files, and gives the units of which it is to be decided again. Raises `WorkbenchError` if there is no answer."""
        return [unit for batch in batches(changes) for unit in self._commit(batch, files)]

    def _commit(self, batch: list[Change], files: Mapping[str, str]) -> list[str]:
        units = [it.unit for it in batch]
        with self._store.together():
            self._store.send({it.unit: it.text if isinstance(it, Put) else None for it in batch})
        try:
            number = self._team.commit(self._store.identity, batch)
        except Refused as refusal:
            with self._store.together():
                self._store.take_back(units)
            return self._refused(refusal, batch, files)
        returned = {it.unit for it in batch if self._returns(it)}
        with self._store.together():
            self._store.take_back(units)
            for it in batch:
                self._store.agree(it.unit, FileRevision(files[it.unit], number, it.text) if isinstance(it, Put) else None)
        for it in batch:
            step, words = (Step.PUT, f"revision {number}") if isinstance(it, Put) else (Step.REMOVE, f"{it.unit}, commit {number}")
            self._report.did(step, files[it.unit], f": {words}{f'; others had removed {it.unit}' if it.unit in returned else ''}")
        return []

    def _returns(self, change: Change) -> bool:
        """Whether others have removed a unit that a change puts again."""
        common = self._store.common.get(change.unit)
        return isinstance(change, Put) and not change.base and common is not None and common.revision > 0

    def _refused(self, refusal: Refused, batch: list[Change], files: Mapping[str, str]) -> list[str]:
        """Waits for what others did meanwhile; without one change that can't be made the others go on."""
        bases = {it.unit: it.base for it in batch}
        if isinstance(refusal, StaleBase | NoSuchUnit):
            unit = refusal.unit.upper()
            current = refusal.current if isinstance(refusal, StaleBase) else 0
            self._team.expect(unit, current or bases.get(unit, 0), is_removal=not current)
            return list(bases)
        if len(batch) > 1:
            return [unit for it in batch for unit in self._commit([it], files)]
        self._fail(batch[0].unit, f"{files[batch[0].unit]}: is not committed: {refusal}")
        return []
