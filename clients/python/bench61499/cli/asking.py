"""What draw, plan and the making of boot files share: a workbench in which the units that are asked about are there."""
from __future__ import annotations

import argparse
from collections.abc import Callable, Iterable, Iterator
from contextlib import contextmanager, suppress
from typing import Any

from bench61499 import Key, NoSuchKey, Session
from bench61499.cli.command import Progress, open_session, tell
from bench61499.cli.comparing import compare, in_words, only_there, replace
from bench61499.cli.looking import ONLY_ASKED
from bench61499.language.as_declared import AsDeclared, shown_units
from bench61499.language.mentions import Mentions
from bench61499.language.texts import Texts as Known
from bench61499.language.units import Misuse, Unit, commit_units, read_units, refuse_marked
from bench61499.snapshot import Snapshot
from bench61499.sync.store import last_common

Texts = dict[str, str]


class Asked:
    """A workbench that works while it is asked. `texts` are those that are known, by unit."""

    def __init__(self, session: Session, texts: Texts, show: Callable[[int], None]):
        self._session, self._show, self.texts = session, show, texts

    def values(self, keys: Iterable[Key]) -> dict[Key, Any]:
        """The values of those of these keys that are there."""
        found: dict[Key, Any] = {}
        for kind, unit in keys:
            with suppress(NoSuchKey):
                found[kind, unit] = self._session.wait(kind, unit, self._show)
        return found

    def is_there(self, unit: str) -> bool:
        return bool(self._session.revision(unit))

    def shown(self, *units: str) -> str:
        """Units as they are declared."""
        return ", ".join(shown_units(self.texts, units))

    def names(self, unit: str) -> AsDeclared:
        """The names of one unit."""
        return AsDeclared(Known.of(self.texts), unit)

    def is_broken(self, unit: str) -> bool:
        """Whether the workbench has the unit, and its text spells none."""
        return any(fault.code == "SYNTAX" for faults in self.values([("faults", unit)]).values() for fault in faults)


class Compared(Asked):
    """A host, which gives its texts back and works by itself. If files are named they are compared with its texts."""

    def __init__(self, session: Session, snapshot: Snapshot, show: Callable[[int], None], unit: str, files: list[Unit], common: Texts):
        super().__init__(session, {}, show)
        self._snapshot, self._unit, self._files, self._common = snapshot, unit, files, common

    def values(self, keys: Iterable[Key]) -> dict[Key, Any]:
        """As of any workbench. Raises `Misuse` if the unit that is asked about rests on another text than that of its file."""
        found = self._snapshot.values(keys, self._show)
        self.texts = {unit: it.text for unit, it in self._snapshot.texts.items()}
        if self._files:
            self._compare()
        return found

    def _compare(self) -> None:
        mentions, here = Mentions(), {it.name: it.text for it in self._files}
        rests = mentions.below(self._unit, here) | mentions.below(self._unit, self.texts)
        differences = [*compare(self._files, self.texts, self._common), *only_there(self._files, self.texts, self._common)]
        if its := [it for it in differences if it.unit in rests]:
            raise Misuse(f"the workbench has other texts than the files: {in_words(its)}")

    def is_there(self, unit: str) -> bool:
        return unit in self.texts


@contextmanager
def asking(options: argparse.Namespace, puts: bool) -> Iterator[Asked]:
    """A workbench for the unit and the files that the words name. The files are put into an own workbench, and into one that others use if it `puts`; else they are
    compared with a host. Raises `Misuse` where none of them is the unit.
    """
    units = read_units(options.files or [])
    texts = {unit.name: unit.text for unit in units}
    if options.files and options.unit not in texts:
        raise Misuse(f"no file declares the unit {options.unit}")
    if puts:
        refuse_marked(units)
    with open_session(options) as session, Progress() as progress:
        def show(results: int) -> None:
            progress.show(f"working: {results:,} results")

        if options.connect and session.answers_reads():
            snapshot = Snapshot(session)
            if puts:
                replace(session, snapshot, units, False, progress)
            yield Compared(session, snapshot, show, options.unit, units, last_common(options.files or [], snapshot.workbench))
            return
        if puts or not options.connect:
            commit_units(session, units, lambda put: progress.show(f"putting units: {put:,} of {len(units):,}"))
        elif units:
            tell(ONLY_ASKED)
        yield Asked(session, texts, show)
