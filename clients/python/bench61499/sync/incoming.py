"""What comes from a workbench into a folder."""
from __future__ import annotations

import os
import time
from collections.abc import Mapping
from pathlib import Path

from bench61499 import TEXT_LIMIT
from bench61499.language.names import is_unit_name, is_utf_8
from bench61499.mirror import Version
from bench61499.sync.deciding import Decision, Step
from bench61499.sync.files import Changed, Writer
from bench61499.sync.report import Report
from bench61499.sync.saved import GONE_AFTER, Saved
from bench61499.sync.store import FileRevision, Store, digest

MANY = 50
"""So many new files are brought to the disk together."""
BESIDE = ".theirs"
"""What the name of a file ends with that has the workbench's text of a unit."""


class Incoming:
    """Writes files, and records what is common then once all of it is on the disk."""

    def __init__(self, saved: Saved, store: Store, report: Report):
        self._saved, self._store, self._report = saved, store, report
        self._writer = Writer(store.drafts)
        self._agreed: dict[str, FileRevision | None] = {}
        self._disputed: dict[str, FileRevision] = {}
        self._settled: set[str] = set()
        self._to_write: dict[str, tuple[str, FileRevision]] = {}
        self._absent: dict[str, float] = {}
        self._merged: dict[str, bytes] = {}

    def bring(self, unit: str, name: str | None, decision: Decision, version: Version, by: str) -> str | None:
        """Does a step, of a unit whose file is `name`, and gives its file then. Raises `Changed` if somebody has written the file meanwhile, and `OSError`."""
        if decision.step != Step.CONFLICT and unit in self._store.conflicts:
            self._take_away(unit, self._store.conflicts[unit])
            self._settled.add(unit)
        match decision.step:
            case Step.WRITE:
                return self._write(unit, name, version, by)
            case Step.DELETE if name:
                self._delete(unit, name, by)
                return None
            case Step.MERGE if name and decision.text is not None:
                self._merge(unit, name, decision.text, version, by)
            case Step.CONFLICT if name:
                self._dispute(unit, name, version, by)
            case Step.AGREE:
                self._agree(unit, name, version)
        return name

    def find_written(self) -> None:
        """Finds out what a run has written that was killed before it recorded that."""
        for unit, (content, now) in self._store.written.items():
            if self._saved.has_file(now.file) and self._saved.text(now.file) == content:
                self._agreed[unit] = now
        self._store.written = {}
        self.record()

    def prepare(self, files: Mapping[str, str], decisions: Mapping[str, Decision], versions: Mapping[str, Version]) -> None:
        """Records what the files of units are to be given, so that it is known for what it is after a kill."""
        for unit, it in decisions.items():
            there = versions[unit].text
            if it.step in (Step.WRITE, Step.MERGE) and it.text is not None and there is not None and _is_fit(unit, there):
                self._to_write[unit] = it.text, FileRevision(files.get(unit) or self._name_of(unit), versions[unit].revision, there)
        if self._to_write:
            with self._store.together():
                self._store.write(self._to_write)
        new = {self._saved.root / it.file: content.encode() for unit, (content, it) in self._to_write.items() if unit not in files}
        if len(new) >= MANY:
            self._writer.prepare(new)

    def record(self) -> None:
        """Has all that was written be on the disk, and then records what is common now."""
        self._writer.flush()
        self._store.thin()
        if not (self._agreed or self._disputed or self._settled or self._to_write):
            return
        with self._store.together():
            self._store.wrote()
            for unit in self._settled:
                self._store.settle(unit)
            for unit, it in self._agreed.items():
                self._store.agree(unit, it)
            for unit, theirs in self._disputed.items():
                self._store.dispute(unit, theirs)
        self._agreed, self._disputed, self._settled, self._to_write = {}, {}, set(), {}

    def settle(self, at_once: bool) -> list[str]:
        """Where the text beside a file was deleted, the file is what comes after it; gives these units. It may have been moved to the file, which is read first."""
        absent = {unit: it for unit, it in self._store.conflicts.items() if not os.path.lexists(self._beside(it.file))}
        now = time.monotonic()
        self._absent = {unit: self._absent.get(unit, now) for unit in absent}
        settled = {unit: it for unit, it in absent.items() if at_once or now - self._absent[unit] >= GONE_AFTER}
        for unit, it in settled.items():
            self._writer.create(self._store.keep(unit, f"{it.revision}-theirs.fb"), it.text.encode())
        self._agreed |= settled
        return list(settled)

    def _agree(self, unit: str, name: str | None, version: Version) -> None:
        now = FileRevision(name, version.revision, version.text) if name and version.text is not None else None
        if now != self._store.common.get(unit):
            self._agreed[unit] = now

    def _write(self, unit: str, name: str | None, version: Version, by: str) -> str:
        text = _checked(unit, version)
        words = f": revision {version.revision}{by}"
        if name:
            self._put_over(unit, name, text, "")
        else:
            name = self._to_write[unit][1].file
            self._writer.create(self._saved.root / name, text.encode())
            self._saved.wrote(name, text)
        self._agreed[unit] = FileRevision(name, version.revision, text)
        self._report.did(Step.WRITE, name, words)
        return name

    def _put_over(self, unit: str, name: str, text: str, words: str) -> None:
        """Gives a file another text; the former one is kept."""
        former, common = self._saved.text(name) or "", self._store.common.get(unit)
        keep = f"{common.revision if common else 0}{words}.fb"
        self._writer.replace(self._saved.root / name, former.encode(), text.encode(), lambda: self._store.keep(unit, keep))
        self._saved.wrote(name, text)

    def _name_of(self, unit: str) -> str:
        """The name that the file of a unit had, if it is free and its folder is there; else one that is free."""
        former = self._store.common.get(unit)
        if former and self._saved.can_create(former.file):
            return former.file
        return self._saved.free_name(unit)

    def _delete(self, unit: str, name: str, by: str) -> None:
        former, common = self._saved.text(name) or "", self._store.common[unit]
        self._writer.remove(self._saved.root / name, former.encode(), lambda: self._store.keep(unit, f"{common.revision}.fb"))
        self._saved.wrote(name, None)
        self._agreed[unit] = None
        self._report.did(Step.DELETE, name, f": {unit} was removed{by}")

    def _merge(self, unit: str, name: str, text: str, version: Version, by: str) -> None:
        theirs, former = _checked(unit, version), self._saved.text(name) or ""
        is_own = digest(former) != self._merged.get(unit)  # Not what was merged before, and could not be committed.
        self._put_over(unit, name, text, "-changed" if is_own else "-merged")
        self._merged[unit] = digest(text)
        self._agreed[unit] = FileRevision(name, version.revision, theirs)
        self._report.did(Step.MERGE, name, f" with revision {version.revision}{by}")

    def _dispute(self, unit: str, name: str, version: Version, by: str) -> None:
        text = _checked(unit, version)
        now = FileRevision(name, version.revision, text)
        before = self._store.conflicts.get(unit)
        if before and before.text == text:
            self._disputed |= {unit: now} if before != now else {}
            return
        if before:
            self._take_away(unit, before)
        self._put_beside(unit, name, text)
        self._disputed[unit] = now
        beside = f"{name}{BESIDE}"
        earlier = ", which this folder had before its text: somebody may have gone back to it" if self._store.was_former(unit, text) else ""
        words = f" with revision {version.revision}{by}{earlier}: that is {beside} now; edit {name}, and delete {beside} to commit it"
        self._report.did(Step.CONFLICT, name, words)

    def _put_beside(self, unit: str, name: str, text: str) -> None:
        beside = self._beside(name)
        if os.path.lexists(beside):
            self._writer.remove(beside, None, lambda: self._store.keep(unit, f"beside{BESIDE}"))
        self._writer.create(beside, text.encode())

    def _take_away(self, unit: str, theirs: FileRevision) -> None:
        beside = self._beside(theirs.file)
        if not os.path.lexists(beside):
            return
        try:
            self._writer.remove(beside, theirs.text.encode(), lambda: self._store.keep(unit, f"{theirs.revision}-theirs.fb"))
        except Changed:
            self._writer.remove(beside, None, lambda: self._store.keep(unit, f"{theirs.revision}-theirs-changed.fb"))

    def _beside(self, name: str) -> Path:
        return self._saved.root / f"{name}{BESIDE}"


def _checked(unit: str, version: Version) -> str:
    """The text of a unit. Raises `OSError` if the workbench has sent what no workbench has: it could lead out of the folder."""
    text = version.text or ""
    if not _is_fit(unit, text):
        raise OSError(0, "the server sent what no workbench can have")
    return text


def _is_fit(unit: str, text: str) -> bool:
    is_short = len(text.encode(errors="surrogatepass")) <= TEXT_LIMIT
    return is_unit_name(unit) and is_short and is_utf_8(text)
