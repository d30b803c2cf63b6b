"""What language servers record for a `sync` that keeps the folder later: which text of the workbench each file comes from."""
from __future__ import annotations

import sqlite3
import threading
from collections import defaultdict
from collections.abc import Mapping
from concurrent.futures import ThreadPoolExecutor
from dataclasses import dataclass
from pathlib import Path

from bench61499.language.folder import read_at_once
from bench61499.language.units import Misuse
from bench61499.sync.editors import kept_folder
from bench61499.sync.store import NAME, FileRevision, record

PAUSE = 0.5
"""Seconds for which further texts are waited for before some are recorded."""


@dataclass(frozen=True)
class Noted:
    """The text of a file, and the last one that it and a workbench had in common; the workbench was at this revision of the unit when that was known."""

    unit: str
    text: str
    common: str
    revision: int
    workbench: str


class Recorder:
    """Records, on a thread of its own, in folders that a `sync` has kept once and none keeps now. What can't be recorded is left out."""

    def __init__(self) -> None:
        self._thread, self._lock, self._is_closing = ThreadPoolExecutor(1), threading.Lock(), threading.Event()
        self._noted: dict[Path, Noted] = {}
        self._is_due = False

    def note(self, file: Path, it: Noted) -> None:
        """Has this recorded soon, unless the file has another text then."""
        with self._lock:
            self._noted[file] = it
            is_first, self._is_due = not self._is_due, True
        if is_first and not self._is_closing.is_set():
            self._thread.submit(self._record_soon)

    def close(self) -> None:
        """Records what was noted, and ends. It can be closed again."""
        if not self._is_closing.is_set():
            self._is_closing.set()
            self._thread.submit(self._record)
            self._thread.shutdown()

    def _record_soon(self) -> None:
        self._is_closing.wait(PAUSE)
        self._record()

    def _record(self) -> None:
        with self._lock:
            noted, self._noted, self._is_due = self._noted, {}, False
        folders = {parent: kept_folder(parent / "any") for parent in {file.parent for file in noted}}
        found: defaultdict[tuple[Path, str], dict[Path, Noted]] = defaultdict(dict)
        for file, it in noted.items():
            if folder := folders[file.parent]:
                found[folder, it.workbench][file] = it
        left = [its for (folder, workbench), its in found.items() if not _is_recorded(folder, workbench, its)]
        with self._lock:
            for its in left:
                self._noted = its | self._noted


def _is_recorded(folder: Path, workbench: str, noted: Mapping[Path, Noted]) -> bool:
    """Whether nothing is left to be recorded: only a `sync` that keeps the folder makes that wait."""
    files = {it.unit: file for file, it in noted.items()}
    texts = {it.unit: FileRevision(str(file.relative_to(folder)), it.revision, it.common) for file, it in noted.items()}
    try:
        return record(folder / NAME, workbench, texts, lambda unit: _has(files[unit], noted[files[unit]].text))
    except (Misuse, OSError, sqlite3.Error):
        return True


def _has(file: Path, text: str) -> bool:
    """Whether a file has this text now."""
    found = read_at_once(file)
    return found is not None and found[0] == text
