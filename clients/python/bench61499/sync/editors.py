"""What language servers report to a `sync` of the same folder about the texts that are open in their editors: which text each comes from, whether it is saved, and
the session that commits it."""
from __future__ import annotations

import fcntl
import json
import os
import secrets
import stat
from collections import defaultdict
from collections.abc import Iterator, Mapping
from contextlib import suppress
from dataclasses import astuple, dataclass
from pathlib import Path

from bench61499.language.names import is_unit_name, is_utf_8
from bench61499.sync.store import NAME, STATE

FOLDER = "editors"
"""The folder in `.bench61499` that has a file for each language server; one that is not locked is of a server that has ended."""
MOST_SERVERS, MOST_BYTES = 64, 16 << 20
"""Language servers that are listened to, and bytes that are read of each."""


@dataclass(frozen=True)
class Opened:
    """A text that is open in an editor: the unit that it is, whether its user has changed it since it was saved, and the last text that the workbench and it both had, if any.
    `session` is the number of the session that commits it, 0 while there is no connection."""

    unit: str
    is_unsaved: bool
    common: str | None
    session: int = 0


class Reporter:
    """Reports what is open in one editor, to each `sync` that keeps a folder of one of the files."""

    def __init__(self) -> None:
        self._reported: dict[Path, dict[str, Opened]] = {}
        self._files: dict[Path, tuple[Path, int]] = {}

    def report(self, opened: Mapping[Path, Opened]) -> None:
        """Reports all that is open now. If that can't be written nothing is reported."""
        found: defaultdict[Path, dict[str, Opened]] = defaultdict(dict)
        for path, it in opened.items():
            if folder := kept_folder(path):
                found[folder][str(path.relative_to(folder))] = it
        for folder in self._reported.keys() | found.keys():
            if self._reported.get(folder, {}) != found[folder]:
                with suppress(OSError):
                    self._write(folder / NAME, found[folder])
        self._reported = dict(found)

    def close(self) -> None:
        """Reports that nothing is open any more."""
        for file, number in self._files.values():
            with suppress(OSError):
                file.unlink(missing_ok=True)
            os.close(number)
        self._files, self._reported = {}, {}

    def _write(self, state: Path, its: Mapping[str, Opened]) -> None:
        """Puts one line over another one: who reads it meanwhile reads one of them, or what is no line."""
        if state not in self._files:
            self._files[state] = _made(state / FOLDER)
        line = json.dumps({file: astuple(it) for file, it in its.items()}).encode() + b"\n"
        number = self._files[state][1]
        os.pwrite(number, line, 0)
        os.ftruncate(number, len(line))


def kept_folder(path: Path) -> Path | None:
    """The folder that has a file and is kept by a `sync`, if any."""
    return next((it for it in path.parents if (it / NAME / STATE).is_file()), None)


def _made(folder: Path) -> tuple[Path, int]:
    """A new file, which is locked. A folder that is a link could lead anywhere."""
    if _is_link(folder):
        raise OSError(f"{folder} is a link")
    folder.mkdir(exist_ok=True)
    while True:
        file = folder / secrets.token_hex(8)
        number = os.open(file, os.O_RDWR | os.O_CREAT | os.O_EXCL | os.O_CLOEXEC, 0o600)
        fcntl.flock(number, fcntl.LOCK_EX)
        if file.exists():
            return file, number
        os.close(number)  # A sync took it for one that was left.


def _is_link(folder: Path) -> bool:
    return folder.is_symlink() or folder.parent.is_symlink()


def opened_in(state: Path) -> dict[str, Opened]:
    """What is open in editors, by file, as far as it is reported in the `.bench61499` of a folder. Files that a link leads to are no reports: they would be removed."""
    folder = state / FOLDER
    try:
        files = [] if _is_link(folder) else sorted(os.listdir(folder))[:MOST_SERVERS]
    except OSError:
        return {}
    return {name: it for file in files for name, it in _read(folder / file)}


def sessions_in(state: Path) -> set[int]:
    """The sessions of these editors."""
    return {it.session for it in opened_in(state).values() if it.session}


def _read(file: Path) -> Iterator[tuple[str, Opened]]:
    """What one language server reports; nothing if it has ended."""
    try:
        number = os.open(file, os.O_RDONLY | os.O_NOFOLLOW | os.O_NONBLOCK | os.O_CLOEXEC)
    except OSError:
        return
    with open(number, "rb") as stream:
        if not stat.S_ISREG(os.fstat(number).st_mode) or _is_left(file, number):
            return
        with suppress(ValueError, TypeError, AttributeError):
            yield from ((name, it) for name, its in json.loads(stream.readline(MOST_BYTES)).items() if (it := _opened(*its)))


def _is_left(file: Path, number: int) -> bool:
    """Whether nobody has a file any more; then it is removed."""
    try:
        fcntl.flock(number, fcntl.LOCK_SH | fcntl.LOCK_NB)
    except OSError:
        return False
    with suppress(OSError):
        file.unlink()
    return True


def _opened(unit: object, is_unsaved: object, common: object, session: object = 0) -> Opened | None:
    is_text = common is None or isinstance(common, str) and is_utf_8(common)
    number = session if isinstance(session, int) else 0
    return Opened(unit, bool(is_unsaved), common, number) if isinstance(unit, str) and is_unit_name(unit) and is_text else None  # type: ignore[arg-type]
