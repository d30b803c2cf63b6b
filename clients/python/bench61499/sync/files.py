"""Files that others write too: each is replaced or removed at once, only if it still is what it was thought to be, and what was there is kept."""
from __future__ import annotations

import ctypes
import errno
import os
from collections.abc import Callable, Iterator, Mapping
from contextlib import contextmanager
from pathlib import Path

from bench61499.language.writing import sync_folder, write_new

_HERE, _EXCHANGE = -100, 2
_NOT_HERE = errno.ENOSYS, errno.EINVAL, errno.ENOTSUP
_libc = ctypes.CDLL(None, use_errno=True)


class Changed(Exception):
    """A file is not what it was thought to be: somebody wrote it meanwhile. It is as they left it."""


class Writer:
    """Writes files whose contents `drafts`, a folder of the same file system, has first. Names are on the disk after `flush`."""

    def __init__(self, drafts: Path):
        self._drafts = drafts
        self._number = 0
        self._touched: set[Path] = set()
        self._prepared: dict[Path, Path] = {}

    def flush(self) -> None:
        """Has all names be on the disk that were given or taken."""
        for folder in self._touched:
            sync_folder(folder)
        for draft in self._prepared.values():
            draft.unlink()
        self._touched, self._prepared = set(), {}

    def prepare(self, contents: Mapping[Path, bytes]) -> None:
        """Writes the drafts of many new files at once: so they are on the disk far sooner than one by one."""
        for file, content in contents.items():
            self._prepared[file] = self._written(content, 0o666, is_alone=False)
        os.sync()

    def create(self, file: Path, content: bytes) -> None:
        """Makes a file. Raises `Changed` if there is one."""
        with self._draft(content, 0o666, self._prepared.pop(file, None)) as draft:
            try:
                os.link(draft, file)
            except FileExistsError:
                raise Changed(file) from None
        self._touched.add(file.parent)

    def replace(self, file: Path, expected: bytes, content: bytes, keep: Callable[[], Path]) -> Path:
        """Gives a file another content, and the former one the name that `keep` makes. Raises `Changed` if the file has another one than `expected`."""
        mode = file.stat().st_mode & 0o777
        with self._draft(content, mode) as draft:
            kept = keep()
            if not _exchanged(draft, file):
                _put_over(draft, file, expected, kept)
            elif draft.read_bytes() == expected:
                os.rename(draft, kept)
            else:
                _exchanged(draft, file)
                _keep_other(draft, content, kept)
                raise Changed(file)
        self._touched |= {kept.parent, file.parent}
        return kept

    def remove(self, file: Path, expected: bytes | None, keep: Callable[[], Path]) -> Path:
        """Moves a file to the name that `keep` makes. Raises `Changed` if there is none or it has another content than `expected`, if that is given."""
        kept = keep()
        try:
            os.rename(file, kept)
        except FileNotFoundError:
            raise Changed(file) from None
        if expected is not None and kept.read_bytes() != expected:
            _bring_back(kept, file)
            raise Changed(file)
        self._touched |= {kept.parent, file.parent}
        return kept

    @contextmanager
    def _draft(self, content: bytes, mode: int, prepared: Path | None = None) -> Iterator[Path]:
        """A file with this content, on the disk, that is gone afterwards if it is still there."""
        draft = prepared or self._written(content, mode, is_alone=True)
        try:
            yield draft
        finally:
            draft.unlink(missing_ok=True)

    def _written(self, content: bytes, mode: int, is_alone: bool) -> Path:
        """A draft; one that `is_alone` is on the disk."""
        self._number += 1
        draft = self._drafts / f"{os.getpid()}-{self._number}"
        write_new(draft, content, mode, is_synced=is_alone)
        return draft


def _exchanged(one: Path, other: Path) -> bool:
    """Exchanges two files at once, so that what anybody wrote to either is in one of them; False where the system can't."""
    if not hasattr(_libc, "renameat2"):
        return False
    if not _libc.renameat2(_HERE, os.fsencode(one), _HERE, os.fsencode(other), _EXCHANGE):
        return True
    number = ctypes.get_errno()
    if number == errno.ENOENT:
        raise Changed(other)
    if number not in _NOT_HERE:
        raise OSError(number, os.strerror(number), str(other))
    return False


def _put_over(draft: Path, file: Path, expected: bytes, kept: Path) -> None:
    """As an exchange, for systems without one: who writes a new file in the instant between the two last steps is not noticed."""
    try:
        os.link(file, kept)
    except FileNotFoundError:
        raise Changed(file) from None
    if kept.read_bytes() != expected:
        kept.unlink()
        raise Changed(file)
    os.replace(draft, file)


def _keep_other(draft: Path, content: bytes, kept: Path) -> None:
    """Keeps what came back for a content that was exchanged twice, if somebody wrote it in between."""
    if draft.read_bytes() != content:
        os.rename(draft, kept)


def _bring_back(kept: Path, file: Path) -> None:
    """Gives a file its name again. If there is a newer one it stays kept."""
    try:
        os.link(kept, file)
    except FileExistsError:
        return
    kept.unlink()
