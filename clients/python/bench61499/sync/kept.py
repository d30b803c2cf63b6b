"""What a `sync` has written over, in a folder for each unit. Copies of texts that the workbench has had are bounded, since others can make any number of them."""
from __future__ import annotations

import errno
import os
import re
from collections.abc import Iterator
from contextlib import suppress
from datetime import UTC, datetime
from heapq import heappop, heappush
from pathlib import Path

MOST, MOST_BYTES = 10_000, 2**28
"""Copies that stay, and their bytes."""
_MOMENT = "%Y%m%dT%H%M%S.%f"
_COPY = re.compile(r"(\d{8}T\d{6}\.\d{6})-\d+(-theirs|-merged)?\.fb", re.ASCII)


class Kept:
    """The folder. What is its user's own stays, until the user deletes it; of copies those go first that were in the files for the shortest time."""

    def __init__(self, folder: Path):
        self.folder = folder
        self._copies: list[tuple[float, int, str]] = []
        self._bytes = 0
        self._named: list[Path] = []

    def open(self) -> None:
        """Finds what is there. What links lead to is left alone."""
        for folder in _entries(self.folder):
            if folder.is_dir(follow_symlinks=False):
                self._named += (Path(it.path) for it in _entries(folder.path))
        self.thin()

    def name(self, unit: str, words: str) -> Path:
        """A name for what is written over; nothing has it yet. Raises `OSError` if its folder is a link, which could lead anywhere."""
        folder = self.folder / unit
        folder.mkdir(exist_ok=True)
        if link := next((it for it in (self.folder, folder) if it.is_symlink()), None):
            raise OSError(errno.ELOOP, f"{link} is a link, and has to be none")
        path = folder / f"{datetime.now(UTC).strftime(_MOMENT)}-{words}"
        self._named.append(path)
        return path

    def thin(self) -> None:
        """Removes what is too much, now that the names that were given are those of files."""
        named, self._named = self._named, []
        for path in named:
            self._count(path)
        self._bound()

    def _count(self, path: Path) -> None:
        """Takes note of a copy."""
        words = _COPY.fullmatch(path.name)
        with suppress(OSError, ValueError):
            status = os.lstat(path)
            if words:
                moment = datetime.strptime(words[1], _MOMENT).replace(tzinfo=UTC).timestamp()
                heappush(self._copies, (moment - status.st_mtime, status.st_size, str(path)))
                self._bytes += status.st_size

    def _bound(self) -> None:
        while len(self._copies) > MOST or self._bytes > MOST_BYTES:
            _, size, path = heappop(self._copies)
            self._bytes -= size
            with suppress(OSError):
                os.unlink(path)
                os.rmdir(os.path.dirname(path))  # If nothing else is in it.


def _entries(folder: str | Path) -> Iterator[os.DirEntry[str]]:
    with suppress(OSError), os.scandir(folder) as its:
        yield from its
