"""Files that are written: all in one folder, and none over another one unless that is wanted."""
from __future__ import annotations

import os
from collections.abc import Callable
from pathlib import Path

from bench61499.exchange.xmlfile import SIZE_LIMIT
from bench61499.language.bounded import read_at_most
from bench61499.language.writing import create, write_over


class Unwritable(Exception):
    """A file is not written; the text, which begins with the file, tells why."""


class Target:
    """The folder that is written to; it is made with the first file."""

    def __init__(self, folder: Path, replace: bool):
        self.folder, self._replace = folder, replace

    def write(self, place: str, text: str, is_same: Callable[[str], bool] = lambda _: False) -> None:
        """Writes a file of the folder or of one in it. One that is there is left as it is if it has this text, or one that is the same. Raises `Unwritable`."""
        self.copy(place, text.encode(), is_same)

    def copy(self, place: str, content: bytes, is_same: Callable[[str], bool] = lambda _: False) -> None:
        """The same of bytes."""
        assert not {"", ".", ".."} & set(place.split("/"))
        file = self.folder / place
        try:
            if not file.parent.resolve().is_relative_to(self.folder.resolve()):
                raise Unwritable(f"{file}: would not be in {self.folder}")
            file.parent.mkdir(parents=True, exist_ok=True)
            if not os.path.lexists(file):
                create(file, content)
            elif not self._is_there(file, content, is_same):
                self._write_over(file, content)
        except OSError as error:
            raise Unwritable(f"{file}: can't be written: {error.strerror}") from None

    def _is_there(self, file: Path, content: bytes, is_same: Callable[[str], bool]) -> bool:
        """Whether a file has a content already, or a text that is the same if it is not to be replaced."""
        most = max(SIZE_LIMIT, len(content))
        old, size = read_at_most(file, most)
        try:
            return size <= most and (old == content or not self._replace and is_same(old.decode()))
        except UnicodeDecodeError:
            return False

    def _write_over(self, file: Path, content: bytes) -> None:
        """Puts a new file in the place of one that is there, a link too: what that leads to is not written to."""
        if not self._replace:
            raise Unwritable(f"{file}: is there already, with another text; give --replace to write over it")
        write_over(file, content)
