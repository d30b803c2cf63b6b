"""The files of a folder as they were saved: which unit each is, and which can be none."""
from __future__ import annotations

import os
import time
from collections.abc import Iterator, Mapping
from dataclasses import dataclass, field
from pathlib import Path

from bench61499.language.folder import File, Stamp, read_file, stamp_of, stamps_of
from bench61499.language.merging import is_marked
from bench61499.language.names import is_utf_8
from bench61499.language.tokens import declared_name
from bench61499.language.units import Misuse, can_be_unit, is_hidden
from bench61499.sync.store import FileRevision

GONE_AFTER = 1.0
"""Seconds after which a file that is gone counts as deleted: editors that save may take it away for a moment."""
_UNREAD: Stamp = (0, 0, 0)


@dataclass
class Units:
    """The units of a folder: the file of each, as a name relative to the folder; `held` are units whose file can be none at present.

    `problems` has what is wrong, by file.
    """

    files: dict[str, str] = field(default_factory=dict)
    held: dict[str, str] = field(default_factory=dict)
    problems: dict[str, str] = field(default_factory=dict)


class Saved:
    """The `*.fb` files of a folder and its inner ones, but for links. A file that is being written is read once it stays the same from one look to the next."""

    def __init__(self, root: Path):
        self.root = root.resolve()
        self._files: dict[str, File] = {}
        self._seen: dict[str, Stamp] = {}
        self._gone: dict[str, float] = {}
        self._locked: set[str] = set()
        self._has_unread = False
        self._unread: set[str] = set()

    def look(self, at_once: bool = False) -> bool:
        """Reads what has changed and stays so, or all that has changed `at_once`, and tells whether there is anything new.

        Raises `Misuse` if the folder can't be read.
        """
        self._locked.clear()
        stamps = dict(self._stamps())
        is_same = stamps == self._seen and not self._has_unread
        before, self._seen, self._has_unread = self._seen, stamps, False
        new = [] if is_same else [name for name, stamp in stamps.items() if self._is_new(name, stamp)]
        read = [name for name in new if (at_once or before.get(name) == stamps[name] or self._is_as_written(name)) and self._read(name, stamps[name])]
        self._unread = set(new) - set(read)
        self._has_unread = bool(self._unread)
        gone = [name for name in self._files if name not in stamps and self._is_deleted(name, at_once)]
        for name in gone:
            del self._files[name]
        return bool(read or gone)

    def _stamps(self) -> Iterator[tuple[str, Stamp]]:
        """The files, with names relative to the folder. What a link leads to is passed over if it is outside, and is the same file if not."""
        before = f"{self.root}{os.sep}"
        for path, stamp in stamps_of([self.root]):
            if path == str(self.root):
                raise Misuse(f"{path}: can't be read")
            name = path.removeprefix(before)
            if name == path or is_hidden(name) or f"{os.sep}." in name:
                continue
            if stamp and can_be_unit(name):
                yield name, stamp
            elif not stamp and not os.path.islink(path):
                self._locked.add(name)

    def _is_new(self, name: str, stamp: Stamp) -> bool:
        self._gone.pop(name, None)
        return name not in self._files or self._files[name].stamp != stamp

    def _read(self, name: str, stamp: Stamp) -> bool:
        """Reads a file, and tells whether it stayed the same meanwhile."""
        file = read_file(self.root / name, stamp)
        if stamp_of(self.root / name) != stamp:
            return False
        self._files[name] = file
        return True

    def _is_as_written(self, name: str) -> bool:
        """Whether a file has what was written here, and nobody has written it since."""
        known = self._files.get(name)
        return known is not None and known.stamp == _UNREAD and read_file(self.root / name, _UNREAD) == known

    def _is_deleted(self, name: str, at_once: bool) -> bool:
        """Whether a file that is not there is deleted, and not only about to be saved, or in a folder that can't be read."""
        if any(Path(name).is_relative_to(folder) for folder in self._locked):
            return False
        now = time.monotonic()
        is_deleted = at_once or now - self._gone.setdefault(name, now) >= GONE_AFTER
        if is_deleted:
            self._gone.pop(name, None)
        return is_deleted

    def is_settled(self) -> bool:
        """Whether all files are read, and none was being written at the last look."""
        return not self._has_unread

    def is_unread(self, name: str) -> bool:
        """Whether a file has changed, and is read once it stays the same. Until then it is not to be touched, or it would not stay so."""
        return name in self._unread

    def may_come(self, unit: str) -> bool:
        """Whether a file that is not read yet may be that of a unit which has none."""
        file = self.root / f"{unit}.fb"
        return bool(self._unread) or file.name not in self._files and file.is_file() and not file.is_symlink()

    def wrote(self, name: str, text: str | None) -> None:
        """Takes what was written here for the text of the file until it is read; None for a file that was taken away."""
        if text is None:
            self._files.pop(name, None)
        else:
            self._files[name] = File(_UNREAD, text, declared_name(text))
            self._has_unread = True

    def text(self, name: str) -> str | None:
        return self._files[name].text

    def has_file(self, name: str) -> bool:
        return name in self._files

    def can_create(self, name: str) -> bool:
        """Whether a file can have this name: none has it, and its folder is one that is looked at."""
        path = self.root / name
        is_inside = path.parent == self.root or any(Path(it).parent == Path(name).parent for it in self._files)
        return is_inside and not os.path.lexists(path)

    def free_name(self, unit: str) -> str:
        """A name for the file of a unit that has none yet. Some systems take `A.fb` and `a.fb` for one."""
        taken = set(map(str.lower, self._files))
        number = 0
        while (name := f"{unit}{f'_{number}' if number else ''}.fb").lower() in taken or os.path.lexists(self.root / name):
            number += 1
        return name

    def units(self, known: Mapping[str, FileRevision]) -> Units:
        """The unit of each file: the one that it was, unless another name has been declared in it since; else the one that it declares."""
        found = Units()
        owners = {it.file: unit for unit, it in known.items()}
        free = [name for name in sorted(self._files) if not self._take_known(name, owners.get(name), known, found)]
        for name in free:
            self._take_declared(name, found)
        return found

    def _take_known(self, name: str, unit: str | None, known: Mapping[str, FileRevision], found: Units) -> bool:
        file = self._files[name]
        if not unit or not _is_still(file, unit, known[unit]):
            return False
        (found.held if file.text is None else found.files)[unit] = name
        if file.problem:
            found.problems[name] = file.problem
        return True

    def _take_declared(self, name: str, found: Units) -> None:
        file = self._files[name]
        if not is_utf_8(name):
            found.problems[name] = f"{self.root / name}: its name is not UTF-8, so it is not committed"
        elif not file.declares:
            found.problems[name] = file.problem or f"{self.root / name}: declares no unit, so it is not committed"
        elif other := found.files.get(file.declares) or found.held.get(file.declares):
            if other in self._gone:
                return  # The other one may have been moved here, which is known soon.
            found.problems[name] = f"{self.root / name}: declares the unit {file.declares} as {other} does, which counts; this file is not committed"
        else:
            found.files[file.declares] = name


def _is_still(file: File, unit: str, known: FileRevision) -> bool:
    """Whether a file is the unit that it was. While it has marked lines of a conflict, another name in it is not meant yet."""
    return file.declares in (None, unit, declared_name(known.text)) or is_marked(file.text or "")
