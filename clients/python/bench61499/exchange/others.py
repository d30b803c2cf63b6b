"""Files of a project that have no unit, such as enumerations, functions and devices: import puts them beside the texts as they are, and export takes them along."""
from __future__ import annotations

from collections.abc import Callable, Iterable, Iterator
from pathlib import Path
from typing import NamedTuple

from bench61499.exchange.context import has_unit
from bench61499.exchange.from_xml import check_root
from bench61499.exchange.xmlfile import SIZE_LIMIT, Unreadable, find_xml, read_xml
from bench61499.language.bounded import read_at_most

MANIFEST = "MANIFEST.MF"
_IS_MANIFEST = b"<Manifest"


def content_of(file: Path) -> bytes:
    """The bytes of a file, of which no more are read than of one of XML. Raises `OSError`."""
    return read_at_most(file, SIZE_LIMIT).content


def manifests(paths: Iterable[Path]) -> Iterator[Path]:
    """What projects of 4diac in these folders say of themselves and of their libraries."""
    for file in (path / MANIFEST for path in paths if path.is_dir()):
        try:
            if _IS_MANIFEST in content_of(file):
                yield file
        except OSError:
            continue


def place_in(file: Path, paths: Iterable[Path]) -> str:
    """Where a file is in the folder that was named, or its name if it was named itself."""
    inner = (file.relative_to(it) for it in paths if it != file and file.is_relative_to(it))
    return next(inner, Path(file.name)).as_posix()


def is_in(file: Path, folder: Path) -> bool:
    return file.resolve().is_relative_to(folder.resolve())


class Other(NamedTuple):
    """A file without a unit, with its root and the name of that, in upper case, by which the files of a project are told apart; a manifest has neither."""

    file: Path
    root: str = ""
    name: str = ""


def without_unit(paths: Iterable[Path], to: Path, failed: Callable[[str], object]) -> Iterator[Other]:
    """The files of folders, but not those of the one that is written to, that have no unit."""
    folders = [it for it in paths if it.is_dir()]
    for file in (it for it in find_xml(folders, failed) if not is_in(it, to)):
        try:
            document = read_xml(file)
            check_root(document)
        except Unreadable:
            continue
        if not has_unit(document.root):
            yield Other(file, document.root.name, document.root.get("Name").upper())
    yield from (Other(it) for it in manifests(folders) if not is_in(it, to))
