"""Files that are written wholly or not at all, also if the power fails: each comes by a new file that is on the disk before it gets its name."""
from __future__ import annotations

import errno
import os
import secrets
from collections.abc import Iterator
from contextlib import contextmanager
from pathlib import Path

_NO_LINKS = errno.EPERM, errno.ENOTSUP, errno.ENOSYS


def create(file: Path, content: bytes) -> None:
    """Makes a file that is not there yet. Raises `FileExistsError` and other `OSError`s."""
    with _draft(file.parent, content, 0o666) as draft:
        try:
            os.link(draft, file)
        except OSError as error:
            if error.errno not in _NO_LINKS or os.path.lexists(file):
                raise
            os.rename(draft, file)
    sync_folder(file.parent)


def write_over(file: Path, content: bytes, mode: int = 0o666) -> None:
    """Puts a new file in the place of one that is there; if this is a link, in the place of the link. Raises `OSError`."""
    with _draft(file.parent, content, mode) as draft:
        os.replace(draft, file)
    sync_folder(file.parent)


@contextmanager
def _draft(folder: Path, content: bytes, mode: int) -> Iterator[Path]:
    """A new file with this content, on the disk, that is gone afterwards if it is still there."""
    draft = folder / f".bench61499-{secrets.token_hex(8)}"
    try:
        write_new(draft, content, mode)
        yield draft
    finally:
        draft.unlink(missing_ok=True)


def write_new(file: Path, content: bytes, mode: int, is_synced: bool = True) -> None:
    """Writes a file under a name that nothing has; it is on the disk then, unless something else sees to that."""
    with open(os.open(file, os.O_CREAT | os.O_EXCL | os.O_WRONLY | os.O_CLOEXEC, mode), "wb") as stream:
        stream.write(content)
        stream.flush()
        if is_synced:
            os.fsync(stream.fileno())


def sync_folder(folder: Path) -> None:
    """Has the names in a folder be on the disk."""
    number = os.open(folder, os.O_RDONLY | os.O_DIRECTORY | os.O_CLOEXEC)
    try:
        os.fsync(number)
    finally:
        os.close(number)
