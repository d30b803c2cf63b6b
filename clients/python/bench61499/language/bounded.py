"""Files and folders that may be anything: of any size, in any depth, or no files at all."""
from __future__ import annotations

import errno
import os
import stat
from collections.abc import Callable, Iterator
from pathlib import Path
from typing import NamedTuple


NO_FILE = "it is no file, but a pipe or a device"


class Read(NamedTuple):
    """What was read of a file, and how many bytes it has: more than were read if it is too large."""

    content: bytes
    size: int


def read_at_most(file: Path, most: int) -> Read:
    """The content of a file if it has at most this number of bytes; of a larger one these and one more. Raises `OSError`, also for a pipe or a device, for which nothing waits."""
    with open(os.open(file, os.O_RDONLY | os.O_NONBLOCK | os.O_CLOEXEC), "rb") as stream:
        state = os.fstat(stream.fileno())
        if stat.S_ISDIR(state.st_mode):
            raise IsADirectoryError(errno.EISDIR, os.strerror(errno.EISDIR), str(file))
        if not stat.S_ISREG(state.st_mode):
            raise OSError(errno.EINVAL, NO_FILE, str(file))
        content = stream.read(most + 1)
    return Read(content, max(len(content), state.st_size))


def walk(folder: str | Path, failed: Callable[[str, OSError], object], is_left_out: Callable[[str], bool] = lambda _: False) -> Iterator[os.DirEntry[str]]:
    """What is in a folder and in its inner ones, but for the folders themselves. Links to folders, and folders whose names are left out, are not looked into.

    `failed` is told of each folder that can't be read.
    """
    waiting = [str(folder)]
    while waiting:
        inner = waiting.pop()
        try:
            with os.scandir(inner) as entries:
                for entry in entries:
                    if not entry.is_dir(follow_symlinks=False):
                        yield entry
                    elif not is_left_out(entry.name):
                        waiting.append(entry.path)
        except OSError as error:
            failed(inner, error)
