"""The texts that a language server has to do with: those open in the editor, and files."""
from __future__ import annotations

import os
from dataclasses import dataclass
from pathlib import Path
from typing import Any
from urllib.parse import unquote, urlsplit

from bench61499 import TEXT_LIMIT
from bench61499.language.folder import Stamp

Diagnostic = dict[str, Any]


@dataclass
class Document:
    """A text that is open in the editor.

    `raw` is as the editor has it, `text` the same without halves of characters, `saved` the text that the file had when it was
    opened, or this one, and `written` the one that both were last known to have, if there is a file. `is_published` tells whether the editor shows what was found of
    this version.
    """

    uri: str
    version: int | None
    raw: str
    text: str
    saved: str
    written: str | None
    is_published: bool = False

    @property
    def size(self) -> int:
        """Bytes of UTF-8."""
        return len(self.text.encode())

    @property
    def is_too_long(self) -> bool:
        return self.size > TEXT_LIMIT


@dataclass
class Source:
    """The text of a file, as it is in the editor or on disk; None where it can be the text of no unit.

    `stamp` is the state of the file when it was read, None where the text is the editor's. `declares` is the name that the text declares,
    and `unit` what it is in the workbench, if anything.
    """

    file: Path
    text: str | None
    stamp: Stamp | None = None
    declares: str | None = None
    unit: str | None = None


def path_of(uri: str) -> Path:
    """The file of a `file:` URI; for a text that is no file, a path that there is not."""
    parts = urlsplit(uri)
    if parts.scheme == "file":
        return Path(os.path.realpath(unquote(parts.path)))
    return Path("/nowhere") / unquote(uri).replace("/", "_")
