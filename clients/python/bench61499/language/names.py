"""Names that come from elsewhere: of units, and of files."""
from __future__ import annotations

import unicodedata
from pathlib import Path

from bench61499 import NAME_LIMIT


def is_unit_name(words: str) -> bool:
    """Whether a workbench can have a unit of this name: as that of a file it stays in its folder."""
    return words.isascii() and words.isidentifier() and len(words) <= NAME_LIMIT


def is_utf_8(words: str) -> bool:
    """Whether words can be written as UTF-8: names of files may have other bytes, and texts that were sent halves of characters."""
    return not any("\ud800" <= it <= "\udfff" for it in words)


def printable(words: str) -> str:
    """Words without what a terminal obeys: names of files may have anything."""
    return "".join("\ufffd" if unicodedata.category(it) in ("Cc", "Cf", "Cs", "Zl", "Zp") else it for it in words)


def shown(words: str | Path) -> str:
    """Words with names of files in them, for a terminal: in one line, and without what it obeys. Bytes of a name that are no UTF-8 stay as they are."""
    return "".join(it if "\ud800" <= it <= "\udfff" else printable(it) for it in str(words))
