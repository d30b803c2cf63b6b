"""A bound for the memory of a workbench that a client starts, and amounts of memory in words."""
from __future__ import annotations

import re
import sys

if sys.platform == "linux":
    import resource

MEMORY_LIMIT = 2 * 1024**3
"""Bytes of memory that a workbench takes for its data, at most, by default: texts of 200 MB fit."""
_PREFIXES = ("", "K", "M", "G", "T")
_MOST = 2**62
_AMOUNT = re.compile(r"(\d{1,15}) ?([KMGT]?)(?:i?B)?", re.IGNORECASE | re.ASCII)


def limit_data(process: int, limit: int) -> int | None:
    """Limits the bytes of data of a process, and gives its limit then: a lower one that it has stays. There is no limit without Linux. Raises `OSError`.

    What is asked for beyond that is refused, so that a workbench can say so; address space and the code of programs don't count.
    """
    if sys.platform != "linux":
        return None
    its = resource.prlimit(process, resource.RLIMIT_DATA)
    least = min([limit, *(it for it in its if it != resource.RLIM_INFINITY)])
    resource.prlimit(process, resource.RLIMIT_DATA, (least, its[1]))
    return least


def amount_in(words: str) -> int | None:
    """The bytes of an amount such as 512M, 4G or 4GiB; None for other words, and for one that no system has."""
    found = _AMOUNT.fullmatch(words.strip())
    size = int(found[1]) * 1024 ** _PREFIXES.index(found[2].upper()) if found else _MOST
    return size if size < _MOST else None


def amount(size: int) -> str:
    """Bytes in words: in the largest unit of which it is a whole number."""
    power = max(power for power in range(len(_PREFIXES)) if not power or size % 1024**power == 0)
    return f"{size // 1024**power:,} {_PREFIXES[power]}{'iB' if power else 'bytes'}"
