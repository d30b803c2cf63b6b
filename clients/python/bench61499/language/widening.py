"""Data that tools convert at connections, as IEC 61131-3 does where nothing is lost. The workbench compares the names of types."""
from __future__ import annotations

import re
from functools import cache

_NEXT = {
    "BOOL": ("BYTE",),
    "BYTE": ("WORD",),
    "WORD": ("DWORD",),
    "DWORD": ("LWORD",),
    "SINT": ("INT",),
    "INT": ("DINT", "REAL"),
    "DINT": ("LINT", "LREAL"),
    "USINT": ("UINT", "INT"),
    "UINT": ("UDINT", "DINT", "REAL"),
    "UDINT": ("ULINT", "LINT", "LREAL"),
    "REAL": ("LREAL",),
    "TIME": ("LTIME",),
    "DATE": ("LDATE",),
    "TIME_OF_DAY": ("LTIME_OF_DAY",),
    "TOD": ("LTOD",),
    "DATE_AND_TIME": ("LDATE_AND_TIME",),
    "DT": ("LDT",),
}
"""The types that a value of a type is converted to in one step (IEC 61131-3, table 11)."""
_STRING = re.compile(r"(W?STRING)\s*(\[.*\])?", re.IGNORECASE)


@cache
def wider(type_: str) -> frozenset[str]:
    """All types that a type in upper case is converted to."""
    return frozenset(it for step in _NEXT.get(type_, ()) for it in (step, *wider(step)))


def is_converted(source: str, destination: str) -> bool:
    one, other = _STRING.fullmatch(source), _STRING.fullmatch(destination)
    if one and other:
        return one[1].upper() == other[1].upper() and source.upper() != destination.upper()
    return destination.upper() in wider(source.upper())
