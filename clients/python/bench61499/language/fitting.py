"""Whether faults can be those of a text: a workbench gives no text back, and may have another one."""
from __future__ import annotations

from bench61499 import Fault
from bench61499.language.reader import read
from bench61499.language.tokens import tokens

# Faults of a name that is in none of these sections.
_UNKNOWN_IN = {
    "STATE_UNKNOWN": ("EC_STATES",), "ALGORITHM_UNKNOWN": ("ALGORITHM",), "VARIABLE_UNKNOWN": ("VAR", "VAR_INPUT", "VAR_OUTPUT"),
}


def fits(text: str, faults: tuple[Fault, ...]) -> bool:
    """Whether each fault can be one of this text, as far as its place and the names that are declared tell."""
    if not faults:
        return True
    its = list(tokens(text))
    starts, ends = {it.start: it for it in its}, {it.end for it in its}
    declared = {(it.words.upper(), it.section) for it in read(text).declared}
    size = len(text.encode())

    def can_be(fault: Fault) -> bool:
        first = starts.get(fault.start)
        is_there = any((first.upper, section) in declared for section in _UNKNOWN_IN.get(fault.code, ())) if first else False
        return fault.start == fault.end == size or (first is not None and fault.end in ends and not (is_there and fault.end == first.end))

    return all(map(can_be, faults))
