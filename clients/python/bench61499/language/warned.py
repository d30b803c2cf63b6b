"""What clients warn of in texts that are right by the language: types of values that are nowhere, and names in algorithms that the workbench skips."""
from __future__ import annotations

from collections.abc import Callable, Container

from bench61499.language import full_checks, missing_types
from bench61499.language.full_checks import Doubtful, doubtful
from bench61499.language.missing_types import near_type
from bench61499.language.skipped import FULL
from bench61499.language.texts import Texts

CODES = {missing_types.CODE: "the type of a value is nowhere", **full_checks.CODES}
"""The codes of warnings, each with what it means."""


def warned(text: str, unit: str, units: Container[str], texts: Texts, is_broken: Callable[[str], bool]) -> list[Doubtful]:
    """All warnings on the text of a unit. `units` are the names of all units in upper case; those that are broken get no warnings on their names."""
    found = [
        Doubtful(missing_types.CODE, it.start, it.end, it.explanation, it.meant)
        for it in missing_types.missing_types(text, units, lambda words: near_type(texts.units("TYPE"))(words))
    ]
    its = texts.unit(unit) if FULL in text.upper() else None
    return sorted([*found, *(doubtful(text, its, texts, is_broken, units) if its else ())], key=lambda it: (it.start, it.code))


def whose(code: str) -> str:
    """Says whose a warning is."""
    return missing_types.OF_CLIENT if code == missing_types.CODE else full_checks.OF_CLIENT
