"""What is to be done with a unit, from its text here, its text in the workbench, and the one that both had last."""
from __future__ import annotations

from enum import Enum
from typing import NamedTuple

from bench61499 import TEXT_LIMIT
from bench61499.language.merging import merged


class Step(Enum):
    AGREE = "both are the same"
    WRITE = "the file gets the text of the workbench"
    DELETE = "the file is deleted"
    PUT = "the workbench gets the text of the file"
    REMOVE = "the unit is removed from the workbench"
    MERGE = "the file gets the changes of both"
    CONFLICT = "the text of the workbench is put beside the file"


class Decision(NamedTuple):
    """A step, and the text that comes from it, None for a unit that is gone then."""

    step: Step
    text: str | None


def decide(here: str | None, there: str | None, common: str | None) -> Decision:
    """Of the three texts, None where there is none. What was changed on one side wins over what was removed on the other."""
    if here == there:
        return Decision(Step.AGREE, here)
    if there == common or there is None and here != common:
        return Decision(Step.PUT if here is not None else Step.REMOVE, here)
    if here == common or here is None:
        return Decision(Step.WRITE if there is not None else Step.DELETE, there)
    assert there is not None
    both = merged(common, here, there) if common is not None else None
    if both is None or both.conflicts or len(both.text.encode()) > TEXT_LIMIT:
        return Decision(Step.CONFLICT, there)
    return Decision(Step.MERGE, both.text)
