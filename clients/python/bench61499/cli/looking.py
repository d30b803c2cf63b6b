"""Units as a workbench has them that others use and that gives no texts back: their faults, and which of them can't be those of the files. Nothing is changed."""
from __future__ import annotations

import time
from collections import deque
from collections.abc import Callable, Iterable
from dataclasses import dataclass, field

from bench61499 import Fault, NoSuchKey, Session
from bench61499.cli.comparing import Difference, How
from bench61499.language.fitting import fits
from bench61499.language.units import Unit
from bench61499.session import Waits

ONLY_ASKED = "The workbench was only asked. It gives no text back, as it is no host or an older one, so its texts may be others than these files."
FIRST_PAUSE, LONGEST_PAUSE = 0.02, 1.0
"""Seconds between two questions for faults that are being computed; each further pause is twice as long."""


@dataclass
class Looked:
    """The faults by unit, as far as they can be those of the files, and the units that the workbench lacks or of which it has another text."""

    faults: dict[str, tuple[Fault, ...]] = field(default_factory=dict)
    differences: list[Difference] = field(default_factory=list)


def look(session: Session, units: Iterable[Unit], progress: Callable[[int], object]) -> Looked:
    """Asks for the faults of units, one recorded call each, and again for those that are being computed. Calls `progress` with how many are known. Raises `NoResult` if it waits in vain."""
    looked, waiting, pause = Looked(), deque(units), FIRST_PAUSE
    known, stopped, waits = 0, 0, Waits(session.patience)
    while waiting:
        unit = waiting.popleft()
        if _ask(session, unit, looked):
            known, stopped = known + 1, 0
            progress(known)
            continue
        waiting.append(unit)
        stopped += 1
        if stopped == len(waiting):  # All that is left was pending a moment ago.
            waits.go_on([("faults", it.name) for it in waiting], known)
            time.sleep(pause)
            pause, stopped = min(2 * pause, LONGEST_PAUSE), 0
    return looked


def _ask(session: Session, unit: Unit, looked: Looked) -> bool:
    """Whether there is an answer, which is kept."""
    try:
        faults = session.faults(unit.name)
    except NoSuchKey:
        looked.differences.append(Difference(unit.name, unit.file, How.ONLY_HERE))
        return True
    if faults is None:
        return False
    if fits(unit.text, faults):
        looked.faults[unit.name] = faults
    else:
        looked.differences.append(Difference(unit.name, unit.file, How.DIFFERS))
    return True
