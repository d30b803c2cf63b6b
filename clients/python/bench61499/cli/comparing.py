"""Which files have other texts than the workbench that a team uses, as `git status` tells it, and how it gets those of the files."""
from __future__ import annotations

from collections.abc import Iterable, Iterator, Mapping
from dataclasses import dataclass
from enum import StrEnum
from itertools import groupby
from operator import attrgetter
from pathlib import Path

from bench61499 import Change, NoSuchUnit, Put, Remove, Session, StaleBase, batches
from bench61499.cli.command import Progress
from bench61499.language.mentions import words_of
from bench61499.language.plans import mentioned_units
from bench61499.language.reader import read
from bench61499.language.units import Misuse, Unit
from bench61499.snapshot import Snapshot

AGAIN = "{} was changed by somebody else while it was checked; check again"
NAMED = 20
"""Units that one line names, at most."""


class How(StrEnum):
    """How a file and the workbench differ. Without a text that both had once nobody can tell who has changed it."""

    ONLY_HERE = "only here"
    REMOVED_THERE = "removed there"
    CHANGED_HERE = "changed here"
    CHANGED_THERE = "changed there"
    CHANGED_ON_BOTH_SIDES = "changed on both sides"
    DIFFERS = "differs"
    NOT_COMPARED = "not compared"
    ONLY_THERE = "only there"
    REMOVED_HERE = "removed here"


class Judged(StrEnum):
    """Whose texts the faults are of: those of the files, perhaps with units that only a workbench has, or those of a workbench, which were compared with the files if it gives texts back."""

    FILES = "files"
    FILES_AND_WORKBENCH = "files and workbench"
    WORKBENCH = "workbench"
    NOT_COMPARED = "workbench, not compared"


_REMARKS = {
    How.ONLY_HERE: "not checked, as the workbench has no such unit: {}",
    How.REMOVED_THERE: "not checked, as somebody has removed them from the workbench: {}",
    How.CHANGED_HERE: "not checked, changed here: {}",
    How.CHANGED_THERE: "not checked, changed in the workbench: {}",
    How.CHANGED_ON_BOTH_SIDES: "not checked, changed here and in the workbench: {}",
    How.DIFFERS: "not checked, as the workbench has another text: {}",
    How.NOT_COMPARED: "not compared, as the workbench gives no texts back: {}",
    How.ONLY_THERE: "the workbench has also units that no file has: {}",
    How.REMOVED_HERE: "the workbench still has units that were removed here: {}",
}
_ADVICE = {
    How.ONLY_HERE: "; --replace puts them",
    How.REMOVED_THERE: "; --replace puts them",
    How.CHANGED_HERE: "; --replace puts them",
    How.CHANGED_THERE: "; --replace puts the texts of the files over it",
    How.CHANGED_ON_BOTH_SIDES: "; --replace puts the texts of the files over it",
    How.DIFFERS: "; --replace puts those of the files over it",
    How.NOT_COMPARED: "; --trust-server takes its texts for those of the files",
}
"""What who has named files can do."""


@dataclass(frozen=True)
class Difference:
    """A unit of which a file and the workbench have not the same text, or that no file has."""

    unit: str
    file: Path | None
    how: How


def compare(units: Iterable[Unit], there: Mapping[str, str], common: Mapping[str, str]) -> list[Difference]:
    """Of files and the texts of a workbench, those that differ; `common` are texts that both had once, as far as they are known."""
    return [Difference(it.name, it.file, _how(it.text, there.get(it.name), common.get(it.name))) for it in units if there.get(it.name) != it.text]


def not_compared(units: Iterable[Unit], differing: Iterable[Difference]) -> list[Difference]:
    """Of a workbench that gives no texts back, the units of which nothing else is known to differ."""
    known = {it.unit for it in differing}
    return [Difference(it.name, it.file, How.NOT_COMPARED) for it in units if it.name not in known]


def only_there(units: Iterable[Unit], there: Iterable[str], common: Mapping[str, str]) -> list[Difference]:
    """The units of a workbench that no file has."""
    here = {it.name for it in units}
    return [Difference(it, None, How.REMOVED_HERE if it in common else How.ONLY_THERE) for it in there if it not in here]


def lent(units: list[Unit], there: Iterable[str]) -> list[str]:
    """The units of a workbench on which these rest and that are none of them. Only texts with the name of one are read, which takes longer than to look for words."""
    others = set(there) - {it.name for it in units}
    resting = [it for it in units if not others.isdisjoint(words_of(it.text))] if others else []
    return sorted(others & mentioned(resting))


def mentioned(units: Iterable[Unit]) -> set[str]:
    """The names of units that these mention."""
    return {name for it in units for name in mentioned_units(read(it.text))}


def _how(here: str, there: str | None, common: str | None) -> How:
    if there is None:
        return How.ONLY_HERE if common is None else How.REMOVED_THERE
    if common is None:
        return How.DIFFERS
    if here == common:
        return How.CHANGED_THERE
    return How.CHANGED_HERE if there == common else How.CHANGED_ON_BOTH_SIDES


def remarks(differences: Iterable[Difference], are_of_files: bool = True) -> Iterator[str]:
    """A sentence for each way to differ, with advice if the units are of files that the user has named."""
    for how, units in _by_how(differences):
        yield _REMARKS[how].format(named(units)) + (_ADVICE.get(how, "") if are_of_files else "")


def in_words(differences: Iterable[Difference]) -> str:
    """The units by the ways to differ."""
    return "; ".join(f"{how}: {named(units)}" for how, units in _by_how(differences))


def _by_how(differences: Iterable[Difference]) -> list[tuple[How, list[str]]]:
    return [(how, sorted(it.unit for it in its)) for how, its in groupby(sorted(differences, key=attrgetter("how")), attrgetter("how"))]


def named(units: list[str]) -> str:
    more = len(units) - NAMED
    return ", ".join(units[:NAMED]) + (f" and {more:,} more" if more > 0 else "")


def replace(session: Session, snapshot: Snapshot, units: list[Unit], is_mirror: bool, progress: Progress) -> int:
    """Puts the units that differ, over what the workbench had a moment ago, and gives how many it had. Raises `Misuse` if somebody changes one meanwhile.

    Tells the user as which session it has done that, as others see the number, and the session ends with the program.
    """
    there = snapshot.texts
    puts: list[Change] = [Put(it.name, there[it.name].revision if it.name in there else 0, it.text) for it in units if it.name not in there or there[it.name].text != it.text]
    gone: list[Change] = [Remove(it.unit, there[it.unit].revision) for it in only_there(units, there, {})] if is_mirror else []
    caller = session.status().session if puts or gone else 0
    commits, done = list[int](), list[str]()
    try:
        for batch in batches([*puts, *gone]):
            commits.append(session.commit(batch))
            done += [it.unit for it in batch]
            progress.show(f"putting units: {len(done):,} of {len(puts) + len(gone):,}")
    except (StaleBase, NoSuchUnit) as refusal:
        raise Misuse(AGAIN.format(refusal.unit)) from None
    finally:
        if done:
            numbers = f"commit {commits[0]}" if not commits[1:] else f"commits {commits[0]} to {commits[-1]}"
            progress.tell(f"committed as session {caller}, {numbers}: {named(sorted(done))}")
    return sum(it.name in there for it in units)
