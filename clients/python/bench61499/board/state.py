"""What the board knows of a workbench: written by the threads that ask or follow the workbench, read by those that answer browsers."""
from __future__ import annotations

import threading
from collections import Counter
from collections.abc import Iterable, Iterator, Mapping
from contextlib import contextmanager
from dataclasses import dataclass, replace
from functools import cached_property
from pathlib import Path
from typing import Any, NamedTuple

from bench61499 import Blocked, Deploy, Fault, Faulty, Flat, Kind, Net, Plan, Recursive, Stopped, TooLarge
from bench61499.board.feed import NO_PLAN, Change, Feed, Step, Wrong
from bench61499.language.tokens import declaration, declared_kind
from bench61499.language.wording import counted

WISHES_KEPT = 64
"""Nets and plans that are followed at once: those that were asked for last."""


@dataclass(frozen=True)
class NoEntry:
    """The workbench has no such entry: the unit is absent, or it is none that has networks or plans."""


@dataclass(frozen=True)
class NotAnswered:
    """The workbench has refused the question, and why."""

    why: str


Value = Net | Deploy | NoEntry | NotAnswered
Key = tuple[Kind, str]


@dataclass(frozen=True)
class Source:
    """A text, the file that it was read from if any, and the revision that its unit had then."""

    file: Path | None
    text: str
    revision: int | None = None

    @cached_property
    def kind(self) -> str:
        """The first word of the text."""
        return declared_kind(self.text) or ""

    @cached_property
    def name(self) -> str:
        """The name that the text declares, as it is written; empty if it declares none."""
        its = declaration(self.text)
        return its.words if its else ""

    def words_at(self, fault: Fault) -> str:
        return self.text.encode()[fault.start : fault.end].decode(errors="replace")


@dataclass(frozen=True)
class Row:
    """A unit. `revision` is None while it is not known, and 0 where there is no such unit; `faults` are None while they are pending.

    `deploy` is what is known of the plan of a system; `former` is what was wrong before, None if nothing was known.
    """

    unit: str
    revision: int | None = None
    faults: tuple[Fault, ...] | None = None
    source: Source | None = None
    version: int = 0
    deploy: Value | None = None
    former: Counter[Wrong] | None = None

    @property
    def is_system(self) -> bool:
        """Whether its text is known, and is that of a system."""
        return self.source is not None and self.source.kind == "SYSTEM"

    @property
    def state(self) -> str:
        if not self.revision:
            return "absent" if self.revision == 0 else "unknown"
        if self.faults:
            return "faulty"
        if self.faults is None or self.is_system and self.deploy is None:
            return "pending"
        return "noplan" if isinstance(self.deploy, (Faulty, Stopped, NotAnswered)) else "fine"

    @property
    def name(self) -> str:
        """The name of the unit as its text declares it, if that is known and declares this unit."""
        declared = self.source.name if self.source else ""
        return declared if declared.upper() == self.unit else self.unit

    @cached_property
    def told(self) -> list[Any]:
        """As a JSON value for a list: the unit, its name as declared, kind, revision, state, number of faults, file, and plan in words."""
        file, kind = (str(self.source.file or ""), self.source.kind) if self.source else ("", "")
        return [self.unit, self.name, kind, self.revision, self.state, len(self.faults or ()), file, plan_in_words(self.deploy)]

    @cached_property
    def wrong(self) -> Counter[Wrong] | None:
        """What is wrong now; None while something is pending."""
        state = self.state
        if state == "noplan":
            return Counter([Wrong(self.unit, NO_PLAN)])
        if state in ("pending", "unknown"):
            return None
        return Counter(Wrong(self.unit, it.code, self.source.words_at(it) if self.source else "") for it in self.faults or ())

    @property
    def last_wrong(self) -> Counter[Wrong] | None:
        """What was last found to be wrong."""
        return self.former if self.wrong is None else self.wrong


def plan_in_words(deploy: Value | None) -> str:
    """What a list says of a plan; nothing if it is not known."""
    match deploy:
        case Plan(cuts, resources):
            return f"{counted(len(resources), 'resource')}, {counted(len(cuts), 'cut link')}"
        case Stopped(Blocked(units)):
            return f"no plan: {counted(len(units), 'unit')} missing or with faults"
        case Stopped(Recursive(units)):
            return f"no plan: {counted(len(units), 'unit')} within themselves"
        case Stopped(TooLarge()):
            return "no plan: too many instances"
        case Faulty(misplaced):
            return f"no plan: {counted(len(misplaced), 'wrong or missing mapping')}"
        case NoEntry():
            return "no plan"
        case NotAnswered():
            return "the plan is not known"
    return ""


class Revised(NamedTuple):
    """A unit after a commit: its revision, 0 if it was removed, and its text."""

    revision: int
    source: Source | None = None


@dataclass(frozen=True)
class Answer:
    """What is known of a net or a plan: the last value, if any, and whether it is `current` or computed again.

    `serial` is the version in which the value came, or one of the `texts` that it is drawn with; `version` is that of the last change of
    anything.
    """

    value: Value | None = None
    current: bool = False
    serial: int = 0
    version: int = 0
    texts: tuple[str, ...] = ()


@dataclass(frozen=True)
class News:
    """What came after a version and a change; `last` is the number of the last change. `ended` tells why the workbench answers no more, where it does not;
    `session` is the number of the board's own session, 0 if it is not known.
    """

    version: int
    rows: tuple[Row, ...]
    changes: tuple[Change, ...]
    last: int
    answers: tuple[tuple[Key, Answer], ...]
    problems: tuple[str, ...]
    calls: int
    ended: str
    session: int


class Board:
    """The state of the board. Each change of it has a version, from 1. All its methods are for many threads."""

    def __init__(self, title: str, shared: bool, reads: bool = False):
        """A board of a workbench that is `shared` with others; it `reads` one that lists its units and gives their texts."""
        self.title, self.shared, self.reads = title, shared, reads
        self._changed = threading.Condition()
        self._version = 0
        self._rows: dict[str, Row] = {}
        self._texts: dict[str, str] = {}
        self._feed = Feed()
        self._answers: dict[Key, Answer] = {}
        self._problems: tuple[str, ...] = ()
        self._viewers = self._calls = self._wishes = self._session = 0
        self._ended = ""

    # For the thread that asks the workbench

    def add(self, units: Iterable[str]) -> bool:
        """Adds units that are not on the board, and tells whether there were any."""
        with self._changed:
            new = set(units) - self._rows.keys()
            if new:
                with self._news():
                    for unit in new:
                        self._set(Row(unit))
            return bool(new)

    def read(self, sources: Mapping[str, Source | None]) -> None:
        """Takes texts that were read; None for a text that is gone."""
        with self._news():
            for unit, source in sources.items():
                row = self._rows.get(unit, Row(unit))
                self._set(row, source=replace(source, revision=row.revision) if source else None)

    def listed(self, revisions: Mapping[str, int]) -> None:
        """Takes all units that a workbench has. What was known of another one before is forgotten."""
        with self._news():
            gone = [unit for unit, row in self._rows.items() if row.revision and unit not in revisions]
            if self._rows:
                self._feed.changed([Step(unit, self._rows[unit].revision or 0, 0) for unit in gone], "the host was started again")
            for unit in [*gone, *revisions]:
                self._set(Row(unit, revisions.get(unit, 0)))

    def changed(self, units: Mapping[str, Revised], author: str, commit: int = 0, told: bool = True) -> None:
        """Takes units that were put or removed by one commit, with their texts."""
        with self._news():
            if told:
                self._feed.changed([Step(unit, self._revision(unit), it.revision) for unit, it in units.items()], author, commit)
            for unit, it in units.items():
                row = self._rows.get(unit) or Row(unit, 0 if told else None)
                self._set(row, revision=it.revision, faults=None, source=it.source, deploy=None)

    def seen(self, revisions: Mapping[str, int]) -> None:
        """Takes revisions that others have made, and whose texts can't be read. The first one that is seen of a unit is no change."""
        with self._news():
            for unit, revision in revisions.items():
                row = self._rows[unit]
                if row.revision is not None:
                    self._feed.changed([Step(unit, row.revision, revision)], "")
                source = replace(row.source, revision=revision) if row.source and row.revision is None else row.source
                self._set(row, revision=revision, faults=None, source=source)

    def found(self, faults: Mapping[str, tuple[Fault, ...] | None], texts: Mapping[str, str] | None = None) -> None:
        """Takes the faults of units, None where they are pending, and texts of units that have none yet."""
        new = {unit: its for unit, its in faults.items() if self._rows[unit].faults != its}
        if new or texts:
            with self._news():
                for unit in new | (texts or {}):
                    row = self._rows[unit]
                    source = Source(None, texts[unit]) if texts and unit in texts else row.source
                    self._set(row, faults=new.get(unit, row.faults), source=source)

    def planned(self, plans: Mapping[str, Value | None]) -> None:
        """Takes what is known of the plans of systems, None where it is pending."""
        new = {unit: value for unit, value in plans.items() if self._rows[unit].deploy != value}
        if new:
            with self._news():
                for unit, value in new.items():
                    self._set(self._rows[unit], deploy=value)

    def answered(self, key: Key, value: Value | None) -> None:
        """Takes a net or a plan, None while it is pending: then the last one is shown, as one that is computed again."""
        with self._changed:
            known = self._answers.get(key)
            if known is None:
                return  # Nobody looks at it any more.
            texts = known.texts if value is None else self._drawn_with(key, value)
            is_same = (value is None or value == known.value) and texts == known.texts
            if is_same and known.current == (value is not None):
                return
            with self._news():
                if is_same:
                    self._answers[key] = replace(known, current=value is not None, version=self._version)
                else:
                    self._answers[key] = Answer(value, True, self._version, self._version, texts)

    def forget_answers(self) -> None:
        """Nets and plans are shown as they were until they are asked for again."""
        with self._news():
            self._answers = {key: replace(it, current=False, version=self._version) for key, it in self._answers.items()}

    def _drawn_with(self, key: Key, value: Value) -> tuple[str, ...]:
        """The texts that tell the ports in the picture of a network, as far as they are known."""
        if not isinstance(value, Flat):
            return ()
        rows = (self._rows.get(unit) for unit in dict.fromkeys([key[1], *(block.type for block in value.blocks)]))
        return tuple(row.source.text for row in rows if row and row.source)

    def count_calls(self, calls: int) -> None:
        """Adds recorded calls that the board has made. They alone wake nobody."""
        with self._changed:
            self._calls += calls

    def tell_problems(self, problems: tuple[str, ...]) -> None:
        if problems != self._problems:
            with self._news():
                self._problems = problems

    def end(self, why: str) -> None:
        """The workbench answers no more, or again if there is no reason: what is known stays."""
        with self._news():
            self._ended = why

    def known_as(self, session: int) -> None:
        """Takes the number as which the workbench knows the board now."""
        if session != self._session:
            with self._news():
                self._session = session

    def why_ended(self) -> str:
        with self._changed:
            return self._ended

    def rows(self) -> dict[str, Row]:
        with self._changed:
            return dict(self._rows)

    def open_wishes(self) -> list[Key]:
        """The nets and plans that are looked at and not known."""
        with self._changed:
            return [key for key, answer in self._answers.items() if not answer.current]

    def wishes(self) -> list[Key]:
        """All nets and plans that are looked at."""
        with self._changed:
            return list(self._answers)

    def has_viewers(self) -> bool:
        with self._changed:
            return self._viewers > 0

    def wait_for_other_wishes(self, followed: set[Key]) -> set[Key]:
        """The nets and plans that are looked at, once they are others than these."""
        with self._changed:
            self._changed.wait_for(lambda: self._answers.keys() != followed)
            return set(self._answers)

    def wait_for_wish(self, seconds: float) -> None:
        """Waits until a browser comes or asks for something, at most so long."""
        with self._changed:
            before = self._wishes
            self._changed.wait_for(lambda: self._wishes != before, seconds)

    # For the threads that answer browsers

    @contextmanager
    def viewer(self) -> Iterator[None]:
        """A browser that looks on. What nobody looks at is not asked for any more."""
        with self._changed:
            self._viewers += 1
            self._wish()
        try:
            yield
        finally:
            with self._changed:
                self._viewers -= 1
                if not self._viewers:
                    self._answers.clear()
                    self._changed.notify_all()

    def wait_for_news(self, version: int, seconds: float) -> bool:
        """Waits until there is more than this version, at most so long, and tells whether there is."""
        with self._changed:
            return self._changed.wait_for(lambda: self._version > version, seconds)

    def gather(self, seconds: float) -> None:
        """Lets news come together, so that many small ones are told at once."""
        with self._changed:
            self._changed.wait_for(lambda: bool(self._ended), seconds)

    def news(self, version: int, change: int) -> News:
        """What came after this version, and of the changes what came after this number."""
        with self._changed:
            return News(
                version=self._version,
                rows=tuple(row for row in self._rows.values() if row.version > version),
                changes=self._feed.after(change),
                last=self._feed.number,
                answers=tuple((key, answer) for key, answer in self._answers.items() if answer.version > version),
                problems=self._problems,
                calls=self._calls,
                ended=self._ended,
                session=self._session,
            )

    def row(self, unit: str) -> Row | None:
        with self._changed:
            return self._rows.get(unit)

    def texts(self) -> dict[str, str]:
        with self._changed:
            return dict(self._texts)

    def wish(self, key: Key) -> Answer:
        """What is known of a net or a plan, which is asked for from now on while somebody looks on, or until many others were wished for since."""
        with self._changed:
            known = self._answers.pop(key, None)
            self._answers[key] = known or Answer()
            if not known:
                while len(self._answers) > WISHES_KEPT:
                    del self._answers[next(iter(self._answers))]
                self._wish()
            return self._answers[key]

    def look_at(self, unit: str) -> bool:
        """Adds a unit, and tells whether it is new."""
        is_new = self.add([unit])
        with self._changed:
            self._wish()
        return is_new

    # Inside, under the lock

    @contextmanager
    def _news(self) -> Iterator[None]:
        with self._changed:
            self._version += 1
            yield
            self._changed.notify_all()

    def _wish(self) -> None:
        self._wishes += 1
        self._changed.notify_all()

    def _set(self, row: Row, **changes: Any) -> None:
        """Takes a row with changes, and tells which faults came and went in its unit, once they are known."""
        new = replace(row, version=self._version, former=row.last_wrong, **changes)
        if new.source:
            self._texts[new.unit] = new.source.text
        else:
            self._texts.pop(new.unit, None)
        if new.wrong is not None and new.former is not None and new.wrong != new.former:
            balance = Counter(new.wrong)
            balance.subtract(new.former)
            self._feed.judged(new.unit, balance, self._texts)
        self._rows[new.unit] = new

    def _revision(self, unit: str) -> int:
        row = self._rows.get(unit)
        return row.revision or 0 if row else 0
