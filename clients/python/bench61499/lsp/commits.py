"""The units of a workbench as a language server knows them, and the commits that bring the texts of its user there."""
from __future__ import annotations

from abc import ABC, abstractmethod
from collections.abc import Container, Iterable, Mapping
from dataclasses import dataclass, field

from bench61499 import UNITS_LIMIT, Change, Commit, Fault, NoSuchUnit, Put, Remove, Session, StaleBase, batches

Faults = tuple[Fault, ...]


@dataclass(frozen=True)
class Author:
    """Who made a commit, and when it was heard of, in seconds of the monotonic clock, or None if it was made before. `session` is 0 if nobody told."""

    session: int
    commit: int
    heard: float | None


@dataclass(frozen=True)
class Unit:
    """A unit of the workbench: its revision, 0 if it is absent, and its text if that is known, be it that it was put from here.

    `is_changed` is of a unit that others have put or removed since it had the text of this editor, or since it was first seen from here;
    `author` is then the one who did, if that is known. `common` is the last text that the workbench and this editor both had, if there was one. It `is_former`
    if both had this text before the common one, and the author is not known: after a restart of a host somebody has put it who had no later one, or went back to it.
    """

    revision: int
    text: str | None = None
    is_changed: bool = False
    is_ours: bool = True
    author: Author | None = None
    common: str | None = None
    is_former: bool = False


ABSENT = Unit(0)


@dataclass
class Wanted:
    """What the editor and its files have: the texts by unit, the units whose texts their user has edited or saved, and those that are open, with the
    texts that their files had when they were opened.

    `kept` are units without a text here that stay in the workbench, and `shut` those whose editor was closed since the last turn. `forced` are units
    whose texts are to be put over those of others, by the revision that the user has seen; `agreed` are the last texts of others that
    went into those here, None for none. `renamed` are units that have other names now, with these.
    """

    texts: Mapping[str, str] = field(default_factory=dict)
    insisted: frozenset[str] = frozenset()
    open: Mapping[str, str] = field(default_factory=dict)
    kept: frozenset[str] = frozenset()
    shut: frozenset[str] = frozenset()
    forced: Mapping[str, int] = field(default_factory=dict)
    agreed: Mapping[str, str | None] = field(default_factory=dict)
    renamed: Mapping[str, str] = field(default_factory=dict)


@dataclass
class News:
    """What a turn has found: units that are different now, faults by unit, and units that others have put or removed over what was put from here.

    `refused` are the units whose texts were not put, as somebody else had put another one meanwhile. It `is_brought` if all that was wanted was
    looked at, and committed as far as it was to be; what was known before is forgotten if it `is_other`, of a workbench that was started again.
    `workbench` is the identity of one whose units are known with their texts. `returned` are units that one session has removed and another one has put again,
    with both commits.
    """

    units: dict[str, Unit] = field(default_factory=dict)
    faults: dict[str, Faults | None] = field(default_factory=dict)
    taken: set[str] = field(default_factory=set)
    refused: set[str] = field(default_factory=set)
    is_brought: bool = False
    is_other: bool = False
    workbench: str = ""
    returned: dict[str, tuple[Commit, Commit]] = field(default_factory=dict)


class Committed(ABC):
    """The units of a workbench, and commits against the revisions that are known of them."""

    def __init__(self) -> None:
        self.news = News()
        self._wanted = Wanted()
        self._units: dict[str, Unit] = {}
        self._under_way: list[Change] = []

    def take_news(self) -> News:
        news, self.news = self.news, News()
        return news

    @abstractmethod
    def _is_to_put(self, unit: str, text: str) -> bool:
        """Whether the workbench is to get this text of a unit."""

    @abstractmethod
    def _put(self, unit: str, number: int, text: str) -> None:
        """Takes note of a text that was put from here."""

    @abstractmethod
    def _removed(self, unit: str, number: int) -> None:
        """Takes note of a unit that was removed from here."""

    @abstractmethod
    def _overtaken(self, unit: str, revision: int) -> None:
        """Takes note of the revision that somebody else has made of a unit, 0 for none, for which a change of it was refused."""

    def _bring_new(self, session: Session, changed: set[str], most: int = UNITS_LIMIT, first: Container[str] = ()) -> bool:
        """Commits what is new, and adds the units that are `changed`: what the user has changed goes in one commit, as far as it fits, and what files have in others.

        Of files it takes so many at `most`, those first that are open or to be `first`, and tells whether there are more.
        """
        new = [unit for unit in self._looked_at() if self._is_to_put(unit, self._wanted.texts[unit])]
        of_user = self._wanted.insisted.union(self._wanted.renamed.values())
        mine = [unit for unit in new if unit in of_user]
        others = sorted((unit for unit in new if unit not in of_user), key=lambda it: it not in self._wanted.open and it not in first)
        self._commit(session, [*self._gone(), *self._puts(mine)], changed)
        self._commit(session, self._puts(others[:most]), changed)
        return len(others) > most

    def _looked_at(self) -> Iterable[str]:
        """The units with a text here that may have to be put."""
        return self._wanted.texts

    def _gone(self) -> list[Change]:
        """The removals of units that were put from here, or renamed here, and have no text here any more."""
        left = [unit for unit in self._units if unit not in self._wanted.texts and unit not in self._wanted.kept]
        return [Remove(unit, it.revision) for unit in left if (it := self._units[unit]).text is not None and (it.is_ours or self._is_renamed(unit, it))]

    def _is_renamed(self, unit: str, it: Unit) -> bool:
        """Whether the user has renamed a unit that others have put, and nobody has changed it since."""
        return unit in self._wanted.renamed and not it.is_changed

    def _puts(self, units: Iterable[str]) -> list[Change]:
        return [Put(unit, self._units.get(unit, ABSENT).revision, self._wanted.texts[unit]) for unit in units]

    def _commit(self, session: Session, changes: list[Change], changed: set[str]) -> None:
        """Commits changes, as many at once as a commit takes, and adds the units that are `changed`. One that somebody else has changed meanwhile is left to them."""
        for batch in batches(changes):
            while stale := self._try(session, batch):
                batch = [it for it in batch if it.unit != stale]
            changed.update(it.unit for it in batch)

    def _try(self, session: Session, batch: list[Change]) -> str:
        """Makes one commit; gives the unit for which it was refused, if any."""
        self._under_way = batch  # It stays so if no reply comes.
        try:
            if batch:
                self._made(batch, session.commit(batch))
        except (StaleBase, NoSuchUnit) as refusal:
            if isinstance(refusal, StaleBase):
                self.news.refused.add(refusal.unit)
            self._overtaken(refusal.unit, refusal.current if isinstance(refusal, StaleBase) else 0)
            return refusal.unit
        return ""

    def _made(self, batch: list[Change], number: int) -> None:
        self._under_way = []
        for it in batch:
            if isinstance(it, Put):
                self._put(it.unit, number, it.text)
            else:
                self._removed(it.unit, number)
