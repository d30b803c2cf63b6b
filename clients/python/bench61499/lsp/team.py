"""The units of a host that a team shares, as a language server knows them by a mirror: what it asks is no recorded call."""
from __future__ import annotations

import time
from collections.abc import Callable, Iterable, Mapping
from dataclasses import replace

from bench61499 import Commit, Put
from bench61499.language.mentions import Mentions, words_of
from bench61499.language.merging import is_marked
from bench61499.log.events import Place
from bench61499.lsp.commits import ABSENT, Author, Committed, Faults, Unit, Wanted
from bench61499.lsp.commits import News as TurnNews
from bench61499.mirror import Came, Changed, Connected, Loaded, Mirror, News, NoKey, UnitChange, Version

MOST_PUT = 512
"""Units of files that one turn puts."""
LastCommon = Callable[[str], Mapping[str, str]]


class TeamTexts(Committed):
    """The units of a host, compared with the texts here. It commits what its user has changed in a text that is the workbench's otherwise.

    A text that somebody else has changed is never put over unless the user has asked for it, and none is put that has marked lines of a merge.
    It `has_more` if a turn has not put all texts of files. `last_common` gives the texts that the files and a workbench had in common, as recorded before.
    All its methods are for one thread at a time.
    """

    def __init__(self, mirror: Mirror, last_common: LastCommon = lambda _: {}):
        super().__init__()
        self._mirror, self._mentions, self._last_common = mirror, Mentions(), last_common
        self._workbench = self._known = ""
        self.has_more = False
        self._faults: dict[str, Faults] = {}
        self._common: dict[str, str] = {}
        self._former: dict[str, set[int]] = {}
        self._own: set[int] = set()
        self._untold: dict[str, int] = {}
        self._behind: set[str] = set()
        self._touched: set[str] = set()
        self._early: set[str] = set()
        self._is_all = True
        self._run: dict[str, set[int]] = {}
        self._removals: dict[str, Commit] = {}
        self._later: dict[str, str | None] = {}
        self._knows_removals = False

    @property
    def is_loaded(self) -> bool:
        """Whether all units are known with their texts."""
        return bool(self._workbench)

    def take_news(self) -> TurnNews:
        return replace(super().take_news(), workbench=self._workbench)

    def turn(self, wanted: Wanted, told: Iterable[News], is_to_commit: bool) -> None:
        """Takes what the mirror has told, compares it with the texts here, and commits what is to be put."""
        is_same = wanted.texts is self._wanted.texts and wanted.kept == self._wanted.kept
        self._wanted, self._is_all = wanted, self._is_all or not is_same
        for news in told:
            self._take(news)
        if not self.is_loaded:
            self._take_early((wanted.open.keys() - self._early) & wanted.texts.keys())
            return
        if not self._knows_removals:
            self._find_removals()
        for unit, text in wanted.agreed.items():
            self._set_common(unit, text)
        for unit in wanted.shut & wanted.texts.keys():
            self._take_back(unit, wanted.texts[unit])
        self._compare(list(self._looked_at()))
        self.has_more = False
        if is_to_commit and self._has_new():
            with self._mirror.session(self._workbench) as session:
                self.has_more = self._bring_new(session, set(), MOST_PUT)
        if is_to_commit and not self.has_more:
            self._is_all, self.news.is_brought = False, True
            self._touched.clear()

    def _looked_at(self) -> Iterable[str]:
        """All units with a text here if one of these is new, else those of which something is new: of 16,384 units that makes a difference."""
        wanted = self._wanted
        return wanted.texts if self._is_all else [it for it in {*self._touched, *wanted.insisted, *wanted.forced} if it in wanted.texts]

    def _has_new(self) -> bool:
        """Whether there is something to commit."""
        return self._is_all and bool(self._gone()) or any(self._is_to_put(unit, self._wanted.texts[unit]) for unit in self._looked_at())

    # What the mirror tells

    def _take(self, news: News) -> None:
        match news:
            case Connected(status, True):
                self._forget()
                self._known = status.workbench
            case Loaded() if self._known == self._mirror.workbench:
                self._load()
            case Changed(commit, changes) if self.is_loaded:
                for change in changes:
                    self._take_change(commit, change)
                if commit:
                    self._own.discard(commit.number)
                    self._follow_removals(commit)
            case Came("faults", unit, value) if self.is_loaded and unit not in self._untold:
                self._take_faults(unit, value)

    def _forget(self) -> None:
        """Nothing is known of the workbench any more, but the last texts that it and this editor both had, and those that others have put later."""
        self._workbench = ""
        self._later |= {unit: it.text for unit, it in self._units.items() if it.is_changed and it.revision and it.author}
        self._removals, self._knows_removals = {}, False
        self._units, self._faults, self._untold, self._run = {}, {}, {}, {}
        self._own, self._behind, self._early, self._under_way = set(), set(), set(), []
        self.news, self._is_all = TurnNews(is_other=True), True

    def _load(self) -> None:
        """Takes all that is there, and again what was taken of it before."""
        self._workbench, self._units = self._known, {}
        self._faults = {unit: faults for unit, faults in self._mirror.values("faults").items() if isinstance(faults, tuple)}
        recorded = self._last_common(self._workbench)
        for unit, text in recorded.items():
            self._agree(unit, text)
        for unit, version in self._mirror.versions().items():
            self._set_theirs(unit, version, None)
            if version.text != recorded.get(unit, version.text) or version.text == self._later.get(unit):
                self._set(unit, replace(self._units[unit], author=Author(0, version.revision, None), is_former=False))
        for unit in self._later.keys() - self._units.keys():
            self._set(unit, Unit(0, None, True, False, None, self._common.get(unit)))
        self._later = {}

    def _find_removals(self) -> None:
        """Finds who has removed units that have a text here, as far back as the host knows: they are not put again unasked."""
        absent = {unit for unit in self._wanted.texts if unit not in self._units}
        if absent:
            with self._mirror.session(self._workbench) as session:
                commits = Place().catch_up(session).commits
            removals = {unit: it for it in commits for unit in it.removed if unit in absent}
            for unit, it in removals.items():
                self._removals[unit] = it
                self._set(unit, Unit(0, None, True, False, Author(it.caller, it.number, None), self._common.get(unit)))
        self._knows_removals = True

    def _follow_removals(self, commit: Commit) -> None:
        """Finds units that one session has removed and another one puts again."""
        gone = {unit: self._removals.pop(unit) for unit in commit.put if unit in self._removals}
        self.news.returned |= {unit: (it, commit) for unit, it in gone.items() if it.caller != commit.caller}
        self._removals |= dict.fromkeys(commit.removed, commit)

    def _take_early(self, opened: set[str]) -> None:
        """Takes those of these open units that are there with the texts that they have here, before all is read, which takes longer. They wait for that if
        something that their faults or warnings rest on has no text here, or no faults yet."""
        if not opened or self._known != self._mirror.workbench:
            return
        self._early |= opened
        texts, elsewhere = self._wanted.texts, self._mirror.revisions().keys() - self._wanted.texts.keys()
        near = self._mentions.near(opened, texts)
        if any(not elsewhere.isdisjoint(words_of(texts[unit])) for unit in near):
            return
        with self._mirror.session(self._known) as session:
            theirs = session.texts(list(opened))
            faults = {unit: it for (_, unit), it in session.peek_all([("faults", unit) for unit in near]).items() if it is not None}
            after = session.texts(list(opened))
        if faults.keys() != near:
            return
        self.news.faults |= faults
        # Of a text that is the same before and after, so that the faults are its own.
        same = [unit for unit, it in theirs.items() if it.text == texts[unit] and unit in after and after[unit].revision == it.revision]
        for unit in same:
            self._faults[unit] = faults[unit]
            self._set_theirs(unit, Version(theirs[unit].revision, theirs[unit].text), None)
        self._compare(same)

    def _take_change(self, commit: Commit | None, change: UnitChange) -> None:
        """Takes what somebody has made of a unit, unless it is what is known already."""
        unit, before, after = change
        known = self._units.get(unit, ABSENT)
        self._behind.discard(unit)
        self._touched.add(unit)
        if commit is None or commit.number >= self._untold.get(unit, 0):
            self._untold.pop(unit, None)
        if after.revision < known.revision and (commit.number if commit else before.revision) < known.revision:
            return  # It is older than what is known.
        self._faults.pop(unit, None)
        if after.revision == known.revision or commit and commit.number in self._own:
            self._tell(unit)
        else:
            self._set_theirs(unit, after, commit)

    def _set_theirs(self, unit: str, version: Version, commit: Commit | None) -> None:
        """Takes a text of somebody else, or one that was put from here without a reply."""
        is_ours = any(isinstance(it, Put) and (it.unit, it.text) == (unit, version.text) for it in self._under_way)
        number = commit.number if commit else version.revision
        author = Author(commit.caller if commit else 0, number, time.monotonic()) if commit or unit in self._units else None
        is_former = not author and version.text != self._common.get(unit) and hash(version.text) in self._former.get(unit, ())
        self._run[unit] = {hash(version.text)}
        self._set(unit, Unit(version.revision, version.text, not is_ours, is_ours, author, self._common.get(unit), is_former))

    def _take_faults(self, unit: str, value: Faults | NoKey | None) -> None:
        if isinstance(value, tuple):
            self._faults[unit] = value
            self._tell(unit)

    # What is the same, and what is not

    def _set_common(self, unit: str, text: str | None) -> None:
        """Takes a text of others for the last common one, as it went into the text here or was discarded here; None for none."""
        if text is None:
            self._common.pop(unit, None)
        else:
            self._agree(unit, text)
        it = self._units.get(unit, ABSENT)
        if it.revision:
            self._set(unit, replace(it, is_changed=it.text != text, common=text))

    def _agree(self, unit: str, text: str) -> None:
        """Takes a text for the last one that the workbench and this editor both had."""
        former = self._common.get(unit, text)
        if former != text:
            self._former.setdefault(unit, set()).add(hash(former))
        self._common[unit] = text

    def _take_back(self, unit: str, text: str) -> None:
        """An editor was closed, so the text of the file counts again: where that is older than what others have put, it is not put."""
        it = self._units.get(unit, ABSENT)
        if it.text == it.common != text and not (it.is_ours and hash(text) in self._run.get(unit, ())):
            self._set_common(unit, text)

    def _compare(self, units: Iterable[str]) -> None:
        """Finds which texts here are the workbench's, and which differ and are not to be put."""
        for unit in units:
            text, it = self._wanted.texts[unit], self._units.get(unit)
            if not it or not it.revision:
                continue
            if it.common is None and it.text == self._wanted.open.get(unit, text):
                it = replace(it, common=it.text)  # The user has typed before it was known what the workbench has.
                self._agree(unit, it.text or "")
            if it.text == text:
                if it.is_changed or it.common is not text:
                    self._agree(unit, text)
                    self._set(unit, replace(it, text=text, is_changed=False, common=text, is_former=False))
            elif it.is_changed == self._is_ahead(unit, it):
                self._set(unit, replace(it, is_changed=not it.is_changed))

    def _is_ahead(self, unit: str, it: Unit) -> bool:
        """Whether a text that differs is that of the workbench but for what was changed here: by its user, or in a file that came from here."""
        by_user = unit in self._wanted.insisted or self._wanted.open.get(unit) == it.text
        return it.text is not None and it.text == it.common and (it.is_ours or by_user)

    def _is_to_put(self, unit: str, text: str) -> bool:
        it = self._units.get(unit, ABSENT)
        if it.text == text or unit in self._behind or is_marked(text):
            return False
        return not it.is_changed or self._wanted.forced.get(unit) == it.revision

    def _set(self, unit: str, it: Unit) -> None:
        self._units[unit] = it
        self._touched.add(unit)
        self._tell(unit)

    def _tell(self, unit: str) -> None:
        self.news.units[unit] = self._units.get(unit, ABSENT)
        self.news.faults[unit] = self._faults.get(unit)

    # Commits

    def _put(self, unit: str, number: int, text: str) -> None:
        self._own.add(number)
        self._untold[unit] = number
        self._faults.pop(unit, None)
        self._agree(unit, text)
        self._run.setdefault(unit, set()).add(hash(text))
        self._set(unit, Unit(number, text, common=text))

    def _removed(self, unit: str, number: int) -> None:
        self._own.add(number)
        self._untold[unit] = number
        self._faults.pop(unit, None)
        self._set(unit, ABSENT)
        del self._units[unit]

    def _overtaken(self, unit: str, revision: int) -> None:
        """The mirror tells what it is, or has told it already."""
        self._behind.add(unit)
