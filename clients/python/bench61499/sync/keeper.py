"""Keeps a folder and a workbench the same."""
from __future__ import annotations

import time
from collections.abc import Callable, Iterable, Mapping
from dataclasses import dataclass, replace

from bench61499 import Change, Put, Remove, WorkbenchError
from bench61499.language.merging import MARKED, is_marked
from bench61499.mirror import Version
from bench61499.sync.deciding import Decision, Step, decide
from bench61499.sync.editors import Opened
from bench61499.sync.files import Changed
from bench61499.sync.incoming import Incoming
from bench61499.sync.outgoing import Outgoing
from bench61499.sync.report import Report
from bench61499.sync.saved import Saved, Units
from bench61499.sync.store import FileRevision, Store
from bench61499.sync.team import Team

FEW = 3
"""So many deleted files are removed from the workbench unasked; if there are more at once, the folder may be another one than it was."""
AGAIN = 5.0
"""Seconds after which what failed is tried again."""
NOT_HERE = 0
"""The revision of a text that was common with another workbench, while this one has had no text of the unit, or one that the folder had before that."""
LEFT = "is being edited, and left to its editor until it is saved"
SENT = Step.PUT, Step.REMOVE


@dataclass(frozen=True)
class Ways:
    """What may be done: files be written, changes be committed, both only be told, many units be removed. A run that `is_once` names its session only with a commit."""

    pull: bool = True
    push: bool = True
    is_dry: bool = False
    removes_many: bool = False
    is_once: bool = False

    def may(self, step: Step) -> bool:
        return not self.is_dry and (step == Step.AGREE or (self.push if step in SENT else self.pull))


class Keeper:
    """A folder and a workbench: `look` sees what was saved, and `step` does what can be done now. What was not done is done by a later step.

    `opened` gives what is open in editors. What is not saved there is left to them, as they commit what is typed.
    """

    def __init__(self, saved: Saved, store: Store, team: Team, ways: Ways, report: Report, opened: Callable[[], Mapping[str, Opened]] = dict):
        self._saved, self._store, self._team, self._ways, self._report, self._opened = saved, store, team, ways, report, opened
        self._incoming = Incoming(saved, store, report)
        self._outgoing = Outgoing(store, team, report, self._fail)
        self._units = Units()
        self._dirty: set[str] = set()
        self._looks = 0
        self._left: dict[str, int] = {}
        self._edited: set[str] = set()
        self._bases: dict[str, str] = {}
        self._reported: dict[str, str] = {}
        self._ended: dict[str, str] = {}
        self._failed: set[str] = set()
        self._next_try = 0.0
        self._met = ""

    def look(self, at_once: bool = False) -> None:
        """Sees what was saved, also what may still be being written if it is `at_once`. Raises `Misuse` if the folder can't be read."""
        self._looks += 1
        if self._saved.look(at_once):
            self._incoming.find_written()
            self._name_files()
            self._dirty |= self._all()
        if not self._ways.is_dry:
            self._end(self._incoming.settle(at_once))
            self._incoming.record()

    def _end(self, units: Iterable[str]) -> None:
        """The user has ended conflicts: what editors have reported before does not count."""
        for unit in units:
            self._dirty.add(unit)
            if base := self._reported.get(unit):
                self._ended[unit] = base
            self._bases.pop(unit, None)

    def _name_files(self) -> None:
        self._units = self._saved.units(self._store.common)
        self._report.tell_problems(self._units.problems)

    def count(self) -> int:
        """How many units have a file."""
        return len(self._units.files)

    def _all(self) -> set[str]:
        return self._units.files.keys() | self._store.common.keys() | self._team.names()

    def step(self) -> bool:
        """Does what can be done, and tells whether nothing is left to be done now."""
        self._team.take()
        if not self._team.workbench:
            return False
        if not self._ways.is_once:
            self._report.connected(self._team.session)
        if self._team.workbench != self._met:
            self._meet(self._team.workbench)
        if self._team.units - self._units.files.keys():
            self.look()  # Where an editor commits what it saves, their files are there already.
        units = self._taken()
        versions = {unit: self._team.version(unit) for unit in sorted(units)}
        if self._team.workbench != self._met:  # It was lost meanwhile, and what was known of it.
            self._dirty |= units
            return False
        known = {unit: version for unit, version in versions.items() if version is not None}
        self._dirty |= versions.keys() - known.keys()
        decisions = self._decide_all(known)
        merged = self._bring(decisions, known)
        decisions |= self._decide_all({unit: known[unit] for unit in merged})
        self._send(decisions, known)
        self._report.flush()
        return not self._dirty

    def _taken(self) -> set[str]:
        """The units to look at now."""
        if self._failed and time.monotonic() >= self._next_try:
            self._dirty |= self._failed
            self._failed = set()
        units, self._team.units = self._dirty | self._team.units | self._left.keys(), set()
        self._leave()
        units -= self._left.keys()
        self._dirty = {unit for unit in units if self._is_unread(unit)}
        return units - self._units.held.keys() - self._dirty

    def _is_unread(self, unit: str) -> bool:
        name = self._units.files.get(unit)
        return self._saved.is_unread(name) if name else self._saved.may_come(unit)

    def _leave(self) -> None:
        """Finds the units to be left to editors: they are until what was saved there has been seen, which takes two looks."""
        opened = self._opened()
        self._reported = _commons(opened)
        self._bases |= {unit: it for unit, it in self._reported.items() if self._ended.get(unit) != it}
        unsaved = {name: it.unit for name, it in opened.items() if it.is_unsaved}
        units = {*unsaved.values(), *(unit for unit, name in self._units.files.items() if name in unsaved)}
        names = {self._name(unit) for unit in units}
        for name in sorted(names - self._edited):
            self._report.say(f"{name}: {LEFT}")
        self._edited = names
        self._left = {unit: it for unit, it in self._left.items() if self._looks < it + 2} | dict.fromkeys(units, self._looks)

    def _fail(self, unit: str, words: str) -> None:
        """Tells what could not be done; it is tried again."""
        self._report.trouble(unit, words)
        self._failed.add(unit)
        self._next_try = time.monotonic() + AGAIN

    def _meet(self, identity: str) -> None:
        """Begins with a workbench. Of texts that were common with another one its revisions say nothing, and a unit that it lacks was not removed."""
        store = self._store
        is_other = store.identity not in ("", identity)
        versions = {unit: self._team.version(unit) or Version(0) for unit in self._all()} if store.identity else {}
        if self._team.workbench != identity:  # It was lost meanwhile.
            return
        if is_other:
            self._report.say("the host was started again: the texts of its workbench are compared with the files")
            self._bases, self._ended = {}, self._ended | _commons(self._opened())  # These texts were common with the former one.
        with store.together():
            if store.identity != identity:
                store.take_back(list(store.sent))
                store.meet(identity)
                for unit, theirs in store.conflicts.items():
                    store.dispute(unit, replace(theirs, revision=NOT_HERE))
            for unit, version in versions.items():
                if not store.is_of_this(unit):
                    self._compare(unit, version)
        self._met = identity
        self._dirty |= self._all()

    def _compare(self, unit: str, version: Version) -> None:
        """Finds what of a text that was common with another workbench counts in this one."""
        common = self._store.common.get(unit)
        if not common:
            return
        if version.text == common.text:
            self._store.found(unit, replace(common, revision=version.revision))
        elif version.text is None or self._store.was_former(unit, version.text):
            self._store.found(unit, replace(common, revision=NOT_HERE))

    # Decisions

    def _decide_all(self, versions: Mapping[str, Version]) -> dict[str, Decision]:
        unanswered = self._store.sent.keys() & versions.keys()
        if unanswered:
            with self._store.together():
                for unit in unanswered:
                    self._find_out(unit, versions[unit])
        decisions = {unit: self._decide(unit, version) for unit, version in versions.items()}
        return {unit: it for unit, it in decisions.items() if it.step not in SENT or not self._is_in_question(unit)}

    def _is_in_question(self, unit: str) -> bool:
        """Whether a file conflicts with a text of a former workbench: a colleague may still have that text, and the user has not answered yet."""
        theirs = self._store.conflicts.get(unit)
        return theirs is not None and theirs.revision == NOT_HERE and theirs.text != self._here(unit)

    def _find_out(self, unit: str, version: Version) -> None:
        """Whether a commit was made to which no answer came. Where the text before it is there again, somebody may have gone back to it."""
        sent, common = self._store.sent[unit], self._store.common.get(unit)
        is_made, is_later = sent == version.text, version.revision > (common.revision if common else 0)
        if is_made:
            file = self._units.files.get(unit) or (common.file if common else f"{unit}.fb")
            self._store.agree(unit, FileRevision(file, version.revision, sent) if sent is not None else None)
        elif is_later and common and common.text == version.text:
            self._store.found(unit, None)
        if is_made or is_later:
            self._store.take_back([unit])

    def _decide(self, unit: str, version: Version) -> Decision:
        here, there, base, common = self._here(unit), version.text, self._bases.pop(unit, None), self._store.common.get(unit)
        if common and common.revision == NOT_HERE and (there is None or self._store.was_former(unit, there)):
            return decide(here, there, None)
        text = common.text if common else None
        is_saved = here not in (None, text) and there is not None  # By an editor, perhaps, that did not have the text of the file.
        return decide(here, there, base if is_saved and base is not None else text)

    def _here(self, unit: str) -> str | None:
        name = self._units.files.get(unit)
        return self._saved.text(name) if name else None

    # What comes

    def _bring(self, decisions: Mapping[str, Decision], versions: Mapping[str, Version]) -> list[str]:
        """Writes what comes from the workbench, and gives the units whose files have the changes of both then."""
        merged: list[str] = []
        disputed = self._store.conflicts.keys()
        brought = {unit: it for unit, it in decisions.items() if (it.step not in SENT or unit in disputed) and self._may(unit, it.step)}
        self._incoming.prepare(self._units.files, brought, versions)
        for unit, it in brought.items():
            try:
                self._bring_one(unit, it, versions[unit])
            except Changed:
                self._dirty.add(unit)  # It was saved just now, which is seen soon.
            except OSError as error:
                self._fail(unit, f"{self._units.files.get(unit, unit)}: can't be written: {error.strerror}")
            else:
                merged += [unit] if it.step == Step.MERGE else []
        self._incoming.record()
        if merged:
            self._name_files()
        return merged

    def _bring_one(self, unit: str, decision: Decision, version: Version) -> None:
        name = self._incoming.bring(unit, self._units.files.get(unit), decision, version, f"{self._team.caller(unit)}{self._removal(unit)}")
        if name:
            self._units.files[unit] = name
        else:
            self._units.files.pop(unit, None)
        if decision.step != Step.CONFLICT:
            self._report.is_over(unit)

    def _removal(self, unit: str) -> str:
        """Words about a unit that comes back."""
        if unit in self._units.files or not self._store.had(unit):
            return ""
        remover = self._team.remover(unit)
        return f", after {remover} had removed it" if remover else ", after it had been removed"

    def _may(self, unit: str, step: Step) -> bool:
        """Whether a step may be done; if not, that is told."""
        if not self._ways.may(step):
            self._report.left(step, self._name(unit))
            if step in (Step.MERGE, Step.CONFLICT) and not self._ways.is_dry:
                self._report.trouble(unit, f"{self._name(unit)}: was changed in the workbench too, so it is not committed; --pull first")
            return False
        if step in (Step.MERGE, Step.CONFLICT, Step.PUT) and is_marked(self._here(unit) or ""):
            self._report.trouble(unit, f"{self._name(unit)}: {MARKED}")
            return False
        return True

    def _name(self, unit: str) -> str:
        """The file of a unit, or the one that it had."""
        common = self._store.common.get(unit)
        return self._units.files.get(unit) or (common.file if common else f"{unit}.fb")

    # What goes

    def _send(self, decisions: Mapping[str, Decision], versions: Mapping[str, Version]) -> None:
        """Commits what was saved; what belongs to one file comes together."""
        sent = {unit: it for unit, it in decisions.items() if it.step in SENT and self._may(unit, it.step)}
        for unit in self._too_many(unit for unit, it in sent.items() if it.step == Step.REMOVE):
            del sent[unit]
        files = {unit: self._name(unit) for unit in sent}
        changes: list[Change] = [self._change(unit, sent[unit].text, versions[unit]) for unit in sorted(sent, key=files.__getitem__)]
        if self._team.error:
            self._dirty |= sent.keys()
            return
        if changes:
            self._report.connected(self._team.session)
        try:
            self._dirty |= set(self._outgoing.send(changes, files))
        except WorkbenchError:
            self._dirty |= sent.keys()  # What was answered is found out again.

    def _change(self, unit: str, text: str | None, version: Version) -> Change:
        return Remove(unit, version.revision) if text is None else Put(unit, version.revision, text)

    def _too_many(self, removed: Iterable[str]) -> list[str]:
        """Those of the units to be removed that are not: their files are gone, all at once."""
        gone = [unit for unit in removed if not self._saved.has_file(self._name(unit))]
        if len(gone) <= FEW or self._ways.removes_many:
            self._report.is_over("")
            return []
        names = ", ".join(self._name(unit) for unit in gone[:FEW])
        words = f"{len(gone)} files are gone at once ({names}, ..): their units stay in the workbench; bring the files back, or start sync with --remove"
        self._report.trouble("", words)
        return gone


def _commons(opened: Mapping[str, Opened]) -> dict[str, str]:
    """The texts by unit that editors and the workbench had last in common, as the editors report."""
    return {it.unit: it.common for it in opened.values() if it.common is not None}
