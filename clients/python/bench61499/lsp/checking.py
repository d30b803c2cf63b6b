"""What is between the texts of an editor and a workbench: the one is brought into the other, and faults are shown."""
from __future__ import annotations

import time
from collections.abc import Callable, Iterable
from concurrent.futures import Future
from dataclasses import replace
from pathlib import Path
from typing import Any

from bench61499 import Key, Session
from bench61499.language.plant import Plant
from bench61499.lsp.asking import Asking
from bench61499.lsp.choices import Choices, Differing
from bench61499.lsp.commits import ABSENT, News, Wanted
from bench61499.lsp.diagnoses import returned, taken, whose
from bench61499.lsp.documents import Diagnostic, Document, path_of
from bench61499.lsp.offers import Offers, Vanished
from bench61499.lsp.pages import Pages
from bench61499.lsp.rpc import INFO, WARNING, Message
from bench61499.lsp.sources import Sources
from bench61499.lsp.talk import Talk
from bench61499.lsp.teamtalk import TeamTalk
from bench61499.sync.editors import Opened, Reporter
from bench61499.sync.recorder import Noted, Recorder
from bench61499.sync.store import last_common

PIECE = 0.005
"""Seconds for which files and texts are read, and files that are not open are shown, before the next message is looked for."""
QUIET = 0.3
"""Seconds after the last key for which a change waits for further ones."""
LONGEST_HOLD = 2.0
"""Seconds that changes wait for others that belong to the same edit."""
FIRST_ANSWER = 5.0
"""Seconds after the first text is opened in which texts are read only for questions, as long as its faults are not there: to read all others would delay them."""


class Checking:
    """The texts of an editor and of its folders, and what the workbench finds in them. `asking` asks the editor; `choices` are what its user can do
    with texts that others have changed.

    The editor changes documents at once. When no message is waiting, `step` begins to bring the workbench up to date in a thread of its own,
    so that no request waits for it; then `wake` is called, and the next `step` shows what was found.
    """

    def __init__(self, open_workbench: Callable[[], Session], shared: bool, send: Callable[[Message], None], wake: Callable[[], None]):
        self._send, self._shared = send, shared
        self.asking = Asking(send)
        self._sources = Sources(lambda words: self.asking.tell(WARNING, words))
        self._new_talk = lambda: Talk(open_workbench, shared, self.asking.tell, wake, self._recorded)
        self._talk: Talk | TeamTalk = self._new_talk()
        self._pages = Pages(self._sources, shared)
        self.choices = Choices(self, self.asking)
        self._offers = Offers(self.asking, self._is_open, self.choices.expect)
        self._vanished = Vanished(self.asking, self._release)
        self._reporter, self._recorder = Reporter(), Recorder()
        self._wanted = self._passed = Wanted()
        self._is_dirty = False
        self._insisted: set[Path] = set()
        self._shut: set[Path] = set()
        self._forced: dict[Path, int] = {}
        self._agreed: dict[Path, str | None] = {}
        self._shown: dict[Path, list[Diagnostic]] = {}
        self._unshown: set[Path] = set()
        self._uris: dict[Path, str] = {}
        self._lacking = ""
        self._quiet_until = self._held_until = self._ahead_from = 0.0

    @property
    def plant(self) -> Plant:
        """All texts as they are now."""
        return self._sources.plant

    def patience(self) -> float | None:
        """How long to wait for a message before the next step; None where there is nothing to do without one."""
        ahead = self._reads_ahead()
        if not self._sources.is_taken() or self._unshown or ahead <= 0 and not self.plant.is_read():
            return 0
        if self._is_dirty and self._talk.can_begin(True):
            return 0
        due = self._pages.due()
        aged = None if due is None else max(0.0, due - time.monotonic())
        waits = self._talk.patience(), self._hold() if self._is_new() else None, self._offers.patience(), aged, ahead or None
        return min((it for it in waits if it is not None), default=None)

    # What the editor does

    def open(self, uri: str, version: int | None, raw: str) -> None:
        self._sources.open(uri, version, raw)
        self._ahead_from = self._ahead_from or time.monotonic() + FIRST_ANSWER
        path = path_of(uri)
        self._offers.opened(path)
        self.choices.changed(path)
        self.refresh_files()

    def change(self, uri: str, version: int | None, changes: list[dict[str, Any]]) -> None:
        """Makes the changes one after the other, or none of them where one makes no sense."""
        path = self._sources.change(uri, version, changes)
        self._insisted.add(path)
        self.choices.changed(path)
        self._quiet_until = time.monotonic() + (QUIET if not self._held_until or self._sources.is_expecting() else 0)

    def save(self, path: Path) -> None:
        """The user has saved a document: its text is to be the one that the workbench has."""
        if document := self.document(path):
            self._insisted.add(path)
            self._record(path, document.text)
        self._quiet_until = 0.0
        self.refresh_files()

    def shut(self, uri: str) -> None:
        path = self._sources.shut(uri)
        self._insisted.discard(path)
        self._shut.add(path)
        self._offers.decline(path)
        self.choices.changed(path)

    def expect(self, texts: dict[Path, str]) -> None:
        """Tells that the editor is going to give files these texts by one edit: then the workbench gets them by one commit."""
        self._sources.expect(texts)
        self._held_until = time.monotonic() + LONGEST_HOLD

    def shown(self, path: Path) -> list[Diagnostic]:
        """What the editor shows of a file."""
        return self._shown.get(path, [])

    def elsewhere(self) -> dict[str, str]:
        """The texts of the units of the workbench that have no file here."""
        return self._pages.elsewhere()

    # What the user can do with texts that others have changed

    def document(self, path: Path) -> Document | None:
        return self._sources.documents.get(path)

    def differing(self, path: Path) -> Differing | None:
        """An open text over which somebody else has put another one."""
        document, unit = self.document(path), self._unit_of(path)
        it = self._pages.units.get(unit) if unit else None
        return Differing(unit, it, document) if unit and it and document and it.is_changed and self._talk.gives_texts else None

    def agree(self, path: Path, text: str | None) -> None:
        """Tells which text of others was the last that went into this one, if any."""
        self._agreed[path] = text

    def force(self, path: Path, revision: int) -> None:
        """Tells that this text is to be put over that of others, which has a revision."""
        self._forced[path] = revision
        self._quiet_until = 0.0

    def relate(self) -> None:
        """Has faults shown with places that they have to do with."""
        self._pages.relates = True

    def _is_open(self, path: Path) -> bool:
        return path in self._sources.documents

    def _unit_of(self, path: Path) -> str | None:
        source = self._sources.source(path)
        return source.unit if source else None

    def _release(self) -> None:
        """Has units removed that were kept."""
        self._wanted, self._is_dirty = replace(self._wanted, kept=self._vanished.kept), True

    def close(self) -> None:
        """Ends the workbench, with what it is doing. What it has committed is recorded."""
        if isinstance(self._talk, TeamTalk):
            news = self._talk.finish()
            self._pages.take(news)
            self._record_all(news.units)
        self._talk.close()
        self._reporter.close()
        self._recorder.close()

    def _report_opened(self) -> None:
        """Reports what is open to a `sync` of the folder, if there is one: it leaves to the editor what is not saved, as that is committed from here."""
        opened, session = dict[Path, Opened](), 0 if self._talk.trouble else self._talk.caller
        for path in self._sources.documents if self._talk.gives_texts else ():
            if unit := self._unit_of(path):
                it = self._pages.units.get(unit)
                opened[path] = Opened(unit, self._sources.is_unsaved(path), it.common if it else None, session)
        self._reporter.report(opened)

    def _recorded(self, workbench: str) -> dict[str, str]:
        """The texts that files here and a workbench had in common, as recorded in their folders."""
        return last_common([*self._sources.folders, *list(self._sources.documents)], workbench)

    def _record(self, path: Path, saved: str | None = None) -> None:
        """Records which text of the workbench a file comes from: the one that both have, or the last one that both had if the user has saved a text."""
        unit, source, workbench = self._unit_of(path), self._sources.source(path), self._pages.workbench
        it = self._pages.units.get(unit, ABSENT) if unit else ABSENT
        text = source.text if source and saved is None else saved
        if unit and workbench and it.revision and it.common is not None and text is not None and (saved is not None or it.text == it.common == text):
            self._recorder.note(path, Noted(unit, text, it.common, it.revision, workbench))

    def _record_all(self, units: Iterable[str]) -> None:
        for unit in units:
            if path := self._sources.owners.get(unit):
                self._record(path)

    # Files

    def watch(self, folders: list[Path]) -> None:
        """Tells the folders of the editor. Their files are read by the next steps, and a workbench is looked for with the first document."""
        self._sources.folders = folders
        self._sources.refresh()

    def refresh_files(self) -> None:
        """Looks for a workbench where there is none; the next steps look at the files again."""
        self._talk.open()
        self._sources.refresh()

    def is_read(self) -> bool:
        """Whether all files are taken in, and all texts read."""
        return self._sources.is_read()

    def catch_up(self, end: float) -> bool:
        """Takes in the files that have changed, until a time and some in any case; tells whether that is all of them."""
        return self._sources.catch_up(end)

    def lacks(self, what: str) -> None:
        """Has the user told, once all is read, that an answer was given before that."""
        self._lacking = what

    def _tell_lacking(self) -> None:
        if self._lacking and self._sources.is_read():
            read = self.plant.counts()[0]
            self.asking.tell(INFO, f"All {read:,} units are read now. {self._lacking} was answered before that and may lack some: ask again.")
            self._lacking = ""

    # The workbench

    def step(self) -> None:
        """What can be done without a message."""
        end = time.monotonic() + PIECE
        if news := self._talk.poll():
            self._take(news)
        is_taken = self._sources.catch_up(end)
        self._follow_talk(is_taken)
        if is_taken:
            if not self._hold():
                self._settle()
            if self._talk.can_begin(self._is_dirty):
                self._begin()
        self._show_some(end)
        if self._reads_ahead() <= 0 and not self._unshown:
            self.plant.refresh(end)
        self._tell_lacking()
        self._offers.step()
        if aged := self._pages.aged():
            self._show(aged)

    def _reads_ahead(self) -> float:
        """After how many seconds texts are read that no question needs; 0 if that is now."""
        is_answered = any(it.is_published for it in self._sources.documents.values())
        return 0.0 if is_answered else max(0.0, self._ahead_from - time.monotonic())

    def _follow_talk(self, is_taken: bool) -> None:
        """Continues with another talk where the server turns out to be of another kind, and shows it if nothing is known now.

        With a host that begins once all files are taken in: to read both at once would delay the open texts.
        """
        if self._talk.is_over:
            self._talk.close()
            self._talk = self._new_talk()
            self._talk.open()
        elif isinstance(self._talk, Talk) and self._talk.successor and is_taken:
            self._talk = self._talk.successor()
        if self._talk.caller != self._pages.caller:
            self.asking.log(f"This editor is session {self._talk.caller} of the workbench.")
        known = self._talk.trouble, self._talk.gives_texts, self._talk.caller
        if known != (self._pages.trouble, self._pages.gives_texts, self._pages.caller):
            self._pages.trouble, self._pages.gives_texts, self._pages.caller = known
            self._report_opened()
            self._show([*self._shown, *self._sources.documents])

    def _is_new(self) -> bool:
        return self._sources.has_changed() or any((self._insisted, self._shut, self._forced, self._agreed))

    def _hold(self) -> float:
        """How long changes wait yet for further keys, or for the rest of an edit."""
        until = self._held_until if self._sources.is_expecting() else self._quiet_until
        return max(0.0, until - time.monotonic()) if self._is_new() else 0.0

    def _settle(self) -> None:
        """Takes the texts as they are now for those that the workbench is to have."""
        if not self._is_new():
            return
        changed = self._sources.settle()
        self._held_until = 0.0
        texts = self._sources.units() if changed else self._wanted.texts
        if self._shared:
            self._vanished.look({unit for unit in self._wanted.texts if unit not in texts and self._is_from_here(unit)}, texts)
        shut = self._units_of(self._shut)
        self._wanted, self._is_dirty = Wanted(
            texts,
            self._wanted.insisted - shut | self._units_of(self._insisted),
            {unit: it.saved for path, it in self._sources.documents.items() if (unit := self._unit_of(path))},
            self._vanished.kept,
            self._wanted.shut | shut,
            {**self._wanted.forced, **{unit: it for path, it in self._forced.items() if (unit := self._unit_of(path))}},
            {**self._wanted.agreed, **{unit: it for path, it in self._agreed.items() if (unit := self._unit_of(path))}},
            {**self._wanted.renamed, **self._sources.take_renamed()},
        ), True
        self._insisted, self._shut, self._forced, self._agreed = set(), set(), {}, {}
        self._report_opened()
        self._show(changed)

    def _units_of(self, paths: Iterable[Path]) -> frozenset[str]:
        return frozenset(unit for path in paths if (unit := self._unit_of(path)))

    def _is_from_here(self, unit: str) -> bool:
        it = self._pages.units.get(unit)
        return it is not None and it.text is not None and it.is_ours

    def _begin(self) -> None:
        """Has these texts brought into the workbench."""
        is_dirty, self._passed, self._is_dirty = self._is_dirty, self._wanted, False
        self._talk.begin(self._wanted, is_dirty)

    def _take(self, news: News) -> None:
        """Takes what a turn has found. What its user has changed before it was told that somebody else had, is not put."""
        self._pages.take(news)
        lost = news.taken | news.refused
        self._insisted -= {self._sources.owners.get(unit) for unit in lost}
        self._wanted = replace(self._wanted, insisted=self._wanted.insisted - lost)
        if news.is_brought:
            self._drop_passed()
        self._tell_taken(sorted(lost))
        for words in returned(news.returned, self._talk.caller):
            self.asking.tell(INFO, words)
        self._report_opened()
        found = {unit: path for unit in news.units | news.faults if (path := self._sources.owners.get(unit))}
        for unit, path in found.items():
            if it := self._pages.units.get(unit):
                self._offers.note(path, unit, it, self._wanted.texts.get(unit))
        self._record_all(news.units)
        self._show({*found.values(), *self.plant.skipping(news.units)})

    def _drop_passed(self) -> None:
        """What was asked for once and is done."""
        wanted, passed = self._wanted, self._passed
        self._wanted = replace(
            wanted,
            insisted=wanted.insisted - passed.insisted,
            shut=wanted.shut - passed.shut,
            forced=dict(wanted.forced.items() - passed.forced.items()),
            agreed=dict(wanted.agreed.items() - passed.agreed.items()),
            renamed=dict(wanted.renamed.items() - passed.renamed.items()),
        )

    def _tell_taken(self, units: list[str]) -> None:
        """Tells the user, by one message, of the open texts over which somebody else has put another one, or which somebody else has removed.

        Where texts can be compared, the text shows it, and what can be done.
        """
        reasons: dict[str, str] = {}
        for unit in units if not self._talk.gives_texts else ():
            it, path = self._pages.units[unit], self._sources.owners.get(unit)
            document = self._sources.documents.get(path) if path else None
            if document and it.text is None:
                reasons[unit] = whose(unit, it, document.text, self._pages.faults.get(unit) or ())
        if reasons:
            self.asking.tell(WARNING, taken(reasons))

    def values(self, keys: list[Key]) -> Future[dict[Key, Any]] | None:
        """Has values of the workbench asked for, once it has the texts as they are now; None as long as it has not."""
        return None if self._is_new() or self._is_dirty else self._talk.values(keys)

    @property
    def trouble(self) -> str:
        """Why nothing is checked now; empty if all is well."""
        return self._talk.trouble

    # What is shown

    def _show(self, paths: Iterable[Path]) -> None:
        """Shows what is known of open files, and of open texts of which that is not shown yet; the other files are shown by the next steps."""
        unsure = {path for path, it in self._sources.documents.items() if not it.is_published or self._is_double(path)}
        self._unshown.update(paths)
        opened = unsure | self._unshown & self._sources.documents.keys()
        self._unshown -= opened
        for path in sorted(opened):
            self._show_one(path)

    def _show_some(self, end: float) -> None:
        """Shows what is known of files that are not open: of one, and then of more until a time."""
        while self._unshown:
            self._show_one(self._unshown.pop())
            if time.monotonic() >= end:
                return

    def _is_double(self, path: Path) -> bool:
        source = self._sources.source(path)
        return source is not None and source.unit is None

    def _show_one(self, path: Path) -> None:
        document, source = self._sources.documents.get(path), self._sources.source(path)
        page = self._pages.page(path, document, source)
        if page is not None and (page != self._shown.get(path, []) or document and not document.is_published):
            self._publish(path, document.uri if document else self._uris.get(path) or path.as_uri(), page)

    def _publish(self, path: Path, uri: str, page: list[Diagnostic]) -> None:
        document = self._sources.documents.get(path)
        params: dict[str, Any] = {"uri": uri, "diagnostics": page}
        if document:
            document.is_published = True
            params |= {"version": document.version} if document.version is not None else {}
        self._send({"method": "textDocument/publishDiagnostics", "params": params})
        self._shown[path], self._uris[path] = page, uri
