"""What a user can do with an open text over which somebody else has put another one: each is a command, and a code action that names it."""
from __future__ import annotations

import tempfile
from collections import defaultdict
from collections.abc import Callable
from dataclasses import dataclass, field
from difflib import unified_diff
from pathlib import Path
from typing import Any, NamedTuple, Protocol

from bench61499.language.merging import is_marked, merged
from bench61499.language.wording import counted
from bench61499.lsp.asking import Asking, edits_between
from bench61499.lsp.commits import Unit
from bench61499.lsp.documents import Diagnostic, Document
from bench61499.lsp.rpc import INFO, WARNING

TAKE, COMPARE, MERGE, PUT = "bench61499.take", "bench61499.compare", "bench61499.merge", "bench61499.put"
TITLES = {TAKE: "Take the team's text", COMPARE: "Compare", MERGE: "Merge", PUT: "Put mine"}
NOTHING = "the workbench has this text, or none that differs is known"


@dataclass(frozen=True)
class Differing:
    """An open text, the unit that it is, and what the workbench has of that."""

    unit: str
    it: Unit
    document: Document

    @property
    def whose(self) -> str:
        """Whose text the workbench has."""
        author = self.it.author
        return f"session {author.session} (commit {author.commit})" if author and author.session else f"the team (commit {self.it.revision})"


class Texts(Protocol):
    """The texts of an editor."""

    def differing(self, path: Path) -> Differing | None:
        """An open text over which somebody else has put another one."""

    def document(self, path: Path) -> Document | None: ...

    def agree(self, path: Path, text: str | None) -> None:
        """Tells which text of others was the last that went into this one, if any."""

    def force(self, path: Path, revision: int) -> None:
        """Tells that this text is to be put over that of others, which has a revision."""


class _Edit(NamedTuple):
    """An edit that the editor was asked for: the text after it, and that of others that is in it then."""

    after: str
    theirs: str


@dataclass
class _Epoch:
    """The texts, by their hashes, that an editor has had while another text of others was the last common one. Who undoes an edit comes back to one of them."""

    common: str | None = None
    texts: set[int] = field(default_factory=set)


class Choices:
    """The commands. A user's text is changed by the editor alone, which can undo that."""

    def __init__(self, texts: Texts, asking: Asking):
        self._texts, self._asking = texts, asking
        self._edits: dict[Path, _Edit] = {}
        self._epochs: defaultdict[Path, list[_Epoch]] = defaultdict(lambda: [_Epoch()])
        self._folder: tempfile.TemporaryDirectory[str] | None = None
        self._compared = 0

    def actions(self, path: Path, shown: list[Diagnostic]) -> list[dict[str, Any]]:
        """The code actions for a text; `shown` is what is shown of it."""
        found = self._texts.differing(path)
        if not found:
            return []
        its = [it for it in shown if it["severity"] == INFO]
        uri = found.document.uri
        return [
            {"title": TITLES[it], "kind": "quickfix", "diagnostics": its, "command": {"title": TITLES[it], "command": it, "arguments": [uri]}}
            for it in self._offered(found)
        ]

    def _offered(self, found: Differing) -> list[str]:
        it, text = found.it, found.document.text
        if not it.revision:
            return [PUT]
        can_edit = self._asking.can("workspace", "applyEdit")
        is_merge = it.common is not None and it.common not in (text, it.text)
        return [*([TAKE] if can_edit else []), COMPARE, *([MERGE] if can_edit and is_merge else []), *([] if is_marked(text) else [PUT])]

    def do(self, command: str, path: Path) -> str | None:
        """Does a command; gives why it can't be done."""
        found = self._texts.differing(path)
        if not found or command not in self._offered(found):
            return NOTHING
        self._COMMANDS[command](self, path, found)
        return None

    def _take(self, path: Path, found: Differing) -> None:
        assert found.it.text is not None
        self._edit(path, found, found.it.text)

    def _merge(self, path: Path, found: Differing) -> None:
        it = found.it
        assert it.text is not None and it.common is not None
        both = merged(it.common, found.document.text, it.text, ("mine", found.whose))
        if both.conflicts:
            self._asking.tell(WARNING, f"{counted(both.conflicts, 'conflict')} in {found.unit}: it is not put while it has marked lines.")
        self._edit(path, found, both.text)

    def _edit(self, path: Path, found: Differing, text: str) -> None:
        """Has a text replaced in the editor: then that of the workbench is the last common one."""
        document = found.document
        self.expect(path, document.text, text, found.it)
        if edits := edits_between(document.text, text):
            label = f"{found.unit} with the team's text"
            self._asking.edit(label, {document.uri: (document.version, edits)}, lambda why: self._edited(path, found.unit, why))
        else:
            self.changed(path)

    def _edited(self, path: Path, unit: str, why: str | None) -> None:
        if why is not None:
            self._edits.pop(path, None)
            self._asking.tell(WARNING, f"The editor has not changed {unit}: {why}.")

    def expect(self, path: Path, before: str, after: str, it: Unit) -> None:
        """Tells that the editor is asked to make one text of another, into which that of the workbench has gone."""
        assert it.text is not None
        epoch = self._epochs[path][-1]
        epoch.texts.add(hash(before))
        epoch.common = it.common
        self._edits[path] = _Edit(after, it.text)

    def changed(self, path: Path) -> None:
        """Tells that the editor has another text, or has closed it. Only the text itself tells whether an edit was made, or undone."""
        document, edit = self._texts.document(path), self._edits.get(path)
        if not document:
            self._edits.pop(path, None)
            self._epochs.pop(path, None)
            return
        epochs = self._epochs[path]
        if edit and _lines(document.text) == _lines(edit.after):
            self._texts.agree(path, edit.theirs)
            epochs.append(_Epoch(edit.theirs))
        else:
            last = next((at for at in reversed(range(len(epochs))) if hash(document.text) in epochs[at].texts), len(epochs) - 1)
            if last < len(epochs) - 1:
                del epochs[last + 1 :]
                self._texts.agree(path, epochs[last].common)
        epochs[-1].texts.add(hash(document.text))

    def _compare(self, path: Path, found: Differing) -> None:
        assert found.it.text is not None
        theirs, mine = (it.splitlines(keepends=True) for it in (found.it.text, found.document.text))
        lines = unified_diff(theirs, mine, f"{found.unit} of {found.whose}", f"{found.unit} in {path.name}")
        file = self._write(found.unit, "".join(it if it.endswith("\n") else f"{it}\n" for it in lines))
        told = f"The differences of {found.unit} are in {file}"
        if self._asking.can("window", "showDocument", "support"):
            self._asking.ask("window/showDocument", {"uri": file.as_uri(), "takeFocus": True}, lambda it, _: self._shown(it, told))
        else:
            self._asking.tell(INFO, told)

    def _shown(self, result: Any, told: str) -> None:
        if not isinstance(result, dict) or not result.get("success"):
            self._asking.tell(INFO, told)

    def _write(self, unit: str, words: str) -> Path:
        """A file that can only be read, in a folder of this server, which goes with it."""
        self._folder = self._folder or tempfile.TemporaryDirectory(prefix="bench61499-", ignore_cleanup_errors=True)
        self._compared += 1
        file = Path(self._folder.name) / f"{unit}-{self._compared}.diff"
        file.write_text(words, encoding="utf-8", newline="")
        file.chmod(0o400)
        return file

    def _put(self, path: Path, found: Differing) -> None:
        self._texts.force(path, found.it.revision)

    _COMMANDS: dict[str, Callable[[Choices, Path, Differing], None]] = {TAKE: _take, COMPARE: _compare, MERGE: _merge, PUT: _put}


def _lines(text: str) -> str:
    """A text as an editor may keep it that ends lines, and the last one, in its own way."""
    return text.replace("\r\n", "\n").rstrip("\n")
