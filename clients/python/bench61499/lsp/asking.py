"""What a language server asks an editor, which answers later."""
from __future__ import annotations

from collections.abc import Callable, Mapping
from typing import Any

from bench61499 import Places
from bench61499.language.positions import range_of
from bench61499.lsp.rpc import INFO, Message, log, tell

Edits = list[dict[str, Any]]
Then = Callable[[Any, str | None], None]
"""What is done with an answer: its result, and why it is an error, if it is one."""


class Asking:
    """Requests to an editor. `capabilities` are what it has said that it can do."""

    def __init__(self, send: Callable[[Message], None]):
        self.send = send
        self.capabilities: Any = None
        self._number = 0
        self._waiting: dict[Any, Then] = {}

    def can(self, *words: str) -> bool:
        """Whether the editor has said that it can do something."""
        its = self.capabilities
        for word in words:
            its = its.get(word) if isinstance(its, dict) else None
        return its is True

    def ask(self, method: str, params: Any, then: Then) -> None:
        self._number += 1
        number = f"bench61499-{self._number}"
        self._waiting[number] = then
        self.send({"id": number, "method": method, "params": params})

    def answered(self, message: Message) -> None:
        """Takes an answer; those to what was not asked here are passed over."""
        number = message.get("id")
        then = self._waiting.pop(number, None) if isinstance(number, str) else None
        error = message.get("error")
        if then:
            then(message.get("result"), str(error.get("message") if isinstance(error, dict) else error) if error else None)

    def tell(self, severity: int, words: str) -> None:
        """Shows words to the user."""
        self.send(tell(severity, words))

    def log(self, words: str) -> None:
        """Adds words to the log of the editor."""
        self.send(log(words))

    def choose(self, words: str, choices: list[str], then: Callable[[str | None], None]) -> None:
        """Has the user choose; None is for no choice."""
        params = {**tell(INFO, words)["params"], "actions": [{"title": it} for it in choices]}
        self.ask("window/showMessageRequest", params, lambda it, _: then(it.get("title") if isinstance(it, dict) else None))

    def edit(self, label: str, edits: Mapping[str, tuple[int | None, Edits]], then: Callable[[str | None], None]) -> None:
        """Has texts edited, by their URIs, with the versions that they have now, if any. `then` gets why it was not done; None where it was."""
        if self.can("workspace", "workspaceEdit", "documentChanges"):
            its = [{"textDocument": {"uri": uri, "version": version}, "edits": those} for uri, (version, those) in edits.items()]
            edit: dict[str, Any] = {"documentChanges": its}
        else:
            edit = {"changes": {uri: those for uri, (_, those) in edits.items()}}
        self.ask("workspace/applyEdit", {"label": label, "edit": edit}, lambda it, error: then(error or _why_not(it)))


def _why_not(result: Any) -> str | None:
    """Why an edit was not done. Some editors answer with nothing at all if it was."""
    is_refused = isinstance(result, dict) and result.get("applied") is not True
    return str(result.get("failureReason") or "it was refused") if is_refused else None


def edits_between(before: str, after: str) -> Edits:
    """The edit that makes one text of another: of the lines between those that both begin and end with. None where they are the same."""
    if before == after:
        return []
    olds, news = before.splitlines(keepends=True), after.splitlines(keepends=True)
    shorter = min(len(olds), len(news))
    front = next((at for at in range(shorter) if olds[at] != news[at]), shorter)
    end = next((at for at in range(shorter - front) if olds[-1 - at] != news[-1 - at]), shorter - front)
    start = len("".join(olds[:front]).encode())
    stop = start + len("".join(olds[front : len(olds) - end]).encode())
    return [{"range": range_of(Places(before), start, stop), "newText": "".join(news[front : len(news) - end])}]
