"""The life of a language server: its messages, from the first to the last."""
from __future__ import annotations

import os
from collections.abc import Callable
from typing import Any

from bench61499 import Session
from bench61499.language.positions import edited
from bench61499.lsp import calls
from bench61499.lsp.answers import CAPABILITIES, Answers, CantAnswer
from bench61499.lsp.checking import Checking
from bench61499.lsp.documents import path_of
from bench61499.lsp.edits import changes_of, file_operations
from bench61499.lsp.progress import Reading
from bench61499.lsp.rename import CantRename
from bench61499.lsp.rpc import (
    ERROR, INVALID_PARAMS, INVALID_REQUEST, METHOD_NOT_FOUND, NOT_INITIALIZED, REQUEST_CANCELLED, REQUEST_FAILED, Message, failure, tell,
)

_NO_SENSE = (KeyError, TypeError, IndexError, AttributeError, ValueError)
"""What is raised where a message lacks something or has it in another form."""
_WATCHED = "workspace/didChangeWatchedFiles"
_REGISTRATION = {"id": _WATCHED, "method": _WATCHED, "registerOptions": {"watchers": [{"globPattern": "**/*.{fb,FB}"}]}}


class Server:
    """Takes the messages of an editor. Documents change at once; requests are answered by the texts as they are then.

    `wake` is called, in another thread, when there is something for the next `step`.
    """

    def __init__(self, open_workbench: Callable[[], Session], shared: bool, send: Callable[[Message], None], wake: Callable[[], None]):
        self._send = send
        checking = self._checking = Checking(open_workbench, shared, send, wake)
        self._answers = Answers(checking.plant, checking.catch_up, checking.shown, checking.lacks, checking.choices, checking.elsewhere)
        self._calls = calls.Calls(lambda: self._checking.plant, self._checking.values, lambda: self._checking.trouble, send)
        self._reading = Reading(self._checking.asking)
        self._initialized = self._shut_down = self._can_register = False
        self._waiting: set[Any] = set()
        self._cancelled: set[Any] = set()
        self.status: int | None = None

    def patience(self) -> float | None:
        """How long to wait for a message before the next step; None where there is nothing to do without one."""
        return self._checking.patience()

    def step(self) -> None:
        """What can be done without a message."""
        self._checking.step()
        self._calls.step()
        asking = self._checking.asking
        for what in sorted(self._answers.due()):
            if asking.can("workspace", what, "refreshSupport"):
                asking.ask(f"workspace/{what}/refresh", None, lambda *_: None)
        self._reading.step(*self._checking.plant.counts(), self._checking.is_read())

    def close(self) -> None:
        self._checking.close()

    def receive(self, message: Message) -> bool:
        """Takes note of a message that has come in, in another thread, and tells whether it is to be handled in its turn: one that cancels a request counts at once."""
        if message.get("method") == "$/cancelRequest":
            self._cancelled |= self._waiting & _numbers(message.get("params"))
            return False
        self._waiting |= _numbers(message) if "method" in message else set()
        return True

    def handle(self, message: Message) -> None:
        method, params = message.get("method"), message.get("params") or {}
        if not isinstance(method, str):
            self._checking.asking.answered(message)
            return
        if "id" in message:
            if (answer := self._answer_unless_cancelled(message["id"], method, params)) is not None:
                self._send({"id": message["id"], **answer})
        elif method == "exit":
            self.status = 0 if self._shut_down else 1
        elif self._initialized and not self._shut_down and method in self._NOTIFICATIONS:
            try:
                self._NOTIFICATIONS[method](self, params)
            except _NO_SENSE as error:
                self._send(tell(ERROR, f"{method} makes no sense: {error!r}"))

    def _answer_unless_cancelled(self, number: Any, method: str, params: Any) -> Message | None:
        """The answer; None if it comes later."""
        its = _numbers({"id": number})
        is_cancelled = bool(its & self._cancelled)
        self._waiting -= its
        self._cancelled -= its
        return failure(REQUEST_CANCELLED, "the request was cancelled") if is_cancelled else self._answer(number, method, params)

    def _answer(self, number: Any, method: str, params: Any) -> Message | None:
        if self._shut_down:
            return failure(INVALID_REQUEST, "the server was shut down")
        if method == "initialize":
            return self._initialize(params) if not self._initialized else failure(INVALID_REQUEST, "initialize comes once")
        if not self._initialized:
            return failure(NOT_INITIALIZED, "the first request has to be initialize")
        if method == "shutdown":
            self._shut_down = True
            self.close()
            return {"result": None}
        if method not in Answers.METHODS and method not in Answers.OF_THE_FOLDER and method not in calls.METHODS:
            return failure(METHOD_NOT_FOUND, f"there is no method {method} here")
        try:
            if method in calls.METHODS:
                self._calls.begin(number, method, params)
                return None
            result = self._answers.answer(method, params)
            if method == "textDocument/rename" and result:
                self._expect(changes_of(result))
            return {"result": result}
        except (CantRename, CantAnswer) as error:
            return failure(REQUEST_FAILED, str(error))
        except _NO_SENSE as error:
            return failure(INVALID_PARAMS, f"{method} makes no sense: {error!r}")

    def _expect(self, changes: dict[str, Any]) -> None:
        """The texts that the editor is going to have after an edit, where they are other than now."""
        texts = {path_of(uri): edits for uri, edits in changes.items()}
        now = {path: text.text for path in texts if (text := self._checking.plant.text(path))}
        after = {path: edited(text, texts[path]) for path, text in now.items()}
        self._checking.expect({path: text for path, text in after.items() if text != now[path]})

    def _initialize(self, params: Any) -> Message:
        try:
            folders = [it["uri"] for it in params.get("workspaceFolders") or []]
            paths = [path_of(uri) for uri in folders or [params.get("rootUri")] if uri]
        except (KeyError, TypeError, AttributeError) as error:
            return failure(INVALID_PARAMS, f"initialize lacks something: {error}")
        asking = self._checking.asking
        asking.capabilities = params.get("capabilities")
        self._can_register = asking.can("workspace", "didChangeWatchedFiles", "dynamicRegistration")
        if asking.can("textDocument", "publishDiagnostics", "relatedInformation"):
            self._checking.relate()
        self._answers.has_snippets = asking.can("textDocument", "completion", "completionItem", "snippetSupport")
        self._answers.tells_refusals = asking.can("textDocument", "codeAction", "disabledSupport")
        self._answers.file_operations = file_operations(asking.capabilities)
        self._checking.watch([path for path in paths if os.path.isdir(path)])
        self._initialized = True
        return {"result": {"capabilities": CAPABILITIES, "serverInfo": {"name": "bench61499"}}}

    def _did_initialize(self, params: Any) -> None:
        if self._can_register:
            self._send({"id": _WATCHED, "method": "client/registerCapability", "params": {"registrations": [_REGISTRATION]}})

    def _did_change_files(self, params: Any) -> None:
        self._checking.refresh_files()

    def _did_open(self, params: Any) -> None:
        it = params["textDocument"]
        self._checking.open(it["uri"], it.get("version"), it["text"])

    def _did_change(self, params: Any) -> None:
        it = params["textDocument"]
        self._checking.change(it["uri"], it.get("version"), params["contentChanges"])

    def _did_save(self, params: Any) -> None:
        self._checking.save(path_of(params["textDocument"]["uri"]))

    def _did_close(self, params: Any) -> None:
        self._checking.shut(params["textDocument"]["uri"])

    _NOTIFICATIONS = {
        "initialized": _did_initialize,
        _WATCHED: _did_change_files,
        "textDocument/didOpen": _did_open,
        "textDocument/didChange": _did_change,
        "textDocument/didSave": _did_save,
        "textDocument/didClose": _did_close,
    }


def _numbers(params: Any) -> set[int | str]:
    """The number of a request, where there is one."""
    number = params.get("id") if isinstance(params, dict) else None
    return {number} if isinstance(number, (int, str)) else set()
