"""An editor as the tests play it: it starts a language server, and sends and reads messages."""
from __future__ import annotations

import re
import subprocess
import threading
from collections.abc import Sequence
from pathlib import Path
from typing import Any

from support import CLIENTS, InFolder, workbench

from bench61499.lsp.rpc import read_message, write_message


class Editor:
    """An editor with one language server. It keeps what the server shows and asks: diagnostics by file, messages to the user, its log, and requests.

    Where what a test waits for doesn't come, the server is killed after `patience` seconds, and the test fails.
    """

    def __init__(self, *words: object, patience: float = 300, lsp: Path = CLIENTS / "lsp"):
        self.process = subprocess.Popen([lsp, *map(str, words)], stdin=subprocess.PIPE, stdout=subprocess.PIPE)
        self._watch = threading.Timer(patience, self.process.kill)
        self._watch.daemon = True
        self._watch.start()
        self.shown: dict[str, list] = {}
        self.versions: dict[str, int] = {}
        self.messages: list[str] = []
        self.logged: list[str] = []
        self.passed_over: set[str] = set()
        self.asked: list[dict] = []
        self._number = 0

    def close(self) -> None:
        """Ends the server; reads what it still sends, as it can't end before."""
        self._watch.cancel()
        if self.process.stdin.closed:
            self.process.stdin = None
        self.process.communicate(timeout=60)

    def send(self, message: dict) -> None:
        write_message(self.process.stdin, message)

    def notify(self, method: str, **params: object) -> None:
        self.send({"method": method, "params": params})

    def request(self, method: str, **params: object) -> dict:
        """Sends a request and gives its answer; what comes before is kept."""
        self._number += 1
        self.send({"id": self._number, "method": method, "params": params})
        while (message := self.read()).get("id") != self._number:
            pass
        return message

    def read(self) -> dict:
        message = read_message(self.process.stdout)
        assert message, "the server ended"
        if message.get("method") == "textDocument/publishDiagnostics":
            name = Path(message["params"]["uri"]).name
            self.shown[name] = message["params"]["diagnostics"]
            self.versions[name] = message["params"].get("version")
        if message.get("method") == "window/showMessage" and message["params"]["message"] not in self.passed_over:
            self.messages.append(message["params"]["message"])
        if message.get("method") == "window/logMessage":
            self.logged.append(message["params"]["message"])
        if "method" in message and "id" in message:
            self.asked.append(message)
        return message

    def await_codes(self, **expected: list[str]) -> None:
        """Reads until exactly these codes are shown of these files."""
        while {name: self.codes(f"{name}.fb") for name in expected} != expected:
            self.read()

    def await_message(self) -> str:
        while not self.messages:
            self.read()
        return self.messages.pop(0)

    def await_asked(self, method: str) -> dict:
        """The next request of the server, which has to be one of this method."""
        while not self.asked:
            self.read()
        asked = self.asked.pop(0)
        assert asked["method"] == method, asked
        return asked

    def answer(self, asked: dict, result: object) -> None:
        self.send({"id": asked["id"], "result": result})

    def await_told(self, file: str, *expected: tuple[int, str]) -> None:
        """Reads until exactly these severities and words, which are patterns, are shown of a file."""
        while not self.tells(file, expected):
            self.read()

    def tells(self, file: str, expected: Sequence[tuple[int, str]]) -> bool:
        shown = self.shown.get(file, [{"severity": 0, "message": "nothing"}])
        its = [(it["severity"], it["message"]) for it in shown]
        return len(its) == len(expected) and all(one == other and re.fullmatch(words, told) for (one, told), (other, words) in zip(its, expected))

    def codes(self, file: str) -> list[str] | None:
        return [it.get("code", it["message"]) for it in self.shown[file]] if file in self.shown else None

    def start(self, folder: Path | None = None, capabilities: dict | None = None) -> dict:
        answer = self.request("initialize", processId=None, rootUri=folder.as_uri() if folder else None, capabilities=capabilities or {})
        self.notify("initialized")
        return answer

    def open(self, file: Path, text: str | None = None) -> None:
        text = file.read_text() if text is None else text
        self.notify("textDocument/didOpen", textDocument={"uri": file.as_uri(), "languageId": "fb", "version": 1, "text": text})

    def change(self, file: Path, text: str, version: int = 2) -> None:
        """Replaces the whole text."""
        self.make_changes(file, {"text": text}, version=version)

    def make_changes(self, file: Path, *changes: dict, version: int = 2) -> None:
        self.shown.pop(file.name, None)
        document = {"uri": file.as_uri(), "version": version}
        self.notify("textDocument/didChange", textDocument=document, contentChanges=list(changes))

    def ask(self, method: str, file: Path, **params: object) -> Any:
        """The answer to a request about a document, which has to be no error."""
        answer = self.request(f"textDocument/{method}", textDocument={"uri": file.as_uri()}, **params)
        assert "result" in answer, answer
        return answer["result"]

    def save(self, file: Path) -> None:
        self.notify("textDocument/didSave", textDocument={"uri": file.as_uri()})

    def shut(self, file: Path) -> None:
        self.notify("textDocument/didClose", textDocument={"uri": file.as_uri()})


class LspTest(InFolder):
    def editor(self, *words: object) -> Editor:
        editor = Editor(*(words or ("--program", workbench())))
        self.addCleanup(editor.close)
        return editor

    def started(self) -> Editor:
        editor = self.editor()
        self.capabilities = editor.start(self.folder)["result"]["capabilities"]
        return editor
