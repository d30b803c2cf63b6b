"""Boards that run, and viewers of them without a browser."""
from __future__ import annotations

import json
import subprocess
import time
from collections.abc import Callable, Iterator
from contextlib import contextmanager
from http.client import HTTPConnection, HTTPResponse
from pathlib import Path
from typing import Any
from urllib.parse import urlencode, urlsplit

from support import CLIENTS, WITH_CTRL_C, workbench

PATIENCE = 150
"""Seconds after which something does not come any more."""


@contextmanager
def board(*words: object, folder: Path | None = None, program: str | Path | None = None) -> Iterator[Address]:
    """A board that runs, of a workbench of its own where the words do not say `--connect`. Ctrl-C ends it."""
    own = [] if "--connect" in words else ["--program", str(program or workbench())]
    command = [*WITH_CTRL_C, str(CLIENTS / "board"), *map(str, words), *own]
    with subprocess.Popen(command, cwd=folder, stdout=subprocess.PIPE, stderr=subprocess.PIPE, text=True) as process:
        try:
            line = process.stdout.readline()
            if not line:
                raise AssertionError(process.stderr.read())
            yield Address(line.split()[-1], line, process)
        finally:
            process.terminate()


class Address:
    """Where a board is served, and what it answers there."""

    def __init__(self, url: str, line: str, process: subprocess.Popen[str]):
        self.url, self.line, self.process = url, line, process
        self.port = urlsplit(url).port
        self.token = urlsplit(url).query.removeprefix("token=")
        self.cookie = f"bench61499_{self.port}={self.token}"

    def request(self, path: str, method: str = "GET", body: bytes | None = None, **headers: str) -> tuple[int, str]:
        """The status and the content of an answer to somebody who was admitted. Underscores in names of headers mean hyphens."""
        connection = HTTPConnection("127.0.0.1", self.port, timeout=PATIENCE)
        connection.request(method, path, body, {"Cookie": self.cookie, **{name.replace("_", "-"): value for name, value in headers.items()}})
        answer = connection.getresponse()
        status, content = answer.status, answer.read().decode()
        connection.close()
        return status, content

    def json(self, page: str, **query: str) -> Any:
        status, content = self.request(f"{page}?{urlencode(query)}")
        if status != 200:
            raise AssertionError((status, content))
        return json.loads(content)

    def raw(self, content: bytes) -> bytes:
        """What is answered to these bytes, up to the end of the connection."""
        connection = HTTPConnection("127.0.0.1", self.port, timeout=PATIENCE)
        connection.connect()
        with connection.sock as peer, peer.makefile("rb") as reader:
            peer.sendall(content)
            return reader.read()

    @contextmanager
    def viewer(self, query: str = "") -> Iterator[Viewer]:
        connection = HTTPConnection("127.0.0.1", self.port, timeout=PATIENCE)
        connection.request("GET", f"/events{query}", headers={"Cookie": self.cookie})
        with connection.getresponse() as answer:
            yield Viewer(answer)
        connection.close()


class Viewer:
    """What a page knows by the events that came."""

    def __init__(self, answer: HTTPResponse):
        self._answer = answer
        self.units: dict[str, dict[str, Any]] = {}
        self._changes: dict[int, dict[str, Any]] = {}
        self.answers: dict[tuple[str, str], tuple[int, bool]] = {}
        self.about: dict[str, Any] = {}
        self.ended, self.session = "", 0
        self.problems: list[str] = []

    def take(self) -> None:
        """Waits for an event."""
        line = self._answer.readline()
        while not line.startswith(b"data: "):
            if not line:
                raise AssertionError("the board hung up")
            line = self._answer.readline()
        news = json.loads(line[6:])
        self.about = news.get("about", self.about)
        for unit, name, kind, revision, state, faults, file, _ in news["units"]:
            self.units[unit] = {"name": name, "kind": kind, "revision": revision, "state": state, "faults": faults, "file": file}
        self._changes.update((it["serial"], it) for it in news["changes"])
        self.answers.update(((kind, unit), (serial, current)) for kind, unit, serial, current in news["answers"])
        self.ended, self.problems, self.session = news["ended"], news["problems"], news["session"]

    @property
    def changes(self) -> list[dict[str, Any]]:
        """The changes in their order."""
        return sorted(self._changes.values(), key=lambda it: it["time"])

    def steps(self) -> list[tuple[Any, ...]]:
        """What the changes did to units, and who made them."""
        return [(*step, it["author"]) for it in self.changes for step in it["steps"]]

    def until(self, condition: Callable[[Viewer], object]) -> Viewer:
        """Waits for events until a condition holds. An event comes every few seconds, be there news or not."""
        latest = time.monotonic() + PATIENCE
        if not self.about:
            self.take()
        while not condition(self):
            if time.monotonic() > latest:
                raise AssertionError(f"it did not come: {self.units} {self.changes} {self.answers} {self.problems}")
            self.take()
        return self

    def settled(self, units: int) -> Viewer:
        """Waits until this number of units are there and none is pending."""
        return self.until(lambda it: len(it.units) == units and not {"pending", "unknown"} & it.states())

    def faulty_at(self, unit: str, revision: int) -> bool:
        """Whether it is known that a unit has this revision, and that it has faults."""
        return self.state(unit) == "faulty" and self.units[unit]["revision"] == revision

    def states(self) -> set[str]:
        return {it["state"] for it in self.units.values()}

    def state(self, unit: str) -> str:
        return self.units[unit]["state"] if unit in self.units else ""
