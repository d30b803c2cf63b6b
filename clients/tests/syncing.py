"""People who type in folders that `sync` keeps: what they save, and where each saved text is afterwards."""
from __future__ import annotations

import os
import random
import signal
import sqlite3
import subprocess
import tempfile
import threading
import time
from collections.abc import Callable
from pathlib import Path

from support import CLIENTS, WITH_CTRL_C, free_port, until, workbench

from bench61499 import Put, Session
from bench61499.language.tokens import declared_name

PATIENCE = 60.0
SHARED = ["BELT", "LIFT", "GATE"]
TEXT = "FUNCTION_BLOCK {name}\n  EVENT_INPUT GO; END_EVENT\n  EVENT_OUTPUT DONE; END_EVENT\n  VAR HOT : INT := 0; END_VAR\n  EC_STATES IDLE; END_STATES\nEND_FUNCTION_BLOCK\n"


class Syncing:
    """A folder that a `sync` keeps, which is started, killed and started again. What it says goes into a file beside the folder."""

    def __init__(self, folder: Path, port: int):
        self.folder, self._port = folder, port
        self._process: subprocess.Popen | None = None

    def start(self, *words: str) -> None:
        with open(self.folder.with_suffix(".said"), "ab") as said:
            self._process = subprocess.Popen(
                [*WITH_CTRL_C, CLIENTS / "sync", self.folder, "--connect", f":{self._port}", *words], stdin=subprocess.DEVNULL, stdout=said, stderr=subprocess.STDOUT)

    @property
    def process(self) -> subprocess.Popen:
        assert self._process
        return self._process

    def end(self, number: int = signal.SIGKILL) -> int:
        self.process.send_signal(number)
        return self.process.wait(PATIENCE)

    def is_running(self) -> bool:
        return self._process is not None and self._process.poll() is None

    def ensure(self) -> None:
        """Starts it again if it has ended by itself, as it does if no host answers at its start."""
        if not self.is_running():
            self.start()

    def said(self) -> str:
        return self.folder.with_suffix(".said").read_text(errors="replace")

    def files(self) -> dict[str, str]:
        """The texts by file."""
        return {str(it.relative_to(self.folder)): it.read_text() for it in sorted(self.folder.glob("**/*.fb")) if "/." not in str(it)}

    def units(self) -> dict[str, str]:
        """The texts by the units that they declare."""
        return {declared_name(text) or name: text for name, text in self.files().items()}

    def conflicts(self) -> list[Path]:
        return sorted(self.folder.glob("**/*.fb.theirs"))

    def everything(self) -> set[bytes]:
        """All contents in the folder, what is kept inside it too."""
        found = {it.read_bytes() for it in self.folder.glob("**/*") if it.is_file()}
        state = sqlite3.connect(f"file:{self.folder}/.bench61499/state.sqlite?mode=ro&immutable=1", uri=True)
        for table in ("common", "conflict", "sent"):
            found |= {text.encode() for (text,) in state.execute(f"SELECT text FROM {table}") if text is not None}
        state.close()
        return found


class Person:
    """Somebody who saves files of a folder: changes of lines that are apart, of the same line, new units, other names, deletions, and answers to conflicts.

    `saved` are all texts that were saved; `replaced` those that the person saw in the file and put another text over, or deleted.
    """

    def __init__(self, syncing: Syncing, own: list[str], shared: list[str], is_below: bool, seed: int):
        """`is_below` is at which end of a text this person mostly adds lines."""
        self.syncing, self._own, self._shared, self._is_below = syncing, own, shared, is_below
        self._name = syncing.folder.name
        self._chance = random.Random(seed)
        self._count = 0
        self.saved: list[bytes] = []
        self.replaced: set[bytes] = set()

    def work(self, is_over: Callable[[], bool], pause: float) -> None:
        while not is_over():
            self.act()
            time.sleep(self._chance.uniform(0, 2 * pause))

    def act(self) -> None:
        if conflicts := self.syncing.conflicts():
            if self._chance.random() < 0.5:
                return self.answer(self._chance.choice(conflicts))
        unit = self._chance.choice(self._own if self._chance.random() < 0.4 else self._shared)
        file = self.syncing.folder / f"{unit}.fb"
        what = self._chance.random()
        if not file.exists():
            if what < 0.3:
                self.save(file, TEXT.format(name=unit) + self._token())
        elif what < 0.03:
            self.delete(file)
        else:
            self.save(file, self._changed(file.read_text(), what))

    def _token(self) -> str:
        self._count += 1
        return f"(* {self._name} {self._count} *)\n"

    def _changed(self, text: str, what: float) -> str:
        lines = text.splitlines(keepends=True)
        if what < 0.65:
            return "".join([*lines, self._token()] if self._is_below else [self._token(), *lines])
        if what < 0.8:
            self._count += 1
            return "".join(f"  VAR HOT : INT := {self._count}; END_VAR // {self._name}\n" if " HOT " in line else line for line in lines)
        at = self._chance.randrange(len(lines) + 1)
        return "".join([*lines[:at], self._token(), *lines[at:]])

    def save(self, file: Path, text: str) -> None:
        """As editors do: into the same file, or into a new one that gets its name."""
        content = text.encode()
        self._see(file)
        if self._chance.random() < 0.5:
            file.write_bytes(content)
        else:
            number, new = tempfile.mkstemp(dir=file.parent, prefix=".edited")
            with open(number, "wb") as stream:
                stream.write(content)
            os.replace(new, file)
        self.saved.append(content)

    def delete(self, file: Path) -> None:
        self._see(file)
        file.unlink(missing_ok=True)

    def _see(self, file: Path) -> None:
        try:
            self.replaced.add(file.read_bytes())
        except FileNotFoundError:
            return

    def answer_all(self) -> None:
        for beside in self.syncing.conflicts():
            self.answer(beside)

    def answer(self, beside: Path) -> None:
        """Takes mine, theirs, or both."""
        file, what = beside.with_suffix(""), self._chance.random()
        try:
            theirs = beside.read_text()
            if what < 0.4 and file.exists():
                self.save(file, theirs if what < 0.2 else file.read_text() + theirs)
        except FileNotFoundError:
            return
        beside.unlink(missing_ok=True)


class Host:
    """A host at one port that is killed and started again; each start has another workbench, without units."""

    def __init__(self, *words: str) -> None:
        self.port, self._words = free_port(), words
        self.start()

    def start(self) -> None:
        self._process = subprocess.Popen([workbench(), "host", "--port", str(self.port), *self._words], stdout=subprocess.PIPE, stderr=subprocess.DEVNULL, text=True)
        assert self._process.stdout and self._process.stdout.readline().startswith("listening on ")

    def end(self) -> None:
        self._process.kill()
        self._process.wait()
        assert self._process.stdout
        self._process.stdout.close()

    def session(self) -> Session:
        return Session.connect("127.0.0.1", self.port)


class Play:
    """Two people who type the same and different units, each in a folder with a `sync`. `end` kills these."""

    def __init__(self, folder: Path, port: int, seed: int):
        self._chance = random.Random(seed)
        with Session.connect("127.0.0.1", port) as session:
            session.commit([Put(name, 0, TEXT.format(name=name)) for name in SHARED])
        self.syncings = [Syncing(folder / name, port) for name in ("one", "other")]
        self.people = [self._person(it, is_below=at == 0) for at, it in enumerate(self.syncings)]

    def _person(self, syncing: Syncing, is_below: bool) -> Person:
        own = [f"{syncing.folder.name.upper()}_{at}" for at in range(3)]
        return Person(syncing, own, SHARED, is_below, self._chance.randrange(2**32))

    def start(self) -> None:
        for it in self.syncings:
            it.start()
        until(lambda: all(set(SHARED) <= it.units().keys() for it in self.syncings), PATIENCE)

    def end(self) -> None:
        for it in self.syncings:
            it.end()

    def type(self, seconds: float, pause: float, host: Host | None = None, host_pause: float = 0) -> None:
        """Both type for a while, and rest between two saves for `pause` on average. The `sync`s, and the host if one is given, are killed and started again."""
        end = time.monotonic() + seconds
        typing = [threading.Thread(target=it.work, args=(lambda: time.monotonic() > end, pause)) for it in self.people]
        next_host = time.monotonic() + host_pause
        for thread in typing:
            thread.start()
        while time.monotonic() < end:
            time.sleep(self._chance.uniform(0, 4))
            if host and time.monotonic() > next_host:
                next_host += host_pause
                self._again(host)
            self._again(self._chance.choice(self.syncings))
        for thread in typing:
            thread.join()

    def _again(self, it: Host | Syncing) -> None:
        it.end()
        time.sleep(self._chance.uniform(0, 1))
        it.start()

    def agree(self, session: Session) -> dict[str, str]:
        """Waits until both folders and the workbench have the same texts, with all conflicts answered, and gives them."""
        found: list[dict[str, str]] = []

        def is_same() -> bool:
            for it in self.people:
                it.syncing.ensure()
                it.answer_all()
            found[:] = [team_texts(session), *(it.units() for it in self.syncings)]
            return all(it == found[0] for it in found) and not any(it.conflicts() for it in self.syncings)

        until(is_same, PATIENCE)
        return found[0]

    def lost(self) -> list[bytes]:
        """The texts that were saved and are nowhere now, but for those that the same person put another text over."""
        there: set[bytes] = set().union(*(it.everything() for it in self.syncings))
        return [text for it in self.people for text in it.saved if text not in there and text not in it.replaced]

    def counted(self) -> dict[str, int]:
        """What has happened, for the words of a test."""
        said = "".join(it.said() for it in self.syncings)
        words = ("committed", "written", "merged", "in conflict", "deleted", "removed")
        return {"saved": sum(len(it.saved) for it in self.people), **{it: said.count(f": {it}") for it in words}}


def team_texts(session: Session) -> dict[str, str]:
    return {unit: it.text for unit, it in session.texts(it.unit for it in session.units().units).items()}
