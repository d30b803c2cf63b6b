"""What the tests share: the programs, the workbench that they run against, and the conveyor."""
from __future__ import annotations

import atexit
import errno
import json
import os
import shutil
import socket
import subprocess
import sys
import tempfile
import threading
import time
import unittest
from collections.abc import Callable, Iterator
from contextlib import AbstractContextManager, contextmanager, suppress
from functools import cache
from pathlib import Path
from unittest import TestCase
from unittest.mock import patch

CLIENTS = Path(__file__).resolve().parents[1]
WITH_CTRL_C = ("env", "--default-signal=INT")
"""Before a command: Ctrl-C ends it even if the tests run in the background of a shell, which lets its programs ignore that."""
CONVEYOR = CLIENTS.parent / "examples" / "conveyor"
BREAKS = json.loads((CONVEYOR / "breaks.json").read_text())
sys.path.insert(0, str(CLIENTS / "python"))

from bench61499 import HistoryFull, NoWorkbench, Session, find_program  # noqa: E402

os.environ["XDG_RUNTIME_DIR"] = tempfile.mkdtemp()
"""Where the hosts under test put their secrets, and where the clients find them."""
atexit.register(shutil.rmtree, os.environ["XDG_RUNTIME_DIR"], ignore_errors=True)

with suppress(NoWorkbench):
    # So all programs under test start the same one, and do not say that it is not proved.
    os.environ["BENCH61499_PROGRAM"] = find_program()


@cache
def workbench() -> str:
    """The program to test against, as clients find it. Skips the test if there is none."""
    try:
        program = find_program()
    except NoWorkbench as error:
        raise unittest.SkipTest(str(error)) from None
    if not os.access(program, os.X_OK):
        raise unittest.SkipTest(f"no workbench at {program}")
    return program


def serving(sessions: int, *more: str) -> AbstractContextManager[int]:
    """A workbench that serves, with more words if any; gives its port."""
    return _running("serve", "--sessions", str(sessions), *more)


def hosting(*more: str) -> AbstractContextManager[int]:
    """A host, with more words if any; gives its port. Clients find its secret by the port."""
    return _running("host", *more)


@contextmanager
def _running(*more: str) -> Iterator[int]:
    words = [workbench(), more[0], *(() if "--port" in more else ("--port", "0")), *more[1:]]
    with subprocess.Popen(words, stdout=subprocess.PIPE, stderr=subprocess.DEVNULL, text=True) as server:
        try:
            line = server.stdout.readline()
            if not line.startswith("listening on "):
                raise AssertionError("the workbench can't serve")
            port = int(line.rpartition(":")[2])
            if more[0] == "serve":
                forget_secret(port)
            yield port
        finally:
            server.terminate()


def forget_secret(port: int) -> None:
    """Removes the secret that a host at this port may have left when it was killed."""
    Path(os.environ["XDG_RUNTIME_DIR"], "bench61499", f"{port}.secret").unlink(missing_ok=True)


HISTORY = 3_000
"""Recorded calls of a server whose calls are counted."""


def used(session: Session) -> int:
    """How many recorded calls a server with a history of `HISTORY` has had, workers' calls included. Nothing can be recorded there afterwards."""
    for left in range(HISTORY + 1):
        try:
            session.revision("A")
        except HistoryFull:
            return HISTORY - left
    raise AssertionError("the history does not end")


GREETING = b'{"refused":"BadRequest"}\n'


@contextmanager
def answering(*replies: bytes) -> Iterator[int]:
    """A server that sends these bytes, one piece for each line that it reads, and then hangs up; gives its port.

    The first line that a client sends is its greeting; `GREETING` is the answer.
    """
    with socket.create_server(("127.0.0.1", 0)) as listener:
        port = listener.getsockname()[1]
        forget_secret(port)
        thread = threading.Thread(target=_answer, args=(listener, replies))
        thread.start()
        try:
            yield port
        finally:
            thread.join()


def _answer(listener: socket.socket, replies: tuple[bytes, ...]) -> None:
    connection, _ = listener.accept()
    with connection, connection.makefile("rb") as lines:
        for reply in replies:
            lines.readline()
            connection.sendall(reply)
        lines.readline()


def until(is_so: Callable[[], object], seconds: float = 30) -> None:
    """Waits until something is so."""
    end = time.monotonic() + seconds
    while not is_so():
        if time.monotonic() > end:
            raise AssertionError(f"it is not so after {seconds:g} s")
        time.sleep(0.005)


def free_port() -> int:
    """A port that nobody listens at."""
    with socket.create_server(("127.0.0.1", 0)) as listener:
        return listener.getsockname()[1]


def run(client: str, *words: object, folder: Path | None = None, **surroundings: str) -> subprocess.CompletedProcess[str]:
    """Runs one of the clients."""
    return subprocess.run(
        [str(CLIENTS / client), *map(str, words)],
        cwd=folder,
        env={**os.environ, **surroundings},
        capture_output=True,
        text=True,
        timeout=300,
    )


@contextmanager
def locked(folder: Path) -> Iterator[None]:
    """A folder that can't be read, not even by a user who may read all."""
    scan = os.scandir

    def refusing(path: str | Path) -> Iterator[os.DirEntry[str]]:
        if Path(path) == folder:
            raise PermissionError(errno.EACCES, os.strerror(errno.EACCES), str(path))
        return scan(path)

    with patch("os.scandir", refusing):
        yield


class InFolder(TestCase):
    """A test with a folder of its own."""

    def setUp(self) -> None:
        folder = tempfile.TemporaryDirectory()
        self.addCleanup(folder.cleanup)
        self.folder = Path(folder.name).resolve()

    def copy_conveyor(self) -> None:
        for file in CONVEYOR.glob("*.fb"):
            shutil.copy(file, self.folder)

    def write(self, name: str, content: str | bytes) -> Path:
        file = self.folder / name
        file.parent.mkdir(parents=True, exist_ok=True)
        file.write_bytes(content if isinstance(content, bytes) else content.encode())
        return file

    def edit(self, file: str, old: str, new: str) -> None:
        text = (self.folder / file).read_text()
        self.assertIn(old, text)
        self.write(file, text.replace(old, new))

    def program(self, body: str) -> Path:
        """A program in the place of the workbench."""
        file = self.write("workbench", f"#!{sys.executable}\nimport sys\n{body}\n")
        file.chmod(0o755)
        return file
