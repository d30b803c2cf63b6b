"""What is between clients and a host: it passes all on, counts what the host records for them, and can be cut, as a network that fails."""
from __future__ import annotations

import asyncio
import json
import socket
import threading
from collections import Counter, deque
from collections.abc import Callable, Coroutine, Iterator, Mapping
from contextlib import contextmanager, suppress
from typing import Any, Self

from support import free_port

from bench61499 import Status

PIECE = 65_536
PATIENCE = 20.0
READS = {"status", "units", "text", "peek", "watch"}
BEFORE_CALLS = {"BadRequest", "BadName", "TextTooLong", "NoSuchJob", "Behind", "HistoryFull"}
"""Refusals of requests that are no recorded calls."""
NO_REVISION = 2**64 - 1
"""A commit with this base is refused whatever is there: it asks for a revision."""


@contextmanager
def false_host(host: int, false_words: Mapping[bytes, bytes]) -> Iterator[int]:
    """A server that answers what a host without a secret answers to it, but for some words; gives its port."""

    def serve(client: socket.socket) -> None:
        with client, socket.create_connection(("127.0.0.1", host)) as true, suppress(OSError):
            requests, replies = client.makefile("rb"), true.makefile("rb")
            for line in requests:
                true.sendall(line)
                reply = replies.readline()
                for words, false in false_words.items():
                    reply = reply.replace(words, false)
                client.sendall(reply)

    def accept() -> None:
        with suppress(OSError):
            while True:
                threading.Thread(target=serve, args=(listener.accept()[0],), daemon=True).start()

    with socket.create_server(("127.0.0.1", 0)) as listener:
        threading.Thread(target=accept, daemon=True).start()
        yield listener.getsockname()[1]


class Tap:
    """A port at which clients reach the host of another port, without a secret. It works on a thread of its own, from `with` to its end.

    `commits` counts those that the host has recorded, by whether they were good; `others` all else that was asked and is no read, by its op. A client that is killed
    is followed to the end of what it has sent, so all that the host has read is counted.
    """

    def __init__(self, host: int):
        self.port, self._host = free_port(), host
        self.commits: Counter[bool] = Counter()
        self.others: Counter[str] = Counter()
        self._open: set[asyncio.StreamWriter] = set()
        self._server: asyncio.Server | None = None
        self._loop = asyncio.new_event_loop()
        self._thread = threading.Thread(target=self._loop.run_forever, daemon=True)

    def __enter__(self) -> Self:
        self._thread.start()
        self.mend()
        return self

    def __exit__(self, *_: object) -> None:
        self.cut()
        self._run(self._end())
        self._loop.call_soon_threadsafe(self._loop.stop)
        self._thread.join(PATIENCE)
        self._loop.close()

    def cut(self) -> None:
        """Ends all connections in the middle, and lets nobody connect."""
        self._run(self._cut())

    def mend(self) -> None:
        """Lets clients connect."""
        self._run(self._listen())

    def unexplained(self, status: Status) -> str:
        """What is there besides reads, commits, and the calls of workers, which take each job and deliver it; empty if nothing is. The host has to be at rest, and its clients all here."""
        workers = status.calls - self.commits.total() - self.others.total()
        if self.others or status.commits != self.commits[True] or workers < 0 or workers % 2:
            return f"{dict(self.others)} was asked; {self.commits[True]} of {status.commits} good commits; {workers} calls of workers"
        return ""

    def _run(self, what: Coroutine[Any, Any, None]) -> None:
        asyncio.run_coroutine_threadsafe(what, self._loop).result(PATIENCE)

    async def _listen(self) -> None:
        self._server = await asyncio.start_server(self._accept, "127.0.0.1", self.port)

    async def _cut(self) -> None:
        if self._server:
            self._server.close()
        for it in list(self._open):
            it.transport.abort()

    async def _end(self) -> None:
        """Waits for what still passes something on."""
        if tasks := asyncio.all_tasks() - {asyncio.current_task()}:
            await asyncio.wait(tasks, timeout=PATIENCE / 2)

    async def _accept(self, from_client: asyncio.StreamReader, to_client: asyncio.StreamWriter) -> None:
        waiting: deque[str] = deque()  # The ops that have no reply yet.
        with suppress(OSError):
            from_host, to_host = await asyncio.open_connection("127.0.0.1", self._host)
            its = {to_client, to_host}
            self._open |= its
            await asyncio.gather(self._pass(from_client, to_host, self._request, waiting), self._pass(from_host, to_client, self._reply, waiting))
            self._open -= its
            to_host.close()
        to_client.close()

    async def _pass(
        self, reader: asyncio.StreamReader, writer: asyncio.StreamWriter, count: Callable[[bytes, deque[str]], None], waiting: deque[str],
    ) -> None:
        """Passes on one direction, to its end. What nobody takes any more is counted still."""
        rest = b""
        with suppress(OSError):
            while piece := await reader.read(PIECE):
                *lines, rest = (rest + piece).split(b"\n")
                for line in lines:
                    count(line, waiting)
                with suppress(OSError):
                    if not writer.is_closing():
                        writer.write(piece)
                        await writer.drain()
        with suppress(OSError):
            writer.write_eof()

    def _request(self, line: bytes, waiting: deque[str]) -> None:
        if line.strip():
            request = json.loads(line)
            is_question = any(it.get("base") == NO_REVISION for it in request.get("changes", ()))
            waiting.append("question" if is_question else request["op"])

    def _reply(self, line: bytes, waiting: deque[str]) -> None:
        op = waiting.popleft() if waiting else "status"  # A host without a free session replies before it is asked.
        if op in READS or (refused := json.loads(line).get("refused")) in BEFORE_CALLS:
            return
        if op == "commit":
            self.commits[refused is None] += 1
        else:
            self.others[op] += 1
