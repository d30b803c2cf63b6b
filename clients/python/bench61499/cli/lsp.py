"""A language server for editors, for units of IEC 61499 (LSP 3.17, over standard input and output)."""
from __future__ import annotations

import argparse
import queue
import sys
import threading
from collections.abc import Callable
from typing import BinaryIO

from bench61499.cli.command import add_workbench, open_once, program
from bench61499.cli.version import add_version
from bench61499.lsp.rpc import PARSE_ERROR, BadMessage, Message, failure, read_message, write_message
from bench61499.lsp.server import Server


SOON = 0.0005
"""Seconds after which a thread that works gives way: each file that is read otherwise waits five thousandths for what the workbench is told."""


class Woken:
    """What comes in when the workbench has done something."""


Inbox = queue.SimpleQueue[Message | BadMessage | Woken | None]


def read_all(inbox: Inbox, receive: Callable[[Message], bool]) -> None:
    """Puts what the editor sends into the inbox, None at the end, but for what `receive` tells to be done."""
    # A reader of its own: the program may end while this thread waits in it.
    reader = open(sys.stdin.fileno(), "rb", closefd=False)
    try:
        while (message := _next_message(reader)) is not None:
            if isinstance(message, BadMessage) or receive(message):
                inbox.put(message)
    finally:
        inbox.put(None)  # Whatever ends this thread ends the server: nothing more can reach it.


def _next_message(reader: BinaryIO) -> Message | BadMessage | None:
    try:
        return read_message(reader)
    except BadMessage as error:
        return error


class Sender:
    """Sends messages to the editor, from any thread, one after the other."""

    def __init__(self) -> None:
        self._lock = threading.Lock()

    def send(self, message: Message) -> None:
        with self._lock:
            write_message(sys.stdout.buffer, message)


@program
def main() -> int:
    reader = argparse.ArgumentParser(prog="lsp", description="A language server for units of IEC 61499, over standard input and output.")
    add_version(reader)
    add_workbench(reader)
    options = reader.parse_args()
    inbox: Inbox = queue.SimpleQueue()
    sender = Sender()
    server = Server(lambda: open_once(options), bool(options.connect), sender.send, lambda: inbox.put(Woken()))
    sys.setswitchinterval(SOON)
    threading.Thread(target=read_all, args=(inbox, server.receive), daemon=True).start()
    while server.status is None:
        try:
            message = inbox.get(timeout=server.patience())
        except queue.Empty:
            server.step()
            continue
        if message is None:
            server.close()
            return 1
        if isinstance(message, Woken):
            server.step()
        elif isinstance(message, BadMessage):
            sender.send({"id": None, **failure(PARSE_ERROR, str(message))})
        else:
            server.handle(message)
    return server.status
