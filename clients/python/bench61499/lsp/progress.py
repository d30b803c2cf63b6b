"""How far the reading of a large folder is, as an editor shows it."""
from __future__ import annotations

from typing import Any

from bench61499.lsp.asking import Asking
from bench61499.lsp.rpc import Message

_LEAST = 500
"""Units that are still to be read for which it is shown."""
_TOKEN = "bench61499-reading"


class Reading:
    """Shows it from the moment on at which many units wait to be read, each percent once, until all are."""

    def __init__(self, asking: Asking):
        self._asking = asking
        self._percent = -1
        self._is_made = self._is_over = False

    def step(self, read: int, there: int, is_read: bool) -> None:
        """Takes how many units are read, of how many, and whether that is all."""
        if self._is_over or not self._asking.can("window", "workDoneProgress"):
            return
        if self._percent < 0 and there - read >= _LEAST:
            self._percent = 0
            self._asking.ask("window/workDoneProgress/create", {"token": _TOKEN}, self._made)
        if not self._is_made:
            return
        percent = 100 * read // max(1, there)
        if is_read:
            self._is_over = True
            self._asking.send(_told({"kind": "end", "message": f"{read:,} units"}))
        elif percent > self._percent:
            self._percent = percent
            self._asking.send(_told({"kind": "report", "message": f"{read:,} of {there:,} units", "percentage": percent}))

    def _made(self, _: Any, error: str | None) -> None:
        """The editor has a place for it, or has none."""
        self._is_over, self._is_made = bool(error), not error
        if not error:
            self._asking.send(_told({"kind": "begin", "title": "Reading units", "percentage": 0, "cancellable": False}))


def _told(value: dict[str, Any]) -> Message:
    return {"method": "$/progress", "params": {"token": _TOKEN, "value": value}}
