"""Which units belong to which system, as the page lists them."""
from __future__ import annotations

import threading

from bench61499.board.state import Board
from bench61499.language.mentions import Mentions
from bench61499.language.tokens import declared_kind


class Systems:
    """Reads each text once after it has changed. A comment that has the name of a unit counts as if it mentioned this."""

    def __init__(self) -> None:
        self._mentions = Mentions()
        self._lock = threading.Lock()

    def view(self, board: Board) -> dict[str, list[str]]:
        """The systems with the units that each leads to, itself included."""
        texts = board.texts()
        with self._lock:
            return {it: sorted(self._mentions.below(it, texts)) for it in sorted(texts) if declared_kind(texts[it]) == "SYSTEM"}
