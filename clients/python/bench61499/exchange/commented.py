"""The tokens of a text with its comments."""
from __future__ import annotations

from bisect import bisect_right
from collections.abc import Callable

from bench61499.exchange.forms import Broken, Cursor
from bench61499.language.tokens import Token, pieces, spelled


class CommentedCursor(Cursor):
    """The tokens of a text, and which declaration each comment belongs to."""

    def __init__(self, text: str):
        self._encoded = text.encode()
        self._pieces = list(pieces(text))
        self._places = [at for at, it in enumerate(self._pieces) if it.kind != "comment"]
        self._claimed: set[int] = set()
        self._lines = [at for at, byte in enumerate(self._encoded) if byte == 10]
        super().__init__([self._pieces[at] for at in self._places])

    def line(self, token: int) -> int:
        place = self.tokens[token].start if token < len(self.tokens) else len(self._encoded)
        return bisect_right(self._lines, place - 1) + 1

    def spelled_from(self, begin: int) -> str:
        return spelled(self.tokens[begin : self.at])

    def unclaimed(self) -> list[tuple[int, str]]:
        """The comments that belong to no declaration."""
        its = [it for at, it in enumerate(self._pieces) if it.kind == "comment" and at not in self._claimed]
        return [(bisect_right(self._lines, it.start - 1) + 1, f"the comment {words_of(it)}") for it in its]

    def comment(self, begin: int) -> str:
        """The comment of a declaration from a token to the last one that was read: in lines before it, and behind it in its line."""
        before, behind = self.comments_before(begin), self.comments_behind()
        return "\n".join(filter(None, [*before, *behind]))

    def comments_before(self, begin: int) -> list[str]:
        first = last = self._places[begin]
        while first and self._pieces[first - 1].kind == "comment" and self._begins_line(first - 1):
            first -= 1
        return self._claim(first, last) if self._begins_line(last) else []

    def comments_behind(self) -> list[str]:
        """The comments behind the last token that was read, in its line."""
        first = last = self._places[self.at - 1] + 1
        while last < len(self._pieces) and self._pieces[last].kind == "comment" and not self._begins_line(last):
            last += 1
        return self._claim(first, last)

    def _claim(self, first: int, last: int) -> list[str]:
        its = range(first, last)
        new = [at for at in its if at not in self._claimed]
        self._claimed.update(its)
        return [words_of(self._pieces[at]) for at in new]

    def _begins_line(self, at: int) -> bool:
        between = self._encoded[self._pieces[at - 1].end if at else 0 : self._pieces[at].start]
        return at == 0 or b"\n" in between or b"\r" in between

    def check_comments(self) -> None:
        """Raises `Broken` for a comment that is never closed."""
        for at, it in enumerate(self.tokens):
            if it.kind == "unclosed":
                raise Broken(at)

    def comments_at_front(self) -> list[str]:
        return self._claim(0, self._places[0])

    def comments_at_end(self, is_wanted: Callable[[str], bool]) -> list[str]:
        """Comments behind the last token."""
        places = [at for at in range(self._places[-1] + 1, len(self._pieces)) if is_wanted(words_of(self._pieces[at]))]
        return [words for at in places for words in self._claim(at, at + 1)]

    def between(self, before: int, behind: int) -> str:
        """What is between two tokens; its comments are part of it."""
        self._claimed.update(range(self._places[before] + 1, self._places[behind]))
        words = self._encoded[self.tokens[before].end : self.tokens[behind].start].decode()
        return words.replace("\r\n", "\n")


def words_of(comment: Token) -> str:
    """The words of a comment."""
    words = comment.words[2:] if comment.words.startswith("//") else comment.words[2:-2]
    return words.replace("\r\n", "\n").strip()
