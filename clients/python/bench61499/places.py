"""Places in texts: bytes of UTF-8, and lines and columns."""
from __future__ import annotations

import re
from array import array
from bisect import bisect_right


class Places:
    """Byte spans of one text as lines and columns, and back.

    Lines end at LF, CR LF or a CR alone, as in editors. Places are bytes of the text's UTF-8, from 0; lines and columns count from 1, columns
    in characters. A place inside a character is that character's. The end of the text is a place too.
    """

    _LINE_END = re.compile(rb"\r\n|\n|\r")

    def __init__(self, text: str):
        self.encoded = text.encode()
        self.starts = array("L", [0, *(it.end() for it in self._LINE_END.finditer(self.encoded))])
        """Where each line begins."""
        self.is_plain = self.encoded.isascii()
        """Whether each character is one byte."""

    def line_count(self) -> int:
        """The number of lines; a text that ends with a line end has an empty last one."""
        return len(self.starts)

    def line(self, number: int) -> str:
        """The text of a line, without its line end. Raises `ValueError` where there is no such line."""
        if not 1 <= number <= len(self.starts):
            raise ValueError(f"no line {number} in a text of {len(self.starts)}")
        start = self.starts[number - 1]
        end = self._LINE_END.search(self.encoded, start)
        return self.encoded[start : end.start() if end else None].decode()

    def line_column(self, place: int) -> tuple[int, int]:
        """The line and the column of a place. Raises `ValueError` where it is not in the text."""
        if not 0 <= place <= len(self.encoded):
            raise ValueError(f"no byte {place} in a text of {len(self.encoded)}")
        line = bisect_right(self.starts, place)
        start = self.starts[line - 1]
        before = place - start if self.is_plain else len(self.encoded[start:place].decode(errors="ignore"))
        return line, before + 1

    def place(self, line: int, column: int) -> int:
        """The place of a line and a column; the column behind the last character is one too. Raises `ValueError` for others."""
        text = self.line(line)
        if not 1 <= column <= len(text) + 1:
            raise ValueError(f"no column {column} in line {line}, which has {len(text)} characters")
        return self.starts[line - 1] + len(text[: column - 1].encode())

    def words(self, start: int, end: int) -> str:
        """What stands at a span."""
        return self.encoded[start:end].decode(errors="replace")
