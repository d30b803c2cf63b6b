"""What is told of files: lines, and how many of each kind."""
from __future__ import annotations

from collections import Counter
from collections.abc import Callable, Iterator
from dataclasses import dataclass

LEFT_OUT, REPLACED, UNCHECKED, CLASH, RENAMED, NOTE = "left out", "replaced", "unchecked", "clash", "renamed", "note"
COUNTED = (LEFT_OUT, REPLACED, UNCHECKED, CLASH, RENAMED)
"""The kinds in the order of the last line. A clash has another plural."""
_FOR_STATUS = (LEFT_OUT, REPLACED, UNCHECKED, CLASH)
_LONGEST = 60


def cut(words: str, longest: int = _LONGEST) -> str:
    """Words of a file in one line, and not too many of them."""
    line = "".join(it if it.isprintable() else "\ufffd" for it in " ".join(words.split()))
    return line if len(line) <= longest else f"{line[: longest - 3]}..."


@dataclass
class _Message:
    line: int
    order: int
    kind: str
    words: str
    times: int = 1


class Report:
    """What is told of one file."""

    def __init__(self, file: str):
        self._file = file
        self._found: dict[tuple[str, str], _Message] = {}
        self.has_positions = False
        self.missing = 0

    def tell(self, kind: str, line: int, words: str, order: int = 0) -> None:
        """Notes a message; the same words of one file are one line. `order` is the line that it is sorted by, if that is another one."""
        message = self._found.setdefault((kind, words), _Message(line, order or line, kind, words, 0))
        message.times += 1

    def tell_once(self, kind: str, line: int, words: str) -> None:
        if (kind, words) not in self._found:
            self.tell(kind, line, words)

    def lines(self, quiet: bool) -> Iterator[str]:
        for it in sorted(self._found.values(), key=lambda it: it.order):
            if not quiet or it.kind != NOTE:
                times = f", {it.times} times" if it.times > 1 else ""
                yield f"{self._file}:{it.line}: {it.kind}: {it.words}{times}"

    def counts(self) -> Counter[str]:
        found: Counter[str] = Counter()
        for it in self._found.values():
            found[it.kind] += it.times
        return found


def summary(head: str, reports: list[Report], has_failed: bool = False) -> str:
    """The last line; `has_failed` if a file was not read or not written."""
    counts = sum((it.counts() for it in reports), Counter[str]())
    parts = [_counted(counts[kind], kind) for kind in COUNTED if counts[kind]]
    positions = "; positions are not kept" if any(it.has_positions for it in reports) else ""
    return f"{head}: {', '.join(parts) or ('not complete' if has_failed else 'all whole')}{positions}"


def _counted(number: int, kind: str) -> str:
    return f"{number:,} {kind}es" if kind == CLASH and number > 1 else f"{number:,} {kind}"


def is_whole(reports: list[Report]) -> bool:
    return not any(it.counts()[kind] for it in reports for kind in _FOR_STATUS)


def counted(number: int, one: str) -> str:
    return f"{number:,} {one}{'s' * (number != 1)}"


class Run:
    """What a run over files tells: `tell` gets what could not be read or written, `reports` have what is said of each file."""

    def __init__(self, tell: Callable[[str], object]):
        self._tell = tell
        self._has_failed = False
        self.reports: list[Report] = []

    def fail(self, words: str) -> None:
        self._has_failed = True
        self._tell(words)

    @property
    def has_failed(self) -> bool:
        return self._has_failed

    @property
    def status(self) -> int:
        return 2 if self._has_failed else 0 if is_whole(self.reports) else 1

    def outcome(self) -> str:
        """The first words of the last line."""
        raise NotImplementedError

    def remark(self) -> str:
        """What is behind the counts in the last line."""
        return ""

    def lines(self, quiet: bool) -> Iterator[str]:
        for report in self.reports:
            yield from report.lines(quiet)
        if not quiet:
            last, remark = summary(self.outcome(), self.reports, self._has_failed), self.remark()
            yield last if not remark else f"{last.removesuffix(': all whole')}; {remark}"
