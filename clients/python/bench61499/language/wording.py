"""Words of sentences for users: names that may have been meant, and words of a text in one line."""
from __future__ import annotations

import re
from collections.abc import Iterable, Sequence
from difflib import get_close_matches
from heapq import nlargest

_BLANKS = re.compile("[ \t\r\n]+")
"""Those of the language: a form feed or a no-break space is none."""
_LONGEST = 60
_COMPARED = 100
"""Names that are compared in full with a wrong one."""


class Names:
    """Names, and which of them a wrong one is near to. It looks for the first fifty wrong ones: more are no slips of the pen."""

    def __init__(self, names: Iterable[str] = (), nearness: float = 0.8):
        self._names = {name.upper(): name for name in names}
        self._nearness = nearness
        self._known: dict[str, str | None] = {}

    def __contains__(self, name: object) -> bool:
        return isinstance(name, str) and name.upper() in self._names

    def near(self, words: str) -> str | None:
        """The nearest name, as it is written, if any is near."""
        if words not in self._known and len(self._known) < 50:
            near = get_close_matches(words.upper(), self._alike(words.upper()), 1, self._nearness)
            self._known[words] = self._names[near[0]] if near else None
        return self._known.get(words)

    def _alike(self, words: str) -> Iterable[str]:
        """All names where they are few; of many those that begin and end most like the words, as the full comparison takes long."""
        if len(self._names) <= _COMPARED:
            return self._names
        return nlargest(_COMPARED, self._names, key=lambda name: _common(words, name) + _common(words[::-1], name[::-1]))


def asked(name: str | None) -> str:
    """Asks whether a name was meant, where there is one."""
    return f"; did you mean {name}?" if name else ""


def quoted(words: str) -> str:
    """Signs in quotation marks, which are hard to see in a sentence; words as they are."""
    return words if any(it.isalnum() for it in words) else f'"{words}"'


def one_line(words: str) -> str:
    """Words in a line of their own: cut where they are many, and what can't be seen by its number."""
    joined = "".join(it if it.isprintable() else f"U+{ord(it):04X}" for it in _BLANKS.sub(" ", words).strip(" "))
    return joined if len(joined) <= _LONGEST else f"{joined[:_LONGEST]}…"


def listed(words: Sequence[str], last: str = "or") -> str:
    return f"{', '.join(words[:-1])} {last} {words[-1]}" if len(words) > 1 else "".join(words)


def counted(number: int, what: str) -> str:
    return f"{number:,} {what}{'' if number == 1 else 's'}"


def _common(one: str, other: str) -> int:
    """How many characters two words have in common from their first on."""
    return next((at for at, (left, right) in enumerate(zip(one, other)) if left != right), min(len(one), len(other)))
