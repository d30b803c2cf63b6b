"""What the page shows of a unit, a network and a plan, as JSON values."""
from __future__ import annotations

from collections.abc import Iterator, Mapping
from dataclasses import dataclass
from functools import cache
from typing import Any

from bench61499 import (
    Blocked, Fault, Faulty, Flat, Link, Misplaced, Places, Plan, Recursive, Stopped, TooLarge,
)
from bench61499.board.state import Answer, Board, NoEntry, NotAnswered, Row, Value
from bench61499.language.as_declared import AsDeclared
from bench61499.language.declarations import Unit
from bench61499.language.explain import Explainer, Names
from bench61499.language.fitting import fits as fits_in
from bench61499.language.levels import AUTO
from bench61499.language.picture import Picture
from bench61499.language.reader import read
from bench61499.language.skipped import skipped
from bench61499.language.texts import Texts
from bench61499.language.tokens import RESERVED, Token, declared_kind, tokens

FAULTS_SHOWN = 500
"""Faults of one unit that are shown with their explanations."""

View = dict[str, Any]


# A unit


def unit_view(board: Board, row: Row) -> View:
    """A unit with its text in lines, each of pieces, and its faults."""
    text = row.source.text if row.source else None
    faults = (row.faults or ())[:FAULTS_SHOWN]
    bare = [{"code": it.code, "start": it.start, "end": it.end} for it in faults]
    view = {"unit": row.unit, "revision": row.revision, "state": row.state, "count": len(row.faults or ())}
    if text is None:
        return {**view, "lines": None, "faults": bare, "note": _note(board, row, False)}
    fits = not board.shared or fits_in(text, faults)
    rows = board.rows()
    shown = _Shown(text, faults if fits else (), Names(it.unit for it in rows.values() if it.revision), _texts(rows))
    return {**view, "lines": shown.lines(), "faults": shown.faults() if fits else bare, "note": " ".join(filter(None, [_note(board, row, fits), _unread(text)]))}


def _unread(text: str) -> str:
    """Which algorithms of a text are not checked."""
    its = [it.name for it in skipped(text)]
    return f"Not checked, as the workbench does not read their language: {', '.join(its)}." if its else ""


def _texts(rows: Mapping[str, Row]) -> Texts:
    """The units of the board with texts, read as far as they are needed; their kinds are known."""

    @cache
    def unit(name: str) -> Unit | None:
        row = rows.get(name)
        return read(row.source.text) if row and row.source else None

    return Texts(unit, lambda kind: (it.source.name or it.unit for it in rows.values() if it.source and it.source.kind == kind))


def _note(board: Board, row: Row, fits: bool) -> str:
    """What is to be known of the text that is shown, in one sentence."""
    if not board.shared:
        return ""
    if board.reads:
        return "" if row.source or not row.revision else "Its text is being read."
    if not row.source:
        return "The workbench gives no texts back, and no file of this unit was named with --files, so its text can't be shown."
    if not fits:
        return "The workbench has another text than this file: its faults do not fit here, and are told by their bytes."
    if row.revision and row.source.revision != row.revision:
        return f"This is the text of the file as it was read before revision {row.revision} came, and may be another one."
    return "This is the text of the file. The workbench gives no texts back, so whether it has this one is not known."


@dataclass(frozen=True)
class _Span:
    start: int
    end: int


class _Shown:
    """A text in pieces: cut where a line, a word of the language, a comment or a fault begins or ends."""

    def __init__(self, text: str, faults: tuple[Fault, ...], names: Names, texts: Texts):
        self._places = Places(text)
        self._faults = faults
        self._explainer = Explainer(text if faults else "", names, texts)
        self._spans = [_Span(*self._explainer.span(it)) for it in faults]
        self._classes = dict(_changes(_classes(list(tokens(text)), self._places.encoded)))

    def faults(self) -> list[View]:
        return [self._fault(fault, span) for fault, span in zip(self._faults, self._spans)]

    def _fault(self, fault: Fault, span: _Span) -> View:
        line, column = self._places.line_column(span.start)
        return {"code": fault.code, "line": line, "column": column, "explanation": self._explainer.explain(fault)}

    def lines(self) -> list[list[View | str]]:
        """The lines, each a list of pieces: words alone, or with a class and the numbers of the faults at them.

        What is behind the last line end is left out where it is empty.
        """
        content = self._places.encoded
        stops = sorted({0, len(content), *(it for span in self._spans for it in (span.start, span.end)), *self._classes})
        starts = sorted(range(len(self._spans)), key=lambda it: self._spans[it].start)
        lines: list[list[View | str]] = [[]]
        present: list[int] = []
        kind = ""
        for start, end in zip(stops, stops[1:]):
            kind = self._classes.get(start, kind)
            while starts and self._spans[starts[0]].start <= start:
                present.append(starts.pop(0))
            present = [it for it in present if self._spans[it].end > start]
            self._add(lines, content[start:end].decode(errors="replace"), kind, present)
        return lines[:-1] if len(lines) > 1 and not lines[-1] else lines

    @staticmethod
    def _add(lines: list[list[View | str]], words: str, kind: str, faults: list[int]) -> None:
        """Adds words, which may go over several lines, to the last line and new ones."""
        first, *more = words.replace("\r\n", "\n").replace("\r", "\n").split("\n")
        for at, part in enumerate([first, *more]):
            if at:
                lines.append([])
            if kind or faults:
                lines[-1] += [{"words": part, "kind": kind, "faults": list(faults)}] * bool(part)
            elif lines[-1] and isinstance(lines[-1][-1], str):
                lines[-1][-1] += part
            else:
                lines[-1] += [part] * bool(part)


def _classes(of: list[Token], content: bytes) -> Iterator[tuple[int, str]]:
    """Where what is shown in one way begins: words of the language, constants, comments, and all else."""
    end = 0
    for token in of:
        if token.start > end:
            yield end, _gap(content[end : token.start])
        yield token.start, _class(token)
        end = token.end
    if end < len(content):
        yield end, _gap(content[end:])


def _changes(classes: Iterator[tuple[int, str]]) -> Iterator[tuple[int, str]]:
    """The places where something else begins."""
    before = ""
    for place, kind in classes:
        if kind != before:
            yield place, kind
        before = kind


def _gap(between: bytes) -> str:
    """What stands between two tokens: blanks, or comments too."""
    return "comment" if between.strip() else ""


def _class(token: Token) -> str:
    if token.kind in ("string", "number", "typed"):
        return "constant"
    if token.kind == "unclosed":
        return "comment"
    return "keyword" if token.kind == "word" and token.upper in RESERVED else ""


# A network


def net_view(board: Board, unit: str, net: Answer, deploy: Answer, aspect: float, opened: str = AUTO) -> View:
    """The network of a unit as a picture, for a window with this ratio of width to height and with these subapplications open, or why there is none.

    It is not shown before it is known by which resources it is to be drawn.
    """
    plan = deploy.value if isinstance(deploy.value, (Plan, Faulty)) else None
    if isinstance(net.value, Flat) and deploy.value:
        picture = Picture(unit, board.texts(), net.value, plan, aspect, opened, AsDeclared(_texts(board.rows()), unit)).view()
        return {"unit": unit, "state": "flat", "current": net.current, "serial": max(net.serial, deploy.serial), **picture, "misplaced": _misplaced(plan)}
    return {"unit": unit, "current": net.current, "serial": max(net.serial, deploy.serial), **_no_net(board, net.value)}


def _no_net(board: Board, net: Value | None) -> View:
    match net:
        case Blocked(units):
            rows = board.rows()
            missing = [it for it in units if it not in rows or not rows[it].revision]
            return {"state": "blocked", "missing": missing, "faulty": [it for it in units if it not in missing]}
        case Recursive(units):
            return {"state": "recursive", "units": list(units)}
        case TooLarge():
            return {"state": "too_large"}
        case NoEntry():
            return {"state": "none"}
        case NotAnswered(why):
            return {"state": "refused", "why": why}
    return {"state": "pending"}


# A plan


def plan_view(board: Board, unit: str, deploy: Answer) -> View:
    """The plan of a system by its resources, or why there is none."""
    view = {"unit": unit, "current": deploy.current, "serial": deploy.serial}
    match deploy.value:
        case Plan(cuts, resources):
            names = AsDeclared(_texts(board.rows()), unit)
            lists = [{"name": names.resource(it.name), "commands": list(names.commands(it.commands))} for it in resources]
            return {**view, "state": "plan", "cuts": [_link(names.link(it)) for it in cuts], "resources": lists}
        case Faulty():
            return {**view, "state": "faulty", "misplaced": _misplaced(deploy.value)}
        case Stopped(net):
            return {**view, **_no_net(board, net)}
    return {**view, **_no_net(board, deploy.value)}


def _link(link: Link) -> str:
    return f"{link.sort} {link.source} -> {link.destination}"


def _misplaced(deploy: Plan | Faulty | None) -> list[list[str]]:
    its: tuple[Misplaced, ...] = deploy.misplaced if isinstance(deploy, Faulty) else ()
    return [[it.reason, it.path] for it in its]


# An instance


def instance_view(texts: Mapping[str, str], unit: str, path: str) -> View | None:
    """Where the block at a path in the network of a unit is declared: the unit and the line; None where a text on the way is not known."""
    names = path.split(".")
    if unit in texts and declared_kind(texts[unit]) == "SYSTEM":
        application, names = names[0], names[1:]
    else:
        application = ""
    for at, name in enumerate(names):
        found = _instances(texts[unit]).get((application, name)) if unit in texts else None
        if not found:
            return None
        token, type_name = found
        if at == len(names) - 1:
            return {"unit": unit, "line": Places(texts[unit]).line_column(token.start)[0]}
        unit, application = type_name, ""
    return None


def _instances(text: str) -> dict[tuple[str, str], tuple[Token, str]]:
    """The instances of a text by application, which is empty outside of systems, and name: where the name stands, and the type."""
    found: dict[tuple[str, str], tuple[Token, str]] = {}
    its = list(tokens(text))
    section = application = ""
    for before, token, after in zip(its, its[1:], its[2:]):
        if before.upper == "APPLICATION":
            application = token.upper
        if before.upper in ("FBS", "SUBAPPS", "END_FBS", "END_SUBAPPS"):
            section = before.upper
        if section in ("FBS", "SUBAPPS") and token.words == ":" and before.kind == after.kind == "word":
            found.setdefault((application, before.upper), (before, after.upper))
    return found
