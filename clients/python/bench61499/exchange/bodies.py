"""Conditions, algorithms and services of a unit as XML."""
from __future__ import annotations

import re
from collections.abc import Iterator
from textwrap import dedent

from bench61499.exchange import names
from bench61499.exchange.algorithms import unwrapped
from bench61499.exchange.conditions import NO_CONDITION, Chart, condition
from bench61499.exchange.exchanged import FULL, Algorithm, Transition, Unit, comment
from bench61499.exchange.guards import guards_of, with_guards
from bench61499.exchange.outgoing import MODERN, Outgoing
from bench61499.exchange.report import REPLACED, cut
from bench61499.exchange.xmltext import Tag
from bench61499.language.tokens import Token, pieces, spelled, tokens

_RUNG = re.compile(r"(.*?) := (.*?);(?: \(\* ((?:(?!\*\)).)*) \*\))?")
_CR_IN_COMMENT = re.compile(r"//[^\n]*")


def chart_of(unit: Unit, types: dict[str, Unit]) -> Chart:
    """What the conditions of a unit are of, as `import` sees it."""
    adapters = {it.name.upper(): types.get(it.type.upper()) for its in unit.adapters.values() for it in its}
    known = [(name, it) for name, it in adapters.items() if it and it.kind == "ADAPTER"]
    return Chart(
        frozenset(it.name.upper() for it in unit.events["EVENT_INPUT"]),
        frozenset(it.name.upper() for its in unit.variables.values() for it in its),
        frozenset(adapters),
        frozenset(f"{name}.{event.name.upper()}" for name, it in known for its in it.events.values() for event in its),
        frozenset(f"{name}.{data.name.upper()}" for name, it in known for its in it.variables.values() for data in its),
    )


def condition_words(out: Outgoing, unit: Unit, way: Transition) -> tuple[str, str]:
    """A condition as a file has it, and its comment: the words that it is in the place of, its own form if that is read as the same one, and with its guard
    in brackets if not."""
    chart = chart_of(unit, out.types)
    return _replaced(way, chart) or (with_guards(_own_words(out, way, chart), guards_of(unit)), way.comment)


def _replaced(way: Transition, chart: Chart) -> tuple[str, str] | None:
    """The words of a file that a condition is in the place of, which are the last lines of its comment, and the lines before them."""
    lines = way.comment.split("\n") if way.comment else []
    for at in reversed(range(len(lines))):
        found = condition("\n".join(lines[at:]), chart)
        if found.why and found.text == way.condition:
            return "\n".join(lines[at:]), "\n".join(lines[:at])
    is_absent = way.condition == NO_CONDITION and NO_CONDITION not in chart.events
    return ("", way.comment) if is_absent else None


def _own_words(out: Outgoing, way: Transition, chart: Chart) -> str:
    its = list(tokens(way.condition))
    tries = [(it, _restored(out, it)) for it in (_close(its), _bracketed(its)) if it]
    fitting = (it for it in tries if not _differs(condition(it[1], chart).text, its))
    words, found = next(fitting, tries[-1])
    if _operators(words) != _operators(found):
        out.tell(REPLACED, way.line, f"a name in the condition {cut(words)}, by a word of conditions in {cut(found)}")
    return found


def _operators(words: str) -> int:
    return sum(it.upper in names.OPERATOR_WORDS for it in tokens(words))


def _restored(out: Outgoing, words: str) -> str:
    return names.replace_words(words, names.OPERATOR_WORDS, out.word)


def _differs(text: str, its: list[Token]) -> bool:
    return [it.words for it in tokens(text)] != [it.words for it in its]


def _size(its: list[Token]) -> int:
    """The number of tokens of the event."""
    if its[0].kind != "word":
        return 0
    return 3 if len(its) > 1 and its[1].words == "." else 1


def _close(its: list[Token]) -> str:
    """A condition as it is, without a blank before the bracket of its guard."""
    size = _size(its)
    event, rest = spelled(its[:size]), spelled(its[size:])
    return f"{event}{rest}" if rest.startswith("[") else f"{event} {rest}".strip()


def _bracketed(its: list[Token]) -> str:
    """`E & g` as `E[g]`."""
    size = _size(its)
    return f"{spelled(its[:size])}[{spelled(its[size + 1 :])}]" if size and len(its) > size and its[size].upper in ("&", "AND") else ""


def algorithm(out: Outgoing, it: Algorithm) -> Tag:
    name = out.name(it.name)
    tag = Tag("Algorithm", {"Name": name, "Comment": it.comment})
    body = _body(dedent(it.body).strip("\n").rstrip(" \t\n"))
    language = it.language.upper()
    if language in ("ST", FULL):
        return tag.add(_structured(out, name, _names_back(out, it, body) if language == "ST" else body))
    rungs = _rungs(body) if language == "LD" else None
    if rungs:
        return tag.add(Tag("LD", {}, rungs))
    attributes = {"Language": out.name(it.language)}
    if out.tool == MODERN:
        return tag.add(Tag("Other", attributes, body=body))
    return tag.add(Tag("Other", {**attributes, "Text": body}, needed=("Text",)))


def _body(body: str) -> str:
    """A body without CR: in a comment up to the end of its line it becomes a blank, as an end of a line would end the comment."""
    return _CR_IN_COMMENT.sub(lambda it: it[0].replace("\r", " "), body).replace("\r", "\n") if "\r" in body else body


def _names_back(out: Outgoing, it: Algorithm, body: str) -> str:
    def back(name: str) -> str:
        new = out.word(name)
        if new.upper() in names.STATEMENT_WORDS:
            out.tell(REPLACED, it.line, f"the name {name} in the algorithm {it.name} by {new}, a word of ST")
        return new

    return names.replace_words(body, names.STATEMENT_WORDS, back)


def _structured(out: Outgoing, name: str, body: str) -> Tag:
    wrapped = f"ALGORITHM {name}\n{body}\nEND_ALGORITHM"
    if out.tool == MODERN and tuple(map(str.strip, unwrapped(wrapped))) == (name, body.strip()):
        return Tag("ST", body=wrapped)
    return Tag("ST", {"Text": body}, needed=("Text",))


def _rungs(body: str) -> list[Tag] | None:
    """The rungs of a ladder diagram; None if a line is no rung."""
    found = [_RUNG.fullmatch(line.strip()) for line in body.split("\n")]
    if not all(found):
        return None
    tags = [Tag("Rung", {"Output": it[1], "Expression": it[2], "Comment": it[3] or ""}, needed=("Output", "Expression")) for it in found if it]
    again = [f"{it[1]} := {it[2]};" + (f" {comment(it[3])}" if it[3] else "") for it in found if it]
    return tags if [it.words for it in pieces("\n".join(again))] == [it.words for it in pieces(body)] else None


def primitives(transaction: str) -> Iterator[Tag]:
    """The primitives of `Left.A(X) -> Right.B()`."""
    depth, begin, parts = 0, 0, []
    its = list(tokens(transaction))
    for at, it in enumerate(its):
        depth += (it.words == "(") - (it.words == ")")
        if it.words == "->" and not depth:
            parts.append(its[begin:at])
            begin = at + 1
    for at, part in enumerate([*parts, its[begin:]]):
        if part:
            yield _primitive("OutputPrimitive" if at else "InputPrimitive", part)


def _primitive(name: str, its: list[Token]) -> Tag:
    opened = next(at for at, it in enumerate(its) if it.words == "(")
    event = "".join(it.words for it in its[2:opened])
    return Tag(name, {"Interface": its[0].words, "Event": event, "Parameters": spelled(its[opened + 1 : -1])}, needed=("Interface", "Event"))
