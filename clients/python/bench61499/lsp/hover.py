"""What is told of a name under the cursor, in plain text."""
from __future__ import annotations

from collections.abc import Iterator

from bench61499.language.declarations import (
    ALGORITHM, APPLICATION, DEVICE, FIELD, INSTANCE, INTERFACE, KINDS, LOCAL, LOCALS, STATE, TYPE, VARIABLE, Declaration, Key, Unit, is_elementary,
    type_of_data,
)
from bench61499.language.plant import Plant, Text
from bench61499.language.tokens import Token, pieces

WHAT = {
    **dict(zip(KINDS, ("function block", "adapter", "subapplication", "system", "structure"))),
    "EVENT_INPUT": "event input",
    "EVENT_OUTPUT": "event output",
    "VAR_INPUT": "data input",
    "VAR_OUTPUT": "data output",
    "VAR": "internal variable",
    LOCALS: "variable of the algorithm",
    "STRUCT": "field",
    "PLUGS": "plug",
    "SOCKETS": "socket",
    "FBS": "block instance",
    "SUBAPPS": "subapplication instance",
    "EC_STATES": "state",
    "ALGORITHM": "algorithm",
    "APPLICATION": "application",
    "DEVICE": "device",
    "RESOURCE": "resource",
}


def described(plant: Plant, key: Key) -> str | None:
    """What a name stands for; None where nothing is known of it."""
    found = next(iter(plant.declarations(key)), None)
    if not found:
        return None
    text, it = found
    comments = Comments(text)
    if key.space == TYPE:
        return "\n".join(_interface(text.unit, it, comments))
    lines = [_line(text, it), *comments.of(it)]
    if of := type_of(plant, it):
        lines += ["", *_interface(of.unit, of.unit.declared[0], Comments(of))]
    return "\n".join(lines)


def type_of(plant: Plant, it: Declaration) -> Text | None:
    """The type of an instance, or the structure that a variable or a field is of."""
    name = it.type.upper() if it.key.space == INSTANCE else type_of_data(it.type)
    of = next(iter(plant.declaring(name)), None)
    is_structure = of is not None and of.unit.kind == "TYPE" and it.key.space in (VARIABLE, FIELD, LOCAL) and not is_elementary(name)
    return of if it.key.space == INSTANCE or is_structure else None


def _line(text: Text, it: Declaration) -> str:
    """A declaration in one line."""
    return f"{WHAT[it.section]} of {owner(text, it)}: {spelled(it)}"


def owner(text: Text, it: Declaration) -> str:
    """The application, device, algorithm or unit that has a declared name, as it is declared."""
    name = it.key.owner
    its = (each.words for each in text.unit.declared if each.key.name == name and each.key.space in (APPLICATION, DEVICE, ALGORITHM)) if it.key.scope else ()
    return next(iter(its), text.words)


def spelled(it: Declaration) -> str:
    """A declaration as it would be written."""
    words = it.words
    if it.key.space == STATE:
        return f"{words} : {it.value}" if it.value else words
    if it.key.space == ALGORITHM:
        return f"{words} IN {it.type}"
    if it.type:
        words += f" : {it.type}"
    if it.companions:
        words += f" WITH {', '.join(it.companions)}"
    if it.value:
        words += f" := {it.value}" if it.key.space in (VARIABLE, FIELD, LOCAL) else it.value
    return words


def _interface(unit: Unit, head: Declaration, comments: Comments) -> Iterator[str]:
    """The ports of a type, or the fields of a structure, section by section, each with its comment."""
    yield f"{head.section} {head.words}"
    yield from comments.of(head)
    for section in (*INTERFACE, "STRUCT"):
        ports = list(unit.of(section))
        if ports:
            yield f"  {section}"
        for port in ports:
            remark = " ".join(comments.of(port))
            yield f"    {spelled(port)}" + (f"  (* {remark} *)" if remark else "")
    for section in ("APPLICATION", "DEVICE"):
        yield from (f"  {section} {spelled(it)}" for it in unit.of(section))


class Comments:
    """The comments of a text: which belong to a declaration."""

    def __init__(self, text: Text):
        self._encoded = text.places.encoded
        self._pieces = list(pieces(text.text))
        self._at = {piece.start: index for index, piece in enumerate(self._pieces)}

    def of(self, it: Declaration) -> list[str]:
        """The lines of the comments in the lines before a declaration, and behind it in its own line."""
        if it.begin not in self._at:
            return []  # An algorithm that the workbench skips can have other tokens.
        begin, behind = self._at[it.begin], self._behind(it)
        before = begin
        while before and self._pieces[before - 1].kind == "comment" and self._begins_line(before - 1):
            before -= 1
        if not self._begins_line(begin):
            before = begin
        return [line for piece in (*self._pieces[before:begin], *behind) for line in _lines(piece)]

    def _behind(self, it: Declaration) -> list[Token]:
        """The comments behind the head of a unit or a part, or behind the whole of another declaration, in the same line."""
        last = it.last if it.begin == it.start else it.end
        found: list[Token] = []
        at = next((index for index in range(self._at[it.start], len(self._pieces)) if self._pieces[index].start >= last), len(self._pieces))
        while at < len(self._pieces) and self._pieces[at].kind == "comment" and not self._begins_line(at):
            found.append(self._pieces[at])
            at += 1
        return found

    def _begins_line(self, at: int) -> bool:
        between = self._encoded[self._pieces[at - 1].end if at else 0 : self._pieces[at].start]
        return at == 0 or b"\n" in between or b"\r" in between


def _lines(comment: Token) -> list[str]:
    """The words of a comment, line by line."""
    words = comment.words[2:] if comment.words.startswith("//") else comment.words[2:-2]
    return [line for it in words.splitlines() if (line := it.strip(" \t*"))]
