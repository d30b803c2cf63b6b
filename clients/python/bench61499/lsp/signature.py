"""The parameters of an instance while they are written: all data inputs of its type, and which of them comes now."""
from __future__ import annotations

from typing import Any

from bench61499.language.declarations import Declaration
from bench61499.language.plant import Plant, Text
from bench61499.language.tokens import Token, pieces
from bench61499.lsp.hover import spelled


def signature(plant: Plant, text: Text, place: int) -> dict[str, Any] | None:
    """The signature help at a place; None outside of parameters, or where the type is not known."""
    before = [it for it in pieces(text.places.encoded[:place].decode()) if it.kind != "comment"]
    opening = _opening(before)
    if opening is None:
        return None
    its = plant.unit(before[opening - 1].upper)
    inputs = list(its.of("VAR_INPUT")) if its else []
    if not its or not inputs:
        return None
    parameters = [spelled(it) for it in inputs]
    whole = {"label": f"{its.declared[0].words}({', '.join(parameters)})", "parameters": [{"label": it} for it in parameters]}
    return {"signatures": [whole], "activeSignature": 0, "activeParameter": _active(inputs, before[opening + 1 :])}


def _opening(before: list[Token]) -> int | None:
    """The number of the bracket behind the type of an instance, if it is open."""
    if before and before[-1].kind == "unclosed":
        return None
    opened: list[int] = []
    for at, it in enumerate(before):
        if it.words == "(":
            opened.append(at)
        elif it.words == ")" and opened:
            opened.pop()
        elif it.words == ";":
            opened.clear()
    last = opened[-1] if opened else 0
    return last if last >= 2 and before[last - 1].kind == "word" and before[last - 2].words == ":" else None


def _active(inputs: list[Declaration], written: list[Token]) -> int:
    """The number of the input that is being written: the one that is named, or the first one that is not named yet."""
    names = [it.key.name for it in inputs]
    starts = [0, *(at + 1 for at, it in enumerate(written) if it.words == ",")]
    named = [written[at].upper for at in starts if at + 1 < len(written) and written[at + 1].words == ":="]
    if starts[-1] + 1 < len(written) and named and named[-1] in names:
        return names.index(named[-1])
    return next((at for at, name in enumerate(names) if name not in named), len(names) - 1)
