"""What the page shows of the way to an end, or from it: the blocks and the links, as JSON values."""
from __future__ import annotations

from typing import Any

from bench61499 import Flat, Plan
from bench61499.board.state import Answer, Board
from bench61499.language.as_declared import AsDeclared
from bench61499.language.texts import Texts
from bench61499.tracing import NoSuchEnd, Tracing


def trace_view(board: Board, unit: str, net: Answer, deploy: Answer, end: str, is_back: bool) -> dict[str, Any]:
    """What feeds an end in the network of a unit, or what it feeds: the blocks, nearest first and each once, and the links, in capitals. `why` is the reason if there is no way to show."""
    if not isinstance(net.value, Flat):
        return {"why": f"there is no network of {unit} now"}
    plan = deploy.value if isinstance(deploy.value, Plan) else None
    texts = Texts.of(board.texts())
    tracing = Tracing(unit, net.value, plan, texts.unit)
    try:
        its = tracing.end(end)
    except NoSuchEnd as error:
        return {"why": str(error)}
    way = tracing.back(its) if is_back else tracing.forth(its)
    blocks = [[it.number, it.path] for it in way.steps if it.type and not it.is_again]
    resources = {it.resource for it in way.steps if it.resource}
    links = [[it.link.sort, it.link.source, it.link.destination] for it in way.hops]
    return {"end": AsDeclared(texts, unit).end(its.path), "block": its.block, "blocks": blocks, "links": links, "resources": len(resources), "cuts": sum(it.is_cut for it in way.hops)}
