"""What an editor can fold: units, sections, statements and comments of more than one line."""
from __future__ import annotations

from typing import Any

from bench61499.language.nesting import Nesting
from bench61499.language.plant import Text
from bench61499.language.tokens import pieces


def folding_ranges(text: Text) -> list[dict[str, Any]]:
    """Line ranges. The line of the word that ends something stays to be seen."""
    its = list(pieces(text.text))
    places = text.places
    found: list[dict[str, Any]] = []
    for begin, end in Nesting(its).pairs:
        first, last = (places.line_column(its[at].start)[0] - 1 for at in (begin, end))
        if last - first > 1:
            found.append({"startLine": first, "endLine": last - 1})
    for it in its:
        if it.kind == "comment" and "\n" in it.words:
            first, last = (places.line_column(place)[0] - 1 for place in (it.start, it.end))
            found.append({"startLine": first, "endLine": last, "kind": "comment"})
    return sorted(found, key=lambda it: (it["startLine"], -it["endLine"]))
