"""XML that is written: elements with attributes, and a body that is not escaped."""
from __future__ import annotations

import re
from collections.abc import Iterator
from dataclasses import dataclass, field

_NO_XML = re.compile("[^\t\n\r\u0020-\ud7ff\ue000-\ufffd\U00010000-\U0010ffff]")
_ESCAPES = {"&": "&amp;", "<": "&lt;", ">": "&gt;", '"': "&quot;", "\n": "&#10;", "\r": "&#13;", "\t": "&#9;"}


@dataclass
class Tag:
    """An element. An attribute without a value is not written; `needed` ones are. `words` are escaped, and a `body` is not; `asides` are comments and
    instructions."""

    name: str
    attributes: dict[str, str] = field(default_factory=dict)
    children: list[Tag] = field(default_factory=list)
    body: str | None = None
    words: str = ""
    asides: list[tuple[str, str]] = field(default_factory=list)
    needed: tuple[str, ...] = ("Name",)

    def add(self, *children: Tag | None) -> Tag:
        self.children += [it for it in children if it]
        return self


def document(root: Tag, comments: list[str], doctype: str) -> tuple[str, bool]:
    """A file, and whether it has a character in the place of one that XML can't have."""
    head = ['<?xml version="1.0" encoding="UTF-8"?>', *(f"<!-- {_comment(it)} -->" for it in comments)]
    text = "\n".join([*head, *([doctype] if doctype else []), *_lines(root, ""), ""])
    whole = _NO_XML.sub("\ufffd", text)
    return whole, whole != text


def _comment(words: str) -> str:
    return re.sub("-(?=-)", "- ", words.strip()).rstrip("-")


def _lines(tag: Tag, indent: str) -> Iterator[str]:
    attributes = "".join(f' {name}="{escaped(value)}"' for name, value in tag.attributes.items() if value or name in tag.needed)
    if tag.body is not None:
        yield f"{indent}<{tag.name}{attributes}><![CDATA[{tag.body.replace(']]>', ']]]]><![CDATA[>')}]]></{tag.name}>"
    elif tag.children or tag.asides:
        yield f"{indent}<{tag.name}{attributes}>{escaped_words(tag.words)}"
        for kind, words in tag.asides:
            yield f"{indent}\t<!-- {_comment(words)} -->" if kind == "comment" else f"{indent}\t<?{words}?>"
        for child in tag.children:
            yield from _lines(child, indent + "\t")
        yield f"{indent}</{tag.name}>"
    elif tag.words:
        yield f"{indent}<{tag.name}{attributes}>{escaped_words(tag.words)}</{tag.name}>"
    else:
        yield f"{indent}<{tag.name}{attributes}/>"


def escaped_words(words: str) -> str:
    """Words between the begin and the end of an element."""
    return words.replace("&", "&amp;").replace("<", "&lt;").replace(">", "&gt;").replace("\r", "&#13;")


def escaped(value: str) -> str:
    for sign, words in _ESCAPES.items():
        value = value.replace(sign, words)
    return value
