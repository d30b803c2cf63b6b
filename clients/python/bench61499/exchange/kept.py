"""What the language has no place for: kept behind a unit in comments, as XML with its place, and put back by export."""
from __future__ import annotations

import re
from collections import Counter
from collections.abc import Callable, Iterable, Iterator
from dataclasses import dataclass, field
from typing import TypeVar

from bench61499.exchange.xmlfile import Element, Unreadable, read_fragment
from bench61499.exchange.xmltext import Tag, escaped, escaped_words

POSITIONS = frozenset("x y dx dx1 dx2 dy width height locked".split())
_KEPT = re.compile(r"Kept(?: ([^\n]*))?:\n(<.*>)", re.DOTALL)
_PLACES = re.compile(r"Positions:\n(.*)", re.DOTALL)
_PLACE = re.compile(r"(.*?) ?((?:(?:" + "|".join(sorted(POSITIONS)) + r')="[^"\n]*" ?)+)')
_POSITION = re.compile(r'(\w+)="([^"\n]*)"')
_STEP = re.compile(r"([^/\[\]#]+)(?:\[((?:[^\[\]]|\[[^\[\]]*\])*)\])?(?:#\d+)?")
_OTHER_NAMES = {
    "SubAppInterfaceList": "InterfaceList",
    "SubAppEventInputs": "EventInputs",
    "SubAppEventOutputs": "EventOutputs",
    "SubAppEvent": "Event",
    "SubAppNetwork": "FBNetwork",
}
"""Elements that tools name in two ways."""
_CONTAINERS = frozenset(
    """InterfaceList EventInputs EventOutputs InputVars OutputVars InOutVars Plugs Sockets BasicFB InternalVars InternalConstVars InternalFBs ECC FBNetwork
    EventConnections DataConnections AdapterConnections CompilerInfo Service StructuredType""".split()
)
"""Elements that are there once, and are made again if they are needed for what is in them."""
_ORDER = (
    """Identification VersionInfo CompilerInfo ASN1Tag EventInputs EventOutputs InputVars OutputVars InOutVars Plugs Sockets InterfaceList StructuredType InternalVars
    InternalConstVars InternalFBs ECC Algorithm Method BasicFB SimpleFB Parameter Attribute FB EventConnections DataConnections AdapterConnections Application Resource
    FBNetwork Service Device Mapping Segment Link""".split()
)
_RANKS = {**{name: at for at, name in enumerate(_ORDER)}, "SubApp": _ORDER.index("FB"), "Group": _ORDER.index("FB")}


def _plain(name: str) -> str:
    return _OTHER_NAMES.get(name, name)


def _step(name: str, attributes: dict[str, str]) -> str:
    """An element in a path: its name, and what tells it from others of this name."""
    ends = [attributes.get(it, "").strip() for it in ("Source", "Destination")]
    own = next((it for it in (attributes.get(key, "").strip() for key in ("Name", "From", "Var")) if it), " -> ".join(ends) if any(ends) else "")
    return f"{_plain(name)}[{own}]" if own else _plain(name)


Node = TypeVar("Node", Element, Tag)


def _steps(children: Iterable[Node]) -> Iterator[tuple[str, Node]]:
    """The steps to elements; further ones of one name and key are numbered."""
    seen: Counter[str] = Counter()
    for it in children:
        step = _step(it.name, it.attributes)
        seen[step] += 1
        yield (f"{step}#{seen[step]}" if seen[step] > 1 else step), it


def paths(root: Element) -> dict[int, str]:
    """The path of each element in another one. What is in a group is where it would be without."""
    found = {id(root): ""}

    def walk(at: Element, path: str) -> None:
        for step, it in _steps(at.children):
            found[id(it)] = f"{path}/{step}" if path else step
            walk(it, path if it.name == "Group" else found[id(it)])

    walk(root, "")
    return found


@dataclass
class Kept:
    """What is kept of a unit: parts of elements by their paths, and positions."""

    parts: dict[str, Element] = field(default_factory=dict)
    positions: dict[str, dict[str, str]] = field(default_factory=dict)

    def part(self, path: str, name: str) -> Element:
        return self.parts.setdefault(path, Element(name, 0, {}))

    def records(self) -> Iterator[str]:
        for path, it in self.parts.items():
            yield f"Kept {_one_line(path)}".strip() + ":\n" + "\n".join(_lines(it, ""))
        if self.positions:
            its = (" ".join([_one_line(path), *(f'{name}="{_value(value)}"' for name, value in its.items())]) for path, its in self.positions.items())
            yield "Positions:\n" + "\n".join(it.strip() for it in its)


def _one_line(path: str) -> str:
    for sign, words in (("&", "&amp;"), ("\n", "&#10;"), ("*)", "*&#41;")):
        path = path.replace(sign, words)
    return path


def _value(value: str) -> str:
    return escaped(value).replace("*)", "*&#41;")


def _lines(it: Element, indent: str) -> Iterator[str]:
    """An element as XML that can stand in a comment."""
    attributes = "".join(f' {name}="{_value(value)}"' for name, value in it.attributes.items())
    words = escaped_words(it.text).replace("*)", "*&#41;") if it.text.strip() else ""
    if not it.children and not it.asides:
        yield f"{indent}<{it.name}{attributes}>{words}</{it.name}>" if words else f"{indent}<{it.name}{attributes}/>"
        return
    yield f"{indent}<{it.name}{attributes}>{words}"
    for _, kind, said in it.asides:
        said = said.replace("*)", "* )")
        yield f"{indent}  <!--{said}-->" if kind == "comment" else f"{indent}  <?{said}?>"
    for child in it.children:
        yield from _lines(child, indent + "  ")
    yield f"{indent}</{it.name}>"


def is_kept(words: str) -> bool:
    return _fragment(words) is not None or is_of_positions(words)


def is_of_positions(words: str) -> bool:
    return bool(_PLACES.fullmatch(words))


def _fragment(words: str) -> tuple[str, Element] | None:
    """The path and the part of an element that a comment keeps."""
    found = _KEPT.fullmatch(words)
    try:
        return (_unescaped(found[1] or ""), read_fragment(found[2])) if found else None
    except Unreadable:
        return None


def _unescaped(words: str) -> str:
    for sign, its in (("<", "&lt;"), (">", "&gt;"), ("\n", "&#10;"), ("\t", "&#9;"), ("\r", "&#13;"), (")", "&#41;"), ('"', "&quot;"), ("&", "&amp;")):
        words = words.replace(its, sign)
    return words


# Export


def put_back(root: Tag, records: Iterable[str], lost: Callable[[str], object]) -> None:
    """Adds to the elements of a unit what its comments keep. `lost` is told the paths of elements that are no longer there."""
    tree, groups = _Tree(root), []
    for words in records:
        fragment, places = _fragment(words), _PLACES.fullmatch(words)
        if fragment:
            tag = tree.find(fragment[0], True)
            if tag is None:
                lost(fragment[0])
            else:
                _merge(tag, fragment[1])
                tree.forget(tag)
                groups.append(tag)
        for found in map(_PLACE.fullmatch, places[1].split("\n") if places else ()):
            tag = tree.find(_unescaped(found[1]), False) if found else None
            if found and tag:
                tag.attributes |= {name: _unescaped(value) for name, value in _POSITION.findall(found[2])}
    for tag in groups:
        _regroup(tag)


class _Tree:
    """Finds elements by their paths."""

    def __init__(self, root: Tag):
        self._root = root
        self._steps: dict[int, dict[str, Tag]] = {}

    def find(self, path: str, make: bool) -> Tag | None:
        """The element at a path; elements that only hold others are made if they are missing."""
        at = self._root
        for step in _STEP.finditer(path):
            its = self._steps.setdefault(id(at), {}) or dict(_steps(at.children))
            self._steps[id(at)] = its
            found = its.get(step[0])
            if found is None and (not make or step[2] is not None or step[1] not in _CONTAINERS):
                return None
            if found is None:
                found = Tag(step[1], needed=())
                at.add(found)
                _sort(at)
                self.forget(at)
            at = found
        return at

    def forget(self, tag: Tag) -> None:
        """Has the inner elements of one that was changed looked at again."""
        self._steps.pop(id(tag), None)


def _sort(tag: Tag) -> None:
    tag.children.sort(key=lambda it: _RANKS.get(_plain(it.name), len(_ORDER)))


def _merge(tag: Tag, part: Element) -> None:
    tag.attributes |= {name: value for name, value in part.attributes.items() if not tag.attributes.get(name)}
    tag.words += part.text.strip() and part.text
    tag.asides += [(kind, words) for _, kind, words in part.asides]
    for it in part.children:
        own = next((each for each in tag.children if _plain(each.name) == _plain(it.name)), None) if _plain(it.name) in _CONTAINERS else None
        if own:
            _merge(own, it)
        else:
            tag.add(tag_of(it))
    if part.children:
        _sort(tag)


def tag_of(it: Element) -> Tag:
    """An element that is written as it was read."""
    is_body = it.name in ("ST", "Other") and bool(it.text.strip())
    tag = Tag(it.name, dict(it.attributes), [tag_of(each) for each in it.children], body=it.text if is_body else None, needed=tuple(it.attributes))
    tag.words = "" if is_body or not it.text.strip() else it.text
    tag.asides = [(kind, words) for _, kind, words in it.asides]
    return tag


def _regroup(network: Tag) -> None:
    """Moves instances into the groups that they were in; a group comes where its first one was."""
    own = {it.attributes.get("Name"): it for it in network.children if it.name in ("FB", "SubApp")}
    for group in [it for it in network.children if it.name == "Group"]:
        moved = {id(it) for it in _members(group, own)}
        first = next((at for at, it in enumerate(network.children) if id(it) in moved), None)
        if first is not None:
            others = [it for it in network.children if it is not group]
            network.children = [group if at == first else it for at, it in enumerate(others) if at == first or id(it) not in moved]


def _members(group: Tag, own: dict[str | None, Tag]) -> list[Tag]:
    """Puts instances in the place of their names in a group, and gives them."""
    moved: list[Tag] = []
    children: list[Tag] = []
    for it in group.children:
        if it.name == "Group":
            moved += _members(it, own)
            children.append(it)
        elif it.name not in ("FB", "SubApp"):
            children.append(it)
        elif it.attributes.get("Name") in own:
            moved.append(own[it.attributes.get("Name")])
            children.append(moved[-1])
    group.children = children
    return moved
