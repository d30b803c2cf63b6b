"""What feeds an end of a connection, and what it feeds, as the hierarchy of calls of an editor: by the networks and plans that the workbench has."""
from __future__ import annotations

from collections import defaultdict
from collections.abc import Callable, Iterable, Iterator
from concurrent.futures import Future
from dataclasses import dataclass
from typing import Any, NamedTuple

from bench61499 import Deploy, Flat, Key, Net, WorkbenchError
from bench61499.language.declarations import INTERFACE, Declaration, Use
from bench61499.language.plant import Plant, Text
from bench61499.language.positions import place
from bench61499.lsp.documents import path_of
from bench61499.lsp.instances import leading_to, paths, units_in
from bench61499.lsp.navigation import SYMBOL_KINDS, SymbolKind
from bench61499.lsp.rpc import REQUEST_FAILED, Message, failure
from bench61499.tracing import End, Hop, NoSuchEnd, Tracing

PREPARE = "textDocument/prepareCallHierarchy"
INCOMING, OUTGOING = "callHierarchy/incomingCalls", "callHierarchy/outgoingCalls"
METHODS = frozenset([PREPARE, INCOMING, OUTGOING])
_MOST_ENDS = 64
"""Instances of a type of which an end is offered."""
_NO_NETWORK = "there is no network of {} now, so it is not known what is joined there: check --plans shows why"

Values = dict[Key, Any]


class _Site(NamedTuple):
    """An end in the text of a unit: the application that it is in, if any, the names of its path, and the type of the subapplication whose port it is."""

    scope: str
    names: tuple[str, ...]
    inner: str = ""


@dataclass
class _Request:
    """One that waits: for texts that have to be read, and then for values of the workbench."""

    number: Any
    method: str
    params: Any
    ends: list[tuple[str, str]]
    inner: str = ""
    values: Future[Values] | None = None


class Calls:
    """Answers once the workbench has given the networks. `ask` has keys asked for, and gives None as long as that can't be done; `trouble` gives the reason
    it can't be done at all."""

    def __init__(self, plant: Callable[[], Plant], ask: Callable[[list[Key]], Future[Values] | None], trouble: Callable[[], str], send: Callable[[Message], None]):
        self._plant_now, self._ask, self._trouble, self._send = plant, ask, trouble, send
        self._waiting: list[_Request] = []

    @property
    def _plant(self) -> Plant:
        return self._plant_now()

    def begin(self, number: Any, method: str, params: Any) -> None:
        """Takes a request. Raises `KeyError`, `TypeError` and the like if its parameters make no sense."""
        if method == PREPARE:
            path_of(params["textDocument"]["uri"]), params["position"]["line"], params["position"]["character"]
            self._waiting.append(_Request(number, method, params, []))
        else:
            data = params["item"]["data"]
            self._waiting.append(_Request(number, method, params, [(str(data["unit"]), str(data["end"]))], str(data["inner"])))
        self.step()

    def step(self) -> None:
        """Answers what can be answered now."""
        for it in [it for it in self._waiting if self._is_done(it)]:
            self._waiting.remove(it)

    def _is_done(self, it: _Request) -> bool:
        """Whether a request is answered."""
        if not self._plant.is_read():
            return False
        if it.method == PREPARE and not it.values:
            it.ends, it.inner = self._ends(it.params)
            if not it.ends:
                self._send({"id": it.number, "result": None})
                return True
        if not it.values:
            it.values = self._ask(self._keys(it))
        if not it.values and not self._trouble():
            return False
        if it.values and not it.values.done():
            return False
        self._send({"id": it.number, **self._answer(it)})
        return True

    def _answer(self, it: _Request) -> Message:
        try:
            if not it.values:
                return failure(REQUEST_FAILED, f"no workbench answers: {self._trouble()}")
            return {"result": self._prepared(it, it.values.result()) if it.method == PREPARE else self._calls(it, it.values.result())}
        except (WorkbenchError, NoSuchEnd) as error:
            return failure(REQUEST_FAILED, str(error))

    @staticmethod
    def _keys(it: _Request) -> list[Key]:
        units = dict.fromkeys(unit for unit, _ in it.ends)
        keys: list[Key] = [("net", unit) for unit in (*units, *([it.inner] if it.inner else []))]
        return [*keys, *(("deploy", unit) for unit in units)]

    # Ends

    def _ends(self, params: Any) -> tuple[list[tuple[str, str]], str]:
        """What is at a position, as ends of networks: of each system with such an instance, or else of subapplications. Also the type of the subapplication whose port it is."""
        plant = self._plant
        text = plant.text(path_of(params["textDocument"]["uri"]))
        site = _site(text, place(text.places, params["position"])) if text else None
        if not text or not site:
            return [], ""
        if text.unit.kind == "SYSTEM":
            return [(text.unit.name, ".".join([site.scope, *site.names]))], site.inner
        leading = leading_to(plant, text.unit.name)
        roots = units_in(leading, plant, "SYSTEM") or units_in(leading, plant, "SUBAPPLICATION")
        found = [(root, ".".join([*path, *site.names])) for root in roots for path in self._paths(root, text.unit.name, leading)]
        return sorted(found)[:_MOST_ENDS], site.inner

    def _paths(self, root: str, name: str, leading: set[str]) -> Iterator[tuple[str, ...]]:
        """The paths of the instances of a type in a network, and of the network itself if it is of this type."""
        if root == name:
            yield ()
        yield from (path for it in self._plant.declaring(root)[:1] for path in paths(self._plant, it, name, leading))

    # Answers

    def _tracing(self, unit: str, values: Values) -> Tracing:
        net: Net | None = values.get(("net", unit))
        deploy: Deploy | None = values.get(("deploy", unit))
        if not isinstance(net, Flat):
            raise NoSuchEnd(_NO_NETWORK.format(unit))
        return Tracing(unit, net, deploy, self._plant.unit, lambda inner: values.get(("net", inner)))

    def _prepared(self, it: _Request, values: Values) -> list[Any] | None:
        """An item for each end that is one. Raises `NoSuchEnd` if there is none."""
        tracings = {unit: self._tracing(unit, values) for unit in dict.fromkeys(unit for unit, _ in it.ends)}
        items, why = [], NoSuchEnd("")
        for unit, path in it.ends:
            try:
                items.append(self._item(tracings[unit], unit, tracings[unit].end(path), it.inner))
            except NoSuchEnd as error:
                why = error
        if not items:
            raise why
        return items

    def _calls(self, it: _Request, values: Values) -> list[Any]:
        """What is one link away: of an output the links into its block, of an input those out of it."""
        ((unit, path),) = it.ends
        tracing = self._tracing(unit, values)
        end, is_back = tracing.end(path), it.method == INCOMING
        if not (end.into if is_back else end.out) and end.block:
            end = tracing.end(end.block)
        way = tracing.back(end, 1) if is_back else tracing.forth(end, 1)
        found: defaultdict[str, list[Hop]] = defaultdict(list)
        for hop in way.hops:
            found[hop.link.source if is_back else hop.link.destination].append(hop)
        return [self._call(tracing, unit, far, hops, it) for far, hops in found.items()]

    def _call(self, tracing: Tracing, unit: str, far: str, hops: list[Hop], it: _Request) -> Any:
        is_back = it.method == INCOMING
        item = self._item(tracing, unit, tracing.end(far), "", hops[0].link.sort)
        near = [f"{'to' if is_back else 'from'} {hop.link.destination if is_back else hop.link.source}{', cut' if hop.is_cut else ''}" for hop in hops]
        item["detail"] = "; ".join([item["detail"], *near])
        if is_back:
            return {"from": item, "fromRanges": [item["selectionRange"]]}
        return {"to": item, "fromRanges": [it.params["item"]["selectionRange"]]}

    def _item(self, tracing: Tracing, unit: str, end: End, inner: str, sort: str = "") -> Any:
        """An end as an item, at the declaration of the port in its type."""
        of = tracing.type(end.block)
        resource = tracing.resource(end.block)
        text, its = self._declared(of or inner or unit, end.path[len(end.block) + 1 :] if end.block else end.path.rpartition(".")[2], sort)
        where = {"range": text.range(its.begin, its.last), "selectionRange": text.name_range(its.start, its.end)}
        detail = f"{of}{f' on {resource}' if resource else ''} in {unit}" if of else f"port of {inner or unit}" + (f" in {unit}" if inner not in ("", unit) else "")
        kind = SYMBOL_KINDS.get(its.section, SymbolKind.OBJECT)
        return {"name": end.path, "kind": kind, "detail": detail, "uri": text.uri, **where, "data": {"unit": unit, "end": end.path, "inner": inner}}

    def _declared(self, unit: str, port: str, sort: str) -> tuple[Text, Declaration]:
        """Where a port of a unit is declared, or else the unit. Raises `NoSuchEnd` if no text of it is here."""
        own = port.partition(".")[0]
        for text in self._plant.declaring(unit):
            its = [it for it in text.unit.of(*INTERFACE) if it.key.name == own]
            its.sort(key=lambda it: (it.key.space != sort) if sort == "event" else (it.key.space == "event"))
            if its or text.unit.declared:
                return text, (its or text.unit.declared)[0]
        raise NoSuchEnd(f"no text of {unit} is here")


def _site(text: Text, at: int) -> _Site | None:
    """The end of a connection at a place, or the port or block that is declared or used there."""
    for it in text.unit.connections if text.unit.kind != "FUNCTION_BLOCK" else ():  # What is in a composite block is in no network.
        for side in (it.source, it.destination):
            if side and side[0].start <= at <= side[-1].end:
                return _Site(it.scope.partition("#")[0], tuple(use.key.name for use in side), _inner(text, side, it.scope))
    names: Iterable[Declaration | Use] = (it for it in text.unit.names() if it.start <= at <= it.end)
    for name in names:
        its = text.unit.first.get(name.key)
        if its and its.section in (*INTERFACE, "FBS"):
            is_inner = text.unit.kind == "SUBAPPLICATION" and its.section != "FBS"
            return _Site(name.key.scope.partition("#")[0], (name.key.name,), text.unit.name if is_inner else "")
    return None


def _inner(text: Text, side: tuple[Use, ...], scope: str) -> str:
    """The type of the subapplication whose port an end is: of an own port, that of the text."""
    if len(side) == 1:
        return text.unit.name
    its = text.unit.instance(scope, side[0].key.name)
    return its.type.upper() if its and its.section == "SUBAPPS" else ""
