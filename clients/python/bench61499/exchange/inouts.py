"""In-out variables, which the language does not have: an input of the name, and an output for the side to which it leads on."""
from __future__ import annotations

from collections.abc import Iterable, Mapping

from bench61499.exchange import names
from bench61499.exchange.exchanged import Instance, Unit, recorded
from bench61499.exchange.xmlfile import Element

GROUP, RECORD = "InOutVars", "InOut"
_INTERFACES = ("InterfaceList", "SubAppInterfaceList")


def output_of(name: str) -> str:
    """The output for an in-out variable, as a text has both."""
    return names.spelled(f"{name}__OUT")


def inouts_of(root: Element | None) -> frozenset[str]:
    """The in-out variables of a type of a file, as a text has them."""
    groups = (group for it in (root.named(*_INTERFACES) if root else ()) for group in it.named(GROUP))
    return frozenset(names.spelled(it.get("Name")) for group in groups for it in group.children if it.get("Name"))


def inputs_of(unit: Unit | None) -> dict[str, str]:
    """The in-out variables of a unit by their outputs in upper case."""
    its = (it.get("name", "") for it in recorded(unit, RECORD)) if unit else ()
    return {output_of(it).upper(): it for it in its}


def end_of_file(end: str, own: Unit, instances: Iterable[Instance], types: Mapping[str, Unit]) -> str:
    """An end of a connection with the in-out variable in the place of its output."""
    head, point, port = end.partition(".")
    if not point:
        return inputs_of(own).get(end.upper(), end)
    it = next((each for each in instances if each.name.upper() == head.upper()), None)
    return f"{head}.{inputs_of(types.get(it.type.upper()) if it else None).get(port.upper(), port)}"
