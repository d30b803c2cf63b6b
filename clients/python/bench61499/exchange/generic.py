"""Blocks whose ports come from a structure, STRUCT_MUX and STRUCT_DEMUX: one type for each structure that they are used with."""
from __future__ import annotations

from typing import NamedTuple

from bench61499.exchange import names
from bench61499.exchange.context import Context, Library
from bench61499.exchange.exchanged import Event, Unit, Variable, record
from bench61499.exchange.interfaces import variables
from bench61499.exchange.report import NOTE, Report, cut
from bench61499.exchange.values import type_records
from bench61499.exchange.xmlfile import Element
from bench61499.exchange.xmltext import Tag

MUX, DEMUX = "STRUCT_MUX", "STRUCT_DEMUX"
GENERIC = "Generic"
_ATTRIBUTE = "StructuredType"


class Generic(NamedTuple):
    """A use of such a type: the type that is made for it, its own one, the attribute that names the structure, and that."""

    name: str
    type: str
    attribute: Element
    structure: Element


def find_generic(context: Context, at: Element) -> Generic | None:
    """What a block is a use of, if it is one and its structure is among the files."""
    type_ = names.without_package(at.get("Type"))[1]
    attribute = next((it for it in at.named("Attribute") if names.without_package(it.get("Name"))[1] == _ATTRIBUTE), None)
    if type_ not in (MUX, DEMUX) or attribute is None:
        return None
    own = names.without_package(attribute.get("Value"))[1]
    structure = context.library.roots.get(names.spelled(own).upper())
    if structure is None or not structure.named("StructuredType"):
        context.report.tell(NOTE, at.line, f"the ports of {cut(at.get('Name'))} are not known, as the structure {cut(own)} is not among the files")
        return None
    return Generic(names.spelled(f"{type_}__{own}"), type_, attribute, structure)


def unit_of(library: Library, it: Generic) -> Unit:
    """The type that is made for a structure: its fields are the inputs of a STRUCT_MUX, and the outputs of a STRUCT_DEMUX."""
    context, structure = Context(Report(""), library), names.spelled(it.structure.get("Name"))
    made = Unit("FUNCTION_BLOCK", it.name, it.attribute.line, [f"{it.type} of {structure}"])
    fields = [Variable(each.name, each.type) for group in it.structure.named("StructuredType") for each in variables(context, group)]
    whole = [Variable("OUT" if it.type == MUX else "IN", structure)]
    made.variables["VAR_INPUT"], made.variables["VAR_OUTPUT"] = (fields, whole) if it.type == MUX else (whole, fields)
    made.events["EVENT_INPUT"] = [Event("REQ", withs=[each.name for each in made.variables["VAR_INPUT"]])]
    made.events["EVENT_OUTPUT"] = [Event("CNF", withs=[each.name for each in made.variables["VAR_OUTPUT"]])]
    attributes = {name: it.attribute.get(key) for name, key in (("attribute", "Name"), ("kind", "Type"), ("value", "Value"))}
    made.records = [record(GENERIC, {"type": it.type, **attributes}), *(record("Name", {"text": text, "file": file}) for text, file in context.records.items()), *type_records(context.types)]
    return made


def generic_type(unit: Unit | None) -> str:
    """The type that a unit was made for a use of; empty if it is none."""
    return unit.record(GENERIC, "type") if unit else ""


def structure_attribute(unit: Unit) -> Tag:
    """The attribute that names the structure."""
    its = {name: unit.record(GENERIC, key) for name, key in (("Name", "attribute"), ("Type", "kind"), ("Value", "value"))}
    return Tag("Attribute", its)


def runtime_type(unit: Unit) -> str:
    """The name of the type for FORTE, such as STRUCT_MUX_1Sensor."""
    return f"{generic_type(unit)}_1{names.without_package(unit.record(GENERIC, 'value'))[1]}"
