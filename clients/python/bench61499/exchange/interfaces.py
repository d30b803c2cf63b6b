"""What a type of a file declares: events, variables, plugs and sockets, its chart, its service, and what is known of its making."""
from __future__ import annotations

import re
from collections.abc import Callable, Container, Iterable, Iterator, Mapping
from itertools import accumulate

from bench61499.exchange import guards, names
from bench61499.exchange.algorithms import algorithm
from bench61499.exchange.conditions import Chart, condition
from bench61499.exchange.context import Context
from bench61499.exchange.exchanged import FULL, Event, Instance, Parameter, Sequence, Service, State, Transition, Unit, Variable, record
from bench61499.exchange.forms import bare_tokens
from bench61499.exchange.inouts import GROUP, RECORD, output_of
from bench61499.exchange.kept import POSITIONS
from bench61499.exchange.report import NOTE, REPLACED, UNCHECKED, Report, cut
from bench61499.exchange.values import Typed, constant, variable
from bench61499.exchange.xmlfile import Element

RECORD_ELEMENTS = "Identification VersionInfo CompilerInfo ASN1Tag"
EVENT_GROUPS = {"EventInputs": "EVENT_INPUT", "SubAppEventInputs": "EVENT_INPUT", "EventOutputs": "EVENT_OUTPUT", "SubAppEventOutputs": "EVENT_OUTPUT"}
DATA_GROUPS = {"InputVars": "VAR_INPUT", "OutputVars": "VAR_OUTPUT"}
ADAPTER_GROUPS = {"Plugs": "PLUGS", "Sockets": "SOCKETS"}
INTERNAL_GROUPS = ("InternalVars", "InternalConstVars")
VARIABLES = "VarDeclaration ArrayVarDeclaration SubrangeVarDeclaration"
_ENDS = ("END_SERVICE", "END_SEQUENCE")
_EVENT_PATH = re.compile(r"[A-Za-z_]\w*(\.[A-Za-z_]\w*)*[+-]?", re.ASCII)


def records(context: Context, root: Element) -> Iterator[str]:
    """What is kept in comments behind a unit."""
    for it in root.named(*RECORD_ELEMENTS.split()):
        for each in (it, *(it.named("Compiler", "Import") if it.name == "CompilerInfo" else ())):
            context.known(each, " ".join(each.attributes), "Compiler Import" if each.name == "CompilerInfo" else "")
            kept = {name: value for name, value in each.attributes.items() if name not in POSITIONS and not name.startswith("xmlns")}
            if words := record(each.name, kept):
                yield words


def interface(context: Context, unit: Unit, at: Element) -> None:
    groups = [*EVENT_GROUPS, *DATA_GROUPS, *(() if unit.kind == "ADAPTER" else ADAPTER_GROUPS)]
    context.known(at, "", " ".join([*groups, GROUP]))
    inouts = {it.name: output_of(it.name) for group in at.named(GROUP) for it in _inouts(context, unit, group)}
    for group in at.named(*groups):
        if group.name in EVENT_GROUPS:
            context.known(group, "", "Event SubAppEvent")
            section = EVENT_GROUPS[group.name]
            unit.events[section] += [_event(context, it, inouts if section == "EVENT_OUTPUT" else {}) for it in group.named("Event", "SubAppEvent")]
        elif group.name in DATA_GROUPS:
            unit.variables[DATA_GROUPS[group.name]] += variables(context, group)
        else:
            context.known(group, "", "AdapterDeclaration")
            section = ADAPTER_GROUPS[group.name]
            unit.adapters[section] += [_adapter(context, section, it) for it in group.named("AdapterDeclaration")]
    context.clashes("events", _inner(at, EVENT_GROUPS))


def _inouts(context: Context, unit: Unit, group: Element) -> list[Variable]:
    """The in-out variables of a group, each of which becomes an input and an output."""
    its = variables(context, group)
    unit.variables["VAR_INPUT"] += its
    unit.variables["VAR_OUTPUT"] += [Variable(output_of(it.name), it.type, line=it.line) for it in its]
    unit.records += [record(RECORD, {"name": it.name}) for it in its]
    for it in its:
        context.report.tell(NOTE, group.line, f"the in-out variable {it.name} is the input {it.name} and the output {output_of(it.name)} here")
    return its


def interface_clashes(context: Context, root: Element, lists: list[Element], networks: Iterable[Element]) -> None:
    """Tells the variables and instances of a type whose names differ in case alone."""
    own = [it for each in lists for it in _inner(each, DATA_GROUPS)]
    inner = [it for each in root.named("BasicFB", "SimpleFB") for it in _inner(each, INTERNAL_GROUPS)]
    context.clashes("variables", [*own, *inner])
    adapters = [it for each in lists for it in _inner(each, ADAPTER_GROUPS)]
    context.clashes("instances", [*adapters, *(it for network in networks for it in network_instances(network))])


def _inner(at: Element, groups: Iterable[str]) -> list[tuple[str, Element]]:
    return [(it.get("Name"), it) for group in at.named(*groups) for it in group.children if it.name != "Attribute"]


def network_instances(network: Element) -> Iterator[tuple[str, Element]]:
    """The blocks and subapplications of a network, those of its groups too."""
    for it in network.named("FB", "SubApp", "Group"):
        yield from network_instances(it) if it.name == "Group" else [(it.get("Name"), it)]


def _event(context: Context, at: Element, inouts: Mapping[str, str]) -> Event:
    context.known(at, "Name Type Comment", "With")
    name, type_ = context.own_name(at), at.get("Type")
    withs = []
    for it in at.named("With"):
        context.known(it, "Var")
        name_of_data = context.name(it, it.get("Var"))
        withs.append(inouts.get(name_of_data, name_of_data))
    kind = context.last_name(at, type_) if type_ and type_.upper() != "EVENT" else ""
    return Event(name, kind, withs, context.comment(at), at.line)


def variables(context: Context, group: Element) -> list[Variable]:
    context.known(group, "Comment" if group.name == "StructuredType" else "", VARIABLES)
    return [_variable(context, it) for it in group.named(*VARIABLES.split())]


def _variable(context: Context, at: Element) -> Variable:
    context.known(at, "Name Type ArraySize InitialValue InitialValues Comment", "" if at.name == "VarDeclaration" else "Subrange")
    limits = ", ".join(_limits(context, it) for it in at.named("Subrange")) if at.name != "VarDeclaration" else ""
    ranges = limits if at.name == "ArrayVarDeclaration" else at.get("ArraySize") or None
    if at.name == "SubrangeVarDeclaration" and limits:
        context.left_out(at, f"the range {cut(limits)} of {cut(at.get('Name'))}")
    if at.name == "ArrayVarDeclaration" and at.get("ArraySize"):
        context.left_out(at, f"ArraySize {cut(at.get('ArraySize'))} of {cut(at.get('Name'))}")
    if at.get("InitialValue") and at.get("InitialValues"):
        context.left_out(at, f"attribute InitialValues of {at.name}")
    name = context.own_name(at)
    typed = Typed(at.get("Type"), ranges, at.get("InitialValue") or at.get("InitialValues"))
    return Variable(name, *variable(context, at, typed), context.comment(at), at.line)


def _limits(context: Context, at: Element) -> str:
    context.known(at, "LowerLimit UpperLimit")
    return f"{at.get('LowerLimit')}..{at.get('UpperLimit')}"


def _adapter(context: Context, section: str, at: Element) -> Instance:
    context.known(at, "Name Type Comment", "Parameter")
    name = context.own_name(at)
    return Instance(section, name, context.instance_type(at), parameters(context, at), context.comment(at), at.line)


def parameters(context: Context, at: Element, is_wanted: Callable[[Element], bool] = lambda _: True) -> list[Parameter]:
    """The wanted parameters of an instance that have values."""
    found, types = [], input_types(context, at)
    for it in filter(is_wanted, at.named("Parameter")):
        context.known(it, "Name Value Comment")
        if it.get("Value"):
            name = context.own_name(it)
            found.append(Parameter(name, constant(context, it, it.get("Value"), cut(it.get("Name")), types.get(it.get("Name"), "")), context.comment(it)))
    context.clashes("parameters", [(it.get("Name"), it) for it in at.named("Parameter") if it.get("Value")])
    return found


def own_values(context: Context, at: Element, fed: Container[str]) -> Iterator[Parameter]:
    """The values of inputs of a subapplication without a type, which are those of its one instance, where no parameter and no connection gives another."""
    given = {it.get("Name") for it in at.named("Parameter") if it.get("Value")}
    groups = [group for each in at.named("InterfaceList", "SubAppInterfaceList") for group in each.named("InputVars")]
    for it in (each for group in groups for each in group.named("VarDeclaration") if each.get("InitialValue")):
        quiet = Context(Report(""), context.library)
        value = constant(quiet, it, it.get("InitialValue"), "", "" if it.get("ArraySize") else it.get("Type"))
        if it.get("Name") not in given and f"{at.get('Name')}.{it.get('Name')}" not in fed and not quiet.report.counts()[REPLACED]:
            context.records |= quiet.records
            context.packages |= quiet.packages
            yield Parameter(names.spelled(it.get("Name")), value)


def input_types(context: Context, at: Element) -> dict[str, str]:
    """The types of the data inputs of an instance that are no arrays, by their names; of a subapplication without a type its own ones."""
    root = context.library.roots.get(names.spelled(names.without_package(at.get("Type"))[1]).upper()) if at.get("Type") else at
    groups = (group for each in (root.named("InterfaceList", "SubAppInterfaceList") if root else ()) for group in each.named("InputVars"))
    return {it.get("Name"): it.get("Type") for group in groups for it in group.named("VarDeclaration") if not it.get("ArraySize")}


def basic(context: Context, unit: Unit, at: Element) -> None:
    """What a basic or a simple block has beside its interface."""
    is_simple = at.name == "SimpleFB"
    context.known(at, "", f"InternalVars InternalConstVars Algorithm {'ECState' if is_simple else 'ECC'}")
    for group in at.named(*INTERNAL_GROUPS):
        unit.variables["VAR"] += variables(context, group)
        constants = ", ".join(cut(it.get("Name")) for it in group.named(*VARIABLES.split()))
        if group.name == "InternalConstVars" and constants:
            context.left_to_comments(group, f"that these are constant: {constants}")
            unit.records += (record("Constant", {"name": names.spelled(it.get("Name"))}) for it in group.named(*VARIABLES.split()))
    _internal_blocks(context, unit, at)
    known, charts = chart_of(context, unit), at.named("ECC")
    unit.states = [_state(context, it) for chart in charts for it in chart.named("ECState")] if charts else None
    for chart in charts:
        context.known(chart, "", "ECState ECTransition")
        unit.transitions += [_transition(context, unit, it, known) for it in chart.named("ECTransition")]
    unit.algorithms[:0] = [it for each in at.named("Algorithm") if (it := algorithm(context, at, each))]
    if is_simple:
        _simple_chart(context, unit, at)
    states = [it for each in (at, *at.named("ECC")) for it in each.named("ECState")]
    context.clashes("states", [(it.get("Name"), it) for it in states])
    context.clashes("algorithms", [(it.get("Name"), it) for it in at.named("Algorithm")])


def _internal_blocks(context: Context, unit: Unit, at: Element) -> None:
    """The internal blocks of a basic block are variables that nothing is checked of, so that guards and statements can name them."""
    for it in (each for group in at.named("InternalFBs") for each in group.named("FB") if each.get("Name")):
        name = context.own_name(it)
        unit.variables["VAR"].append(Variable(name, "ANY", line=it.line))
        unit.records.append(record("Internal", {"name": name}))
        context.report.tell(NOTE, it.line, f"the internal block {name} is a variable of type ANY here")


def chart_of(context: Context, unit: Unit) -> Chart:
    """What the conditions of a unit are of."""
    adapters = {it.name.upper(): context.library.roots.get(it.type.upper()) for its in unit.adapters.values() for it in its}
    groups = [(name, group) for name, root in adapters.items() if root for each in root.named("InterfaceList") for group in each.children]
    ports = [(group.name, f"{name}.{names.spelled(it.get('Name')).upper()}") for name, group in groups for it in group.children]
    return Chart(
        frozenset(it.name.upper() for it in unit.events["EVENT_INPUT"]),
        frozenset(it.name.upper() for its in unit.variables.values() for it in its),
        frozenset(adapters),
        frozenset(port for group, port in ports if group in EVENT_GROUPS),
        frozenset(port for group, port in ports if group in DATA_GROUPS),
    )


def _state(context: Context, at: Element) -> State:
    context.known(at, "Name Comment", "ECAction")
    name = context.own_name(at)
    return State(name, list(_actions(context, at)), context.comment(at), at.line)


def _actions(context: Context, at: Element) -> Iterator[tuple[str, str]]:
    for it in at.named("ECAction"):
        context.known(it, "Algorithm Output")
        own, output = it.get("Algorithm"), it.get("Output")
        if own or output:
            yield context.name(it, own) if own else "", context.end(it, output) if output else ""
        else:
            context.left_out(it, f"an action of the state {cut(at.get('Name'))} without an algorithm and an output")


def _transition(context: Context, unit: Unit, at: Element, chart: Chart) -> Transition:
    context.known(at, "Source Destination Condition Comment")
    source, destination = (context.name(at, at.get(it)) for it in ("Source", "Destination"))
    words = at.get("Condition")
    found = condition(words, chart)
    if not found.why:
        found = condition(words, chart, lambda it: context.name(at, it))
        return Transition(source, destination, found.text, context.comment(at, *(it.strip("/(* )") for it in found.remarks)), at.line)
    own = condition(words, chart, str).guard
    if own and not found.remarks and (name := guards.kept(unit, own, at.line)):
        context.report.tell(UNCHECKED, at.line, f"the guard {cut(own)} is kept as the algorithm {name} IN {FULL}, which is not checked")
        return Transition(source, destination, found.text.replace(chart.not_read, name), context.comment(at), at.line)
    what = f"the condition {cut(words)} by" if words else "a condition that is not there, by"
    context.replaced(at, f"{what} {cut(found.text)}" + (f": {found.why}" if words else ""))
    return Transition(source, destination, found.text, context.comment(at, words), at.line)


def _simple_chart(context: Context, unit: Unit, at: Element) -> None:
    """The chart that a simple block stands for: from its first state to one for each event, and back."""
    states = [_state(context, it) for it in at.named("ECState")]
    events = [it for its in unit.events.values() for it in its]
    if not states and [len(its) for its in unit.events.values()] == [1, 1] and len(unit.algorithms) == 1:
        states = [State(events[0].name, [(unit.algorithms[0].name, events[1].name)])]
    if not states:
        context.left_out(at, "the chart of a simple block without states")
        return
    taken = {it.name.upper() for it in states}
    first = next(it for it in ("START", *(f"START_{number}" for number in range(1, len(states) + 2))) if it not in taken)
    unit.states = [State(first, line=at.line), *states]
    ways = ((Transition(first, it.name, it.name, line=it.line), Transition(it.name, first, "1", line=it.line)) for it in states)
    unit.transitions = [each for way in ways for each in way]
    order = min((it.line for it in at.named("ECState")), default=at.line)
    words = f"a simple block: its chart goes from {first} to a state for each event, and back"
    context.report.tell(NOTE, at.line, words, order)
    unit.records.append(record("Simple", {"first": first}))


def service(context: Context, at: Element) -> Service:
    context.known(at, "LeftInterface RightInterface Comment", "ServiceSequence")
    sides = [_side(context, at, it) for it in ("LeftInterface", "RightInterface")]
    left, right = (it or names.NO_NAME for it in sides) if any(sides) else ("", "")
    kept = [it for each in at.named("ServiceSequence") if (it := _sequence(context, at, each))]
    return Service(left, right, kept, context.comment(at))


def _side(context: Context, at: Element, side: str) -> str:
    name = at.get(side)
    if not name or names.is_word(name) and name.upper() not in (*_ENDS, "SEQUENCE"):
        return name
    context.left_out(at, f"the {side} {cut(name)}: it can't be spelled here")
    return ""


def _sequence(context: Context, service_: Element, at: Element) -> Sequence | None:
    """A sequence of a service; None, which is told, if it can't be spelled."""
    transactions = at.named("ServiceTransaction")
    lines = [_transaction(it) for it in transactions]
    if not names.is_word(at.get("Name")) or at.get("Name").upper() in _ENDS or None in lines:
        context.part_left_out(at, f"the service sequence {cut(at.get('Name'))}: it can't be spelled here", service_)
        return None
    context.known(at, "Name Comment", "ServiceTransaction")
    for it in transactions:
        context.known(it, "", "InputPrimitive OutputPrimitive")
        for each in it.children:
            context.known(each, "Interface Event Parameters")
    return Sequence(at.get("Name"), [it for it in lines if it is not None], context.comment(at))


def _transaction(at: Element) -> str | None:
    inputs, outputs = at.named("InputPrimitive"), at.named("OutputPrimitive")
    words = [_primitive(it) for it in (*inputs, *outputs)]
    if len(inputs) > 1 or None in words:
        return None
    return " -> ".join(["", *(it or "" for it in words)][len(inputs) :]).strip()


def _primitive(at: Element) -> str | None:
    """A primitive as `Interface.Event(Parameters)`; None if it can't be spelled."""
    given = " ".join(at.get("Parameters").split())
    path = f"{at.get('Interface')}.{at.get('Event')}"
    tokens = bare_tokens(f"{path}({given})")
    if not names.is_word(at.get("Interface")) or not _EVENT_PATH.fullmatch(at.get("Event")) or tokens is None:
        return None
    depths = list(accumulate((it.words == "(") - (it.words == ")") for it in tokens))
    is_closed = depths[-1] == 0 and 0 not in depths[depths.index(1) : -1]
    odd = any(it.upper in (";", *_ENDS) for it in tokens)
    return f"{path}({given})" if is_closed and not odd else None
