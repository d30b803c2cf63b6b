"""Prints what each resource of a system is told to run it there, and the links between resources."""
from __future__ import annotations

import argparse
import json
from collections.abc import Iterator, Sequence
from dataclasses import asdict

from bench61499 import Blocked, Deploy, Faulty, Key, Plan, Recursive, Stopped, TooLarge, WorkbenchError
from bench61499.cli.asking import Asked, asking
from bench61499.cli.command import fail, program, read_with_units, tell
from bench61499.cli.version import add_version
from bench61499.language.as_declared import AsDeclared
from bench61499.language.explain import KIND_NAMES
from bench61499.language.names import shown
from bench61499.language.plans import why_misplaced
from bench61499.language.tokens import declared_kind
from bench61499.language.units import Misuse


class NoPlan(Exception):
    """The unit has no plan; the text tells why, and so do the reasons, each of its own form."""

    def __init__(self, text: str, reasons: Sequence[dict[str, object]] = ()):
        super().__init__(text)
        self.reasons = list(reasons) or [{"explanation": text}]


@program
def main() -> int:
    options = read_options()
    try:
        plan, names = ask(options)
        plan = of_resource(options.resource, options.unit, plan)
        if not plan.resources and not options.json:
            tell(f"plan: {options.unit} has no resources, and so there is nothing to tell them")
        for line in [as_json(options.unit, plan)] if options.json else lines(plan, names):
            print(line if options.json else shown(line))
    except NoPlan as error:
        if options.json:
            print(json.dumps({"unit": options.unit, "reasons": error.reasons}, indent=2))
        else:
            tell(*f"plan: {error}".split("\n"))
        return 1
    except (Misuse, WorkbenchError) as error:
        return fail("plan", error)
    return 0


def read_options() -> argparse.Namespace:
    reader = argparse.ArgumentParser(
        prog="plan",
        description="Prints the commands of each resource of a system (CREATE, WRITE and START), and the links that lead from one resource to another, with names as they are "
        "declared. In JSON names are in capitals, as the workbench tells them.",
        epilog="The status is 0 if it has printed the plan, even an empty one; 1 if there is no plan, with the reason on standard error: the unit is no system, units are "
        "absent or have faults, types contain themselves, there are more than 4,096 instances, blocks have no resource, mappings map nothing; 2 if it could not ask, or with "
        "--connect and --files the plan rests on another text than that of a file.",
    )
    add_version(reader)
    reader.add_argument("unit", type=str.upper, metavar="SYSTEM", help="a system")
    reader.add_argument("--resource", type=str.upper, metavar="DEVICE.RESOURCE", help="print the commands of this resource alone")
    reader.add_argument("--json", action="store_true", help="print one JSON object: unit, cuts (sort, source, destination) and resources (resource, commands), or unit and reasons")
    return read_with_units(reader)


def ask(options: argparse.Namespace) -> tuple[Plan, AsDeclared]:
    """The system's plan, and its names. Raises `NoPlan`."""
    with asking(options, options.replace) as asked:
        return plan_in(asked, options.unit, deploy_of(asked, options.unit)), asked.names(options.unit)


def deploy_of(asked: Asked, unit: str) -> Deploy:
    key: Key = "deploy", unit
    deploy: Deploy | None = asked.values([key]).get(key)
    if not deploy:
        raise NoPlan(why_no_key(asked, unit))
    return deploy


def why_no_key(asked: Asked, unit: str) -> str:
    if asked.is_broken(unit):
        return f"{asked.shown(unit)} has no plan, as its text has a SYNTAX fault; check shows it"
    kind = declared_kind(asked.texts.get(unit, ""))
    what = KIND_NAMES[kind] if kind and kind != "SYSTEM" else what_is(asked, unit)
    return f"{asked.shown(unit)} is {what}; only systems have plans" if what else f"the workbench has no system {unit}"


def what_is(asked: Asked, unit: str) -> str:
    """What a unit is whose text is not known; empty where there is none."""
    if not asked.is_there(unit):
        return ""
    return KIND_NAMES["SUBAPPLICATION"] if asked.values([("net", unit)]) else "a block, an adapter or a structure"


def plan_in(asked: Asked, unit: str, deploy: Deploy) -> Plan:
    """The plan. Raises `NoPlan` if there is none."""
    match deploy:
        case Plan():
            return deploy
        case Stopped(net):
            why, *reasons = why_stopped(asked, net)
            raise NoPlan(f"{asked.shown(unit)} has no plan: {why}", reasons)
        case Faulty(misplaced):
            names = asked.names(unit)
            reasons = [{"code": it.reason, "path": it.path, "explanation": why_misplaced(it, names)} for it in misplaced]
            raise NoPlan("\n".join([f"{asked.shown(unit)} has no plan:", *[f"  {it['explanation']}" for it in reasons]]), reasons)


def why_stopped(asked: Asked, net: Blocked | Recursive | TooLarge) -> tuple[str, dict[str, object]]:
    """The reason in words, and in its JSON."""
    match net:
        case Blocked(units):
            code, why = "BLOCKED", f"these units are absent or have faults: {asked.shown(*units)}"
        case Recursive(units):
            code, why = "RECURSIVE", f"these types contain themselves: {asked.shown(*units)}"
        case TooLarge():
            code, why, units = "TOO_LARGE", "it has more than 4,096 instances", ()
    return why, {"code": code, **({"units": list(units)} if units else {}), "explanation": why}


def of_resource(name: str | None, unit: str, plan: Plan) -> Plan:
    """The plan, or what one of its resources is told alone."""
    if name is None:
        return plan
    its = tuple(it for it in plan.resources if it.name == name)
    if not its:
        raise Misuse(f"{unit} has no resource {name}; it has {', '.join(it.name for it in plan.resources) or 'none'}")
    return Plan((), its)


def as_json(unit: str, plan: Plan) -> str:
    resources = [{"resource": it.name, "commands": it.commands} for it in plan.resources]
    return json.dumps({"unit": unit, "cuts": [asdict(it) for it in plan.cuts], "resources": resources}, indent=2)


def lines(plan: Plan, names: AsDeclared) -> Iterator[str]:
    """The plan with its names as they are declared."""
    if plan.cuts:
        yield "between resources:"
        yield from (f"  {it.sort} {it.source} -> {it.destination}" for it in map(names.link, plan.cuts))
    for it in plan.resources:
        yield f"{names.resource(it.name)}:"
        yield from (f"  {command}" for command in names.commands(it.commands))
