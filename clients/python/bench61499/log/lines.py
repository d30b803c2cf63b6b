"""What has happened, in words."""
from __future__ import annotations

from typing import Any

from bench61499 import Blocked, Commit, Faulty, Flat, Kind, Plan, Recursive, Stopped, TooLarge
from bench61499.log.events import Since


def told_missing(since: Since) -> str:
    """Which commits are not known; empty if all are."""
    first, last = since.missing.start, since.missing.stop - 1
    if last < first:
        return ""
    its = f"commit {first} is" if first == last else f"commits {first} to {last} are"
    return f"{its} not known: the host has dropped that part of its history"


def told_commit(it: Commit) -> str:
    changes = [", ".join(it.put), f"removed {', '.join(it.removed)}" if it.removed else ""]
    return f"commit {it.number} by session {it.caller}: {'; '.join(filter(None, changes))}"


def told_value(kind: Kind, unit: str, value: Any) -> str:
    """A value that has come; None is one that is being computed again."""
    match value:
        case None:
            words = "pending again"
        case tuple():
            words = f"{len(value)} fault{'s' * (len(value) != 1)}: {', '.join(sorted({it.code for it in value}))}" if value else "no faults"
        case Flat(blocks, links):
            words = f"a network of {len(blocks):,} blocks and {len(links):,} links"
        case Plan(cuts, resources):
            words = f"a plan of {len(resources):,} resources and {len(cuts):,} links between them"
        case Stopped(net):
            words = f"no plan: {_why(net)}"
        case Faulty(misplaced):
            words = f"no plan: {', '.join(sorted({f'{it.reason} {it.path}' for it in misplaced}))}"
        case _:
            words = f"no network: {_why(value)}"
    return f"{unit}: {words}"


def _why(net: Blocked | Recursive | TooLarge) -> str:
    match net:
        case Blocked(units):
            return f"blocked by {', '.join(units)}"
        case Recursive(units):
            return f"{', '.join(units)} contain themselves"
    return "too large"
