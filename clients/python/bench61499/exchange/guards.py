"""Guards of transitions that the language has no words for, such as those that call functions: an algorithm `IN ST_FULL` keeps each, and a variable that
it assigns is in its place, so that clients read the names in it as those of other algorithms."""
from __future__ import annotations

import re
from collections.abc import Mapping
from itertools import count

from bench61499.exchange import names
from bench61499.exchange.algorithms import can_stand
from bench61499.exchange.exchanged import FULL, Algorithm, Unit, Variable, record, recorded
from bench61499.language.full_body import read_body
from bench61499.language.skipped import GUARD

RECORD = "Guard"


def kept(unit: Unit, words: str, line: int) -> str:
    """Keeps a guard, and gives the variable that is in its place; empty if it is no expression of full Structured Text."""
    taken = {it.name.upper() for its in unit.variables.values() for it in its}
    name = next(it for it in (f"{GUARD}{number}" for number in count(1)) if it not in taken)
    body = f"{name} := {words};"
    found = read_body(name, body.encode(), 0, len(body.encode()), True)
    if not can_stand(body) or not found.is_read or sum(it.words == ";" for it in found.tokens) != 1:
        return ""
    unit.variables["VAR"].append(Variable(name, "BOOL", line=line))
    unit.algorithms.append(Algorithm(name, FULL, body, line=line, body_line=-line))
    unit.records.append(record(RECORD, {"name": name}))
    return name


def guards_of(unit: Unit) -> dict[str, str]:
    """The guards that algorithms of a unit keep, by their names."""
    own = {it.get("name", "") for it in recorded(unit, RECORD)}
    found = {it.name: re.fullmatch(rf"\s*{it.name}\s*:=\s*(.*?)\s*;\s*", it.body, re.DOTALL) for it in unit.algorithms if it.name in own}
    return {name: it[1] for name, it in found.items() if it}


def with_guards(condition: str, guards: Mapping[str, str]) -> str:
    """A condition with the guards that are kept: in brackets if they are a part of one."""
    whole = condition.partition("[")[2].rpartition("]")[0].strip()
    return names.replace_words(condition, names.OPERATOR_WORDS, lambda it: guards[it] if it == whole and it in guards else f"({guards[it]})" if it in guards else it)
