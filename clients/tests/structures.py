"""Random libraries with structures: blocks and adapters whose data are of them, and references that go through their fields, most of them right."""
from __future__ import annotations

import random
from collections.abc import Iterator
from functools import cache

from support import workbench

from bench61499 import Put, Session

FIELDS = [f"F{at}" for at in range(5)]
VARIABLES = [f"V{at}" for at in range(5)]
PLUGS = ["P0", "P1", "V0"]
UNITS = [f"S{at}" for at in range(5)]


@cache
def reads_structures() -> bool:
    """Whether the workbench under test reads structures."""
    return not _codes(S="TYPE S : STRUCT F : U; END_STRUCT END_TYPE")


@cache
def judges_fields() -> bool:
    """Whether it has the codes of fields and structures too."""
    block = "FUNCTION_BLOCK V VAR X : S; END_VAR ALGORITHM A IN ST: X.K := 1; END_ALGORITHM END_FUNCTION_BLOCK"
    return _codes(S="TYPE S : STRUCT F : S; END_STRUCT END_TYPE", V=block) == {"STRUCT_RECURSIVE", "MEMBER_UNKNOWN"}


def _codes(**texts: str) -> set[str]:
    with Session.script(workbench()) as session:
        session.commit([Put(name, 0, text) for name, text in texts.items()])
        return {it.code for faults in session.settle().values() for it in faults}


def structured_libraries(seed: int) -> Iterator[dict[str, str]]:
    chance = random.Random(seed)
    while True:
        yield _Making(chance).library()


class _Making:
    def __init__(self, chance: random.Random):
        self._chance = chance
        self._types: dict[tuple[str, str], str] = {}

    def library(self) -> dict[str, str]:
        texts = {name: self._structure(name) for name in UNITS}
        texts["AD"] = f"ADAPTER AD VAR_OUTPUT {self._declared('AD', FIELDS)} END_VAR END_ADAPTER"
        if self._chance.random() < 0.3:
            texts["S4"] = self._chance.choice(["TYPE S4 : STRUCT F0 : ", "FUNCTION_BLOCK S4 VAR_INPUT F0 : INT; END_VAR END_FUNCTION_BLOCK"])
        return {**texts, **{name: self._block(name) for name in ("B0", "B1")}}

    def _structure(self, name: str) -> str:
        return f"TYPE {name} : STRUCT {self._declared(name, FIELDS)} END_STRUCT{self._chance.choice([';', ''])} END_TYPE"

    def _declared(self, owner: str, names: list[str]) -> str:
        its = self._chance.sample(names, self._chance.randint(2, len(names)))
        self._types |= {(owner, name): self._type() for name in its}
        return " ".join(f"{name} : {self._types[owner, name]};" for name in its)

    def _type(self) -> str:
        name = self._chance.choice([*UNITS, *UNITS, "B0", "AD", "ABSENT", "INT", "BOOL", "ANY", "ANY_S"])
        return self._chance.choice([name, name, name, f"ARRAY [0..1] OF {name}", f"array[0..1, 0..2]of {name}", f"{name}[3]"])

    def _block(self, name: str) -> str:
        plugs = " ".join(f"{it} : {self._chance.choice(['AD', 'AD', 'AD', 'NONE'])};" for it in self._chance.sample(PLUGS, 2))
        variables = self._declared(name, VARIABLES)
        statements = " ".join(f"{self._reference(name, 1)} := {self._reference(name, 1)};" for _ in range(8))
        return (
            f"FUNCTION_BLOCK {name} VAR {variables} END_VAR PLUGS {plugs} END_PLUGS EC_STATES A : R; END_STATES "
            f"EC_TRANSITIONS A TO A := [{self._reference(name, 1)}]; END_TRANSITIONS "
            f"ALGORITHM R IN ST: {statements} END_ALGORITHM END_FUNCTION_BLOCK"
        )

    def _reference(self, block: str, depth: int) -> str:
        """A reference that continues if something can follow, and now and then if nothing can."""
        words, owner, name = "", block, self._one_of(block, [*VARIABLES, *PLUGS])
        if name in PLUGS and name != "V0":
            words, owner, name = f"{name}.", "AD", self._one_of("AD", FIELDS)
        for _ in range(4):
            of = self._types.get((owner, name), "")
            is_subscripted = of.upper().startswith("ARRAY") and self._chance.random() < 0.9 or self._chance.random() < 0.05
            words += name + (self._subscript(block, depth) if is_subscripted else "")
            owner = (of.split() or [""])[-1]
            if owner not in UNITS and self._chance.random() < 0.7 or self._chance.random() < 0.2:
                break
            name = self._one_of(owner, FIELDS)
            words += "."
        return words.rstrip(".")

    def _one_of(self, owner: str, names: list[str]) -> str:
        right = [name for of, name in self._types if of == owner]
        return self._chance.choice(right if right and self._chance.random() < 0.9 else names)

    def _subscript(self, block: str, depth: int) -> str:
        return f"[{self._reference(block, depth - 1) if depth and self._chance.random() < 0.5 else 1}]"
