"""A plant of 23 units: 3 structures, 3 adapters, 13 blocks, 3 subapplications two levels deep, and a system of two devices with two resources each."""
from __future__ import annotations

from pathlib import Path

BLOCKS = [f"STEP_{number:02}" for number in range(1, 14)]
CELLS = {"CELL_A": BLOCKS[:4], "CELL_B": BLOCKS[4:8], "CELL_C": BLOCKS[8:12]}
LAST = BLOCKS[12]
STRUCTURES = {
    "LIMITS": "TYPE LIMITS : STRUCT LOW : INT; HIGH : INT := 9; END_STRUCT; END_TYPE\n",
    "BOTTLE": "TYPE BOTTLE : STRUCT\n  NUMBER : UINT;\n  ML : LIMITS;\nEND_STRUCT; END_TYPE\n",
    "RECIPE": "TYPE RECIPE : STRUCT ML : INT := 500; CAP : USINT; END_STRUCT; END_TYPE\n",
}
_ADAPTER = """ADAPTER {name}
  EVENT_OUTPUT OFFER WITH PIECE; END_EVENT
  EVENT_INPUT TAKEN; END_EVENT
  VAR_OUTPUT PIECE : {data}; END_VAR
END_ADAPTER
"""
_BLOCK = """FUNCTION_BLOCK {name}
  EVENT_INPUT RUN WITH AMOUNT; END_EVENT
  EVENT_OUTPUT DONE WITH COUNT; END_EVENT
  VAR_INPUT AMOUNT : INT; END_VAR
  VAR_OUTPUT COUNT : INT; END_VAR
  VAR ACTUAL : BOTTLE; END_VAR
  PLUGS NEXT : {plug}; END_PLUGS
  SOCKETS BEFORE : {socket}; END_SOCKETS
  EC_STATES
    IDLE;
    WORKING : WORK -> DONE;
  END_STATES
  EC_TRANSITIONS
    IDLE TO WORKING := RUN;
    WORKING TO IDLE := 1;
  END_TRANSITIONS
  ALGORITHM WORK IN ST: COUNT := AMOUNT + ACTUAL.ML.LOW; END_ALGORITHM
END_FUNCTION_BLOCK
"""
_CELL = """SUBAPPLICATION {name}
  EVENT_INPUT RUN; END_EVENT
  EVENT_OUTPUT DONE; END_EVENT
  VAR_INPUT AMOUNT : INT; END_VAR
  VAR_OUTPUT COUNT : INT; END_VAR
{parts}
  EVENT_CONNECTIONS
    RUN TO {first}.RUN;
{events}
    {last}.DONE TO DONE;
  END_CONNECTIONS
  DATA_CONNECTIONS
    AMOUNT TO {first}.AMOUNT;
{data}
    {last}.COUNT TO COUNT;
  END_CONNECTIONS
END_SUBAPPLICATION
"""
_SYSTEM = """SYSTEM HALL
  APPLICATION FILLING
    SUBAPPS A : CELL_A; C : CELL_C; END_SUBAPPS
    FBS LAST : STEP_13; END_FBS
    EVENT_CONNECTIONS A.DONE TO C.RUN; C.DONE TO LAST.RUN; END_CONNECTIONS
    DATA_CONNECTIONS A.COUNT TO C.AMOUNT; C.COUNT TO LAST.AMOUNT; END_CONNECTIONS
  END_APPLICATION
  DEVICE LEFT : CONTROLLER RESOURCE ONE : EMBEDDED END_RESOURCE RESOURCE TWO : EMBEDDED END_RESOURCE END_DEVICE
  DEVICE RIGHT : CONTROLLER RESOURCE ONE : EMBEDDED END_RESOURCE RESOURCE TWO : EMBEDDED END_RESOURCE END_DEVICE
  MAPPINGS FILLING.A ON LEFT.ONE; FILLING.C ON RIGHT.ONE; FILLING.LAST ON RIGHT.TWO; END_MAPPINGS
END_SYSTEM
"""
_ADAPTERS = {"PASS": "BOTTLE", "CAP": "RECIPE", "LABEL": "INT"}


def _block(name: str) -> str:
    plug, socket = (list(_ADAPTERS)[(BLOCKS.index(name) + by) % 3] for by in (0, 1))
    return _BLOCK.format(name=name, plug=plug, socket=socket)


def _cell(name: str, blocks: list[str]) -> str:
    """A chain of blocks; the first cell holds another one after its blocks."""
    chain = [f"S{at}" for at in range(len(blocks))]
    parts = "  FBS " + " ".join(f"{it} : {block};" for it, block in zip(chain, blocks)) + " END_FBS"
    if name == "CELL_A":
        chain.append("INNER")
        parts += "\n  SUBAPPS INNER : CELL_B; END_SUBAPPS"
    pairs = list(zip(chain, chain[1:]))
    events = "\n".join(f"    {one}.DONE TO {other}.RUN;" for one, other in pairs)
    data = "\n".join(f"    {one}.COUNT TO {other}.AMOUNT;" for one, other in pairs)
    return _CELL.format(name=name, parts=parts, first=chain[0], last=chain[-1], events=events, data=data)


def hall() -> dict[str, str]:
    """The texts by unit; none has a fault, and the system has a plan."""
    texts = dict(STRUCTURES)
    texts |= {name: _ADAPTER.format(name=name, data=data) for name, data in _ADAPTERS.items()}
    texts |= {name: _block(name) for name in BLOCKS}
    texts |= {name: _cell(name, blocks) for name, blocks in CELLS.items()}
    return {**texts, "HALL": _SYSTEM}


def write_hall(folder: Path) -> None:
    folder.mkdir(exist_ok=True)
    for name, text in hall().items():
        (folder / f"{name}.fb").write_text(text)
