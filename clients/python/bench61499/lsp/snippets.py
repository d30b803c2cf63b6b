"""What a reserved word begins, as a whole, for editors that fill in the places in it one after the other."""
from __future__ import annotations

import re

_PLACE = re.compile(r"\$\{(\d+)(?::([^}]*))?\}|\$0")
_WHOLE = {
    "FUNCTION_BLOCK": """\
FUNCTION_BLOCK ${1:NAME}
  EVENT_INPUT ${2:REQ} WITH ${3:VALUE}; END_EVENT
  EVENT_OUTPUT ${4:CNF} WITH ${5:RESULT}; END_EVENT
  VAR_INPUT ${3} : ${6:INT}; END_VAR
  VAR_OUTPUT ${5} : ${6}; END_VAR
  EC_STATES
    IDLE;
    ${7:WORKING} : ${8:WORK} -> ${4};
  END_STATES
  EC_TRANSITIONS
    IDLE TO ${7} := ${2};
    ${7} TO IDLE := 1;
  END_TRANSITIONS
  ALGORITHM ${8} IN ST: ${5} := ${3};$0 END_ALGORITHM
END_FUNCTION_BLOCK""",
    "ADAPTER": """\
ADAPTER ${1:NAME}
  EVENT_OUTPUT ${2:OFFER} WITH ${3:VALUE}; END_EVENT
  EVENT_INPUT ${4:TAKEN}; END_EVENT
  VAR_OUTPUT ${3} : ${5:INT}; END_VAR$0
END_ADAPTER""",
    "SUBAPPLICATION": """\
SUBAPPLICATION ${1:NAME}
  EVENT_INPUT ${2:REQ}; END_EVENT
  FBS
    ${3:INSTANCE} : ${4:BLOCK};$0
  END_FBS
  EVENT_CONNECTIONS
    ${2} TO ${3}.${5:REQ};
  END_CONNECTIONS
END_SUBAPPLICATION""",
    "SYSTEM": """\
SYSTEM ${1:NAME}
  APPLICATION ${2:LINE}
    FBS
      ${3:INSTANCE} : ${4:BLOCK};$0
    END_FBS
  END_APPLICATION
  DEVICE ${5:PLC} : CONTROLLER
    RESOURCE ${6:CONTROL} : EMBEDDED END_RESOURCE
  END_DEVICE
  MAPPINGS
    ${2}.${3} ON ${5}.${6};
  END_MAPPINGS
END_SYSTEM""",
    "TYPE": """\
TYPE ${1:NAME} : STRUCT
  ${2:FIELD} : ${3:INT};$0
END_STRUCT; END_TYPE""",
}
_SECTIONS = {
    "EVENT_INPUT": "EVENT_INPUT ${1:REQ}; END_EVENT",
    "EVENT_OUTPUT": "EVENT_OUTPUT ${1:CNF}; END_EVENT",
    **{word: f"{word} ${{1:VALUE}} : ${{2:INT}}; END_VAR" for word in ("VAR_INPUT", "VAR_OUTPUT", "VAR")},
    **{word: f"{word} ${{1:NAME}} : ${{2:TYPE_OF_IT}}; END_{word}" for word in ("PLUGS", "SOCKETS")},
    **{word: f"{word}\n  ${{1:NAME}} : ${{2:TYPE_OF_IT}};$0\nEND_{word}" for word in ("FBS", "SUBAPPS")},
    **{f"{it}_CONNECTIONS": f"{it}_CONNECTIONS\n  ${{1:SOURCE}}.${{2:PORT}} TO ${{3:DESTINATION}}.${{4:PORT}};$0\nEND_CONNECTIONS" for it in ("EVENT", "DATA", "ADAPTER")},
    "EC_STATES": "EC_STATES\n  ${1:IDLE};\n  ${2:WORKING} : ${3:WORK} -> ${4:CNF};$0\nEND_STATES",
    "EC_TRANSITIONS": "EC_TRANSITIONS\n  ${1:IDLE} TO ${2:WORKING} := ${3:REQ};$0\nEND_TRANSITIONS",
    "ALGORITHM": "ALGORITHM ${1:WORK} IN ST:\n  $0\nEND_ALGORITHM",
    "APPLICATION": "APPLICATION ${1:LINE}\n  FBS\n    ${2:INSTANCE} : ${3:BLOCK};$0\n  END_FBS\nEND_APPLICATION",
    "DEVICE": "DEVICE ${1:PLC} : CONTROLLER\n  RESOURCE ${2:CONTROL} : EMBEDDED END_RESOURCE$0\nEND_DEVICE",
    "RESOURCE": "RESOURCE ${1:CONTROL} : EMBEDDED END_RESOURCE$0",
    "MAPPINGS": "MAPPINGS\n  ${1:LINE}.${2:INSTANCE} ON ${3:PLC}.${4:CONTROL};$0\nEND_MAPPINGS",
}
_STATEMENTS = {
    "IF": "IF ${1:CONDITION} THEN\n  $0\nEND_IF",
    "CASE": "CASE ${1:VALUE} OF\n  ${2:1}: $0\nEND_CASE",
    "FOR": "FOR ${1:I} := ${2:1} TO ${3:10} DO\n  $0\nEND_FOR",
    "WHILE": "WHILE ${1:CONDITION} DO\n  $0\nEND_WHILE",
    "REPEAT": "REPEAT\n  $0\nUNTIL ${1:CONDITION}\nEND_REPEAT",
}
SNIPPETS = {**_WHOLE, **_SECTIONS, **_STATEMENTS}
"""By the word that each begins with, in the form of LSP."""


def label(word: str) -> str:
    """What users see of a snippet."""
    return f"{word} .. {SNIPPETS[word].split()[-1].removesuffix('$0')}"


def filled(snippet: str) -> str:
    """A snippet with the words that its places have at first."""
    first: dict[str, str] = {}
    for it in _PLACE.finditer(snippet):
        if it[1]:
            first.setdefault(it[1], it[2] or "")
    return _PLACE.sub(lambda it: first[it[1]] if it[1] else "", snippet)
