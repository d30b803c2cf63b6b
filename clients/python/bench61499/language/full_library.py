"""The functions and function blocks of IEC 61131-3, those that Eclipse 4diac adds included."""
from __future__ import annotations

import re

from bench61499.language.declarations import ELEMENTARY, is_elementary
from bench61499.language.wording import Names

LATER = frozenset("LTIME LDATE LTOD LTIME_OF_DAY LDT LDATE_AND_TIME CHAR WCHAR".split())
"""Elementary types of IEC 61131-3 from its third edition on."""
_SHORT = frozenset(["LD", "LT"])
FUNCTIONS = tuple(
    """ABS SQRT LN LOG EXP SIN COS TAN ASIN ACOS ATAN ATAN2 ADD MUL SUB DIV MOD EXPT MOVE SHL SHR ROL ROR AND OR XOR NOT SEL MAX MIN LIMIT MUX GT GE EQ LE LT
    NE LEN LEFT RIGHT MID CONCAT INSERT DELETE REPLACE FIND TRUNC ADD_TIME ADD_LTIME ADD_TOD_TIME ADD_LTOD_LTIME ADD_DT_TIME ADD_LDT_LTIME SUB_TIME SUB_LTIME
    SUB_DATE_DATE SUB_LDATE_LDATE SUB_TOD_TIME SUB_LTOD_LTIME SUB_TOD_TOD SUB_LTOD_LTOD SUB_DT_TIME SUB_LDT_LTIME SUB_DT_DT SUB_LDT_LDT MUL_TIME MUL_LTIME
    DIV_TIME DIV_LTIME MULTIME DIVTIME CONCAT_DATE_TOD CONCAT_DATE_LTOD CONCAT_DATE CONCAT_TOD CONCAT_LTOD CONCAT_DT CONCAT_LDT SPLIT_DATE SPLIT_TOD
    SPLIT_LTOD SPLIT_DT SPLIT_LDT DAY_OF_WEEK TO_BIG_ENDIAN TO_LITTLE_ENDIAN FROM_BIG_ENDIAN FROM_LITTLE_ENDIAN IS_VALID IS_VALID_BCD LOWER_BOUND
    UPPER_BOUND REF NOW NOW_MONOTONIC TIME ASSERT TOLOWER TOUPPER""".split()
)
_TYPES = tuple(it for it in ELEMENTARY if it != "ANY") + tuple(sorted(LATER | _SHORT))
_OF_TYPES = "|".join(sorted(_TYPES, key=len, reverse=True))
_CONVERSION = re.compile(
    rf"""(?:(?:{_OF_TYPES})_)?TO_(?:{_OF_TYPES}) | (?:(?:{_OF_TYPES})_)?TRUNC_(?:{_OF_TYPES}) | (?:(?:{_OF_TYPES})_)?BCD_TO_(?:{_OF_TYPES})
      | (?:(?:{_OF_TYPES})_)?TO_BCD(?:_(?:{_OF_TYPES}))? | L?TIME_IN_(?:S|MS|US|NS)_TO_(?:{_OF_TYPES}) | (?:(?:{_OF_TYPES})_)?TO_L?TIME_IN_(?:S|MS|US|NS)""",
    re.VERBOSE,
)
_OF_ONE_TYPE = re.compile(rf"(?:{'|'.join(FUNCTIONS)})_(?:{_OF_TYPES})")
_TIMER, _BISTABLE = "IN PT Q ET", "S S1 SET SET1 R R1 RESET RESET1 Q1 Q"
_EDGE, _COUNTER = "CLK Q M", "CU CD R RESET LD LOAD PV Q QU QD CV"
_BLOCKS = {
    **dict.fromkeys(("TON", "TOF", "TP", "TON_LTIME", "TOF_LTIME", "TP_LTIME"), _TIMER),
    **dict.fromkeys(("SR", "RS"), _BISTABLE),
    **dict.fromkeys(("R_TRIG", "F_TRIG"), _EDGE),
    **dict.fromkeys(("CTU", "CTD", "CTUD"), _COUNTER),
    **{f"{name}_{of}": _COUNTER for name in ("CTU", "CTD", "CTUD") for of in ("INT", "DINT", "LINT", "UDINT", "ULINT")},
}
_NEAR = Names([*FUNCTIONS, *(f"{one}_TO_{other}" for one in _TYPES for other in _TYPES if one != other)], nearness=0.72)


def is_function(name: str) -> bool:
    """Whether IEC 61131-3, or 4diac, has a function of a name in upper case. `MAX_REAL` is MAX for one type."""
    return name in FUNCTIONS or bool(_CONVERSION.fullmatch(name) or _OF_ONE_TYPE.fullmatch(name))


def near_function(words: str) -> str | None:
    """The function that may be meant."""
    return _NEAR.near(words)


def block_ports(type_: str) -> frozenset[str] | None:
    """The inputs and outputs of a function block of IEC 61131-3 by its type in upper case, which 4diac calls FB_TON and so on; None if it has none such."""
    ports = _BLOCKS.get(type_.removeprefix("FB_"))
    return frozenset(ports.split()) if ports else None


def is_known_type(name: str) -> bool:
    """Whether a type in upper case is elementary, or a block of IEC 61131-3."""
    return is_elementary(name) or name in LATER or block_ports(name) is not None
