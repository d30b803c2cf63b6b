"""Texts of structures and of blocks that carry them, for texts.py and benchmarks/ratios. None of them has a fault."""

# How many structures are in the chain, and how many blocks carry the last of them.
SIZES = [(chain, carriers) for chain in (1, 50) for carriers in (1, 100, 2_000)]


def structure(name, fields):
    return f"TYPE {name} : STRUCT {fields} END_STRUCT; END_TYPE"


def first(name, edits):
    """The first structure of a chain after this number of edits: the neighbour of its field comes and goes."""
    return structure(name, "F:INT; G:BOOL;" if edits % 2 else "F:INT;")


def carrier(unit, used, names):
    declared = f"EVENT_INPUT E WITH X; END_EVENT VAR_INPUT X:{used}; END_VAR VAR Y:INT; END_VAR"
    return f"FUNCTION_BLOCK {unit} {declared} ALGORITHM A IN ST: Y := {names}; END_ALGORITHM END_FUNCTION_BLOCK"


def library(chain, carriers, prefix=""):
    """A chain of structures S0, S1 .., each a field of the next, and blocks U0, U1 .. with a variable of the last: their names, all with this prefix, and
    texts."""
    names = ".".join(["X"] + ["N"] * (chain - 1) + ["F"])
    yield f"{prefix}S0", first(f"{prefix}S0", 0)
    for at in range(1, chain):
        yield f"{prefix}S{at}", structure(f"{prefix}S{at}", f"N:{prefix}S{at - 1};")
    for at in range(carriers):
        yield f"{prefix}U{at}", carrier(f"{prefix}U{at}", f"{prefix}S{chain - 1}", names)
