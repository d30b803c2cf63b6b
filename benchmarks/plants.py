"""Texts of networks and of a plant, for benchmarks/ratios. None of them has a fault, so that nets are flat and plans are plans."""

LINK = ("ADAPTER LINK\nEVENT_INPUT\n  TAKEN;\nEND_EVENT\nEVENT_OUTPUT\n  OFFER WITH WEIGHT;\nEND_EVENT\n" "VAR_OUTPUT\n  WEIGHT : INT;\nEND_VAR\nEND_ADAPTER\n")
PORTS = ["EVENT_INPUT", "  START WITH LEVEL;", "END_EVENT", "EVENT_OUTPUT", "  DONE WITH HEIGHT;", "END_EVENT",
         "VAR_INPUT", "  LEVEL : INT;", "  LIMIT : INT := 10;", "END_VAR", "VAR_OUTPUT", "  HEIGHT : INT;", "END_VAR"]
ADAPTERS = ["PLUGS", "  NEXT : LINK;", "END_PLUGS", "SOCKETS", "  BEFORE : LINK;", "END_SOCKETS"]
EVENT, DATA, ADAPTER = ("EVENT", "START", "DONE"), ("DATA", "LEVEL", "HEIGHT"), ("ADAPTER", "BEFORE", "NEXT")


def lines(*rows):
    return "\n".join([*rows, ""])


def section(word, rows):
    return [word, *(f"  {row}" for row in rows), f"END_{word}"] if rows else []


# ---------------------------------------------------------------- networks

def row(names, sorts, has_ports=True):
    """The connections that join these instances in their order, and the first and the last of them with the own ports, if there are any."""
    found = []
    for sort, way_in, way_out in sorts:
        sources = [way_in, *(f"{name}.{way_out}" for name in names)]
        destinations = [*(f"{name}.{way_in}" for name in names), way_out]
        joined = [f"  {source} TO {destination};" for source, destination in zip(sources, destinations)]
        found += [f"{sort}_CONNECTIONS", *(joined if has_ports else joined[1:-1]), "END_CONNECTIONS"]
    return found


def simple_block(name, number):
    """A block type without adapters. The number is a constant of its algorithm."""
    return lines(f"FUNCTION_BLOCK {name}", *PORTS, "EC_STATES", "  IDLE;", "  WORK: STEP -> DONE;", "END_STATES",
                 "EC_TRANSITIONS", "  IDLE TO WORK := START;", "  WORK TO IDLE := 1;", "END_TRANSITIONS",
                 f"ALGORITHM STEP IN ST:\n  HEIGHT := LEVEL + LIMIT * {number};\nEND_ALGORITHM", "END_FUNCTION_BLOCK")


def simple_subapplication(name, blocks, inner, ports=PORTS, sorts=(EVENT, DATA)):
    """A subapplication of these blocks and inner subapplications, pairs of a name and a type, in a row of events and data."""
    names = [instance for instance, _ in [*blocks, *inner]]
    fbs, subapps = ([f"{instance} : {type_name};" for instance, type_name in pairs] for pairs in (blocks, inner))
    return lines(f"SUBAPPLICATION {name}", *ports, *section("FBS", fbs), *section("SUBAPPS", subapps), *row(names, sorts), "END_SUBAPPLICATION")


def wide(name, type_name, instances):
    """A subapplication of this number of blocks, joined two by two: events and data in turn. The text is nearly as long as a text may be."""
    names = [f"F{at:03X}" for at in range(instances)]
    pairs = list(zip(names[::2], names[1::2]))
    events = "\n".join(f"{one}.DONE TO {other}.START;" for one, other in pairs[::4])
    data = "\n".join(f"{one}.HEIGHT TO {other}.LEVEL;" for one, other in pairs[1::4])
    fbs = "\n".join(f"{instance}:{type_name};" for instance in names)
    return lines(f"SUBAPPLICATION {name}", *PORTS, "FBS", fbs, "END_FBS", "EVENT_CONNECTIONS", events, "END_CONNECTIONS",
                 "DATA_CONNECTIONS", data, "END_CONNECTIONS", "END_SUBAPPLICATION")


def chain(length, type_name):
    """Nested subapplications, from the outermost S0 to the innermost."""
    for at in range(length):
        inner = [("P", f"S{at + 1}")] if at + 1 < length else []
        yield f"S{at}", simple_subapplication(f"S{at}", [("F", type_name)], inner)


def tree(leaf, prefix):
    """Four levels of seven instances each, those of the first of this block type: the name and the text of each level's subapplication."""
    yield f"{prefix}1", simple_subapplication(f"{prefix}1", [(f"P{at}", leaf) for at in range(7)], [])
    for level in (2, 3, 4):
        yield f"{prefix}{level}", simple_subapplication(f"{prefix}{level}", [], [(f"P{at}", f"{prefix}{level - 1}") for at in range(7)])


def system(name, instance, type_name, mappings):
    """A system of one application with one instance, and two devices with two resources each."""
    devices = [row for device in ("NORTH", "SOUTH") for row in [
        f"DEVICE {device} : PANEL", *(f"  RESOURCE {resource} : CONTROL END_RESOURCE" for resource in ("LEFT", "RIGHT")), "END_DEVICE"]]
    mapped = [f"LINE{path} ON {resource};" for path, resource in mappings]
    return lines(f"SYSTEM {name}", "APPLICATION LINE", *section("SUBAPPS", [f"{instance} : {type_name};"]), "END_APPLICATION", *devices,
                 *section("MAPPINGS", mapped), "END_SYSTEM")


RESOURCES = ["NORTH.LEFT", "NORTH.RIGHT", "SOUTH.LEFT", "SOUTH.RIGHT"]


# ---------------------------------------------------------------- a plant

BLOCKS, WIDTH = 60, 8
LEVELS = [14, 4, 1]


class BlockType:
    """A block type with an algorithm."""

    def __init__(self, name, rng):
        self.name, self.rng = name, rng
        self.number, self.limit, self.remark, self.spare = rng.randrange(2, 999), 10, 0, 0

    def edit(self):
        kind = self.rng.randrange(100)
        if kind < 60:
            self.number = self.rng.randrange(2, 999)
        elif kind < 90:
            self.remark += 1
        elif kind < 95:
            self.limit = self.rng.randrange(2, 999)
        else:
            self.spare = 1 - self.spare

    def text(self):
        ports = [row.replace(":= 10", f":= {self.limit}") for row in PORTS]
        spare = section("VAR_INPUT", ["SPARE : INT;"] * self.spare)
        return lines(f"FUNCTION_BLOCK {self.name}", f"(* state of work: {self.remark} *)", *ports, *spare, *section("VAR", ["COUNT : INT;"]), *ADAPTERS,
                     "EC_STATES", "  IDLE;", "  WORK: STEP -> DONE;", "END_STATES",
                     "EC_TRANSITIONS", "  IDLE TO WORK := START;", "  WORK TO IDLE := NEXT.TAKEN [COUNT > 0];", "END_TRANSITIONS",
                     f"ALGORITHM STEP IN ST:\n  HEIGHT := LEVEL + LIMIT * {self.number};", "  IF COUNT >= 100 THEN",
                     "    COUNT := 0;", "  ELSE", "    COUNT := COUNT + 1;", "  END_IF;", "  NEXT.WEIGHT := HEIGHT - BEFORE.WEIGHT;",
                     "END_ALGORITHM", "END_FUNCTION_BLOCK")


class Subapplication:
    """A subapplication of eight instances in a row, of block types or of subapplications of the level below."""

    def __init__(self, name, rng, types, of_blocks):
        self.name, self.rng, self.types, self.of_blocks, self.remark = name, rng, types, of_blocks, 0
        self.used = [rng.choice(types) for _ in range(WIDTH)]
        self.limits = [rng.randrange(2, 999) if of_blocks and at % 3 == 0 else None for at in range(WIDTH)]

    def edit(self):
        kind, at = self.rng.randrange(100), self.rng.randrange(WIDTH)
        if kind < 60 and self.of_blocks:
            self.limits[at // 3 * 3] = self.rng.randrange(2, 999)
        elif kind < 80:
            self.used[at] = self.rng.choice(self.types)
        else:
            self.remark += 1

    def text(self):
        names = [f"PART_{at}" for at in range(WIDTH)]
        parameters = [f"(LIMIT := {limit})" if limit else "" for limit in self.limits]
        rows = [f"{name} : {of}{parameter};" for name, of, parameter in zip(names, self.used, parameters)]
        return lines(f"SUBAPPLICATION {self.name}", f"(* state of work: {self.remark} *)", *PORTS, *ADAPTERS,
                     *section("FBS" if self.of_blocks else "SUBAPPS", rows), *row(names, [EVENT, DATA, ADAPTER]), "END_SUBAPPLICATION")


class System:
    """A system of one area, with each of its parts on a resource, and some parts of these on others."""

    def __init__(self, name, rng, type_name):
        self.name, self.rng, self.type_name = name, rng, type_name
        inner = [f".AREA.PART_{at}.PART_{at}" for at in range(0, WIDTH, 2)]
        self.homes = {path: rng.choice(RESOURCES) for path in ["", *(f".AREA.PART_{at}" for at in range(WIDTH)), *inner]}

    def edit(self):
        self.homes[self.rng.choice(list(self.homes))] = self.rng.choice(RESOURCES)

    def text(self):
        return system(self.name, "AREA", self.type_name, list(self.homes.items()))


class Area:
    """Block types, subapplications in three levels and a system."""

    def __init__(self, at, rng):
        self.blocks = [BlockType(f"AREA_{at}_BLOCK_{i}", rng) for i in range(BLOCKS)]
        self.subapplications, below = [], self.blocks
        for level, count in enumerate(LEVELS):
            types = [unit.name for unit in below]
            below = [Subapplication(f"AREA_{at}_LEVEL_{level}_{i}", rng, types, level == 0) for i in range(count)]
            self.subapplications += below
        self.system = System(f"AREA_{at}_SYSTEM", rng, below[0].name)

    def units(self):
        return [*self.blocks, *self.subapplications, self.system]

    def some_unit(self, rng):
        """A unit to be edited."""
        kind = rng.randrange(100)
        return rng.choice(self.blocks) if kind < 80 else rng.choice(self.subapplications) if kind < 97 else self.system
