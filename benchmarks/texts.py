"""How long texts take, for benchmarks/tables: the reading of usual and hostile ones, the checking of large ones, edits in a library, and edits of structures.

Each benchmark gives the heads of a table and then its rows; it is called with what runs a script of requests and gives the least seconds and the replies."""
from itertools import count

from carriers import SIZES, carrier, first, library, structure
from measuring import Heads, ask, commit, commits, work

SIZE = 65_536

# ---------------------------------------------------------------- reading

COMMITS = 40
ALGORITHM = "FUNCTION_BLOCK A ALGORITHM G IN ST "
END = " END_ALGORITHM END_FUNCTION_BLOCK"


def filled(text, item, tail):
    """A text of the whole size: this one, as many items as fit, each with its number if it has a place for one, and the tail."""
    for new in map(item.format, count()):
        if len(text) + len(new) + len(tail) > SIZE:
            return (text + tail).ljust(SIZE)
        text += new


TEXTS = {
    "usual: variables with initial values": filled("FUNCTION_BLOCK A VAR_INPUT ", "X{}:INT:=1; ", "END_VAR END_FUNCTION_BLOCK"),
    "usual: assignments": filled(ALGORITHM, "X := Y + 1; ", END),
    "open parentheses": filled(ALGORITHM + "X := ", "(", ""),
    "nested IF": filled(ALGORITHM, "IF X THEN ", ""),
    "one row of operators": filled(ALGORITHM + "X := 1", " + 1", ";" + END),
    "one row of signs in parentheses": filled(ALGORITHM + "X := 1", "-(-1)", ";" + END),
    "a list of names": filled("FUNCTION_BLOCK A VAR_INPUT X", ", X", ":INT; END_VAR END_FUNCTION_BLOCK"),
    "quotes that are never closed": filled("FUNCTION_BLOCK A ", "'$", ""),
    "a comment that is never closed": filled("FUNCTION_BLOCK A (* ", "*", ""),
    "blanks": " " * SIZE,
    "one word": "X" * SIZE,
    "symbols": filled("", ";", ""),
    "events WITH many names": filled("FUNCTION_BLOCK A EVENT_INPUT E WITH X", ", X", "; END_EVENT END_FUNCTION_BLOCK"),
}


def reading(run):
    """Texts of 65,536 bytes, usual ones and hostile ones."""
    idle = run([" "])[0]
    yield Heads(["Text of 65,536 bytes", "reading, ns a byte", "reading and checking, ns a byte"])
    for name, text in TEXTS.items():
        spent = [run([line for at in range(COMMITS) for line in (commit("A", at, text), *work(turns))])[0] - idle for turns in (0, 1)]
        yield [name, *(f"{it * 1e9 / (SIZE * COMMITS):.1f}" for it in spent)]


# ---------------------------------------------------------------- checking

TYPE = "FUNCTION_BLOCK T EVENT_INPUT I; END_EVENT EVENT_OUTPUT O; END_EVENT VAR_INPUT X:INT; END_VAR VAR_OUTPUT Y:INT; END_VAR END_FUNCTION_BLOCK"
CHECKS = 10


def chart(count):
    """Transitions between a quarter as many states, half of them on events that are not there."""
    states = max(1, count // 4)
    body = "".join(f"S{i};" for i in range(states))
    rows = "".join(f"S{i % states} TO S{i * 7 % states}:={'E' if i % 2 else 'F'};" for i in range(count))
    return f"FUNCTION_BLOCK A EVENT_INPUT E; END_EVENT EC_STATES {body} END_STATES EC_TRANSITIONS {rows} END_TRANSITIONS END_FUNCTION_BLOCK"


def algorithm(count):
    """Assignments to as many variables, each of a wrong class."""
    names = "".join(f"V{i}," for i in range(count)) + "Z"
    body = "".join(f"V{i}:=TRUE;" for i in range(count))
    return f"FUNCTION_BLOCK A VAR {names}:INT; END_VAR ALGORITHM G IN ST {body} END_ALGORITHM END_FUNCTION_BLOCK"


def network(count):
    """Data connections between an eighth as many instances; most destinations have a source already."""
    instances = max(1, count // 8)
    body = "".join(f"F{i}:T;" for i in range(instances))
    rows = "".join(f"F{i % instances}.Y TO F{i * 5 % instances}.X;" for i in range(count))
    return f"SUBAPPLICATION A FBS {body} END_FBS DATA_CONNECTIONS {rows} END_CONNECTIONS END_SUBAPPLICATION"


def mappings(count):
    """Mappings of as many paths to resources that are not there."""
    rows = "".join(f"P.F{i} ON D.R{i};" for i in range(count))
    return f"SYSTEM A APPLICATION P END_APPLICATION DEVICE D:K END_DEVICE MAPPINGS {rows} END_MAPPINGS END_SYSTEM"


FORMS = {
    "transitions of a chart": (chart, (500, 1000, 2000, 3000)),
    "assignments of an algorithm": (algorithm, (500, 1000, 2000, 3500)),
    "connections of a network": (network, (500, 1000, 2000, 3500)),
    "mappings of a system": (mappings, (500, 1000, 2000, 3000)),
}


def checking(run):
    """Large charts, algorithms, networks and systems: if time grows with the number of items, the microseconds of an item stay the same from row to row."""
    yield Heads(["Items of one text", "number", "reading, µs an item", "checking, µs an item"])
    for name, form, items in ((name, form, items) for name, (form, counts) in FORMS.items() for items in counts):
        text = form(items)
        assert len(text) <= SIZE, (name, items, len(text))
        edits = [commit("A", at + 1 if at else 0, text) for at in range(CHECKS)]
        alone, checked = (run([commit("T", 0, TYPE), *(line for it in edits for line in (it, *work(turns)))])[0] for turns in (0, 2))
        yield [name, str(items), *(f"{it / CHECKS / items * 1e6:.2f}" for it in (alone, checked - alone))]


# ---------------------------------------------------------------- editing

EDITS = 4000
ASKS = 100_000


def block(unit, used, value=0):
    return f"FUNCTION_BLOCK {unit} EVENT_INPUT E WITH X; END_EVENT VAR_INPUT X:INT := {value}; END_VAR FBS F:{used}; END_FBS END_FUNCTION_BLOCK"


def blocks(units):
    return [*commits((f"U{i}", block(f"U{i}", f"U{i // 2}")) for i in range(units)), *work(units)]


def same_type(unit, time):
    """The unit with another value and the type that it had."""
    return block(f"U{unit}", f"U{unit // 2}", time + 1)


def another_type(unit, time):
    """The unit with a type that many have and with its own in turn."""
    return block(f"U{unit}", "U0" if time % 2 == 0 else f"U{unit // 2}")


def edits_of(units, edited):
    commits_before, revision = (units + 15) // 16, {}
    for i in range(EDITS):
        time, at = divmod(i, units // 2)
        unit = units - 1 - at
        yield commit(f"U{unit}", revision.get(unit, unit // 16 + 1), edited(unit, time))
        revision[unit] = commits_before + i + 1
        yield from work(10)
        yield ask(f"U{unit}")


def editing(run):
    """A library of many units: an edit of one unit with its work and an ask, which mentions what it mentioned or takes another type; and a small ask alone."""
    yield Heads(["Units", "an edit with the types of before, ms", "an edit that takes another type, ms"])
    for units in (250, 500, 1000, 2000, 4000, 16_384):
        base = blocks(units)
        alone = run(base)[0]
        yield [str(units), *(f"{(run([*base, *edits_of(units, it)])[0] - alone) * 1e3 / EDITS:.3f}" for it in (same_type, another_type))]
    base = blocks(1000)
    yield Heads(["Asks", "one small ask, µs"])
    yield [str(ASKS), f"{(run(base + [ask('U7')] * ASKS)[0] - run(base)[0]) * 1e6 / ASKS:.2f}"]


# ---------------------------------------------------------------- structures

STRUCTURE_EDITS = 20


def work_on(chain, carriers):
    return work(1000 * ((chain + carriers) // 300 + 1))


def edits_of_first(chain, carriers):
    held = (chain + carriers + 15) // 16
    for edit in range(STRUCTURE_EDITS):
        yield commit("S0", held + edit if edit else 1, first("S0", edit + 1))
        yield from work_on(chain, carriers)
        yield ask("U0")


def long_reference():
    """A text that is one long reference, and how many further names this has."""
    begin, end = carrier("U0", "S0", "#").split("#")
    names = (SIZE - len(begin) - len(end) - 1) // 2
    return begin + "X" + ".N" * names + end, names


def structures(run):
    """An edit of a structure that many units carry, directly and through a chain; and a text that is one long reference."""
    yield Heads(["Structures in the chain", "Units that carry the last", "an edit of the first, with its work and an ask, ms"])
    for chain, carriers in SIZES:
        base = [*commits(library(chain, carriers)), *work_on(chain, carriers)]
        spent, replies = run([*base, *edits_of_first(chain, carriers)])
        assert replies[-1] == '{"faults":[]}', replies[-1]
        yield [str(chain), f"{carriers:,}", f"{(spent - run(base)[0]) * 1e3 / STRUCTURE_EDITS:.2f}"]
    text, names = long_reference()
    spent = run([*commits([("S0", structure("S0", "N:S0; F:INT;")), ("U0", text)]), *work(10), ask("U0")])[0]
    yield Heads(["Names of one reference", "bytes of its text", "read and checked, ms"])
    yield [f"{names:,}", f"{len(text):,}", f"{spent * 1e3:.1f}"]
