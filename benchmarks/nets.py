"""How long networks and plans take, for benchmarks/tables: large flat networks, nested ones, cycles of types, edits of a type that many use, large plans.

Each benchmark gives the heads of a table and then its rows; it is called with what runs a script of requests and gives the least seconds and the replies."""
from measuring import BLOCK, PORTS, Heads, ask, commit, commits, work
from plants import row, simple_subapplication

SORTS = ("EVENT", "I", "O"), ("DATA", "X", "Y")


def subapplication(name, blocks, subapplications):
    """A subapplication of these blocks and inner subapplications, pairs of a name and a type, in a row."""
    return simple_subapplication(name, blocks, subapplications, [PORTS], SORTS)


def flat(blocks):
    return [("B", BLOCK), ("S", subapplication("S", [(f"F{i}", "B") for i in range(blocks)], []))]


def apart(blocks):
    fbs = " ".join(f"F{i}:B;" for i in range(blocks))
    return [("B", BLOCK), ("S", f"SUBAPPLICATION S {PORTS} FBS {fbs} END_FBS END_SUBAPPLICATION")]


def deep(width, depth):
    """Levels of as many instances each; those of the first are blocks."""
    inner = [("B", BLOCK), ("S1", subapplication("S1", [(f"F{i}", "B") for i in range(width)], []))]
    return inner + [(f"S{at}", subapplication(f"S{at}", [], [(f"P{i}", f"S{at - 1}") for i in range(width)])) for at in range(2, depth + 1)]


def chain(length):
    inner = [("B", BLOCK), ("S1", subapplication("S1", [("F", "B")], []))]
    return inner + [(f"S{i}", subapplication(f"S{i}", [("F", "B")], [("P", f"S{i - 1}")])) for i in range(2, length + 1)]


def cycle(length):
    return [(f"S{i}", subapplication(f"S{i}", [], [("P", f"S{(i + 1) % length}")])) for i in range(length)]


NETWORKS = {
    "{} blocks in a row": (flat, (340, 680, 1360)),
    "{} blocks that are not joined": (apart, (1024, 2048, 4096)),
    "{} to a level, 4 levels": (lambda width: deep(width, 4), (4, 5, 7)),
    "a chain of {} nested subapplications": (chain, (50, 100, 200, 400)),
    "{} types in one cycle": (cycle, (64, 128, 256)),
}
REPEATS = 20


def networks(run):
    yield Heads(["Networks", "units", "all faults, ms", "all networks, ms", "bytes of the largest reply", "ns a byte of it"])
    for name, form, count in ((name, form, count) for name, (form, counts) in NETWORKS.items() for count in counts):
        units = form(count)
        last = max((it for it, _ in units if it != "B"), key=lambda it: (len(it), it))
        done = [[*commits(units), *work(turns)] for turns in (0, len(units), 2 * len(units))]
        committed, checked, worked = (run(it)[0] for it in done)
        asked, replies = run([*done[-1], *[ask(last, "net")] * REPEATS])
        answer = len(replies[-1].encode()) + 1
        times = [f"{(checked - committed) * 1e3:.1f}", f"{(worked - checked) * 1e3:.1f}"]
        yield [name.format(count), str(len(units)), *times, str(answer), f"{(asked - worked) * 1e9 / REPEATS / answer:.0f}"]
    yield from edits(run)


def used(units, users):
    """A library in which this number of units use the type T."""
    block = "FUNCTION_BLOCK {} EVENT_INPUT E; END_EVENT {}END_FUNCTION_BLOCK"
    others = [(f"U{i}", block.format(f"U{i}", f"FBS F:{'T' if i < users else 'D'}; END_FBS ")) for i in range(units - 2)]
    return [("D", block.format("D", "")), ("T", block.format("T", "")), *others]


def edits(run):
    """Edits of a type that many use."""
    yield Heads(["Units", "users of the type that is edited", "one edit alone, ms", "with its work, ms"])
    for count, users in ((count, users) for count in (400, 4000) for users in (0, 1, 100, 2000) if users < count):
        units = used(count, users)
        base, repeats, held = [*commits(units), *work(count)], 300 if users <= 100 else 30, (count + 15) // 16
        lines = [commit("T", held + at if at else 1, f"{units[1][1]} (* {at} *)") for at in range(repeats)]
        standing, alone, worked = (run([*base, *it])[0] for it in ([], lines, [its for line in lines for its in (line, *work(users + 1))]))
        yield [str(count), str(users), *(f"{(it - standing) * 1e3 / repeats:.3f}" for it in (alone, worked))]


RESOURCES = 64


def plant(groups):
    """A system of groups of three blocks, each group a subapplication with a mapping of its own."""
    outer = [f"G{i}" for i in range(groups)]
    held = " ".join(f"RESOURCE R{i} : EMBEDDED END_RESOURCE" for i in range(RESOURCES))
    mapped = " ".join(f"A.{it} ON D.R{at % RESOURCES};" for at, it in enumerate(outer))
    system = (
        f"SYSTEM P APPLICATION A SUBAPPS {' '.join(f'{it}:G;' for it in outer)} END_SUBAPPS {' '.join(map(str.strip, row(outer, SORTS, has_ports=False)))} END_APPLICATION "
        f"DEVICE D : CONTROLLER {held} END_DEVICE MAPPINGS {mapped} END_MAPPINGS END_SYSTEM"
    )
    return [("B", BLOCK), ("G", subapplication("G", [(f"F{i}", "B") for i in range(3)], [])), ("P", system)]


def placing(run):
    """Plans of systems with many blocks, mappings and resources."""
    yield Heads(["Blocks", "mappings", "resources", "the network, ms", "the plan, ms", "bytes of the reply", "asked for, ms"])
    for groups in (125, 250, 500, 1000):
        # (the keys are in the order of their kinds: three of faults, two of networks, and the plan)
        base = [*commits(plant(groups)), *work(4)]
        faults, network, plan = (run([*base, *more])[0] for more in ([], work(1), [*work(1), *work(1)]))
        asked, replies = run([*base, *work(1), *work(1), ask("P", "deploy")])
        assert '"cuts"' in replies[-1], f"no plan: {replies[-1][:200]}"
        times = [f"{(network - faults) * 1e3:.1f}", f"{(plan - network) * 1e3:.1f}"]
        yield [str(3 * groups), str(groups), str(RESOURCES), *times, str(len(replies[-1])), f"{(asked - plan) * 1e3:.1f}"]
