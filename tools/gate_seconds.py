"""What the last whole run of the gate took, from its file in docs/gate, for the tools of this folder and the tables of docs/GATE.md."""
import csv
import functools
import glob
import os
import re
from pathlib import Path

import crate_graph
from code_parts import TOP, table

WITHOUT = "(without an edit)"
HEAD = re.compile(r"# rt ci on ([\d-]+), (rattle-kit-\w+), (.*): (\d+) crates, (\d+) edits, ([\d.]+) minutes, ([\d.]+) of a core")
PARTS = {"proof": "proofs", "tests": "tests", "edit": "edits"}


def last(name):
    """The newest file of docs/gate with a name of this form."""
    return max(glob.glob(f"{TOP}/docs/gate/{name}"), key=lambda it: re.findall(r"\d{4}-\d\d-\d\d", it))


def rows_of(file):
    """The rows of a file with a line on what it is, a line that names its columns, and cells with tabs between them."""
    return list(csv.DictReader(Path(file).read_text().splitlines()[1:], delimiter="\t", quoting=csv.QUOTE_NONE))


def last_run():
    """The rows of the last whole run."""
    return rows_of(last("whole-*.tsv"))


def seconds_of_proofs():
    """The seconds of a core of each crate's proof."""
    return {it["crate"]: float(it["core"]) for it in last_run() if it["part"] == "proof"}


def run():
    file = last("whole-*.tsv")
    date, *cells, core = HEAD.match(Path(file).read_text()).groups()
    return table(["Run", "Kit", "Machine", "Crates", "Edits", "Minutes", "Minutes of one core"], [[f"[{date}](gate/{os.path.basename(file)})", *cells, f"{float(core):.0f}"]])


def parts():
    rows, cells = last_run(), []
    for part, name in PARTS.items():
        some = [it for it in rows if it["part"] == part]
        core, first, end = sum(float(it["core"]) for it in some), min(int(it["from"]) for it in some), max(int(it["to"]) for it in some)
        cells.append([name, str(len(some)), f"{core / 60:.0f}", f"{first / 60:.1f}", f"{end / 60:.1f}"])
    return table(["Part", "Checks", "Minutes of one core", "First began, minute", "Last ended, minute"], cells)


def crates():
    """Of each crate the seconds of its parts, and of one core for them; a crate of the longest chain is marked."""
    found, chain = {}, {crate for _, crate in longest_chain()}
    for it in last_run():
        took, core = found.setdefault(it["crate"], {}).get(it["part"], (0, 0.0))
        found[it["crate"]][it["part"]] = (took + int(it["to"]) - int(it["from"]), core + float(it["core"]))
    cell = lambda it: f"{it[0]} ({it[1]:.0f})" if it else ""
    rows = [[f"`{crate}`", "yes" if crate in chain else "", *(cell(its.get(it)) for it in PARTS)] for crate, its in found.items()]
    return table(["Crate", "In the longest chain", *(f"{it}, seconds (of a core)" for it in PARTS.values())], rows)


def longest_chain():
    """The parts that wait for each other the longest, by the graph of crates.txt: each is a part and a crate."""
    took, graph = {}, crate_graph.read(f"{TOP}/crates.txt")
    for it in last_run():
        if it["edit"] != WITHOUT:
            key = it["part"], it["crate"]
            took[key] = max(took.get(key, 0), int(it["to"]) - int(it["from"]))

    @functools.cache
    def longest(key):
        part, crate = key
        waits = [("proof", crate)] if part != "proof" else [("proof", it) for it in graph.get(crate, [])]
        before, chain = max((longest(it) for it in waits), default=(0, []))
        return (before + took[key], [*chain, key]) if key in took else (before, chain)

    return max(longest(it) for it in took)[1]


def refused():
    """Of each crate of tests, and of the conversations with the program, the sums of the newest file of refused allocations."""
    found = {}
    for row in rows_of(last("refused-*.tsv")):
        by, numbers = row["by"].partition(":")[0], [[int(it) for it in row[name].split(", ")] for name in ("allocations", "reported or runs")]
        found[by] = [sum(it) for it in zip(found.get(by, (0, 0, 0)), (len(numbers[0]), *map(sum, numbers)))]
    cells = [[f"`{by}`", *(f"{it:,}" for it in sums)] for by, sums in found.items()]
    return table(["By", "Calls, or conversations", "Allocations refused in turn", "Lacks of memory reported, or runs"], cells)
