"""The graph of crates, for the tools of this folder."""
import functools
from pathlib import Path


def read(file):
    """The crates that a file like crates.txt names, in its order, each with those of them that its line names."""
    named = {}
    for line in Path(file).read_text().splitlines():
        crate, _, used = line.partition("#")[0].partition(":")
        if crate.strip():
            named[crate.split()[0]] = used.replace(",", " ").split()
    return {crate: [it for it in used if it in named] for crate, used in named.items()}


def all_below(graph):
    """Each crate with all crates below it, lowest first."""

    @functools.cache
    def below(crate):
        return set().union(*[below(it) | {it} for it in graph[crate]])

    return {it: below(it) for it in sorted(graph, key=lambda it: len(below(it)))}
