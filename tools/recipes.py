"""Looks up the recipes of docs/RECIPES.md, for tools/check-docs.

A recipe is a section with a line `Example: `, with the words by which an existing thing of that sort is named in files, and a table whose first cells name
files, with {a,b}, * and **. Each file that has a word of the example is named by the recipe. What a row's second cell names between backquotes is in one of its
files, and each of its files has a word of the example or such a name. If the second cell has **all**, each file of the row has each variant of the enum that
the line of the example names (`crate: Enum`)."""
import functools
import re

import code_parts as parts

PAGE = "docs/RECIPES.md"
SEARCHED = ("crates/*/src/**/*.rt", "crates/*/specs/**/*.antt", "crates/*/proofs/**/*.antt", "oracle/**/*.py", "clients/python/**/*.py", "clients/tests/*.py", "examples/**/*", "editors/**/*.json",
            "benchmarks/plain/src/**/*.rs", "tools/shown.rows", "docs/LANGUAGE.md", "docs/WORKBENCH.md")


def expanded(pattern):
    """The patterns that one with {a,b} means."""
    found = re.search(r"\{([^{}]*)\}", pattern)
    return [pattern] if not found else [it for word in found[1].split(",") for it in expanded(pattern[: found.start()] + word + pattern[found.end() :])]


@functools.cache
def searched():
    """The files that are looked through, each with its text."""
    paths = {it for pattern in SEARCHED for it in parts.files(pattern) if not it.endswith((".png", ".svg"))}
    return {it: parts.text_of(it) for it in sorted(paths)}


def has(text, word):
    return re.search(rf"(?<![A-Za-z_]){re.escape(word)}(?![A-Za-z_])", text) is not None


def spelled(variant):
    """How a variant is written in code, in replies, and as a function of the clients that explains it."""
    parted = re.sub(r"(?<=[a-z])(?=[A-Z])", "_", variant)
    return variant, parted.upper(), f"_explain_{parted.lower()}"


def recipes():
    """Of each recipe its title, the words of its example, the variants of its enum, and its rows of patterns with what to do."""
    for section in re.split(r"^## ", parts.text_of(PAGE), flags=re.M)[1:]:
        example = re.search(r"^Example: (.*?)\n\n", section, re.M | re.S)
        if example:
            words = re.findall(r"`([^`]+)`", example[1])
            enums = [it.split(": ") for it in words if ": " in it]
            variants = [name for crate, enum in enums for name in parts.variants(crate, enum)]
            rows = [(re.findall(r"`([^`]+)`", first), what) for first, what in re.findall(r"^\| (.*?) \| (.*) \|$", section, re.M) if "`" in first]
            yield section.partition("\n")[0], [it for it in words if ": " not in it], variants, rows


def faults():
    for title, example, variants, rows in recipes():
        named = set()
        for patterns, what in rows:
            found = {it: parts.files(it) for pattern in patterns for it in expanded(pattern)}
            named |= {path for paths in found.values() for path in paths}
            yield from (f"{PAGE}: {title}: {it}" for it in faults_of_row(found, what, example, variants))
        for path, text in searched().items():
            if path not in named and any(has(text, it) for it in example):
                yield f"{PAGE}: {title}: {path} has a word of the example, and no row names it"


def faults_of_row(found, what, example, variants):
    items = re.findall(r"`([^`]+)`", what)
    texts = {path: parts.text_of(path) for paths in found.values() for path in paths}
    yield from (f"there is no {pattern}" for pattern, paths in found.items() if not paths)
    yield from (f"no file of its row has {it}" for it in items if not any(has(text, it) for text in texts.values()))
    for pattern, paths in found.items():
        if paths and not any(has(texts[path], it) for path in paths for it in [*example, *items]):
            yield f"{pattern} has no word of the example and nothing that its row names"
    for variant in variants if "**all**" in what else []:
        yield from (f"{path} does not know {variant}" for path, text in texts.items() if not any(has(text, it) for it in spelled(variant)))
