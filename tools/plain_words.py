#!/usr/bin/env python3
"""Words and phrases that documents and comments do without, each with a plainer one.

tools/plain_words.py PLACE..     prints what it finds in these files, or in the comments of a group of sources (`--groups` lists them); the status is 1 if any
tools/plain_words.py --groups    how many each group of sources has

The words are those of tools/plain_words.forms. tools/check-docs asks for all pages, and for all comments and docstrings: of the code, specs and proofs of
crates, of Python, Rust, shell, C, editors and files of rows, examples and settings. Code, quoted output, the targets of links and what tools make are not read.
tools/plain_words.known has the groups that may have some, with how many: proofs and code of crates, whose comments can't be changed without a new proof, and
the clients. `tools/check-docs --mend` lowers a number, and raises none.

Why it is here: no linter knows these words."""
import functools
import glob
import io
import os
import re
import sys
import tokenize
from pathlib import Path

import code_parts
from code_parts import TOP

KNOWN = Path(TOP, "tools/plain_words.known")
MADE = "docs/SHOWN.md"
# The groups of sources by their places, each with how it marks a comment; None is Python.
SOURCES = (
    ("crates/*", "src/**/*.rt", r"^\s*//[/!] ?(.*)$", "///"),
    ("crates/*", "src/**/*.rt", r"^(?:.*\s)?//(?![/!]) ?(.*)$", "//"),
    ("crates/*", "specs/**/*.antt", r"(?:^|\s)--+ (.*)$", "specs"),
    ("crates/*", "proofs/**/*.antt", r"(?:^|\s)--+ (.*)$", "proofs"),
    ("benchmarks/plain", "src/**/*.rs", r"^(?:.*\s)?//[/!]? ?(.*)$", "//"),
    *((place, "**/*", None, "Python") for place in ("tools", "oracle", "benchmarks", "examples", "editors", "packaging", "clients/python", "clients/tests")),
    ("clients", "*", None, "Python"),
    ("tools", "*.c", r"^\s*(?:/?\*+|//) ?(.*?)(?:\*/)?$", "C"),
    ("editors", "**/*.js", r"(?:^|\s)(?://|\*) ?(.*)$", "JavaScript"),
    ("editors", "**/*.lua", r"(?:^|\s)-- ?(.*)$", "Lua"),
    ("editors", "**/*.vim", r'^\s*" ?(.*)$', "Vim"),
    ("editors", "**/*.el", r"^\s*;+ ?(.*)$", "Emacs"),
    *((place, files, r"(?:^|\s)# ?(.*)$", files) for place, files in (
        ("tools", "*.rows"), ("oracle/tests", "*.examples"), ("packaging", "share/*/*/*"), ("packaging", "Dockerfile"), ("packaging", "lib/**/*.service"),
        ("examples", "*.y*ml"), (".", ".*.yaml"), ("benchmarks/plain", "*.toml"), ("clients", "*.toml"))),
    *((place, files, r"(?:^|\s)# (.*)$", "shell") for place, files in ((".", "run"), (".ci", "*"), ("tools", "*"), ("packaging", "*"), ("clients/tests", "*"))),
)
CODE = re.compile(r"^<!-- (?:made|measured): (?s:.*?)^<!-- end -->$|^```(?s:.*?)^```$|^(?: {4}|\t).*$|`(?:[^`\n]|\n(?!\n))+`|\]\([^)\s]*\)|<[^>\n]*>", re.M)


def forms_of_file():
    """The forms of tools/plain_words.forms with what is clearer: those for comments and pages, and those for pages alone."""
    parts = []
    for line in Path(TOP, "tools/plain_words.forms").read_text().splitlines():
        if line.startswith("#"):
            parts.append([])
        else:
            form, _, better = line.partition(" = ")
            parts[-1].append((re.compile(rf"\b(?:{form})\b", re.I), better))
    return parts


FORMS, OF_PAGES = forms_of_file()


def found_in(page, text, forms=FORMS):
    """What is found in a text, line by line."""
    # (blanks and line ends are in the place of code, so lines keep their numbers)
    text = CODE.sub(lambda code: re.sub(r"[^\n]", " ", code[0]), text)
    found = sorted((1 + text.count("\n", 0, it.start()), f"'{it[0]}': better: {better}") for form, better in forms for it in form.finditer(text))
    return [f"{page}:{line}: {words}" for line, words in found]


def faults(page, text):
    """What check-docs prints of a page."""
    forms = [] if page == MADE else FORMS if page.endswith("/must-fail/README.md") else FORMS + OF_PAGES
    return found_in(page, text, forms)


def comments(text, mark):
    """The comments of a source, with blanks in the place of all else: of Python with the texts that are statements by themselves."""
    if mark:
        return "\n".join((re.findall(mark, line) or [""])[0] for line in text.split("\n"))
    found, is_statement = [""] * (text.count("\n") + 2), True
    for it in tokenize.generate_tokens(io.StringIO(text).readline):
        if it.type == tokenize.COMMENT:
            found[it.start[0] - 1] += it.string[1:]
        elif it.type == tokenize.STRING and is_statement:
            for at, line in enumerate(it.string.split("\n"), it.start[0] - 1):
                found[at] += line
        if it.type not in (tokenize.COMMENT, tokenize.NL):
            is_statement = it.type in (tokenize.NEWLINE, tokenize.INDENT, tokenize.DEDENT)
    return "\n".join(found)


def is_of(path, kind):
    """Whether a file is of this kind: Python and shell by the first line or the name."""
    if kind not in ("Python", "shell"):
        return True
    with open(path, "rb") as file:
        first = file.readline(200)
    return path.endswith(".py") or first.startswith(b"#!") and b"python" in first if kind == "Python" else first.startswith(b"#!") and b"sh\n" in first


@functools.cache
def groups():
    """What is found in the comments of each group of sources, by its name."""
    found = {}
    for place, files, mark, kind in SOURCES:
        for folder in sorted(glob.glob(f"{TOP}/{place}")):
            name = f"{os.path.relpath(folder, TOP)} {kind}"
            for path in code_parts.files(f"{os.path.relpath(folder, TOP)}/{files}"):
                if not re.search("/(out|__pycache__)/", path) and is_of(f"{TOP}/{path}", kind):
                    found.setdefault(name, []).extend(found_in(path, comments(code_parts.text_of(path), mark)))
    return found


def known():
    """How many words each group may have that has some."""
    return {name: int(count) for count, name in (line.split(" ", 1) for line in KNOWN.read_text().splitlines())}


def lower():
    """Lowers the numbers of the groups that have fewer now."""
    counts = {name: min(count, len(groups().get(name, []))) for name, count in known().items()}
    KNOWN.write_text("".join(f"{count} {name}\n" for name, count in sorted(counts.items()) if count))


def faults_of_sources():
    """What check-docs prints of comments."""
    may = known()
    for name, found in groups().items():
        most = may.get(name, 0)
        if most and len(found) != most:
            yield f"{name}: {len(found)} unclear words, where tools/plain_words.known has {most}: " + ("tools/plain_words.py lists them" if len(found) > most else "--mend lowers it")
        elif not most:
            yield from found
    yield from (f"tools/plain_words.known: there is no group {name}" for name in sorted({*may} - {*groups()}))


def main(places):
    if places == ["--groups"]:
        print(*(f"{len(found):5} {name}" for name, found in groups().items() if found), sep="\n")
        return 0
    found = []
    for place in places:
        if place in groups():
            found += groups()[place]
        elif not os.path.isfile(place):
            print(f"plain_words: there is no file and no group {place}", file=sys.stderr)
            return 2
        else:
            found += found_in(place, Path(place).read_text())
    print(*found, sep="\n", end="\n" if found else "")
    return 1 if found else 0


if __name__ == "__main__":
    sys.exit(main(sys.argv[1:]))
