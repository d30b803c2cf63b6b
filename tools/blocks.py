"""The parts of pages that tools make, between `<!-- made: NAME -->` and `<!-- end -->`. Between `<!-- measured: NAME -->` and `<!-- end -->` are figures
that a program measured (benchmarks/tables --into PAGE): these are not made again here. All else in a page is written by hand."""
import functools
import os
import re
import runpy
import sys
import textwrap

import client_pages
import code_parts
import gate_seconds
import headline
import promises

BLOCK = re.compile(r"^(<!-- (made|measured): (.+?) -->\n)(.*?)^(<!-- end -->)$", re.M | re.S)


def tools():
    """Of each command of tools/ the sentence at its head, and why it is here."""
    rows = []
    for path in (it for it in code_parts.files("tools/*") if os.access(f"{code_parts.TOP}/{it}", os.X_OK)):
        text = code_parts.text_of(path)
        head = re.match(r'#![^\n]*\n(?:"""|# )(.*?)(?:\n\n|\n(?=# |set -)|""")', text, re.S)
        why = re.search(r"^(?:# )?Why it is here: ([^\n]*?)\.(?:\"\"\")?$", text, re.M)
        if not why:
            sys.exit(f"{path} has no line `Why it is here: ..`")
        rows.append([f"`{os.path.basename(path)}`", " ".join(head[1].split()), why[1]])
    return code_parts.table(["Tool", "What it does", "Why it is here"], rows, "---")


def editors():
    """What editors get of the language server: a feature whose capability the server has not says `lack`."""
    sys.path.append(f"{code_parts.TOP}/clients/python")
    from bench61499.lsp.answers import CAPABILITIES

    rows = [line.split(" | ") for line in code_parts.text_of("tools/editor_features.rows").splitlines() if line[0] != "#"]
    cells = [[name, other, here if capability == "-" or CAPABILITIES.get(capability) else "lack"] for name, other, capability, here in rows]
    return code_parts.table(["Feature", "rust-analyzer", "Here"], cells, "---")


def neovim():
    """What the test of Neovim prints, which it compares with the same words."""
    printed = runpy.run_path(f"{code_parts.TOP}/clients/tests/editor")["EXPECTED"]
    return f"\n    $ clients/tests/editor\n{textwrap.indent(printed, '    ')}\n"


def options(client, shared=False):
    """The options of a client, by its own help, and what its status means; or those that all clients share."""
    its = client_pages.command(*client.split())
    some = [it for it in its.options if it.name not in ("--help", "--version") and it.words.startswith(SHARED) is shared]
    rows = [[f"`{it.words}`".replace("FOLDER|FILE", r"FOLDER\|FILE"), it.sentence] for it in some]
    status = f"\n{its.end}\n" if not shared and its.end.startswith("The status") else ""
    return code_parts.table(["Option", "Effect"], rows, "---") + status


SHARED = ("--program ", "--connect ", "--secret ", "--memory-limit ")
CLIENTS = ("check", "format", "plan", "draw", "trace", "board", "sync", "log", "exchange import", "exchange export", "exchange boot")

TABLES = {
    "options of all clients": functools.partial(options, "lsp", shared=True),
    **{f"options of {it}": functools.partial(options, it) for it in CLIENTS},
    "tools": tools,
    "what Neovim shows": neovim,
    "what editors get": editors,
    "how much to read": headline.how_much,
    "promises": promises.all_promises,
    "crates": promises.all_crates,
    "last run of the gate": gate_seconds.run,
    "parts of the last run": gate_seconds.parts,
    "crates of the last run": gate_seconds.crates,
    "refused allocations": gate_seconds.refused,
}


def content(name):
    """What a block has, or None if no tool makes one of this name."""
    if name in promises.titles():
        return promises.block(name)
    return TABLES[name]() if name in TABLES else None


def filled(text):
    """A page with all its blocks made again."""

    def one(block):
        new = content(block[3]) if block[2] == "made" else None
        return block[0] if new is None else block[1] + new + block[5]

    return BLOCK.sub(one, text)


def faults(page, text):
    for start, kind, name, there, _ in BLOCK.findall(text):
        new = content(name) if kind == "made" else there
        if new is None:
            yield f"{page}: no tool makes a block {name}"
        elif new != there:
            yield f"{page}: the block {name} would be made otherwise now (--mend)"
    lines = re.findall(r"^<!-- (?:made|measured): .*$", text, re.M)
    if len(lines) != len(BLOCK.findall(text)) or len(lines) != text.count("<!-- end -->"):
        yield f"{page}: a block has no end, or an end no block"


def by_hand(text):
    """What is written by hand in a page."""
    return BLOCK.sub("", text)
