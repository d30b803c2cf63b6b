"""The extension for Visual Studio Code: its grammar against the tokens of the clients, and its code with substitutes for the modules of the editor."""
from __future__ import annotations

import importlib.util
import json
import os
import random
import re
import shutil
import subprocess
import tomllib
import unittest
from collections.abc import Iterator
from pathlib import Path
from types import ModuleType

from support import CLIENTS, CONVEYOR, InFolder

from bench61499.language.declarations import ELEMENTARY
from bench61499.language.tokens import RESERVED, Token, pieces

EXTENSION = CLIENTS.parent / "editors" / "vscode"
VSCODE = "exports.workspace = { getConfiguration: (part) => ({ get: (name) => part + '.' + name === 'bench61499.server' ? %s : undefined }) };"
LANGUAGE_CLIENT = """
exports.LanguageClient = class {
  constructor(...words) { this.words = words; }
  async start() { console.log(JSON.stringify(this.words)); }
  async stop() { console.log('stopped'); }
};
"""
RUN = "const it = require(process.argv[1]); it.activate().then(() => it.deactivate());"
PIECES = ["IF", "end_if", "ENDIF", "x", "INT", "int#5", "T#1h_2s.5ms", "D#2026-11-27", "REAL#1.5E-3", "16#FF", "1.5e3", "1..2", "9IF", "TRUE", "true1", "ä",
          "'a$'b'", '"c"', "'", '"', "$", "(*", "*)", "(* IF *)", "// IF", ":=", "->", "<>", "**", "(", ")", ".", ";", "#", " ", "\n", "\t"]


def made() -> ModuleType:
    """The script that makes the grammar."""
    return module_of(EXTENSION / "grammar.py")


def module_of(file: Path) -> ModuleType:
    """A script as a module."""
    spec = importlib.util.spec_from_file_location(file.stem, file)
    module = importlib.util.module_from_spec(spec)
    spec.loader.exec_module(module)
    return module


class Grammar:
    """A grammar of patterns that hold no others. None matches over the end of a line, so it can be applied to a whole text."""

    def __init__(self, grammar: dict):
        self._patterns = [(re.compile(it.get("match") or it["begin"], re.MULTILINE), it) for it in grammar["patterns"]]

    def spans(self, text: str) -> Iterator[tuple[int, int, str]]:
        """Each span that has a scope, in characters."""
        end = 0
        while first := self._first(text, end):
            found, rule = first
            end = found.end()
            if "end" in rule:
                closed = re.compile(rule["end"]).search(text, end)
                end = closed.end() if closed else len(text)
            if "name" in rule:
                yield found.start(), end, rule["name"]

    def _first(self, text: str, place: int) -> tuple[re.Match[str], dict] | None:
        """The earliest match, and of those at one place that of the first pattern."""
        found = [(it, rule) for pattern, rule in self._patterns if (it := pattern.search(text, place))]
        return min(found, key=lambda it: it[0].start(), default=None)


class GrammarTest(unittest.TestCase):
    def setUp(self) -> None:
        self.committed = (EXTENSION / "syntaxes" / "fb61499.tmLanguage.json").read_text()
        self.grammar = Grammar(json.loads(self.committed))

    def test_the_script_makes_it(self) -> None:
        self.assertEqual(self.committed, made().written())

    def test_reserved_words_of_each_group_are_reserved(self) -> None:
        script = made()
        self.assertLessEqual(script.CONTROL | script.OPERATORS | script.CONSTANTS, RESERVED)

    def test_it_finds_the_tokens_of_the_examples(self) -> None:
        for file in CONVEYOR.glob("*.fb"):
            self.same(file.read_text())

    def test_it_finds_the_tokens_of_random_texts(self) -> None:
        chance = random.Random(7)
        for _ in range(3_000):
            self.same("".join(chance.choice(PIECES) + chance.choice(["", " "]) for _ in range(chance.randint(1, 12))))

    def same(self, text: str) -> None:
        found = {(start, end, kind_of(name)) for start, end, name in self.grammar.spans(text)}
        self.assertEqual(found, set(expected(text)), repr(text))


def kind_of(scope: str) -> str:
    return scope.split(".")[0]


def expected(text: str) -> Iterator[tuple[int, int, str]]:
    """The tokens that the clients read, in characters, with the first word of their scope: those that have one."""
    encoded = text.encode()
    for it in pieces(text):
        start = len(encoded[: it.start].decode())
        if kind := kind_of_token(it):
            yield start, len(text) if it.kind == "unclosed" else start + len(it.words), kind


def kind_of_token(token: Token) -> str:
    by_kind = {"comment": "comment", "unclosed": "comment", "number": "constant", "typed": "constant", "string": "string"}
    if token.kind == "symbol":
        return "punctuation" if token.words in ";:,.()[]" else "keyword"
    if token.upper in RESERVED:
        return "constant" if token.upper in ("TRUE", "FALSE") else "keyword"
    return "support" if token.upper in ELEMENTARY else by_kind.get(token.kind, "")


class ExtensionTest(InFolder):
    def test_its_version_is_that_of_the_clients(self) -> None:
        project = tomllib.loads((CLIENTS / "pyproject.toml").read_text())["project"]
        self.assertEqual(json.loads((EXTENSION / "package.json").read_text())["version"], project["version"])

    def test_its_files_are_there(self) -> None:
        brings = json.loads((EXTENSION / "package.json").read_text())
        named = [brings["main"], brings["contributes"]["languages"][0]["configuration"], brings["contributes"]["grammars"][0]["path"]]
        self.assertEqual([it for it in named if not (EXTENSION / it).is_file()], [])
        json.loads((EXTENSION / "language-configuration.json").read_text())

    def test_the_settings_of_a_project_name_no_command(self) -> None:
        properties = json.loads((EXTENSION / "package.json").read_text())["contributes"]["configuration"]["properties"]
        self.assertEqual({name: it["scope"] for name, it in properties.items()}, {"bench61499.server": "machine"})

    @unittest.skipUnless(shutil.which("node"), "node is not installed")
    def test_it_starts_the_server_that_the_setting_names(self) -> None:
        properties = json.loads((EXTENSION / "package.json").read_text())["contributes"]["configuration"]["properties"]
        for command in (properties["bench61499.server"]["default"], ["/path/to/lsp", "--connect", ":6149"]):
            self.write("vscode/index.js", VSCODE % json.dumps(command))
            self.write("vscode-languageclient/node.js", LANGUAGE_CLIENT)
            surroundings = {**os.environ, "NODE_PATH": str(self.folder)}
            ran = subprocess.run(["node", "-e", RUN, EXTENSION / "extension.js"], env=surroundings, capture_output=True, text=True)
            words, stopped = ran.stdout.splitlines()
            server, client = {"command": command[0], "args": command[1:]}, {"documentSelector": [{"language": "fb61499"}]}
            self.assertEqual((json.loads(words), stopped), (["bench61499", server, client], "stopped"), ran.stderr)


if __name__ == "__main__":
    unittest.main()
