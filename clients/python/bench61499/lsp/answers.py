"""The answers to what an editor asks about the texts of a plant, in the forms of LSP 3.17."""
from __future__ import annotations

import time
from collections.abc import Callable, Iterable, Mapping
from pathlib import Path
from typing import Any

from bench61499 import TEXT_LIMIT
from bench61499.language.layout import Edit, applied, formatted
from bench61499.language.plant import Plant, Text
from bench61499.language.positions import Position, place, position
from bench61499.language.spelling import differing_in
from bench61499.lsp.asking import edits_between
from bench61499.lsp.choices import TITLES, Choices
from bench61499.lsp.completion import ItemKind, candidates
from bench61499.lsp.documents import Diagnostic, path_of
from bench61499.lsp.edits import workspace_edit
from bench61499.lsp.extract import CantExtract, chosen, extracted
from bench61499.lsp.fixes import Fix, fixes
from bench61499.lsp.folding import folding_ranges
from bench61499.lsp.highlight import TOKEN_MODIFIERS, TOKEN_TYPES, semantic_tokens
from bench61499.lsp.hints import hints
from bench61499.lsp.hover import described, type_of
from bench61499.lsp.lenses import lenses
from bench61499.lsp.mapping import mappings
from bench61499.lsp.navigation import Found, definitions, highlights, name_at, outline, references, symbols_named
from bench61499.lsp.rename import CantRename, check_target, renamed
from bench61499.lsp.selection import selection_ranges
from bench61499.lsp.signature import signature
from bench61499.lsp.snippets import SNIPPETS, label

PATIENCE = 0.01
"""Seconds that an answer may wait for files and texts to be read."""
_FIX, _EXTRACTION = "quickfix", "refactor.extract"
"""The kinds of code actions."""
_IS_SNIPPET = 2
"""The format of a text to insert that has places to fill in."""
CAPABILITIES = {
    "positionEncoding": "utf-16",
    "textDocumentSync": {"openClose": True, "change": 2, "save": {"includeText": False}},
    "documentSymbolProvider": True,
    "workspaceSymbolProvider": True,
    "definitionProvider": True,
    "typeDefinitionProvider": True,
    "referencesProvider": True,
    "documentHighlightProvider": True,
    "hoverProvider": True,
    "completionProvider": {"triggerCharacters": ["."]},
    "signatureHelpProvider": {"triggerCharacters": ["(", ","]},
    "renameProvider": {"prepareProvider": True},
    "codeActionProvider": {"codeActionKinds": [_FIX, _EXTRACTION]},
    "executeCommandProvider": {"commands": list(TITLES)},
    "semanticTokensProvider": {
        "legend": {"tokenTypes": list(TOKEN_TYPES), "tokenModifiers": list(TOKEN_MODIFIERS)},
        "full": True,
        "range": True,
    },
    "foldingRangeProvider": True,
    "callHierarchyProvider": True,
    "selectionRangeProvider": True,
    "inlayHintProvider": True,
    "codeLensProvider": {"resolveProvider": False},
    "documentFormattingProvider": True,
    "documentRangeFormattingProvider": True,
}


def _is_at(shown: Diagnostic, at: Position) -> bool:
    """Whether a fault that is shown is at a position."""
    start, here, end = ((it["line"], it["character"]) for it in (shown["range"]["start"], at, shown["range"]["end"]))
    return start <= here <= end


class CantAnswer(Exception):
    """Why a request is not done, in the words for the user."""


class Answers:
    """Answers by the texts as they are now.

    `catch_up` takes in the files that have changed until a time, and tells whether that is all; `shown` gives what the editor shows of a file;
    `lacks` is told what was answered though not all was read; `choices` are what the user can do with texts that others have changed;
    `elsewhere` gives the texts of the units of the workbench that have no file here.
    It `has_snippets` if the editor can fill in their places, and `tells_refusals` if it shows why an action can't be done; `file_operations` are those that it
    can do, such as `rename`.
    """

    def __init__(
        self,
        plant: Plant,
        catch_up: Callable[[float], bool],
        shown: Callable[[Path], list[Diagnostic]],
        lacks: Callable[[str], None],
        choices: Choices,
        elsewhere: Callable[[], Mapping[str, str]],
    ):
        self._plant, self._catch_up, self._shown, self._lacks, self._choices, self._elsewhere = plant, catch_up, shown, lacks, choices, elsewhere
        self._lacking: set[str] = set()
        self.has_snippets = self.tells_refusals = False
        self.file_operations: frozenset[str] = frozenset()

    def answer(self, method: str, params: Any) -> Any:
        """Raises `CantAnswer`, `CantRename`, and `KeyError`, `TypeError` and the like where the parameters make no sense.

        While files and texts are still to be read, a question is answered by those that are read in time. Where it would take more of them a
        rename is refused, and the user is told later of a search that may lack something.
        """
        plant = self._plant
        plant.until = time.monotonic() + PATIENCE
        plant.missed = method not in self._OF_ONE_TEXT and not self._catch_up(plant.until)
        try:
            answer = self._answer(method, params)
        except CantRename:
            if not plant.missed:
                raise
        if plant.missed and method in self._ALL_OR_NOTHING:
            read, there = plant.counts()
            raise CantAnswer(f"the units of this folder are still being read, {read:,} of {there:,} so far: try again in a moment")
        if plant.missed and method in self._SEARCHES:
            self._lacks(self._SEARCHES[method])
        return answer

    def _answer(self, method: str, params: Any) -> Any:
        if method == "workspace/symbol":
            return symbols_named(self._plant, params["query"])
        if method == "workspace/executeCommand":
            return self._do(params["command"], *params["arguments"])
        path = path_of(params["textDocument"]["uri"])
        text = self._plant.text(path)
        return self.METHODS[method](self, text, params) if text else None

    def _place(self, text: Text, at: Position) -> int:
        return place(text.places, at)

    def _found(self, text: Text, params: Any) -> Found | None:
        return name_at(self._plant, text, self._place(text, params["position"]))

    def _span(self, text: Text, params: Any) -> tuple[int, int]:
        return self._place(text, params["range"]["start"]), self._place(text, params["range"]["end"])

    def _outline(self, text: Text, params: Any) -> Any:
        return outline(text)

    def _definition(self, text: Text, params: Any) -> Any:
        found = self._found(text, params)
        return definitions(self._plant, found.key) if found else []

    def _type_definition(self, text: Text, params: Any) -> Any:
        """Where the type of an instance, or the structure of a variable or a field, is declared."""
        found = self._found(text, params)
        declared = self._plant.declaration(found.key) if found else None
        its = type_of(self._plant, declared) if declared else None
        return definitions(self._plant, its.unit.declared[0].key) if its else []

    def _references(self, text: Text, params: Any) -> Any:
        found = self._found(text, params)
        with_declaration = bool(params.get("context", {}).get("includeDeclaration"))
        return references(self._plant, found.key, with_declaration) if found else []

    def _highlights(self, text: Text, params: Any) -> Any:
        found = self._found(text, params)
        return highlights(self._plant, text, found.key) if found else []

    def _hover(self, text: Text, params: Any) -> Any:
        """The faults at the place, and then what the name stands for. It is plain text: what users write is no markup."""
        at, found = position(text.places, self._place(text, params["position"])), self._found(text, params)
        told = [f"{it['code']}: {it['message']}" if "code" in it else it["message"] for it in self._shown(text.file) if _is_at(it, at)]
        if found and (words := described(self._plant, found.key)):
            told.append(words)
        if not told:
            return None
        hover = {"contents": {"kind": "plaintext", "value": "\n\n".join(told)}}
        return {**hover, "range": text.range(found.start, found.end)} if found else hover

    def _completion(self, text: Text, params: Any) -> Any:
        found = candidates(self._plant, text, self._place(text, params["position"]))
        its = [{"label": it.words, "kind": it.kind, **({"detail": it.detail} if it.detail else {})} for it in found]
        return [*its, *(self._snippet(it.words) for it in found if it.kind == ItemKind.KEYWORD and it.words in SNIPPETS and self.has_snippets)]

    def _snippet(self, word: str) -> Any:
        whole = {"insertTextFormat": _IS_SNIPPET, "insertText": SNIPPETS[word]}
        return {"label": label(word), "kind": ItemKind.SNIPPET, "filterText": word, **whole}

    def _signature(self, text: Text, params: Any) -> Any:
        return signature(self._plant, text, self._place(text, params["position"]))

    def _prepare_rename(self, text: Text, params: Any) -> Any:
        found = check_target(self._plant, self._found(text, params))
        return {"range": text.range(found.start, found.end), "placeholder": text.places.words(found.start, found.end)}

    def _rename(self, text: Text, params: Any) -> Any:
        return renamed(self._plant, self._found(text, params), params["newName"], "rename" in self.file_operations)

    def _code_actions(self, text: Text, params: Any) -> Any:
        only = params["context"].get("only")
        is_wanted = {kind: not only or any(f"{kind}.".startswith(f"{it}.") for it in only) for kind in (_FIX, _EXTRACTION)}
        return [*(self._mending(text, params) if is_wanted[_FIX] else []), *(self._extraction(text, params) if is_wanted[_EXTRACTION] else [])]

    def _mending(self, text: Text, params: Any) -> list[Any]:
        mended = [self._action(fix, it) for it in params["context"]["diagnostics"] for fix in self._fixes(text, it)]
        mapped = [self._action(fix) for fix in mappings(self._plant, text, *self._span(text, params))] if self._plant.is_read() else []
        return [*mended, *mapped, *self._choices.actions(text.file, self._shown(text.file))]

    def _extraction(self, text: Text, params: Any) -> list[Any]:
        """A part of a network as a subapplication, for the instances in a range; if they are selected and it can't be done, why."""
        start, end = self._span(text, params)
        moved = chosen(text, start, end) if self._plant.is_read() and "create" in self.file_operations else []
        if not moved:
            return []
        try:
            its = extracted(self._plant, text, moved, self._elsewhere())
        except CantExtract as error:
            told = {"disabled": {"reason": str(error)}} if self.tells_refusals else {}
            return [{"title": f"Extract a subapplication: {error}", "kind": _EXTRACTION, **told}] if start < end else []
        changes = {it.uri: edits_between(it.text, after) for it, after in its.changed}
        return [{"title": its.title, "kind": _EXTRACTION, "edit": workspace_edit(changes, (text.file.with_name(f"{its.name}.fb"), its.text))}]

    def _do(self, command: str, uri: str) -> None:
        """Does what a code action names."""
        if why := self._choices.do(command, path_of(uri)):
            raise CantAnswer(why)

    def _fixes(self, text: Text, shown: Diagnostic) -> Iterable[Fix]:
        its = fixes(self._plant, text, str(shown.get("code")), *self._span(text, shown))
        return (it for it in its if not it.creates or "create" in self.file_operations)

    def _action(self, fix: Fix, shown: Diagnostic | None = None) -> Any:
        edits = [self._edit(fix.text, it) for it in ((fix.start, fix.end, fix.new), *fix.more)]
        edit = workspace_edit({fix.text.uri: edits}, (fix.text.file.with_name(fix.creates[0]), fix.creates[1]) if fix.creates else None)
        return {"title": fix.title, "kind": _FIX, **({"diagnostics": [shown]} if shown else {}), "edit": edit}

    def _tokens(self, text: Text, params: Any) -> Any:
        start, end = self._span(text, params) if "range" in params else (0, len(text.places.encoded))
        return {"data": semantic_tokens(text, start, end)}

    def _lenses(self, text: Text, params: Any) -> Any:
        return lenses(self._plant, text) if self._is_read("codeLens") else []

    def _hints(self, text: Text, params: Any) -> Any:
        return hints(self._plant, text, *self._span(text, params)) if self._is_read("inlayHint") else []

    def _is_read(self, what: str) -> bool:
        """Whether all texts are read; else the editor gets the request to ask again once they are."""
        if not self._plant.is_read():
            self._lacking.add(what)
        return self._plant.is_read()

    def due(self) -> set[str]:
        """What was asked for too early, and can be given now."""
        due, self._lacking = (self._lacking, set()) if self._plant.is_read() else (set(), self._lacking)
        return due

    def _selection(self, text: Text, params: Any) -> Any:
        return selection_ranges(text, [self._place(text, it) for it in params["positions"]])

    def _folding(self, text: Text, params: Any) -> Any:
        return folding_ranges(text)

    def _format(self, text: Text, params: Any) -> Any:
        edits = sorted([*formatted(text.text), *((it.start, it.end, it.declared) for it in differing_in(text.text, self._plant.known))])
        if len(applied(text.text, edits).encode()) > TEXT_LIMIT:
            raise CantAnswer(f"laid out, the text would have more than {TEXT_LIMIT:,} bytes")
        start, end = self._span(text, params) if "range" in params else (0, len(text.places.encoded))
        return [self._edit(text, it) for it in edits if start <= it[0] and it[1] <= end]

    def _edit(self, text: Text, edit: Edit) -> Any:
        start, end, new = edit
        return {"range": text.range(start, end), "newText": new}

    OF_THE_FOLDER = frozenset(["workspace/symbol", "workspace/executeCommand"])
    METHODS = {
        "textDocument/documentSymbol": _outline,
        "textDocument/definition": _definition,
        "textDocument/typeDefinition": _type_definition,
        "textDocument/references": _references,
        "textDocument/documentHighlight": _highlights,
        "textDocument/hover": _hover,
        "textDocument/completion": _completion,
        "textDocument/signatureHelp": _signature,
        "textDocument/prepareRename": _prepare_rename,
        "textDocument/rename": _rename,
        "textDocument/codeAction": _code_actions,
        "textDocument/semanticTokens/full": _tokens,
        "textDocument/semanticTokens/range": _tokens,
        "textDocument/foldingRange": _folding,
        "textDocument/codeLens": _lenses,
        "textDocument/inlayHint": _hints,
        "textDocument/selectionRange": _selection,
        "textDocument/formatting": _format,
        "textDocument/rangeFormatting": _format,
    }
    _OF_ONE_TEXT = frozenset(
        f"textDocument/{it}"
        for it in ("documentSymbol", "semanticTokens/full", "semanticTokens/range", "foldingRange", "selectionRange", "formatting", "rangeFormatting")
    )
    """What is answered by the text alone, so that it needs no wait for the texts of a whole folder."""
    _ALL_OR_NOTHING = frozenset(["textDocument/prepareRename", "textDocument/rename"])
    _SEARCHES = {
        "workspace/symbol": "A search of units",
        "textDocument/definition": "A search of a definition",
        "textDocument/typeDefinition": "A search of a type",
        "textDocument/references": "A search of uses",
    }
    """What users ask for, so that they are told where an answer may lack something."""
